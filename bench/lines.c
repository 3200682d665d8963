/* A model of a cycle of the mesh (circuits.py) by several workers: registers go round among them; each loads its registers and two neighbours
 * of each, mixes them in 16 operations, passes a barrier, stores its registers, and passes a barrier. Prints the microseconds of a cycle.
 *
 * usage: lines WORKERS CYCLES [grouped]
 *
 * The words stand in the order of the registers, or grouped: those of one worker behind each other, 16 words from the next worker's.
 */
#include <pthread.h>
#include <sched.h>
#include <stdatomic.h>
#include <stdint.h>
#include <stdio.h>
#include <stdlib.h>
#include <time.h>

enum { SIDE = 32, COUNT = SIDE * SIDE, ROUNDS = 16, LOADS_BEFORE_A_YIELD = 64, APART = 16 };

static unsigned workers, cycles;
static unsigned place[COUNT];
static _Atomic uint64_t *barrier, *words;

static void pass(uint64_t arrivals) {
    unsigned left = LOADS_BEFORE_A_YIELD;
    atomic_fetch_add(barrier, 1);
    while (atomic_load(barrier) < arrivals * workers) {
        if (left) left--;
        else sched_yield();
    }
}

static void *work(void *number) {
    unsigned worker = (unsigned)(uintptr_t)number;
    uint64_t made[COUNT];
    for (unsigned cycle = 0; cycle < cycles; cycle++) {
        for (unsigned k = worker; k < COUNT; k += workers) {
            unsigned row = k / SIDE, column = k % SIDE;
            uint64_t own = atomic_load(&words[place[k]]);
            uint64_t left = atomic_load(&words[place[row * SIDE + (column + SIDE - 1) % SIDE]]);
            uint64_t above = atomic_load(&words[place[(row + SIDE - 1) % SIDE * SIDE + column]]);
            /* volatile: an instruction of the program keeps what it makes in memory too */
            volatile uint64_t mixed = own + left;
            for (unsigned i = 1; i < ROUNDS; i++) mixed = i % 2 ? mixed ^ above : (mixed + k + i) & 0xffffffff;
            made[k] = mixed;
        }
        pass(2 * (uint64_t)cycle + 1);
        for (unsigned k = worker; k < COUNT; k += workers) atomic_store(&words[place[k]], made[k]);
        pass(2 * (uint64_t)cycle + 2);
    }
    return NULL;
}

int main(int count, char **given) {
    if (count < 3) return 1;
    workers = atoi(given[1]), cycles = atoi(given[2]);
    if (workers < 1 || workers > 64) return 1;
    unsigned next = 0;
    for (unsigned worker = 0; worker < workers; worker++, next += APART)
        for (unsigned k = worker; k < COUNT; k += workers) place[k] = count > 3 ? next++ : k;
    barrier = calloc(1 + COUNT + 64 * APART, sizeof *barrier);
    if (!barrier) return 1;
    words = barrier + 1;
    struct timespec began, ended;
    pthread_t threads[64];
    clock_gettime(CLOCK_MONOTONIC, &began);
    for (uintptr_t worker = 1; worker < workers; worker++)
        if (pthread_create(&threads[worker], NULL, work, (void *)worker)) return 1;
    work((void *)(uintptr_t)0);
    for (unsigned worker = 1; worker < workers; worker++) pthread_join(threads[worker], NULL);
    clock_gettime(CLOCK_MONOTONIC, &ended);
    printf("%.2f\n", ((ended.tv_sec - began.tv_sec) * 1e9 + (ended.tv_nsec - began.tv_nsec)) / 1e3 / cycles);
    return 0;
}
