"""Prints how long an instruction and a cycle of code over a mix of all operations take, in the order that it is made in, in the order and
the slots that a run gives it, and in order in windows, and the same for loops in C over the same instructions that test no number, and the ratio.

usage: steps.py PROGRAM, which is firsim_bench
"""
import os
import subprocess
import sys
import tempfile
import time

BLOCKS = (100, 1_000, 10_000)
WINDOWS = (0, 1, 256, 2_048, 16_384)
INSTRUCTIONS = 40_000_000


def seconds(command):
    best, word = None, None
    for _ in range(3):
        began = time.perf_counter()
        word = subprocess.run(command, stdout=subprocess.PIPE, check=True).stdout
        took = time.perf_counter() - began
        best = took if best is None else min(best, took)
    return best, word


def nanoseconds(command, cycles):
    """The time of a cycle, without the time that the process takes to start, and the word that it writes."""
    long, word = seconds([*command, str(cycles)])
    return (long - seconds([*command, "0"])[0]) / cycles * 1e9, word


def main():
    ours = os.path.realpath(sys.argv[1])
    source = os.path.join(os.path.dirname(os.path.realpath(__file__)), "steps.c")
    with tempfile.TemporaryDirectory() as folder:
        theirs, listing = os.path.join(folder, "steps"), os.path.join(folder, "listing")
        subprocess.run(["cc", "-O2", "-o", theirs, source], check=True)
        print(f"{'instructions':>12} {'window':>7} {'us a cycle':>11} {'ns each':>8} {'in C':>8} {'ratio':>6}")
        for blocks in BLOCKS:
            count, cycles = 21 * blocks, INSTRUCTIONS // (21 * blocks)
            first = None
            for window in WINDOWS:
                words = [str(blocks), str(window)]
                with open(listing, "wb") as file:
                    subprocess.run([ours, *words], stdout=file, check=True)
                cycle, word = nanoseconds([ours, *words], cycles)
                plain, same = nanoseconds([theirs, listing], cycles)
                first = word if first is None else first
                assert word == same == first, (word, same, first)
                shown = {0: "-", 1: "a run"}.get(window, f"{window:,}")
                print(f"{count:12,} {shown:>7} {cycle / 1000:11.1f} {cycle / count:8.2f} {plain / count:8.2f} {cycle / plain:6.2f}", flush=True)


main()
