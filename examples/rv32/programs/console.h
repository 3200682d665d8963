/* The console: on the core a store of a byte to one address, on the host standard output. */
#ifndef CONSOLE_H
#define CONSOLE_H

typedef unsigned char u8;
typedef unsigned int u32;

#ifdef __riscv
static inline void put(char c) { *(volatile u8 *)0x10000000 = (u8)c; }
#else
#include <stdio.h>
static inline void put(char c) { putchar(c); }
#endif

static inline void put_text(const char *text) {
  while (*text) put(*text++);
}

/* A number in decimal. */
static inline void put_number(u32 number) {
  char digits[10];
  int count = 0;
  do {
    digits[count++] = (char)('0' + number % 10);
    number /= 10;
  } while (number);
  while (count) put(digits[--count]);
}

/* A number in eight hexadecimal digits. */
static inline void put_hex(u32 number) {
  for (int shift = 28; shift >= 0; shift -= 4) put("0123456789abcdef"[number >> shift & 15]);
}

#endif
