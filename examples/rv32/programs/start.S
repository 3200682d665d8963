# The first instructions, at address 0: a stack at the end of the memory, main, and its answer as the code of the exit.
  .section .start
  .globl _start
_start:
  li sp, 0x10000
  call main
  ecall
