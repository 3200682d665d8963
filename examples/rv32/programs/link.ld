/* Program and data from address 0 on; what isn't initialized is 0 since the memory begins at 0. */
ENTRY(_start)
SECTIONS {
  . = 0;
  .text : { *(.start) *(.text*) }
  .rodata : { *(.rodata*) *(.srodata*) }
  .data : { *(.data*) *(.sdata*) }
  .bss : { *(.bss*) *(.sbss*) *(COMMON) }
  /DISCARD/ : { *(.comment) *(.riscv.attributes) *(.eh_frame*) *(.note*) }
}
