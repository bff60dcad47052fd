/* A Cortex-M0 with 64 KiB of memory. The table of blocks stands by itself: on a card they come from the line. */
ENTRY(vectors_begin)
MEMORY {
  CODE (rx) : ORIGIN = 0, LENGTH = 256K
  RAM (rwx) : ORIGIN = 0x20000000, LENGTH = 64K
}
SECTIONS {
  .text : { vectors_begin = .; KEEP(*(.vectors)) *(.text*) *(EXCLUDE_FILE(*card-blocks.o) .rodata*) . = ALIGN(4); } > CODE
  .blocks : { *(.rodata*) . = ALIGN(4); } > CODE
  .data : { data_begin = .; *(.data*) . = ALIGN(4); data_end = .; } > RAM AT > CODE
  data_kept = LOADADDR(.data);
  .bss (NOLOAD) : { bss_begin = .; *(.bss*) *(COMMON) . = ALIGN(8); bss_end = .; } > RAM
  stack_end = bss_end;
  stack_begin = ORIGIN(RAM) + LENGTH(RAM);
  /DISCARD/ : { *(.ARM.exidx*) *(.ARM.extab*) *(.ARM.attributes) *(.comment) }
}
