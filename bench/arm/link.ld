/* The emulated board (QEMU's mps2-an386) as if it were the box: code from 0 on, 256 KiB of RAM, the stack at their end. A test that needs more than the box has
   names a part of the board's 4 MiB by --defsym=board_ram=BYTES. */
MEMORY {
    CODE : ORIGIN = 0, LENGTH = 1M
    RAM : ORIGIN = 0x20000000, LENGTH = DEFINED(board_ram) ? board_ram : 256K
}
ENTRY(reset)
SECTIONS {
    .text : { KEEP(*(.vectors)) *(.text*) *(.rodata*) . = ALIGN(4); } > CODE
    .ARM.exidx : { *(.ARM.exidx*) } > CODE
    .data : { data_begin = .; *(.data*) . = ALIGN(4); data_end = .; } > RAM AT > CODE
    data_kept = LOADADDR(.data);
    .bss : { bss_begin = .; *(.bss*) *(COMMON) . = ALIGN(8); bss_end = .; } > RAM
    stack_top = ORIGIN(RAM) + LENGTH(RAM);
}
