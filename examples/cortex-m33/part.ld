/* A part with 64 KB of flash and 16 KB of memory, at addresses where the board mps2-an505 has some. The linker refuses what does not fit. */
ENTRY(reset)
flash_size = DEFINED(flash_size) ? flash_size : 64K;
memory_size = DEFINED(memory_size) ? memory_size : 16K;
stack_size = DEFINED(stack_size) ? stack_size : 6K + 512; /* for a call, and for what calls it */

MEMORY
{
    FLASH (rx) : ORIGIN = 0x10000000, LENGTH = flash_size
    RAM (rwx) : ORIGIN = 0x38000000, LENGTH = memory_size
}

SECTIONS
{
    .text : { KEEP(*(.vectors)) *(.text*) *(.rodata*) } >FLASH
    .ARM.exidx : { *(.ARM.exidx*) *(.ARM.extab*) } >FLASH
    .init_array : { __init_array_start = .; KEEP(*(.init_array*)) __init_array_end = .; } >FLASH
    .fini_array : { __fini_array_start = .; KEEP(*(.fini_array*)) __fini_array_end = .; } >FLASH
    data_stored = LOADADDR(.data);
    .data : { data_start = .; *(.data*) . = ALIGN(4); data_end = .; } >RAM AT>FLASH
    .bss (NOLOAD) : { bss_start = .; *(.bss*) *(COMMON) . = ALIGN(8); bss_end = .; end = .; } >RAM
    stack_top = ORIGIN(RAM) + LENGTH(RAM);
    stack_limit = stack_top - stack_size;
    ASSERT(bss_end <= stack_limit, "the variables and the stack do not fit into the memory")
}
