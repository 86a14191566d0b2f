/* The memory of QEMU's boards mps2-an386 (Cortex-M4) and mps2-an500 (Cortex-M7), as far as it is used: 4 MiB for code, and 16 MiB, which the boards have at different places, for data, heap
   and stack. */
MEMORY
{
    CODE : ORIGIN = 0, LENGTH = 4M
    DATA : ORIGIN = data_at, LENGTH = 16M
}
SECTIONS
{
    .text :
    {
        KEEP(*(.vectors))
        *(.text*) *(.rodata*) *(.init) *(.fini)
        . = ALIGN(4);
        __preinit_array_start = .; KEEP(*(.preinit_array)) __preinit_array_end = .;
        __init_array_start = .; KEEP(*(.init_array*)) __init_array_end = .;
        __fini_array_start = .; KEEP(*(.fini_array*)) __fini_array_end = .;
    } > CODE
    .ARM.exidx : { __exidx_start = .; *(.ARM.exidx*) __exidx_end = .; } > CODE
    .data : { *(.data*) } > DATA
    .bss :
    {
        . = ALIGN(8);
        bss_start = .; __bss_start__ = .;
        *(.bss*) *(COMMON)
        bss_end = .; __bss_end__ = .;
    } > DATA
    end = .;
    __end__ = .;
    stack_top = ORIGIN(DATA) + LENGTH(DATA);
}
