/* Memory of qemu's mps2-an386, a Cortex-M4: vectors and code at 0, data at 0x20000000. */
ENTRY(reset)

MEMORY
{
    code (rx) : ORIGIN = 0x00000000, LENGTH = 256K
    ram (rw)  : ORIGIN = 0x20000000, LENGTH = 64K
}

SECTIONS
{
    .text : { KEEP(*(.vectors)) *(.text*) *(.rodata*) } >code
    .ARM.exidx : { *(.ARM.exidx*) } >code
    .data : { *(.data*) } >ram
    .bss : { bss_start = .; *(.bss*) *(COMMON) . = ALIGN(4); bss_end = .; } >ram
    stack_top = ORIGIN(ram) + LENGTH(ram);
}

ASSERT(SIZEOF(.data) == 0, "nothing copies .data to ram")
