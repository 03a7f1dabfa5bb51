/* Code at 0x10000 and 4,096 bytes at 0x20000, as `rescue load` has them. */
ENTRY(_start)
PHDRS { code PT_LOAD FLAGS(5); data PT_LOAD FLAGS(6); }
SECTIONS
{
    . = 0x10000;
    .text : { *(.text) } :code
    . = 0x20000;
    .bss : { *(.bss) } :data
    /DISCARD/ : { *(.riscv.attributes) *(.note*) *(.comment) }
}
