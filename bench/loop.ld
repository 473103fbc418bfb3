ENTRY(reset)
PHDRS
{
    code PT_LOAD FLAGS(5);
}
SECTIONS
{
    . = 0x10000000;
    .text : { *(.vectors) *(.text) } :code
    /DISCARD/ : { *(.ARM.attributes) }
}
