ENTRY(reset)
PHDRS
{
    code PT_LOAD FLAGS(5);
    gateways PT_LOAD FLAGS(5);
}
SECTIONS
{
    . = 0x10000000;
    .text : { *(.vectors) *(.text) } :code
    . = 0x103FF000;
    .gateways : { *(.gateways) } :gateways
    /DISCARD/ : { *(.ARM.attributes) }
}
