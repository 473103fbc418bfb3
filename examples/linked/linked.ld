/* What the linker of this repository does with the same objects: the texts behind the vector table, the initial contents behind them,
   and the veneers of the entry functions. */
SECTIONS
{
    .text 0x10000040 : { *(.text) }
    .rodata : ALIGN(4) { *(.rodata) *(.init) }
    .gnu.sgstubs : { *(.gnu.sgstubs*) }
}
