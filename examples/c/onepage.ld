/* Text and data on one page: two segments, of which the second may be written, so the whole page may. */
ENTRY(start)
PHDRS
{
    text PT_LOAD FILEHDR PHDRS FLAGS(5);
    data PT_LOAD FLAGS(6);
}
SECTIONS
{
    . = 0x00400000 + SIZEOF_HEADERS;
    .text : { *(.text .text.*) } :text
    .rodata : { *(.rodata .rodata.*) } :text
    . = ALIGN(16);
    .data : { *(.data .data.* .sdata .sdata.*) } :data
    .bss : { *(.bss .bss.* .sbss .sbss.* COMMON) } :data
    _gp = 0x00407ff0; /* $28, by which 16 bits with a sign reach all of the page */
    ASSERT(. <= 0x00401000, "text and data are more than a page")
    /DISCARD/ : { *(*) }
}
