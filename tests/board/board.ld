/*
 * Code from address 0. Of the 16 KiB of RAM the stack has the lower 12, so that one too deep leaves RAM and faults, and
 * data the upper 4.
 */
ENTRY(vectors)
PHDRS
{
    code PT_LOAD FLAGS(5);
    data PT_LOAD FLAGS(6);
}
stack_top = 0x20003000;
SECTIONS
{
    .text 0 : {
        KEEP(*(.vectors))
        *(.text .text.*)
        *(.rodata .rodata.*)
        . = ALIGN(8);
    } :code
    .exidx : { *(.ARM.exidx .ARM.exidx.*) . = ALIGN(8); } :code
    data_from = .;
    .data stack_top : AT(data_from) {
        data_start = .;
        *(.data .data.*)
        . = ALIGN(8);
        data_end = .;
    } :data
    .bss stack_top + SIZEOF(.data) (NOLOAD) : {
        bss_start = .;
        *(.bss .bss.* COMMON)
        . = ALIGN(8);
        bss_end = .;
    } :data
    ASSERT(bss_end <= 0x20004000, "the data leaves the RAM")
    /DISCARD/ : { *(.comment) *(.note.*) *(.llvm_addrsig) }
}
