ENTRY(start)
PHDRS { text PT_LOAD FLAGS(5); data PT_LOAD FLAGS(6); note PT_NOTE FLAGS(4); }
SECTIONS
{
    . = 0x100000;
    .text : {
        *(.text.boot)
        library_begin = .; /* so that the timer can tell whether it has interrupted a call of the library */
        *libskid.a:*(.text .text.*)
        library_end = .;
        *(.text .text.*)
    } :text
    .rodata : { *(.rodata .rodata.*) } :text
    .note.Xen : { KEEP(*(.note.Xen)) } :text :note
    . = ALIGN(4096);
    .data : { *(.data .data.*) } :data
    .bss : { *(.bss .bss.*) *(COMMON) } :data
    /DISCARD/ : { *(.eh_frame*) *(.comment) *(.note.GNU-stack) *(.gcc_except_table*) *(.note.gnu.*) }
}
