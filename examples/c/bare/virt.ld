/* Where things stand on qemu's machine `virt`: its memory begins at 1 GB, with 2 MB for what qemu itself puts there. */
ENTRY(_start)

STACK = 512K;

MEMORY { ram : ORIGIN = 0x40200000, LENGTH = 64M }

PHDRS {
    code PT_LOAD FLAGS(5);
    data PT_LOAD FLAGS(6);
}

SECTIONS {
    .text : { *(.text.start) *(.text .text.*) } > ram :code
    .rodata : { *(.rodata .rodata.*) } > ram :code
    .data : ALIGN(4K) { *(.data .data.* .got .got.*) } > ram :data
    .bss (NOLOAD) : ALIGN(16) {
        bss_start = .;
        *(.bss .bss.* COMMON)
        . = ALIGN(16);
        bss_end = .;
    } > ram
    .stack (NOLOAD) : ALIGN(16) { . += STACK; stack_top = .; } > ram
    /DISCARD/ : { *(.comment) *(.note*) *(.eh_frame*) *(.debug*) }
}
