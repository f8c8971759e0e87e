/*
 * 64-bit Arm from reset to main, at EL1 of qemu's machine `virt`. A board whose processor starts at EL3 or EL2 comes down to EL1
 * first, or sets the registers of that level. README.md says what of this the library asks for.
 */
    .section .text.start, "ax"
    .global _start
_start:
    ldr x0, =stack_top
    mov sp, x0

    mov x0, #3 << 20                /* vector registers: the library copies by them */
    msr cpacr_el1, x0

    ldr x0, =vectors
    msr vbar_el1, x0

    ldr x0, =bss_start              /* what has no value is 0 */
    ldr x1, =bss_end
1:  cmp x0, x1
    b.hs 2f
    stp xzr, xzr, [x0], #16
    b 1b

2:  mov x0, #0xff00                 /* attributes: 0 a device, 1 memory with caches */
    msr mair_el1, x0
    ldr x0, =0x803520               /* addresses of 32 bits, pages of 4 KB, walks through the caches */
    msr tcr_el1, x0
    ldr x0, =table
    msr ttbr0_el1, x0
    tlbi vmalle1
    dsb sy
    isb
    mrs x0, sctlr_el1
    mov x1, #0x1005                 /* MMU and both caches on */
    orr x0, x0, x1
    bic x0, x0, #2                  /* unaligned accesses are allowed */
    msr sctlr_el1, x0
    isb

    bl board_main
1:  wfe
    b 1b

/* Any exception ends the program: nothing here asks for an interrupt. */
    .balign 2048
vectors:
    .rept 16
    .balign 128
    mrs x0, esr_el1
    mrs x1, elr_el1
    mrs x2, far_el1
    bl board_fault
    .endr

/* A gigabyte an entry: devices, then memory, each at its own address. Without it all memory is as a device's. */
    .section .rodata
    .balign 64
table:
    .quad 0x00000000 | 1 << 54 | 1 << 53 | 1 << 10 | 1
    .quad 0x40000000 | 1 << 10 | 3 << 8 | 1 << 2 | 1
    .quad 0, 0
