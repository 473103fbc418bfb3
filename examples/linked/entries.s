@ The first of two parts of Secure firmware in assembly: its entry functions, as a compiler names them, each at its name and at that
@ of its code. For GNU ld's veneers both have a size, and no other object names the second (version 2.40 takes it for another entry).
        .syntax unified
        .arch   armv8-m.main
        .thumb

        .text
        .p2align 2
        .global twice, __acle_se_twice, add_seven, __acle_se_add_seven
        .type   twice, %function
        .type   __acle_se_twice, %function
twice:
__acle_se_twice:
        push    {r4, lr}
        bl      double
        bl      __acle_se_add_seven
        pop     {r4, lr}
        movw    r1, #0
        movw    r2, #0
        msr     APSR_nzcvq, r1
        bxns    lr
        .size   twice, . - twice
        .size   __acle_se_twice, . - __acle_se_twice

        .type   add_seven, %function
        .type   __acle_se_add_seven, %function
add_seven:
__acle_se_add_seven:
        movw    r1, #:lower16:seven
        movt    r1, #:upper16:seven
        ldr.w   r1, [r1, #0]
        add.w   r0, r0, r1
        movw    r1, #0
        msr     APSR_nzcvq, r1
        bxns    lr
        .size   add_seven, . - add_seven
        .size   __acle_se_add_seven, . - __acle_se_add_seven

        .section .rodata, "a"
        .p2align 2
        .global seven
        .type   seven, %object
seven:
        .word   7
        .byte   1, 2, 3
