@ Secure firmware in assembly. Its one entry function copies the word at r0 to r1 and gives it back.
        .syntax unified
        .arch   armv8-m.main
        .thumb

        .section .vectors, "a"
        .word   0x30017FF8
        .word   reset

        .text
        .global reset
        .type   reset, %function
reset:
        movw    r0, #0
        ldr.w   r1, [r0, #0]
        msr     MSP_NS, r1
        ldr.w   r1, [r0, #4]
        movw    r2, #1
        bic.w   lr, r1, r2
        movw    r1, #0
        movw    r2, #0
        msr     APSR_nzcvq, r1
        bxns    lr

        .type   copy_word, %function
copy_word:
        ldr.w   r2, [r0, #0]
        str.w   r2, [r1, #0]
        mov     r0, r2
        movw    r1, #0
        movw    r2, #0
        bxns    lr

        .section .gateways, "ax"
        sg
        b.w     copy_word
