@ A Secure loop of all kinds of instructions: it never ends, and makes no event.
        .syntax unified
        .arch   armv8-m.main
        .thumb

        .section .vectors, "a"
        .word   0x30017FF8
        .word   reset

        .text
        .global reset
        .type   reset, %function
reset:
        movw    r0, #0
        movt    r0, #0x3000
        movw    r1, #1
        movw    r2, #0x1234
        movw    r3, #7
again:
        add.w   r4, r2, r1
        sub.w   r5, r4, r3
        rsb.w   r6, r5, r4
        mul     r7, r5, r3
        mls     r8, r7, r3, r4
        udiv    r9, r7, r3
        sdiv    r10, r8, r3
        and.w   r4, r4, r5
        bic.w   r5, r4, r1
        orr.w   r6, r6, r5
        eor.w   r7, r7, r6
        mvn.w   r8, r7
        lsl.w   r9, r2, r1
        lsr.w   r10, r8, r3
        asr.w   r11, r8, r3
        sxtb.w  r4, r8
        uxth.w  r5, r8
        str.w   r5, [r0, #16]
        strb.w  r4, [r0, #20]
        strh.w  r4, [r0, #22]
        ldr.w   r6, [r0, #16]
        ldrb.w  r7, [r0, #20]
        ldrsh.w r8, [r0, #22]
        stmdb   sp!, {r4, r5, r6, r7}
        ldmia.w sp!, {r4, r5, r6, r7}
        mrs     r9, APSR
        msr     APSR_nzcvq, r1
        tt      r10, r0
        addw    r2, r2, #1
        subw    r11, r2, #5
        mov     r12, r11
        bl      leaf
        cmp.w   r2, r3
        beq.w   again
        nop
        b.w     again

        .type   leaf, %function
leaf:
        bx      lr
