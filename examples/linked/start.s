@ The second part: what the entry functions call, the start code, and where the vector table leads.
        .syntax unified
        .arch   armv8-m.main
        .thumb

        .text
        .p2align 2
        .global double, .start, .stop, limit
        .type   double, %function
double:
        add.w   r0, r0, r0
        bx      lr

        .type   .start, %function
.start:
        movw    r11, #:lower16:contents
        movt    r11, #:upper16:contents
        movw    r4, #:lower16:limit
        movt    r4, #:upper16:limit
        movw    r0, #0
        ldr.w   r1, [r0, #4]
        mov     lr, r1
        bl      double
        b.w     .stop
        .p2align 2
        @ the addresses of initial contents of either part, of a veneer and of code
        .word   seven
        .word   contents
        .word   twice
        .word   double
        .type   .stop, %function
.stop:
        udf     #0

        .set    limit, 0x30010000

        .section .rodata, "a"
        .p2align 2
        .global contents
        .type   contents, %object
contents:
        .ascii  "initial"
