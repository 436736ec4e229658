@ calls far four times
        .global start
        .type start func
start:  push {r4, lr}
        ldr r4, count
again:  bl far
        subs r4, r4, #1
        bne again
        pop {r4, pc}
count:  .word 4

        .data
        .align 8
        .word far(FUNCDESC)
        .word start+4
        .asciz "gurvesto"

        .bss
        .space 16
