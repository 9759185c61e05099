@ The first words of an image, and what runs before main: the first values of variables come from flash into RAM. Other
@ variables begin with 0, as RAM does.
#include "sts.h"
        .syntax unified
        .cpu cortex-m0
        .thumb

        .section .header, "ax"
        .word 0x20003F80        @ word 0: the base, from which the stack grows down
        .word start             @ word 1: where the first fiber begins
        .word the_end           @ word 2: where a fiber's function returns to
        .thumb_func
the_end:
        svc STS_END

        .text
        .thumb_func
        .global start
start:  push {r4, lr}
        ldr r0, =data_in_flash
        ldr r1, =data_begin
        ldr r2, =data_end
        b 2f
1:      ldm r0!, {r3}
        stm r1!, {r3}
2:      cmp r1, r2
        blo 1b
        bl main
        pop {r4, pc}
