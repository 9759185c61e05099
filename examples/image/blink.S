@ The light in the middle blinks three times, and each time a number goes to the serial port.
#include "sts.h"
        .syntax unified
        .cpu cortex-m0
        .thumb

        .text
        .thumb_func
        .global main
main:   push {r4, lr}
        movs r4, #3
again:  movs r0, #2             @ the column
        movs r1, #2             @ the row
        movs r2, #STS_TOGGLE
        svc STS_PLOT
        mov r0, r4
        svc STS_WRITE_NUMBER
        movs r0, #100           @ milliseconds
        svc STS_PAUSE
        movs r0, #2
        movs r1, #2
        movs r2, #STS_TOGGLE
        svc STS_PLOT
        movs r0, #100
        svc STS_PAUSE
        subs r4, #1
        bne again
        pop {r4, pc}
