; Adds up the table, stores the sum in RAM above the stack, and panics with a message and the sum.

        adr r1, table           ; the next word of the table
        movs r2, #6             ; how many are left
        movs r0, #0             ; the sum so far
next:   ldm r1!, {r3}
        adds r0, r0, r3
        subs r2, #1
        bne next

        ldr r1, result
        str r0, [r1]

        adr r4, message         ; r4 and r5 are what a panic says
        mov r5, r0
        movs r0, #8             ; PANIC
        mov r11, r0
        svc #0

        .align 2
table:  .word 3, 1, 4, 1, 5, 9
result: .word stack_top         ; SP at the start: the stack is below, this byte and those above are free
message: .ascii "the sum of the table\0"
