; Takes a line from the port, byte by byte, and writes it to the console when it is over. r4 is its memory: a buffer of 8 bytes, and
; behind it the address of the console. r5 is the port, r6 how long the line is.

        ldr r4, memory
        ldr r0, console
        str r0, [r4, #8]
        ldr r5, port
line:   movs r6, #0
byte:   ldr r0, [r5, #4]        ; how many bytes wait
        cmp r0, #0
        beq byte
        ldrb r0, [r5]           ; the first of them
        strb r0, [r4, r6]       ; the mistake: nobody asks whether there is room
        adds r6, #1
        cmp r0, #10             ; the end of a line
        bne byte

        ldr r2, [r4, #8]        ; to the console
        movs r3, #0
write:  ldrb r0, [r4, r3]
        strb r0, [r2]
        adds r3, #1
        cmp r3, r6
        bne write
        b line

        .align 2
memory: .word stack_top
port:   .word region_in
console: .word region_out
