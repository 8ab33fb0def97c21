; A driver with two rings of 16 bytes: bytes that have come, and bytes that are to go out, in upper case. The line of the port is let
; through only while the first ring has room, that of the console only while the second ring has a byte: a console always asks.
; r1 is the port, r2 the console. A ring has how many bytes wait in it, which is next, and the bytes from 8 on.

        ldr r1, port
        ldr r2, console
again:  ldr r3, came
        ldr r0, [r3]
        cmp r0, #16
        bhs full                ; no room: what comes meanwhile waits at the port, whose line stays disabled
        movs r4, #note_rx
        bl enable
full:   ldr r3, goes
        ldr r0, [r3]
        cmp r0, #0
        beq wait                ; nothing to send: the console would ask for ever
        movs r4, #note_tx
        bl enable

wait:   movs r4, #0             ; RECV: no buffer,
        movs r5, #0
        movs r6, #note_rx       ; either notification,
        movs r0, #note_tx
        orrs r6, r0
        ldr r7, kernel          ; and from nobody but the kernel
        movs r0, #1
        mov r11, r0
        svc #0                  ; r6: which came

        movs r0, #note_tx
        tst r6, r0
        beq take
        ldr r3, goes
        bl get
        strb r0, [r2]           ; one byte goes out
take:   ldr r0, [r1, #4]        ; how many bytes wait at the port
        cmp r0, #0
        beq raise
        ldr r3, came
        ldr r0, [r3]
        cmp r0, #16
        bhs raise
        ldrb r0, [r1]           ; the first of them, which this load takes
        bl put
        b take

raise:  ldr r3, goes            ; from ring to ring, in upper case
        ldr r0, [r3]
        cmp r0, #16
        bhs again
        ldr r3, came
        ldr r0, [r3]
        cmp r0, #0
        beq again
        bl get
        movs r4, r0
        subs r4, #97
        cmp r4, #26
        bhs other               ; no small letter
        subs r0, #32
other:  ldr r3, goes
        bl put
        b raise

put:    ldr r5, [r3, #4]        ; byte r0 behind those of ring r3, which has room
        ldr r4, [r3]
        adds r5, r5, r4
        adds r4, #1
        str r4, [r3]
        movs r7, #15
        ands r5, r7
        adds r5, #8
        strb r0, [r3, r5]
        bx lr

get:    ldr r5, [r3, #4]        ; r0 becomes the next byte of ring r3, which has one
        adds r5, #8
        ldrb r0, [r3, r5]
        subs r5, #7             ; and the one behind it is next
        movs r7, #15
        ands r5, r7
        str r5, [r3, #4]
        ldr r4, [r3]
        subs r4, #1
        str r4, [r3]
        bx lr

enable: movs r5, #1             ; IRQ_CONTROL: the next interrupt may come, and comes at once where the device asks
        movs r0, #7
        mov r11, r0
        svc #0
        bx lr

        .align 2
port:    .word region_in
console: .word region_out
came:    .word stack_top
goes:    .word stack_top + 24
kernel:  .word 0x8000ffff       ; bit 31: from this sender alone
