; The driver: at each tick it takes what waits at the port, byte by byte, and sends it out. r1 is the port, r2 the console.

        ldr r1, port
        ldr r2, console
again:  ldr r3, [r1, #4]        ; how many bytes wait
        cmp r3, #0
        beq sleep
        ldrb r3, [r1]           ; the first of them, which this load takes
        cmp r3, #97             ; a letter from a
        blo send
        cmp r3, #122            ; to z
        bhi send
        subs r3, #32
send:   strb r3, [r2]           ; a store to the console is told as `out`
        b again

sleep:  movs r0, #9             ; GET_TIMER: r4 and r5 are now, low and high
        mov r11, r0
        svc #0
        mov r6, r5              ; SET_TIMER: to the next tick (32 bits of time are enough here)
        adds r5, r4, #1
        movs r4, #1
        movs r7, #note_timer
        movs r0, #3
        mov r11, r0
        svc #0
        movs r4, #0             ; RECV: no buffer,
        movs r5, #0
        movs r6, #note_timer    ; this notification,
        ldr r7, kernel          ; and from nobody but the kernel
        movs r0, #1
        mov r11, r0
        svc #0
        b again

        .align 2
port:    .word region_in
console: .word region_out
kernel:  .word 0x8000ffff       ; bit 31: from this sender alone
