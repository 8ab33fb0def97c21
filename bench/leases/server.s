; Reads 256 bytes of lease 0 of each caller, writes them into its lease 1, each 64 bytes at a time, and answers.

again:  movs r4, #0             ; RECV: no buffer
        movs r5, #0
        movs r6, #0
        movs r7, #0
        movs r0, #1
        mov r11, r0
        svc #0
        mov r3, r5              ; whose message it was
        movs r0, #64
        mov r8, r0
        movs r6, #0             ; from its start on
        mov r7, sp              ; into the bytes above the stack
        movs r0, #4             ; BORROW_READ
        mov r11, r0
read:   mov r4, r3
        movs r5, #0             ; of lease 0
        svc #0
        adds r7, #64
        adds r6, #64
        lsrs r0, r6, #8
        beq read
        movs r6, #0
        mov r7, sp
        movs r0, #5             ; BORROW_WRITE
        mov r11, r0
write:  mov r4, r3
        movs r5, #1             ; of lease 1
        svc #0
        adds r7, #64
        adds r6, #64
        lsrs r0, r6, #8
        beq write
        mov r4, r3              ; REPLY
        movs r5, #0
        movs r6, #0
        movs r7, #0
        movs r0, #2
        mov r11, r0
        svc #0
        b again
