; The server: lease 0 of a message is a text, whose small letters it turns into capitals where they stand.
; The answer is 4 bytes, how many bytes it went through. A call leaves the registers r0 to r3 as they are:
; r1 is the buffer, r2 the offset in the lease, r3 the client.

        ldr r1, buffer
serve:  movs r4, #0             ; RECV: the message itself is not looked at,
        movs r5, #0
        movs r6, #0             ; no notification,
        movs r7, #0             ; from anyone
        movs r0, #1
        mov r11, r0
        svc #0                  ; r5: the client, r8: the room for an answer, r9: how many leases
        mov r3, r5
        movs r2, #0
        mov r0, r8              ; answering more than there is room for, or using a lease that is
        cmp r0, #4              ; not there, would be the fault of the server
        blo refuse
        mov r0, r9
        cmp r0, #0
        beq refuse

piece:  mov r4, r3              ; BORROW_READ: up to 16 bytes
        movs r5, #0             ; of lease 0
        mov r6, r2
        mov r7, r1
        movs r0, #16
        mov r8, r0
        movs r0, #4
        mov r11, r0
        svc #0                  ; r4: 0 where it went well, r5: how many bytes came
        cmp r4, #0
        bne answer
        cmp r5, #0              ; none: that was the end of the lease
        beq answer
        mov r8, r5

        mov r4, r5              ; from the last byte of the piece to its first
letter: subs r4, #1
        ldrb r0, [r1, r4]
        cmp r0, #97             ; a
        blo keep
        cmp r0, #122            ; z
        bhi keep
        subs r0, #32
        strb r0, [r1, r4]
keep:   cmp r4, #0
        bne letter

        mov r4, r3              ; BORROW_WRITE: the same bytes back to the same place
        movs r5, #0
        movs r0, #5
        mov r11, r0
        svc #0
        adds r2, r2, r5
        cmp r4, #0
        beq piece

answer: str r2, [r1]
        mov r5, r4              ; REPLY: the code of the last call, and what r1 points at
        mov r4, r3
        mov r6, r1
        movs r7, #4
        movs r0, #2
        mov r11, r0
        svc #0
        b serve

refuse: mov r4, r3              ; REPLY_FAULT: the client faults instead, here with the reason 3
        movs r5, #3
        movs r0, #12
        mov r11, r0
        svc #0
        b serve

        .align 2
buffer: .word stack_top
