; Receives messages of 32 bytes, and answers each with its first word.

again:  mov r4, sp              ; RECV: the bytes above the stack
        movs r5, #32
        movs r6, #0
        movs r7, #0
        movs r0, #1
        mov r11, r0
        svc #0
        mov r4, r5              ; REPLY: to whom it was
        movs r5, #0
        mov r6, sp
        movs r7, #4
        movs r0, #2
        mov r11, r0
        svc #0
        b again
