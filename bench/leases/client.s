; Lends its server 256 bytes above the stack and the 256 after them, and changes the first of them after each answer.

        ldr r1, table
        ldr r2, first           ; lease 0 may be read
        movs r0, #1
        str r0, [r1, #0]
        str r2, [r1, #4]
        ldr r0, size
        str r0, [r1, #8]
        adds r2, r2, r0         ; lease 1 may be written
        str r0, [r1, #20]
        str r2, [r1, #16]
        movs r0, #2
        str r0, [r1, #12]
        mov r9, r1
        mov r10, r0
        movs r0, #0
        mov r8, r0
        mov r11, r0
        movs r3, #task_server
        lsls r3, r3, #16
again:  mov r4, r3              ; SEND: no message, no room for an answer
        movs r5, #0
        movs r6, #0
        movs r7, #0
        svc #0
        ldr r0, [sp, #0]
        adds r0, #1
        str r0, [sp, #0]
        b again

        .align 2
first:  .word stack_top
table:  .word stack_top+512
size:   .word 256
