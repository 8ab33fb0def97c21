; The client: it copies a text to its RAM, lends it to the server to be changed there, and waits for ever.

        ldr r1, data
        adr r2, text
        movs r3, #21            ; the length of the text
copy:   subs r3, #1
        ldrb r0, [r2, r3]
        strb r0, [r1, r3]
        cmp r3, #0
        bne copy

        movs r0, #3             ; the table of one lease: the server may read (1) and write (2)
        str r0, [r1, #32]
        str r1, [r1, #36]       ; its first byte
        movs r0, #21            ; and how many
        str r0, [r1, #40]

        movs r4, #task_upper    ; SEND: the server in the high half, the operation in the low one
        lsls r4, r4, #16
        adds r4, #1
        movs r5, #0             ; an empty message
        movs r6, #0
        mov r7, r1              ; room for an answer of 4 bytes
        adds r7, #48
        movs r0, #4
        mov r8, r0
        mov r0, r1              ; where the table is
        adds r0, #32
        mov r9, r0
        movs r0, #1             ; how many leases it has
        mov r10, r0
        movs r0, #0
        mov r11, r0
        svc #0                  ; r4: the server's code, r5: the length of its answer

        movs r4, #0             ; RECV of nothing at all
        movs r5, #0
        movs r6, #0
        ldr r7, kernel
        movs r0, #1
        mov r11, r0
        svc #0

        .align 2
data:   .word stack_top         ; the text, 32 bytes on the table, 48 bytes on the answer
kernel: .word 0x8000ffff
text:   .ascii "hello from the client"
