; The driver: it keeps its line disabled while it works, and asks how it is. Each answer is kept as a word, from stack_top on.
; A call leaves the registers r0 to r3 as they are: r1 is where the next answer goes.

        ldr r1, memory
        bl ask                  ; 0: disabled, nothing pending, nothing posted

        movs r0, #0             ; work, in which the interrupt comes
work:   adds r0, #1
        cmp r0, #20
        bne work
        bl ask                  ; 2: it is pending

        movs r4, #note_edge     ; IRQ_CONTROL: let it through, and what is pending comes at once
        movs r5, #1
        movs r0, #7
        mov r11, r0
        svc #0
        bl ask                  ; 4: its bits are posted, and the line is disabled again

        movs r4, #0             ; RECV: no buffer,
        movs r5, #0
        movs r6, #note_edge     ; this notification, which is there already,
        ldr r7, kernel          ; and from nobody but the kernel
        movs r0, #1
        mov r11, r0
        svc #0

        movs r4, #note_edge     ; IRQ_CONTROL: the next one may come
        movs r5, #1
        movs r0, #7
        mov r11, r0
        svc #0
        bl ask                  ; 1: enabled

        movs r4, #0             ; RECV of nothing at all
        movs r5, #0
        movs r6, #0
        ldr r7, kernel
        movs r0, #1
        mov r11, r0
        svc #0

ask:    movs r4, #note_edge     ; IRQ_STATUS: how are the lines with these bits?
        movs r0, #13
        mov r11, r0
        svc #0                  ; r4: the sum of 1 enabled, 2 pending, 4 posted
        str r4, [r1]
        adds r1, #4
        bx lr

        .align 2
memory: .word stack_top
kernel: .word 0x8000ffff        ; bit 31: from this sender alone
