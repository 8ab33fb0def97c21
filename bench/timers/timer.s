; Sets its timer again and again, and waits until it is over. The task's place in RAM makes the number of ticks between,
; so that no two tasks have the same.

        ldr r2, place           ; bits 8 to 12 differ from task to task
        lsrs r2, r2, #8
        movs r1, #31
        ands r2, r1
        adds r2, #62            ; r2: ticks from one time to the next

next:   movs r0, #9             ; GET_TIMER: r4 and r5 are now, low and high
        mov r11, r0
        svc #0
        movs r0, #0
        adds r4, r4, r2
        adcs r5, r0
        mov r6, r5              ; SET_TIMER: to r2 ticks from now
        mov r5, r4
        movs r4, #1
        movs r7, #note_over
        movs r0, #3
        mov r11, r0
        svc #0
        movs r4, #0             ; RECV: no buffer,
        movs r5, #0
        movs r6, #note_over     ; this notification,
        ldr r7, kernel          ; and from nobody but the kernel
        movs r0, #1
        mov r11, r0
        svc #0
        b next

        .align 2
place:  .word ram
kernel: .word 0x8000ffff        ; bit 31: from this sender alone
