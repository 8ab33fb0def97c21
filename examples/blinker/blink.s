; Changes the light whenever the timer is over. The button halves the time between two changes, from 4 ticks
; to 2 to 1 and back to 4. A call leaves the registers r0 to r3 as they are:
; r1 is how often the light changed, r2 the ticks between two changes, r3 the light.

        ldr r3, light
        movs r2, #4
        movs r1, #0
        movs r4, #note_button   ; IRQ_CONTROL: let the button through
        movs r5, #1
        movs r0, #7
        mov r11, r0
        svc #0

timer:  movs r0, #9             ; GET_TIMER: r4 and r5 are now, low and high
        mov r11, r0
        svc #0
        movs r0, #0
        adds r4, r4, r2
        adcs r5, r0
        mov r6, r5              ; SET_TIMER: to r2 ticks from now
        mov r5, r4
        movs r4, #1
        movs r7, #note_timer
        movs r0, #3
        mov r11, r0
        svc #0

wait:   movs r4, #0             ; RECV: no buffer,
        movs r5, #0
        movs r6, #note_timer    ; these two notifications,
        movs r0, #note_button
        orrs r6, r0
        ldr r7, kernel          ; and from nobody but the kernel
        movs r0, #1
        mov r11, r0
        svc #0                  ; r6: which of them came

        movs r0, #note_button
        tst r6, r0
        beq over
        lsrs r2, r2, #1
        bne again
        movs r2, #4
again:  movs r4, #note_button   ; IRQ_CONTROL: the line was disabled when it came
        movs r5, #1
        movs r0, #7
        mov r11, r0
        svc #0

over:   movs r0, #note_timer    ; r6 is what it was: that call answers in no register
        tst r6, r0
        beq wait
        adds r1, #1
        str r1, [r3]            ; the light is on where bit 0 is set
        ldr r0, count
        str r1, [r0]            ; and a copy in RAM
        b timer

        .align 2
light:  .word region_light
count:  .word stack_top
kernel: .word 0x8000ffff        ; bit 31: from this sender alone
