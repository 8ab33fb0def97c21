; Waits for another task's fault, and then ends the run by a panic of its own.

        movs r6, #note_fault    ; RECV: no buffer, this notification
        ldr r7, kernel          ; and from nobody but the kernel
        movs r0, #1
        mov r11, r0
        svc #0
        movs r0, #8             ; PANIC
        mov r11, r0
        svc #0

        .align 2
kernel: .word 0x8000ffff        ; bit 31: from this sender alone
