; The supervisor: where a task has faulted, it restarts task 1, which is the only other one. r1 is its memory, a message of 8 bytes.

        ldr r1, memory
wait:   movs r4, #0             ; RECV: no buffer,
        movs r5, #0
        movs r6, #note_fault    ; this notification,
        ldr r7, kernel          ; and from nobody but the kernel
        movs r0, #1
        mov r11, r0
        svc #0

        movs r0, #task_echo     ; SEND to the kernel, operation 2: restart this task,
        str r0, [r1]
        movs r0, #1             ; and let it run at once
        str r0, [r1, #4]
        ldr r4, renew
        mov r5, r1
        movs r6, #8
        movs r7, #0             ; no answer
        mov r8, r7
        movs r0, #0
        mov r11, r0
        svc #0
        b wait

        .align 2
memory: .word stack_top
kernel: .word 0x8000ffff        ; bit 31: from this sender alone
renew:  .word 0xffff0002        ; to the kernel, operation 2
