; The supervisor: where a task has faulted, it asks the kernel which, from the first task after itself on, and restarts it;
; and so on from the next one, until there is none. r1 is its memory (a message of 8 bytes, an answer of 4 from 16 on).

        ldr r1, memory
wait:   movs r4, #0             ; RECV: no buffer,
        movs r5, #0
        movs r6, #note_fault    ; this notification,
        ldr r7, kernel          ; and from nobody but the kernel
        movs r0, #1
        mov r11, r0
        svc #0

        movs r2, #1             ; the first task after the supervisor
find:   str r2, [r1]
        ldr r4, search          ; SEND to the kernel, operation 9: which is the first faulted task from this index on?
        mov r5, r1
        movs r6, #4
        mov r7, r1
        adds r7, #16
        movs r0, #4
        mov r8, r0
        movs r0, #0             ; SEND is call 0, and no lease is looked at
        mov r11, r0
        svc #0
        ldr r2, [r1, #16]       ; its index, or 0 where there is none
        cmp r2, #0
        beq wait

        str r2, [r1]            ; SEND to the kernel, operation 2: restart it (its index, and 1 to run at once)
        movs r0, #1
        str r0, [r1, #4]
        ldr r4, renew
        mov r5, r1
        movs r6, #8
        movs r7, #0             ; no answer
        mov r8, r7
        movs r0, #0
        mov r11, r0
        svc #0

        adds r2, #1
        cmp r2, #3              ; as many as there are tasks: an index is below that
        bne find
        b wait

        .align 2
memory: .word stack_top
kernel: .word 0x8000ffff        ; bit 31: from this sender alone
search: .word 0xffff0009        ; to the kernel (0xffff), operation 9
renew:  .word 0xffff0002        ; to the kernel, operation 2
