; Made of dog.c by to-source.sh, gcc 12.2.1: not to be changed by hand.
; 440 bytes of flash, and 16 bytes of RAM from stack_top on:
; stack_top + 0 missed
start:
        .half 0xb510      ; push {r4, lr}                    start.c:10
        .half 0x4a0e      ; ldr r2, [pc, #56]
        .half 0x4b0e      ; ldr r3, [pc, #56]
        .half 0x490f      ; ldr r1, [pc, #60]                start.c:13
        .half 0xb088      ; sub sp, #32                      start.c:10
        .half 0x428b      ; cmp r3, r1                       start.c:13
        .half 0xd311      ; bcc.n 32 <start+0x32>
        .half 0x2400      ; movs r4, #0
        .half 0x4a0d      ; ldr r2, [pc, #52]                start.c:15
        .half 0x4293      ; cmp r3, r2
        .half 0xd310      ; bcc.n 38 <start+0x38>
        .half 0xf000      ; bl c8 <task>                     start.c:17
        .half 0xf857
        .half 0x2108      ; movs r1, #8                      start.c:18
        .half 0xa801      ; add r0, sp, #4
        .half 0x9401      ; str r4, [sp, #4]                 start.c:18
        .half 0x9402      ; str r4, [sp, #8]
        .half 0x9403      ; str r4, [sp, #12]
        .half 0x9404      ; str r4, [sp, #16]
        .half 0x9405      ; str r4, [sp, #20]
        .half 0x9406      ; str r4, [sp, #24]
        .half 0x9407      ; str r4, [sp, #28]
        .half 0xf000      ; bl 4c <svc>                      start.c:18
        .half 0xf80e
        .half 0xe7fe      ; b.n 30 <start+0x30>              start.c:18
        .half 0xca01      ; ldmia r2!, {r0}                  start.c:14
        .half 0xc301      ; stmia r3!, {r0}
        .half 0xe7e8      ; b.n a <start+0xa>
        .half 0xc310      ; stmia r3!, {r4}                  start.c:16
        .half 0xe7ea      ; b.n 12 <start+0x12>
        .word start + 440
        .word stack_top + 0
        .word stack_top + 0
        .word stack_top + 16
svc:
        .half 0xb5f0      ; push {r4, r5, r6, r7, lr}
        .half 0x4644      ; mov r4, r8
        .half 0x464d      ; mov r5, r9
        .half 0x4656      ; mov r6, sl
        .half 0x465f      ; mov r7, fp
        .half 0xb4f0      ; push {r4, r5, r6, r7}
        .half 0x468b      ; mov fp, r1
        .half 0x6902      ; ldr r2, [r0, #16]
        .half 0x4690      ; mov r8, r2
        .half 0x6942      ; ldr r2, [r0, #20]
        .half 0x4691      ; mov r9, r2
        .half 0x6982      ; ldr r2, [r0, #24]
        .half 0x4692      ; mov sl, r2
        .half 0x4602      ; mov r2, r0
        .half 0xcaf0      ; ldmia r2!, {r4, r5, r6, r7}
        .half 0xdf00      ; svc 0
        .half 0xc0f0      ; stmia r0!, {r4, r5, r6, r7}
        .half 0x4642      ; mov r2, r8
        .half 0x464b      ; mov r3, r9
        .half 0xc00c      ; stmia r0!, {r2, r3}
        .half 0xbcf0      ; pop {r4, r5, r6, r7}
        .half 0x46a0      ; mov r8, r4
        .half 0x46a9      ; mov r9, r5
        .half 0x46b2      ; mov sl, r6
        .half 0x46bb      ; mov fp, r7
        .half 0xbdf0      ; pop {r4, r5, r6, r7, pc}
watch:
        .half 0xb530      ; push {r4, r5, lr}                dog.c:9
        .half 0x0014      ; movs r4, r2                      dog.c:10
        .half 0x4d0e      ; ldr r5, [pc, #56]
        .half 0xb089      ; sub sp, #36                      dog.c:9
        .half 0x4004      ; ands r4, r0                      dog.c:10
        .half 0x0089      ; lsls r1, r1, #2
        .half 0x4202      ; tst r2, r0
        .half 0xd003      ; beq.n 98 <watch+0x18>
        .half 0x2300      ; movs r3, #0                      dog.c:11
        .half 0x506b      ; str r3, [r5, r1]
        .half 0xb009      ; add sp, #36                      dog.c:16
        .half 0xbd30      ; pop {r4, r5, pc}
        .half 0x586a      ; ldr r2, [r5, r1]                 dog.c:12
        .half 0x1c50      ; adds r0, r2, #1
        .half 0x2a01      ; cmp r2, #1
        .half 0xd001      ; beq.n a4 <watch+0x24>
        .half 0x5068      ; str r0, [r5, r1]
        .half 0xe7f7      ; b.n 94 <watch+0x14>
        .half 0x4a07      ; ldr r2, [pc, #28]                dog.c:14
        .half 0x506c      ; str r4, [r5, r1]                 dog.c:13
        .half 0xa801      ; add r0, sp, #4                   dog.c:14
        .half 0x210b      ; movs r1, #11
        .half 0x9201      ; str r2, [sp, #4]                 dog.c:14
        .half 0x9302      ; str r3, [sp, #8]
        .half 0x9403      ; str r4, [sp, #12]
        .half 0x9404      ; str r4, [sp, #16]
        .half 0x9405      ; str r4, [sp, #20]
        .half 0x9406      ; str r4, [sp, #24]
        .half 0x9407      ; str r4, [sp, #28]
        .half 0xf7ff      ; bl 4c <svc>                      dog.c:14
        .half 0xffc7
        .half 0xe7e9      ; b.n 94 <watch+0x14>              dog.c:16
        .word stack_top + 0
        .word task_sup
task:
        .half 0xb5f0      ; push {r4, r5, r6, r7, lr}        dog.c:19
        .half 0xb08b      ; sub sp, #44
        .half 0x221c      ; movs r2, #28                     dog.c:21
        .half 0x2100      ; movs r1, #0
        .half 0xa803      ; add r0, sp, #12
        .half 0xf000      ; bl 1a8 <memset>
        .half 0xf869
        .half 0x2109      ; movs r1, #9                      dog.c:21
        .half 0xa803      ; add r0, sp, #12
        .half 0xf7ff      ; bl 4c <svc>
        .half 0xffb7
        .half 0x2400      ; movs r4, #0                      dog.c:21
        .half 0x2308      ; movs r3, #8
        .half 0x9e03      ; ldr r6, [sp, #12]                dog.c:21
        .half 0x9f04      ; ldr r7, [sp, #16]
        .half 0x18f6      ; adds r6, r6, r3                  dog.c:21
        .half 0x4167      ; adcs r7, r4
        .half 0x4b25      ; ldr r3, [pc, #148]               dog.c:22
        .half 0x9604      ; str r6, [sp, #16]                dog.c:22
        .half 0x9301      ; str r3, [sp, #4]                 dog.c:22
        .half 0x2301      ; movs r3, #1                      dog.c:22
        .half 0x9303      ; str r3, [sp, #12]
        .half 0x9b01      ; ldr r3, [sp, #4]
        .half 0x9705      ; str r7, [sp, #20]
        .half 0x9306      ; str r3, [sp, #24]
        .half 0x2300      ; movs r3, #0
        .half 0x9307      ; str r3, [sp, #28]
        .half 0x9308      ; str r3, [sp, #32]
        .half 0x9309      ; str r3, [sp, #36]
        .half 0x2103      ; movs r1, #3                      dog.c:22
        .half 0xa803      ; add r0, sp, #12
        .half 0xf7ff      ; bl 4c <svc>
        .half 0xffa1
        .half 0x2500      ; movs r5, #0                      dog.c:19
        .half 0x2301      ; movs r3, #1                      dog.c:24
        .half 0x2400      ; movs r4, #0
        .half 0x425b      ; negs r3, r3
        .half 0x9305      ; str r3, [sp, #20]
        .half 0x4b1b      ; ldr r3, [pc, #108]
        .half 0x2101      ; movs r1, #1                      dog.c:24
        .half 0xa803      ; add r0, sp, #12
        .half 0x9306      ; str r3, [sp, #24]                dog.c:24
        .half 0x9403      ; str r4, [sp, #12]
        .half 0x9404      ; str r4, [sp, #16]
        .half 0x9407      ; str r4, [sp, #28]
        .half 0x9408      ; str r4, [sp, #32]
        .half 0x9409      ; str r4, [sp, #36]
        .half 0xf7ff      ; bl 4c <svc>                      dog.c:24
        .half 0xff91
        .half 0x9b05      ; ldr r3, [sp, #20]                dog.c:24
        .half 0x431d      ; orrs r5, r3                      dog.c:24
        .half 0x9b01      ; ldr r3, [sp, #4]                 dog.c:25
        .half 0x422b      ; tst r3, r5
        .half 0xd0eb      ; beq.n 10c <task+0x44>
        .half 0x0021      ; movs r1, r4                      dog.c:26
        .half 0x0028      ; movs r0, r5
        .half 0x4b13      ; ldr r3, [pc, #76]
        .half 0x4a14      ; ldr r2, [pc, #80]
        .half 0xf7ff      ; bl 80 <watch>
        .half 0xffa0
        .half 0x2101      ; movs r1, #1                      dog.c:27
        .half 0x0028      ; movs r0, r5
        .half 0x4b12      ; ldr r3, [pc, #72]
        .half 0x4a13      ; ldr r2, [pc, #76]
        .half 0xf7ff      ; bl 80 <watch>
        .half 0xff9a
        .half 0x2102      ; movs r1, #2                      dog.c:28
        .half 0x0028      ; movs r0, r5
        .half 0x4b11      ; ldr r3, [pc, #68]
        .half 0x4a12      ; ldr r2, [pc, #72]
        .half 0xf7ff      ; bl 80 <watch>
        .half 0xff94
        .half 0x4b11      ; ldr r3, [pc, #68]                dog.c:29
        .half 0x4a12      ; ldr r2, [pc, #72]
        .half 0x2103      ; movs r1, #3
        .half 0x0028      ; movs r0, r5
        .half 0xf7ff      ; bl 80 <watch>
        .half 0xff8e
        .half 0x2300      ; movs r3, #0                      dog.c:31
        .half 0x2208      ; movs r2, #8
        .half 0x18b6      ; adds r6, r6, r2
        .half 0x415f      ; adcs r7, r3
        .half 0x2301      ; movs r3, #1                      dog.c:32
        .half 0x9303      ; str r3, [sp, #12]
        .half 0x9b01      ; ldr r3, [sp, #4]
        .half 0x9604      ; str r6, [sp, #16]
        .half 0x9705      ; str r7, [sp, #20]
        .half 0x9306      ; str r3, [sp, #24]
        .half 0x9407      ; str r4, [sp, #28]
        .half 0x9408      ; str r4, [sp, #32]
        .half 0x9409      ; str r4, [sp, #36]
        .half 0xe7c0      ; b.n 102 <task+0x3a>              dog.c:32
        .word note_look
        .half 0xffff      ; .word 0x8000ffff
        .half 0x8000
        .word note_sup_uart
        .word note_uart
        .word note_sup_sensor
        .word note_sensor
        .word note_sup_logger
        .word note_logger
        .word note_sup_client
        .word note_client
memset:
        .half 0x0003      ; movs r3, r0                      mem.c:26
        .half 0x1882      ; adds r2, r0, r2
        .half 0x4293      ; cmp r3, r2                       mem.c:26
        .half 0xd100      ; bne.n 1b2 <memset+0xa>
        .half 0x4770      ; bx lr                            mem.c:29
        .half 0x7019      ; strb r1, [r3, #0]                mem.c:27
        .half 0x3301      ; adds r3, #1                      mem.c:26
        .half 0xe7f9      ; b.n 1ac <memset+0x4>
