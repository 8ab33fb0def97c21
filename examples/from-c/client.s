; Made of client.c by to-source.sh, gcc 12.2.1: not to be changed by hand.
; 380 bytes of flash, and 16 bytes of RAM from stack_top on:
; stack_top + 0 text
; stack_top + 12 changed
start:
        .half 0xb510      ; push {r4, lr}                    start.c:10
        .half 0x4a0e      ; ldr r2, [pc, #56]
        .half 0x4b0e      ; ldr r3, [pc, #56]
        .half 0x490f      ; ldr r1, [pc, #60]                start.c:13
        .half 0xb088      ; sub sp, #32                      start.c:10
        .half 0x428b      ; cmp r3, r1                       start.c:13
        .half 0xd311      ; bcc.n 32 <start+0x32>
        .half 0x2400      ; movs r4, #0
        .half 0x4a0d      ; ldr r2, [pc, #52]                start.c:15
        .half 0x4293      ; cmp r3, r2
        .half 0xd310      ; bcc.n 38 <start+0x38>
        .half 0xf000      ; bl 80 <task>                     start.c:17
        .half 0xf833
        .half 0x2108      ; movs r1, #8                      start.c:18
        .half 0xa801      ; add r0, sp, #4
        .half 0x9401      ; str r4, [sp, #4]                 start.c:18
        .half 0x9402      ; str r4, [sp, #8]
        .half 0x9403      ; str r4, [sp, #12]
        .half 0x9404      ; str r4, [sp, #16]
        .half 0x9405      ; str r4, [sp, #20]
        .half 0x9406      ; str r4, [sp, #24]
        .half 0x9407      ; str r4, [sp, #28]
        .half 0xf000      ; bl 4c <svc>                      start.c:18
        .half 0xf80e
        .half 0xe7fe      ; b.n 30 <start+0x30>              start.c:18
        .half 0xca01      ; ldmia r2!, {r0}                  start.c:14
        .half 0xc301      ; stmia r3!, {r0}
        .half 0xe7e8      ; b.n a <start+0xa>
        .half 0xc310      ; stmia r3!, {r4}                  start.c:16
        .half 0xe7ea      ; b.n 12 <start+0x12>
        .word start + 368
        .word stack_top + 0
        .word stack_top + 12
        .word stack_top + 16
svc:
        .half 0xb5f0      ; push {r4, r5, r6, r7, lr}
        .half 0x4644      ; mov r4, r8
        .half 0x464d      ; mov r5, r9
        .half 0x4656      ; mov r6, sl
        .half 0x465f      ; mov r7, fp
        .half 0xb4f0      ; push {r4, r5, r6, r7}
        .half 0x468b      ; mov fp, r1
        .half 0x6902      ; ldr r2, [r0, #16]
        .half 0x4690      ; mov r8, r2
        .half 0x6942      ; ldr r2, [r0, #20]
        .half 0x4691      ; mov r9, r2
        .half 0x6982      ; ldr r2, [r0, #24]
        .half 0x4692      ; mov sl, r2
        .half 0x4602      ; mov r2, r0
        .half 0xcaf0      ; ldmia r2!, {r4, r5, r6, r7}
        .half 0xdf00      ; svc 0
        .half 0xc0f0      ; stmia r0!, {r4, r5, r6, r7}
        .half 0x4642      ; mov r2, r8
        .half 0x464b      ; mov r3, r9
        .half 0xc00c      ; stmia r0!, {r2, r3}
        .half 0xbcf0      ; pop {r4, r5, r6, r7}
        .half 0x46a0      ; mov r8, r4
        .half 0x46a9      ; mov r9, r5
        .half 0x46b2      ; mov sl, r6
        .half 0x46bb      ; mov fp, r7
        .half 0xbdf0      ; pop {r4, r5, r6, r7, pc}
task:
        .half 0xb570      ; push {r4, r5, r6, lr}            client.c:24
        .half 0xb08a      ; sub sp, #40
        .half 0x466b      ; mov r3, sp                       client.c:25
        .half 0x0019      ; movs r1, r3
        .half 0x4a2c      ; ldr r2, [pc, #176]
        .half 0x4e2d      ; ldr r6, [pc, #180]               client.c:26
        .half 0xca31      ; ldmia r2!, {r0, r4, r5}          client.c:25
        .half 0xc131      ; stmia r1!, {r0, r4, r5}
        .half 0x2501      ; movs r5, #1                      client.c:26
        .half 0x4a2c      ; ldr r2, [pc, #176]
        .half 0x2400      ; movs r4, #0
        .half 0x0412      ; lsls r2, r2, #16
        .half 0x432a      ; orrs r2, r5
        .half 0x9203      ; str r2, [sp, #12]
        .half 0x2204      ; movs r2, #4
        .half 0xa803      ; add r0, sp, #12                  client.c:26
        .half 0x0021      ; movs r1, r4
        .half 0x9207      ; str r2, [sp, #28]                client.c:26
        .half 0x9308      ; str r3, [sp, #32]
        .half 0x9404      ; str r4, [sp, #16]
        .half 0x9405      ; str r4, [sp, #20]
        .half 0x9606      ; str r6, [sp, #24]
        .half 0x9509      ; str r5, [sp, #36]
        .half 0xf7ff      ; bl 4c <svc>                      client.c:26
        .half 0xffcd
        .half 0x9a03      ; ldr r2, [sp, #12]                client.c:26
        .half 0x4b24      ; ldr r3, [pc, #144]               client.c:29
        .half 0x4825      ; ldr r0, [pc, #148]
        .half 0x42a2      ; cmp r2, r4                       client.c:27
        .half 0xd00d      ; beq.n d8 <task+0x58>
        .half 0x2108      ; movs r1, #8                      client.c:28
        .half 0xa803      ; add r0, sp, #12
        .half 0x9503      ; str r5, [sp, #12]                client.c:28
        .half 0x9204      ; str r2, [sp, #16]
        .half 0x9405      ; str r4, [sp, #20]
        .half 0x9406      ; str r4, [sp, #24]
        .half 0x9407      ; str r4, [sp, #28]
        .half 0x9408      ; str r4, [sp, #32]
        .half 0x9409      ; str r4, [sp, #36]
        .half 0xf7ff      ; bl 4c <svc>                      client.c:28
        .half 0xffbd
        .half 0xe7fe      ; b.n d2 <task+0x52>               client.c:28
        .half 0x7002      ; strb r2, [r0, #0]                client.c:7
        .half 0x3301      ; adds r3, #1                      client.c:29
        .half 0x781a      ; ldrb r2, [r3, #0]                client.c:29
        .half 0x2a00      ; cmp r2, #0
        .half 0xd1fa      ; bne.n d4 <task+0x54>
        .half 0x2320      ; movs r3, #32                     client.c:7
        .half 0x0011      ; movs r1, r2                      client.c:13
        .half 0x7003      ; strb r3, [r0, #0]                client.c:7
        .half 0x6834      ; ldr r4, [r6, #0]                 client.c:32
        .half 0x4e1a      ; ldr r6, [pc, #104]               client.c:15
        .half 0x008b      ; lsls r3, r1, #2
        .half 0x58f5      ; ldr r5, [r6, r3]
        .half 0x2300      ; movs r3, #0                      client.c:14
        .half 0xe001      ; b.n f4 <task+0x74>
        .half 0x3301      ; adds r3, #1                      client.c:16
        .half 0x1b64      ; subs r4, r4, r5                  client.c:15
        .half 0x42ac      ; cmp r4, r5
        .half 0xd2fb      ; bcs.n f0 <task+0x70>
        .half 0x18d2      ; adds r2, r2, r3                  client.c:17
        .half 0x2a00      ; cmp r2, #0                       client.c:18
        .half 0xd116      ; bne.n 12c <task+0xac>
        .half 0x2902      ; cmp r1, #2
        .half 0xd001      ; beq.n 106 <task+0x86>
        .half 0x3101      ; adds r1, #1                      client.c:13
        .half 0xe7f0      ; b.n e8 <task+0x68>
        .half 0x3330      ; adds r3, #48                     client.c:19
        .half 0xb2db      ; uxtb r3, r3
        .half 0x7003      ; strb r3, [r0, #0]                client.c:7
        .half 0x230a      ; movs r3, #10
        .half 0x7003      ; strb r3, [r0, #0]
        .half 0x2300      ; movs r3, #0                      client.c:35
        .half 0x4a10      ; ldr r2, [pc, #64]
        .half 0x2101      ; movs r1, #1                      client.c:35
        .half 0xa803      ; add r0, sp, #12
        .half 0x9303      ; str r3, [sp, #12]                client.c:35
        .half 0x9304      ; str r3, [sp, #16]
        .half 0x9305      ; str r3, [sp, #20]
        .half 0x9206      ; str r2, [sp, #24]
        .half 0x9307      ; str r3, [sp, #28]
        .half 0x9308      ; str r3, [sp, #32]
        .half 0x9309      ; str r3, [sp, #36]
        .half 0xf7ff      ; bl 4c <svc>                      client.c:35
        .half 0xff91
        .half 0xe7f1      ; b.n 110 <task+0x90>              client.c:35
        .half 0x3330      ; adds r3, #48                     client.c:19
        .half 0xb2db      ; uxtb r3, r3
        .half 0x3101      ; adds r1, #1                      client.c:13
        .half 0x7003      ; strb r3, [r0, #0]                client.c:7
        .half 0x2903      ; cmp r1, #3                       client.c:13
        .half 0xd0e9      ; beq.n 10c <task+0x8c>
        .half 0xe7d6      ; b.n e8 <task+0x68>
        .half 0x46c0      ; nop
        .word start + 356
        .word stack_top + 12
        .word task_upper
        .word stack_top + 0
        .word region_out
        .word start + 344
        .half 0xffff      ; .word 0x8000ffff
        .half 0x8000
powers_0:
        .half 0x0064      ; d...............
        .half 0x0000
        .half 0x000a
        .half 0x0000
        .half 0x0001
        .half 0x0000
        .half 0x0003
        .half 0x0000
        .word stack_top + 0
        .half 0x000a
        .half 0x0000
data_load:
        .half 0x6174
        .half 0x6b73
        .half 0x2073
        .half 0x6e69
        .half 0x6320
        .half 0x0000
