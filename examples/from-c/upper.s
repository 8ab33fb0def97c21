; Made of upper.c by to-source.sh, gcc 12.2.1: not to be changed by hand.
; 384 bytes of flash, and 8 bytes of RAM from stack_top on:
; stack_top + 0 piece
start:
        .half 0xb510      ; push {r4, lr}                    start.c:10
        .half 0x4a0e      ; ldr r2, [pc, #56]
        .half 0x4b0e      ; ldr r3, [pc, #56]
        .half 0x490f      ; ldr r1, [pc, #60]                start.c:13
        .half 0xb088      ; sub sp, #32                      start.c:10
        .half 0x428b      ; cmp r3, r1                       start.c:13
        .half 0xd311      ; bcc.n 32 <start+0x32>
        .half 0x2400      ; movs r4, #0
        .half 0x4a0d      ; ldr r2, [pc, #52]                start.c:15
        .half 0x4293      ; cmp r3, r2
        .half 0xd310      ; bcc.n 38 <start+0x38>
        .half 0xf000      ; bl a0 <task>                     start.c:17
        .half 0xf843
        .half 0x2108      ; movs r1, #8                      start.c:18
        .half 0xa801      ; add r0, sp, #4
        .half 0x9401      ; str r4, [sp, #4]                 start.c:18
        .half 0x9402      ; str r4, [sp, #8]
        .half 0x9403      ; str r4, [sp, #12]
        .half 0x9404      ; str r4, [sp, #16]
        .half 0x9405      ; str r4, [sp, #20]
        .half 0x9406      ; str r4, [sp, #24]
        .half 0x9407      ; str r4, [sp, #28]
        .half 0xf000      ; bl 4c <svc>                      start.c:18
        .half 0xf80e
        .half 0xe7fe      ; b.n 30 <start+0x30>              start.c:18
        .half 0xca01      ; ldmia r2!, {r0}                  start.c:14
        .half 0xc301      ; stmia r3!, {r0}
        .half 0xe7e8      ; b.n a <start+0xa>
        .half 0xc310      ; stmia r3!, {r4}                  start.c:16
        .half 0xe7ea      ; b.n 12 <start+0x12>
        .word start + 384
        .word stack_top + 0
        .word stack_top + 0
        .word stack_top + 8
svc:
        .half 0xb5f0      ; push {r4, r5, r6, r7, lr}
        .half 0x4644      ; mov r4, r8
        .half 0x464d      ; mov r5, r9
        .half 0x4656      ; mov r6, sl
        .half 0x465f      ; mov r7, fp
        .half 0xb4f0      ; push {r4, r5, r6, r7}
        .half 0x468b      ; mov fp, r1
        .half 0x6902      ; ldr r2, [r0, #16]
        .half 0x4690      ; mov r8, r2
        .half 0x6942      ; ldr r2, [r0, #20]
        .half 0x4691      ; mov r9, r2
        .half 0x6982      ; ldr r2, [r0, #24]
        .half 0x4692      ; mov sl, r2
        .half 0x4602      ; mov r2, r0
        .half 0xcaf0      ; ldmia r2!, {r4, r5, r6, r7}
        .half 0xdf00      ; svc 0
        .half 0xc0f0      ; stmia r0!, {r4, r5, r6, r7}
        .half 0x4642      ; mov r2, r8
        .half 0x464b      ; mov r3, r9
        .half 0xc00c      ; stmia r0!, {r2, r3}
        .half 0xbcf0      ; pop {r4, r5, r6, r7}
        .half 0x46a0      ; mov r8, r4
        .half 0x46a9      ; mov r9, r5
        .half 0x46b2      ; mov sl, r6
        .half 0x46bb      ; mov fp, r7
        .half 0xbdf0      ; pop {r4, r5, r6, r7, pc}
reply_fault:
        .half 0x2300      ; movs r3, #0                      hubris.h:63
        .half 0xb500      ; push {lr}                        hubris.h:62
        .half 0xb089      ; sub sp, #36
        .half 0x9001      ; str r0, [sp, #4]                 hubris.h:63
        .half 0x9102      ; str r1, [sp, #8]
        .half 0xa801      ; add r0, sp, #4                   hubris.h:64
        .half 0x210c      ; movs r1, #12
        .half 0x9303      ; str r3, [sp, #12]                hubris.h:63
        .half 0x9304      ; str r3, [sp, #16]
        .half 0x9305      ; str r3, [sp, #20]
        .half 0x9306      ; str r3, [sp, #24]
        .half 0x9307      ; str r3, [sp, #28]
        .half 0xf7ff      ; bl 4c <svc>                      hubris.h:64
        .half 0xffd8
        .half 0xb009      ; add sp, #36                      hubris.h:65
        .half 0xbd00      ; pop {pc}
task:
        .half 0xb5f0      ; push {r4, r5, r6, r7, lr}        upper.c:33
        .half 0xb08b      ; sub sp, #44
        .half 0x2400      ; movs r4, #0                      upper.c:35
        .half 0x2101      ; movs r1, #1                      upper.c:35
        .half 0xa803      ; add r0, sp, #12
        .half 0x9403      ; str r4, [sp, #12]                upper.c:35
        .half 0x9404      ; str r4, [sp, #16]
        .half 0x9405      ; str r4, [sp, #20]
        .half 0x9406      ; str r4, [sp, #24]
        .half 0x9407      ; str r4, [sp, #28]
        .half 0x9408      ; str r4, [sp, #32]
        .half 0x9409      ; str r4, [sp, #36]
        .half 0xf7ff      ; bl 4c <svc>                      upper.c:35
        .half 0xffc8
        .half 0x9905      ; ldr r1, [sp, #20]                upper.c:35
        .half 0x9d04      ; ldr r5, [sp, #16]
        .half 0x9b07      ; ldr r3, [sp, #28]
        .half 0x9a08      ; ldr r2, [sp, #32]
        .half 0x2901      ; cmp r1, #1                       upper.c:36
        .half 0xd004      ; beq.n d2 <task+0x32>
        .half 0x0021      ; movs r1, r4                      upper.c:37
        .half 0x0028      ; movs r0, r5                      upper.c:41
        .half 0xf7ff      ; bl 80 <reply_fault>
        .half 0xffd8
        .half 0xe7e8      ; b.n a4 <task+0x4>
        .half 0x2103      ; movs r1, #3                      upper.c:39
        .half 0x2a01      ; cmp r2, #1                       upper.c:38
        .half 0xd1f8      ; bne.n ca <task+0x2a>
        .half 0x2b03      ; cmp r3, #3                       upper.c:40
        .half 0xd801      ; bhi.n e0 <task+0x40>
        .half 0x2104      ; movs r1, #4                      upper.c:41
        .half 0xe7f4      ; b.n ca <task+0x2a>
        .half 0x9402      ; str r4, [sp, #8]                 upper.c:43
        .half 0x2300      ; movs r3, #0                      upper.c:21
        .half 0x2208      ; movs r2, #8
        .half 0x4e25      ; ldr r6, [pc, #148]
        .half 0xa803      ; add r0, sp, #12                  upper.c:21
        .half 0x2104      ; movs r1, #4
        .half 0x9304      ; str r3, [sp, #16]                upper.c:21
        .half 0x9308      ; str r3, [sp, #32]
        .half 0x9309      ; str r3, [sp, #36]
        .half 0x9503      ; str r5, [sp, #12]
        .half 0x9405      ; str r4, [sp, #20]
        .half 0x9606      ; str r6, [sp, #24]
        .half 0x9207      ; str r2, [sp, #28]
        .half 0xf7ff      ; bl 4c <svc>                      upper.c:21
        .half 0xffa7
        .half 0x9b03      ; ldr r3, [sp, #12]                upper.c:21
        .half 0x9804      ; ldr r0, [sp, #16]                upper.c:21
        .half 0x2b00      ; cmp r3, #0                       upper.c:22
        .half 0xd12a      ; bne.n 15c <task+0xbc>
        .half 0x2800      ; cmp r0, #0
        .half 0xd028      ; beq.n 15c <task+0xbc>
        .half 0x0032      ; movs r2, r6
        .half 0x001f      ; movs r7, r3                      upper.c:9
        .half 0x7811      ; ldrb r1, [r2, #0]                upper.c:10
        .half 0x9101      ; str r1, [sp, #4]
        .half 0x2161      ; movs r1, #97
        .half 0x4249      ; negs r1, r1
        .half 0x468c      ; mov ip, r1
        .half 0x9901      ; ldr r1, [sp, #4]
        .half 0x448c      ; add ip, r1
        .half 0x4661      ; mov r1, ip
        .half 0x2919      ; cmp r1, #25
        .half 0xd803      ; bhi.n 12a <task+0x8a>
        .half 0x9901      ; ldr r1, [sp, #4]                 upper.c:11
        .half 0x3301      ; adds r3, #1                      upper.c:12
        .half 0x3920      ; subs r1, #32                     upper.c:11
        .half 0x7011      ; strb r1, [r2, #0]
        .half 0x3701      ; adds r7, #1                      upper.c:9
        .half 0x3201      ; adds r2, #1
        .half 0x42b8      ; cmp r0, r7
        .half 0xd1ed      ; bne.n 10e <task+0x6e>
        .half 0x9a02      ; ldr r2, [sp, #8]                 upper.c:24
        .half 0x9007      ; str r0, [sp, #28]                upper.c:25
        .half 0x18d3      ; adds r3, r2, r3                  upper.c:24
        .half 0x9302      ; str r3, [sp, #8]
        .half 0x2300      ; movs r3, #0                      upper.c:25
        .half 0x2105      ; movs r1, #5                      upper.c:25
        .half 0xa803      ; add r0, sp, #12
        .half 0x9304      ; str r3, [sp, #16]                upper.c:25
        .half 0x9308      ; str r3, [sp, #32]
        .half 0x9309      ; str r3, [sp, #36]
        .half 0x9503      ; str r5, [sp, #12]
        .half 0x9405      ; str r4, [sp, #20]
        .half 0x9606      ; str r6, [sp, #24]
        .half 0xf7ff      ; bl 4c <svc>                      upper.c:25
        .half 0xff7e
        .half 0x9b03      ; ldr r3, [sp, #12]                upper.c:25
        .half 0x9a04      ; ldr r2, [sp, #16]                upper.c:25
        .half 0x2b00      ; cmp r3, #0                       upper.c:26
        .half 0xd101      ; bne.n 15c <task+0xbc>
        .half 0x18a4      ; adds r4, r4, r2                  upper.c:28
        .half 0xe7c2      ; b.n e2 <task+0x42>               upper.c:21
        .half 0x9304      ; str r3, [sp, #16]                upper.c:45
        .half 0xab02      ; add r3, sp, #8
        .half 0x9305      ; str r3, [sp, #20]
        .half 0x2304      ; movs r3, #4
        .half 0x9306      ; str r3, [sp, #24]
        .half 0x2300      ; movs r3, #0
        .half 0x2102      ; movs r1, #2                      upper.c:45
        .half 0xa803      ; add r0, sp, #12
        .half 0x9503      ; str r5, [sp, #12]                upper.c:45
        .half 0x9307      ; str r3, [sp, #28]
        .half 0x9308      ; str r3, [sp, #32]
        .half 0x9309      ; str r3, [sp, #36]
        .half 0xf7ff      ; bl 4c <svc>                      upper.c:45
        .half 0xff6a
        .half 0xe794      ; b.n a4 <task+0x4>
        .half 0x46c0      ; nop
        .word stack_top + 0
