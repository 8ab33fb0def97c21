; Made of sup.rs by to-source.sh, rustc 1.63.0, and from-c: not to be changed by hand.
; 268 bytes of flash, and 0 bytes of RAM from stack_top on.
start:
        .half 0xb510      ; push {r4, lr}                    start.c:10
        .half 0x4a0e      ; ldr r2, [pc, #56]
        .half 0x4b0e      ; ldr r3, [pc, #56]
        .half 0x490f      ; ldr r1, [pc, #60]                start.c:13
        .half 0xb088      ; sub sp, #32                      start.c:10
        .half 0x428b      ; cmp r3, r1                       start.c:13
        .half 0xd311      ; bcc.n 32 <start+0x32>
        .half 0x2400      ; movs r4, #0
        .half 0x4a0d      ; ldr r2, [pc, #52]                start.c:15
        .half 0x4293      ; cmp r3, r2
        .half 0xd310      ; bcc.n 38 <start+0x38>
        .half 0xf000      ; bl 80 <task>                     start.c:17
        .half 0xf833
        .half 0x2108      ; movs r1, #8                      start.c:18
        .half 0xa801      ; add r0, sp, #4
        .half 0x9401      ; str r4, [sp, #4]                 start.c:18
        .half 0x9402      ; str r4, [sp, #8]
        .half 0x9403      ; str r4, [sp, #12]
        .half 0x9404      ; str r4, [sp, #16]
        .half 0x9405      ; str r4, [sp, #20]
        .half 0x9406      ; str r4, [sp, #24]
        .half 0x9407      ; str r4, [sp, #28]
        .half 0xf000      ; bl 4c <svc>                      start.c:18
        .half 0xf80e
        .half 0xe7fe      ; b.n 30 <start+0x30>              start.c:18
        .half 0xca01      ; ldmia r2!, {r0}                  start.c:14
        .half 0xc301      ; stmia r3!, {r0}
        .half 0xe7e8      ; b.n a <start+0xa>
        .half 0xc310      ; stmia r3!, {r4}                  start.c:16
        .half 0xe7ea      ; b.n 12 <start+0x12>
        .word start + 268
        .word stack_top + 0
        .word stack_top + 0
        .word stack_top + 0
svc:
        .half 0xb5f0      ; push {r4, r5, r6, r7, lr}
        .half 0x4644      ; mov r4, r8
        .half 0x464d      ; mov r5, r9
        .half 0x4656      ; mov r6, sl
        .half 0x465f      ; mov r7, fp
        .half 0xb4f0      ; push {r4, r5, r6, r7}
        .half 0x468b      ; mov fp, r1
        .half 0x6902      ; ldr r2, [r0, #16]
        .half 0x4690      ; mov r8, r2
        .half 0x6942      ; ldr r2, [r0, #20]
        .half 0x4691      ; mov r9, r2
        .half 0x6982      ; ldr r2, [r0, #24]
        .half 0x4692      ; mov sl, r2
        .half 0x4602      ; mov r2, r0
        .half 0xcaf0      ; ldmia r2!, {r4, r5, r6, r7}
        .half 0xdf00      ; svc 0
        .half 0xc0f0      ; stmia r0!, {r4, r5, r6, r7}
        .half 0x4642      ; mov r2, r8
        .half 0x464b      ; mov r3, r9
        .half 0xc00c      ; stmia r0!, {r2, r3}
        .half 0xbcf0      ; pop {r4, r5, r6, r7}
        .half 0x46a0      ; mov r8, r4
        .half 0x46a9      ; mov r9, r5
        .half 0x46b2      ; mov sl, r6
        .half 0x46bb      ; mov fp, r7
        .half 0xbdf0      ; pop {r4, r5, r6, r7, pc}
task:
        .half 0xb580      ; push {r7, lr}                    sup.rs:9
        .half 0xaf00      ; add r7, sp, #0
        .half 0xb08c      ; sub sp, #48
        .half 0x4e20      ; ldr r6, [pc, #128]
        .half 0x2400      ; movs r4, #0
        .half 0x940b      ; str r4, [sp, #44]                userlib.rs:25
        .half 0x940a      ; str r4, [sp, #40]
        .half 0x9409      ; str r4, [sp, #36]
        .half 0x481b      ; ldr r0, [pc, #108]
        .half 0x9008      ; str r0, [sp, #32]
        .half 0x481b      ; ldr r0, [pc, #108]
        .half 0x9007      ; str r0, [sp, #28]
        .half 0x9406      ; str r4, [sp, #24]
        .half 0x9605      ; str r6, [sp, #20]
        .half 0xa805      ; add r0, sp, #20
        .half 0x2501      ; movs r5, #1
        .half 0x4629      ; mov r1, r5                       userlib.rs:28
        .half 0xf7ff      ; bl 4c <svc>
        .half 0xffd3
        .half 0x9401      ; str r4, [sp, #4]                 userlib.rs:341
        .half 0x9502      ; str r5, [sp, #8]                 userlib.rs:342
        .half 0x940b      ; str r4, [sp, #44]                userlib.rs:25
        .half 0x960a      ; str r6, [sp, #40]
        .half 0x2004      ; movs r0, #4
        .half 0x9009      ; str r0, [sp, #36]
        .half 0xa901      ; add r1, sp, #4
        .half 0x9108      ; str r1, [sp, #32]
        .half 0x9007      ; str r0, [sp, #28]
        .half 0xa802      ; add r0, sp, #8
        .half 0x9006      ; str r0, [sp, #24]
        .half 0x480f      ; ldr r0, [pc, #60]
        .half 0x1dc0      ; adds r0, r0, #7
        .half 0x9005      ; str r0, [sp, #20]
        .half 0xa805      ; add r0, sp, #20
        .half 0x4621      ; mov r1, r4                       userlib.rs:28
        .half 0xf7ff      ; bl 4c <svc>
        .half 0xffc1
        .half 0x9d01      ; ldr r5, [sp, #4]                 userlib.rs:315
        .half 0x2d00      ; cmp r5, #0                       sup.rs:15
        .half 0xd0db      ; beq.n 88 <task+0x8>
        .half 0x2001      ; movs r0, #1
        .half 0x9003      ; str r0, [sp, #12]                userlib.rs:329
        .half 0x9502      ; str r5, [sp, #8]                 intrinsics.rs:2137
        .half 0x940b      ; str r4, [sp, #44]                userlib.rs:25
        .half 0x960a      ; str r6, [sp, #40]
        .half 0x9409      ; str r4, [sp, #36]
        .half 0x9608      ; str r6, [sp, #32]
        .half 0x2008      ; movs r0, #8
        .half 0x9007      ; str r0, [sp, #28]
        .half 0xa802      ; add r0, sp, #8
        .half 0x9006      ; str r0, [sp, #24]
        .half 0x4805      ; ldr r0, [pc, #20]
        .half 0x9005      ; str r0, [sp, #20]
        .half 0xa805      ; add r0, sp, #20
        .half 0x4621      ; mov r1, r4                       userlib.rs:28
        .half 0xf7ff      ; bl 4c <svc>
        .half 0xffad
        .half 0x1c6d      ; adds r5, r5, #1                  sup.rs:18
        .half 0x2d03      ; cmp r5, #3                       sup.rs:14
        .half 0xd3d6      ; bcc.n a6 <task+0x26>
        .half 0xe7c6      ; b.n 88 <task+0x8>
        .half 0x46c0      ; nop
        .half 0x0002      ; .word 0xffff0002
        .half 0xffff
        .half 0xffff      ; .word 0x8000ffff
        .half 0x8000
        .word note_fault
        .word start + 268
