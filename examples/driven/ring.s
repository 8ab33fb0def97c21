; Made of ring.c by to-source.sh, gcc 12.2.1: not to be changed by hand.
; 408 bytes of flash, and 48 bytes of RAM from stack_top on:
; stack_top + 0 goes
; stack_top + 24 came
start:
        .half 0xb510      ; push {r4, lr}                    start.c:10
        .half 0x4a0e      ; ldr r2, [pc, #56]
        .half 0x4b0e      ; ldr r3, [pc, #56]
        .half 0x490f      ; ldr r1, [pc, #60]                start.c:13
        .half 0xb088      ; sub sp, #32                      start.c:10
        .half 0x428b      ; cmp r3, r1                       start.c:13
        .half 0xd311      ; bcc.n 32 <start+0x32>
        .half 0x2400      ; movs r4, #0
        .half 0x4a0d      ; ldr r2, [pc, #52]                start.c:15
        .half 0x4293      ; cmp r3, r2
        .half 0xd310      ; bcc.n 38 <start+0x38>
        .half 0xf000      ; bl a4 <task>                     start.c:17
        .half 0xf845
        .half 0x2108      ; movs r1, #8                      start.c:18
        .half 0xa801      ; add r0, sp, #4
        .half 0x9401      ; str r4, [sp, #4]                 start.c:18
        .half 0x9402      ; str r4, [sp, #8]
        .half 0x9403      ; str r4, [sp, #12]
        .half 0x9404      ; str r4, [sp, #16]
        .half 0x9405      ; str r4, [sp, #20]
        .half 0x9406      ; str r4, [sp, #24]
        .half 0x9407      ; str r4, [sp, #28]
        .half 0xf000      ; bl 4c <svc>                      start.c:18
        .half 0xf80e
        .half 0xe7fe      ; b.n 30 <start+0x30>              start.c:18
        .half 0xca01      ; ldmia r2!, {r0}                  start.c:14
        .half 0xc301      ; stmia r3!, {r0}
        .half 0xe7e8      ; b.n a <start+0xa>
        .half 0xc310      ; stmia r3!, {r4}                  start.c:16
        .half 0xe7ea      ; b.n 12 <start+0x12>
        .word start + 408
        .word stack_top + 0
        .word stack_top + 0
        .word stack_top + 48
svc:
        .half 0xb5f0      ; push {r4, r5, r6, r7, lr}
        .half 0x4644      ; mov r4, r8
        .half 0x464d      ; mov r5, r9
        .half 0x4656      ; mov r6, sl
        .half 0x465f      ; mov r7, fp
        .half 0xb4f0      ; push {r4, r5, r6, r7}
        .half 0x468b      ; mov fp, r1
        .half 0x6902      ; ldr r2, [r0, #16]
        .half 0x4690      ; mov r8, r2
        .half 0x6942      ; ldr r2, [r0, #20]
        .half 0x4691      ; mov r9, r2
        .half 0x6982      ; ldr r2, [r0, #24]
        .half 0x4692      ; mov sl, r2
        .half 0x4602      ; mov r2, r0
        .half 0xcaf0      ; ldmia r2!, {r4, r5, r6, r7}
        .half 0xdf00      ; svc 0
        .half 0xc0f0      ; stmia r0!, {r4, r5, r6, r7}
        .half 0x4642      ; mov r2, r8
        .half 0x464b      ; mov r3, r9
        .half 0xc00c      ; stmia r0!, {r2, r3}
        .half 0xbcf0      ; pop {r4, r5, r6, r7}
        .half 0x46a0      ; mov r8, r4
        .half 0x46a9      ; mov r9, r5
        .half 0x46b2      ; mov sl, r6
        .half 0x46bb      ; mov fp, r7
        .half 0xbdf0      ; pop {r4, r5, r6, r7, pc}
irq_control_constprop_0:
        .half 0x2301      ; movs r3, #1                      hubris.h:117
        .half 0xb500      ; push {lr}                        hubris.h:115
        .half 0xb089      ; sub sp, #36
        .half 0x9302      ; str r3, [sp, #8]                 hubris.h:117
        .half 0x2300      ; movs r3, #0
        .half 0x9001      ; str r0, [sp, #4]
        .half 0x2107      ; movs r1, #7                      hubris.h:118
        .half 0xa801      ; add r0, sp, #4
        .half 0x9303      ; str r3, [sp, #12]                hubris.h:117
        .half 0x9304      ; str r3, [sp, #16]
        .half 0x9305      ; str r3, [sp, #20]
        .half 0x9306      ; str r3, [sp, #24]
        .half 0x9307      ; str r3, [sp, #28]
        .half 0xf7ff      ; bl 4c <svc>                      hubris.h:118
        .half 0xffd7
        .half 0xb009      ; add sp, #36                      hubris.h:119
        .half 0xbd00      ; pop {pc}
        .half 0x0000
task:
        .half 0xb5f0      ; push {r4, r5, r6, r7, lr}        ring.c:23
        .half 0x2700      ; movs r7, #0                      ring.c:30
        .half 0xb08b      ; sub sp, #44                      ring.c:23
        .half 0x4c34      ; ldr r4, [pc, #208]               ring.c:26
        .half 0x4e34      ; ldr r6, [pc, #208]
        .half 0x6823      ; ldr r3, [r4, #0]
        .half 0x2b0f      ; cmp r3, #15
        .half 0xd802      ; bhi.n ba <task+0x16>
        .half 0x0030      ; movs r0, r6                      ring.c:27
        .half 0xf7ff      ; bl 80 <irq_control.constprop.0>
        .half 0xffe3
        .half 0x4b32      ; ldr r3, [pc, #200]               ring.c:29
        .half 0x4d32      ; ldr r5, [pc, #200]               ring.c:28
        .half 0x9301      ; str r3, [sp, #4]                 ring.c:29
        .half 0x682b      ; ldr r3, [r5, #0]                 ring.c:28
        .half 0x2b00      ; cmp r3, #0
        .half 0xd002      ; beq.n cc <task+0x28>
        .half 0x9801      ; ldr r0, [sp, #4]                 ring.c:29
        .half 0xf7ff      ; bl 80 <irq_control.constprop.0>
        .half 0xffda
        .half 0x9b01      ; ldr r3, [sp, #4]                 ring.c:30
        .half 0x2101      ; movs r1, #1                      ring.c:30
        .half 0x431e      ; orrs r6, r3                      ring.c:30
        .half 0x4b2e      ; ldr r3, [pc, #184]               ring.c:30
        .half 0xa803      ; add r0, sp, #12                  ring.c:30
        .half 0x9306      ; str r3, [sp, #24]                ring.c:30
        .half 0x9703      ; str r7, [sp, #12]
        .half 0x9704      ; str r7, [sp, #16]
        .half 0x9605      ; str r6, [sp, #20]
        .half 0x9707      ; str r7, [sp, #28]
        .half 0x9708      ; str r7, [sp, #32]
        .half 0x9709      ; str r7, [sp, #36]
        .half 0xf7ff      ; bl 4c <svc>                      ring.c:30
        .half 0xffb2
        .half 0x9b05      ; ldr r3, [sp, #20]                ring.c:30
        .half 0x9a01      ; ldr r2, [sp, #4]                 ring.c:31
        .half 0x421a      ; tst r2, r3
        .half 0xd00b      ; beq.n 108 <task+0x64>
        .half 0x210f      ; movs r1, #15                     ring.c:15
        .half 0x686b      ; ldr r3, [r5, #4]                 ring.c:14
        .half 0x18ea      ; adds r2, r5, r3
        .half 0x3301      ; adds r3, #1                      ring.c:15
        .half 0x400b      ; ands r3, r1
        .half 0x7a12      ; ldrb r2, [r2, #8]                ring.c:14
        .half 0x606b      ; str r3, [r5, #4]                 ring.c:15
        .half 0x682b      ; ldr r3, [r5, #0]                 ring.c:16
        .half 0x3b01      ; subs r3, #1
        .half 0x602b      ; str r3, [r5, #0]
        .half 0x4b22      ; ldr r3, [pc, #136]               ring.c:32
        .half 0x701a      ; strb r2, [r3, #0]
        .half 0x2200      ; movs r2, #0                      ring.c:10
        .half 0x6863      ; ldr r3, [r4, #4]
        .half 0x4921      ; ldr r1, [pc, #132]               ring.c:33
        .half 0x469c      ; mov ip, r3                       ring.c:10
        .half 0x6823      ; ldr r3, [r4, #0]
        .half 0x790e      ; ldrb r6, [r1, #4]                ring.c:33
        .half 0x2e00      ; cmp r6, #0
        .half 0xd10a      ; bne.n 12e <task+0x8a>
        .half 0x2a00      ; cmp r2, #0
        .half 0xd000      ; beq.n 11e <task+0x7a>
        .half 0x6023      ; str r3, [r4, #0]
        .half 0x2300      ; movs r3, #0                      ring.c:10
        .half 0x6821      ; ldr r1, [r4, #0]
        .half 0x2900      ; cmp r1, #0                       ring.c:35
        .half 0xd10f      ; bne.n 146 <task+0xa2>
        .half 0x2b00      ; cmp r3, #0
        .half 0xd0bf      ; beq.n aa <task+0x6>
        .half 0x6021      ; str r1, [r4, #0]
        .half 0xe7bd      ; b.n aa <task+0x6>
        .half 0x2b0f      ; cmp r3, #15                      ring.c:33
        .half 0xd8f2      ; bhi.n 118 <task+0x74>
        .half 0x4662      ; mov r2, ip                       ring.c:10
        .half 0x200f      ; movs r0, #15
        .half 0x18d2      ; adds r2, r2, r3
        .half 0x780e      ; ldrb r6, [r1, #0]                ring.c:34
        .half 0x4002      ; ands r2, r0                      ring.c:10
        .half 0x18a2      ; adds r2, r4, r2
        .half 0x7216      ; strb r6, [r2, #8]
        .half 0x3301      ; adds r3, #1
        .half 0x2201      ; movs r2, #1
        .half 0xe7e5      ; b.n 112 <task+0x6e>
        .half 0x6828      ; ldr r0, [r5, #0]                 ring.c:35
        .half 0x280f      ; cmp r0, #15
        .half 0xd8ec      ; bhi.n 126 <task+0x82>
        .half 0x260f      ; movs r6, #15                     ring.c:15
        .half 0x6863      ; ldr r3, [r4, #4]                 ring.c:14
        .half 0x3901      ; subs r1, #1                      ring.c:16
        .half 0x18e2      ; adds r2, r4, r3                  ring.c:14
        .half 0x7a12      ; ldrb r2, [r2, #8]
        .half 0x3301      ; adds r3, #1                      ring.c:15
        .half 0x4033      ; ands r3, r6
        .half 0x6063      ; str r3, [r4, #4]
        .half 0x0013      ; movs r3, r2                      ring.c:20
        .half 0x3b61      ; subs r3, #97
        .half 0x2b19      ; cmp r3, #25
        .half 0xd801      ; bhi.n 168 <task+0xc4>
        .half 0x3a20      ; subs r2, #32
        .half 0xb2d2      ; uxtb r2, r2
        .half 0x686b      ; ldr r3, [r5, #4]                 ring.c:10
        .half 0x1c46      ; adds r6, r0, #1
        .half 0x18c3      ; adds r3, r0, r3
        .half 0x200f      ; movs r0, #15
        .half 0x4003      ; ands r3, r0
        .half 0x18eb      ; adds r3, r5, r3
        .half 0x721a      ; strb r2, [r3, #8]
        .half 0x602e      ; str r6, [r5, #0]
        .half 0x2301      ; movs r3, #1
        .half 0xe7d2      ; b.n 122 <task+0x7e>
        .word stack_top + 24
        .word note_rx
        .word note_tx
        .word stack_top + 0
        .half 0xffff      ; .word 0x8000ffff
        .half 0x8000
        .word region_out
        .word region_in
