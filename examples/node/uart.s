; Made of uart.c by to-source.sh, gcc 12.2.1: not to be changed by hand.
; 748 bytes of flash, and 40 bytes of RAM from stack_top on:
; stack_top + 0 room
; stack_top + 4 writer
; stack_top + 16 count
; stack_top + 20 first
; stack_top + 24 ring
start:
        .half 0xb510      ; push {r4, lr}                    start.c:10
        .half 0x4a0e      ; ldr r2, [pc, #56]
        .half 0x4b0e      ; ldr r3, [pc, #56]
        .half 0x490f      ; ldr r1, [pc, #60]                start.c:13
        .half 0xb088      ; sub sp, #32                      start.c:10
        .half 0x428b      ; cmp r3, r1                       start.c:13
        .half 0xd311      ; bcc.n 32 <start+0x32>
        .half 0x2400      ; movs r4, #0
        .half 0x4a0d      ; ldr r2, [pc, #52]                start.c:15
        .half 0x4293      ; cmp r3, r2
        .half 0xd310      ; bcc.n 38 <start+0x38>
        .half 0xf000      ; bl 238 <task>                    start.c:17
        .half 0xf90f
        .half 0x2108      ; movs r1, #8                      start.c:18
        .half 0xa801      ; add r0, sp, #4
        .half 0x9401      ; str r4, [sp, #4]                 start.c:18
        .half 0x9402      ; str r4, [sp, #8]
        .half 0x9403      ; str r4, [sp, #12]
        .half 0x9404      ; str r4, [sp, #16]
        .half 0x9405      ; str r4, [sp, #20]
        .half 0x9406      ; str r4, [sp, #24]
        .half 0x9407      ; str r4, [sp, #28]
        .half 0xf000      ; bl 4c <svc>                      start.c:18
        .half 0xf80e
        .half 0xe7fe      ; b.n 30 <start+0x30>              start.c:18
        .half 0xca01      ; ldmia r2!, {r0}                  start.c:14
        .half 0xc301      ; stmia r3!, {r0}
        .half 0xe7e8      ; b.n a <start+0xa>
        .half 0xc310      ; stmia r3!, {r4}                  start.c:16
        .half 0xe7ea      ; b.n 12 <start+0x12>
        .word start + 744
        .word stack_top + 0
        .word stack_top + 4
        .word stack_top + 40
svc:
        .half 0xb5f0      ; push {r4, r5, r6, r7, lr}
        .half 0x4644      ; mov r4, r8
        .half 0x464d      ; mov r5, r9
        .half 0x4656      ; mov r6, sl
        .half 0x465f      ; mov r7, fp
        .half 0xb4f0      ; push {r4, r5, r6, r7}
        .half 0x468b      ; mov fp, r1
        .half 0x6902      ; ldr r2, [r0, #16]
        .half 0x4690      ; mov r8, r2
        .half 0x6942      ; ldr r2, [r0, #20]
        .half 0x4691      ; mov r9, r2
        .half 0x6982      ; ldr r2, [r0, #24]
        .half 0x4692      ; mov sl, r2
        .half 0x4602      ; mov r2, r0
        .half 0xcaf0      ; ldmia r2!, {r4, r5, r6, r7}
        .half 0xdf00      ; svc 0
        .half 0xc0f0      ; stmia r0!, {r4, r5, r6, r7}
        .half 0x4642      ; mov r2, r8
        .half 0x464b      ; mov r3, r9
        .half 0xc00c      ; stmia r0!, {r2, r3}
        .half 0xbcf0      ; pop {r4, r5, r6, r7}
        .half 0x46a0      ; mov r8, r4
        .half 0x46a9      ; mov r9, r5
        .half 0x46b2      ; mov sl, r6
        .half 0x46bb      ; mov fp, r7
        .half 0xbdf0      ; pop {r4, r5, r6, r7, pc}
pump:
        .half 0xb5f7      ; push {r0, r1, r2, r4, r5, r6, r7, lr} uart.c:15
        .half 0x4f11      ; ldr r7, [pc, #68]                uart.c:17
        .half 0x2600      ; movs r6, #0                      uart.c:16
        .half 0x9700      ; str r7, [sp, #0]                 uart.c:17
        .half 0x4f10      ; ldr r7, [pc, #64]
        .half 0x4d11      ; ldr r5, [pc, #68]
        .half 0x9701      ; str r7, [sp, #4]
        .half 0x2701      ; movs r7, #1                      uart.c:16
        .half 0x46bc      ; mov ip, r7
        .half 0x4c10      ; ldr r4, [pc, #64]
        .half 0x4810      ; ldr r0, [pc, #64]
        .half 0x682b      ; ldr r3, [r5, #0]
        .half 0x6821      ; ldr r1, [r4, #0]
        .half 0x6802      ; ldr r2, [r0, #0]
        .half 0x2900      ; cmp r1, #0                       uart.c:16
        .half 0xd105      ; bne.n ac <pump+0x2c>
        .half 0x2e00      ; cmp r6, #0
        .half 0xd002      ; beq.n aa <pump+0x2a>
        .half 0x602b      ; str r3, [r5, #0]
        .half 0x6021      ; str r1, [r4, #0]
        .half 0x6002      ; str r2, [r0, #0]
        .half 0xbdf7      ; pop {r0, r1, r2, r4, r5, r6, r7, pc} uart.c:20
        .half 0x2a00      ; cmp r2, #0                       uart.c:16
        .half 0xd0f7      ; beq.n a0 <pump+0x20>
        .half 0x9e00      ; ldr r6, [sp, #0]                 uart.c:17
        .half 0x9f01      ; ldr r7, [sp, #4]
        .half 0x5cf6      ; ldrb r6, [r6, r3]
        .half 0x3301      ; adds r3, #1                      uart.c:18
        .half 0x703e      ; strb r6, [r7, #0]                uart.c:17
        .half 0x260f      ; movs r6, #15                     uart.c:18
        .half 0x3901      ; subs r1, #1                      uart.c:16
        .half 0x4033      ; ands r3, r6                      uart.c:18
        .half 0x3a01      ; subs r2, #1                      uart.c:16
        .half 0x4666      ; mov r6, ip
        .half 0xe7ea      ; b.n 9c <pump+0x1c>
        .half 0x46c0      ; nop
        .word stack_top + 24
        .word region_out
        .word stack_top + 20
        .word stack_top + 0
        .word stack_top + 16
reply_fault:
        .half 0x2300      ; movs r3, #0                      hubris.h:63
        .half 0xb500      ; push {lr}                        hubris.h:62
        .half 0xb089      ; sub sp, #36
        .half 0x9001      ; str r0, [sp, #4]                 hubris.h:63
        .half 0x9102      ; str r1, [sp, #8]
        .half 0xa801      ; add r0, sp, #4                   hubris.h:64
        .half 0x210c      ; movs r1, #12
        .half 0x9303      ; str r3, [sp, #12]                hubris.h:63
        .half 0x9304      ; str r3, [sp, #16]
        .half 0x9305      ; str r3, [sp, #20]
        .half 0x9306      ; str r3, [sp, #24]
        .half 0x9307      ; str r3, [sp, #28]
        .half 0xf7ff      ; bl 4c <svc>                      hubris.h:64
        .half 0xffaa
        .half 0xb009      ; add sp, #36                      hubris.h:65
        .half 0xbd00      ; pop {pc}
irq_control_constprop_0:
        .half 0x2301      ; movs r3, #1                      hubris.h:117
        .half 0xb500      ; push {lr}                        hubris.h:115
        .half 0xb089      ; sub sp, #36
        .half 0x9302      ; str r3, [sp, #8]                 hubris.h:117
        .half 0x2300      ; movs r3, #0
        .half 0x9001      ; str r0, [sp, #4]
        .half 0x2107      ; movs r1, #7                      hubris.h:118
        .half 0xa801      ; add r0, sp, #4
        .half 0x9303      ; str r3, [sp, #12]                hubris.h:117
        .half 0x9304      ; str r3, [sp, #16]
        .half 0x9305      ; str r3, [sp, #20]
        .half 0x9306      ; str r3, [sp, #24]
        .half 0x9307      ; str r3, [sp, #28]
        .half 0xf7ff      ; bl 4c <svc>                      hubris.h:118
        .half 0xff99
        .half 0xb009      ; add sp, #36                      hubris.h:119
        .half 0xbd00      ; pop {pc}
        .half 0x0000
alive:
        .half 0xb510      ; push {r4, lr}                    uart.c:46
        .half 0x2400      ; movs r4, #0                      uart.c:47
        .half 0x4b15      ; ldr r3, [pc, #84]
        .half 0xb088      ; sub sp, #32                      uart.c:46
        .half 0x9301      ; str r3, [sp, #4]                 uart.c:47
        .half 0x4b15      ; ldr r3, [pc, #84]
        .half 0xa801      ; add r0, sp, #4                   uart.c:47
        .half 0x210b      ; movs r1, #11
        .half 0x9302      ; str r3, [sp, #8]                 uart.c:47
        .half 0x9403      ; str r4, [sp, #12]
        .half 0x9404      ; str r4, [sp, #16]
        .half 0x9405      ; str r4, [sp, #20]
        .half 0x9406      ; str r4, [sp, #24]
        .half 0x9407      ; str r4, [sp, #28]
        .half 0xf7ff      ; bl 4c <svc>                      uart.c:47
        .half 0xff86
        .half 0x221c      ; movs r2, #28                     uart.c:48
        .half 0x0021      ; movs r1, r4
        .half 0xa801      ; add r0, sp, #4
        .half 0xf000      ; bl 2d8 <memset>
        .half 0xf8c7
        .half 0xa801      ; add r0, sp, #4                   uart.c:48
        .half 0x2109      ; movs r1, #9
        .half 0xf7ff      ; bl 4c <svc>
        .half 0xff7d
        .half 0x2004      ; movs r0, #4                      uart.c:48
        .half 0x2100      ; movs r1, #0
        .half 0x9a01      ; ldr r2, [sp, #4]                 uart.c:48
        .half 0x9b02      ; ldr r3, [sp, #8]
        .half 0x9405      ; str r4, [sp, #20]                uart.c:48
        .half 0x1812      ; adds r2, r2, r0                  uart.c:48
        .half 0x414b      ; adcs r3, r1
        .half 0x2101      ; movs r1, #1                      uart.c:48
        .half 0x9303      ; str r3, [sp, #12]
        .half 0x4b07      ; ldr r3, [pc, #28]
        .half 0x9101      ; str r1, [sp, #4]
        .half 0xa801      ; add r0, sp, #4                   uart.c:48
        .half 0x3102      ; adds r1, #2
        .half 0x9202      ; str r2, [sp, #8]                 uart.c:48
        .half 0x9304      ; str r3, [sp, #16]
        .half 0x9406      ; str r4, [sp, #24]
        .half 0x9407      ; str r4, [sp, #28]
        .half 0xf7ff      ; bl 4c <svc>                      uart.c:48
        .half 0xff6a
        .half 0xb008      ; add sp, #32                      uart.c:49
        .half 0xbd10      ; pop {r4, pc}
        .word task_dog
        .word note_dog_uart
        .word note_alive
fill:
        .half 0xb5f0      ; push {r4, r5, r6, r7, lr}        uart.c:24
        .half 0xb089      ; sub sp, #36
        .half 0x4c25      ; ldr r4, [pc, #148]               uart.c:25
        .half 0x6823      ; ldr r3, [r4, #0]
        .half 0x2b00      ; cmp r3, #0
        .half 0xd101      ; bne.n 198 <fill+0x10>
        .half 0xb009      ; add sp, #36                      uart.c:43
        .half 0xbdf0      ; pop {r4, r5, r6, r7, pc}
        .half 0x210f      ; movs r1, #15                     uart.c:26
        .half 0x4f23      ; ldr r7, [pc, #140]
        .half 0x4b23      ; ldr r3, [pc, #140]
        .half 0x683a      ; ldr r2, [r7, #0]
        .half 0x681b      ; ldr r3, [r3, #0]
        .half 0x18d3      ; adds r3, r2, r3
        .half 0x400b      ; ands r3, r1
        .half 0x3101      ; adds r1, #1                      uart.c:27
        .half 0x1a8a      ; subs r2, r1, r2
        .half 0x1ac9      ; subs r1, r1, r3
        .half 0x4291      ; cmp r1, r2
        .half 0xd900      ; bls.n 1b2 <fill+0x2a>
        .half 0x0011      ; movs r1, r2
        .half 0x2900      ; cmp r1, #0                       uart.c:29
        .half 0xd0ee      ; beq.n 194 <fill+0xc>
        .half 0x2500      ; movs r5, #0                      uart.c:31
        .half 0x68a2      ; ldr r2, [r4, #8]                 uart.c:31
        .half 0x6860      ; ldr r0, [r4, #4]                 uart.c:31
        .half 0x9203      ; str r2, [sp, #12]
        .half 0x4a1c      ; ldr r2, [pc, #112]               uart.c:31
        .half 0x9001      ; str r0, [sp, #4]                 uart.c:31
        .half 0x189b      ; adds r3, r3, r2                  uart.c:31
        .half 0x9105      ; str r1, [sp, #20]                uart.c:31
        .half 0xa801      ; add r0, sp, #4                   uart.c:31
        .half 0x2104      ; movs r1, #4
        .half 0x9304      ; str r3, [sp, #16]                uart.c:31
        .half 0x9502      ; str r5, [sp, #8]
        .half 0x9506      ; str r5, [sp, #24]
        .half 0x9507      ; str r5, [sp, #28]
        .half 0xf7ff      ; bl 4c <svc>                      uart.c:31
        .half 0xff3b
        .half 0x9b01      ; ldr r3, [sp, #4]                 uart.c:31
        .half 0x9e02      ; ldr r6, [sp, #8]                 uart.c:31
        .half 0x42ab      ; cmp r3, r5                       uart.c:32
        .half 0xd015      ; beq.n 20a <fill+0x82>
        .half 0x6862      ; ldr r2, [r4, #4]                 uart.c:34
        .half 0x6025      ; str r5, [r4, #0]                 uart.c:33
        .half 0x9201      ; str r2, [sp, #4]                 uart.c:34
        .half 0x9302      ; str r3, [sp, #8]
        .half 0x9503      ; str r5, [sp, #12]
        .half 0x9504      ; str r5, [sp, #16]
        .half 0x9505      ; str r5, [sp, #20]
        .half 0x9506      ; str r5, [sp, #24]
        .half 0x9507      ; str r5, [sp, #28]
        .half 0x2102      ; movs r1, #2                      uart.c:37
        .half 0xa801      ; add r0, sp, #4
        .half 0xf7ff      ; bl 4c <svc>
        .half 0xff2a
        .half 0x683b      ; ldr r3, [r7, #0]                 uart.c:39
        .half 0x199b      ; adds r3, r3, r6
        .half 0x603b      ; str r3, [r7, #0]
        .half 0x68a3      ; ldr r3, [r4, #8]                 uart.c:40
        .half 0x199b      ; adds r3, r3, r6
        .half 0x60a3      ; str r3, [r4, #8]
        .half 0xf7ff      ; bl 80 <pump>                     uart.c:41
        .half 0xff3c
        .half 0xe7c0      ; b.n 18c <fill+0x4>
        .half 0x2e00      ; cmp r6, #0                       uart.c:35
        .half 0xd1f4      ; bne.n 1f8 <fill+0x70>
        .half 0x6863      ; ldr r3, [r4, #4]                 uart.c:37
        .half 0x6026      ; str r6, [r4, #0]                 uart.c:36
        .half 0x9301      ; str r3, [sp, #4]                 uart.c:37
        .half 0x4b07      ; ldr r3, [pc, #28]
        .half 0x9605      ; str r6, [sp, #20]
        .half 0x9303      ; str r3, [sp, #12]
        .half 0x2304      ; movs r3, #4
        .half 0x9606      ; str r6, [sp, #24]
        .half 0x9304      ; str r3, [sp, #16]
        .half 0x9607      ; str r6, [sp, #28]
        .half 0xe7e5      ; b.n 1f0 <fill+0x68>
        .word stack_top + 4
        .word stack_top + 16
        .word stack_top + 20
        .word stack_top + 24
        .word stack_top + 12
task:
        .half 0xb5f0      ; push {r4, r5, r6, r7, lr}        uart.c:60
        .half 0x4e21      ; ldr r6, [pc, #132]               uart.c:61
        .half 0xb089      ; sub sp, #36                      uart.c:60
        .half 0x0030      ; movs r0, r6                      uart.c:61
        .half 0xf7ff      ; bl fc <irq_control.constprop.0>
        .half 0xff5c
        .half 0xf7ff      ; bl 120 <alive>                   uart.c:62
        .half 0xff6c
        .half 0x4d1e      ; ldr r5, [pc, #120]               uart.c:64
        .half 0x682b      ; ldr r3, [r5, #0]
        .half 0x2b00      ; cmp r3, #0
        .half 0xd000      ; beq.n 252 <task+0x1a>
        .half 0x4b1d      ; ldr r3, [pc, #116]
        .half 0x2201      ; movs r2, #1                      uart.c:64
        .half 0x2400      ; movs r4, #0
        .half 0x4252      ; negs r2, r2
        .half 0x2101      ; movs r1, #1                      uart.c:64
        .half 0xa801      ; add r0, sp, #4
        .half 0x9203      ; str r2, [sp, #12]                uart.c:64
        .half 0x9304      ; str r3, [sp, #16]
        .half 0x9401      ; str r4, [sp, #4]
        .half 0x9402      ; str r4, [sp, #8]
        .half 0x9405      ; str r4, [sp, #20]
        .half 0x9406      ; str r4, [sp, #24]
        .half 0x9407      ; str r4, [sp, #28]
        .half 0xf7ff      ; bl 4c <svc>                      uart.c:64
        .half 0xfeef
        .half 0x9802      ; ldr r0, [sp, #8]                 uart.c:64
        .half 0x4916      ; ldr r1, [pc, #88]                uart.c:65
        .half 0x9f03      ; ldr r7, [sp, #12]                uart.c:64
        .half 0x9a05      ; ldr r2, [sp, #20]
        .half 0x9b06      ; ldr r3, [sp, #24]
        .half 0x4288      ; cmp r0, r1                       uart.c:65
        .half 0xd111      ; bne.n 2a0 <task+0x68>
        .half 0x4b14      ; ldr r3, [pc, #80]                uart.c:67
        .half 0x423b      ; tst r3, r7
        .half 0xd001      ; beq.n 286 <task+0x4e>
        .half 0xf7ff      ; bl 120 <alive>                   uart.c:68
        .half 0xff4d
        .half 0x423e      ; tst r6, r7                       uart.c:72
        .half 0xd0de      ; beq.n 248 <task+0x10>
        .half 0x2204      ; movs r2, #4                      uart.c:53
        .half 0x4b11      ; ldr r3, [pc, #68]
        .half 0x0030      ; movs r0, r6                      uart.c:54
        .half 0x601a      ; str r2, [r3, #0]                 uart.c:53
        .half 0xf7ff      ; bl fc <irq_control.constprop.0>  uart.c:54
        .half 0xff33
        .half 0xf7ff      ; bl 80 <pump>                     uart.c:55
        .half 0xfef3
        .half 0xf7ff      ; bl 188 <fill>                    uart.c:84
        .half 0xff75
        .half 0xe7d3      ; b.n 248 <task+0x10>
        .half 0x0021      ; movs r1, r4                      uart.c:75
        .half 0x2f01      ; cmp r7, #1                       uart.c:74
        .half 0xd105      ; bne.n 2b2 <task+0x7a>
        .half 0x2103      ; movs r1, #3                      uart.c:77
        .half 0x2b01      ; cmp r3, #1                       uart.c:76
        .half 0xd102      ; bne.n 2b2 <task+0x7a>
        .half 0x2a03      ; cmp r2, #3                       uart.c:78
        .half 0xd803      ; bhi.n 2b8 <task+0x80>
        .half 0x2104      ; movs r1, #4                      uart.c:79
        .half 0xf7ff      ; bl dc <reply_fault>
        .half 0xff13
        .half 0xe7c7      ; b.n 248 <task+0x10>
        .half 0x602b      ; str r3, [r5, #0]                 uart.c:81
        .half 0x6068      ; str r0, [r5, #4]                 uart.c:82
        .half 0x60ac      ; str r4, [r5, #8]                 uart.c:83
        .half 0xe7ec      ; b.n 29a <task+0x62>
        .word note_sent
        .word stack_top + 4
        .half 0xffff      ; .word 0x8000ffff
        .half 0x8000
        .half 0xffff      ; .word 0x0000ffff
        .half 0x0000
        .word note_alive
        .word stack_top + 0
memset:
        .half 0x0003      ; movs r3, r0                      mem.c:26
        .half 0x1882      ; adds r2, r0, r2
        .half 0x4293      ; cmp r3, r2                       mem.c:26
        .half 0xd100      ; bne.n 2e2 <memset+0xa>
        .half 0x4770      ; bx lr                            mem.c:29
        .half 0x7019      ; strb r1, [r3, #0]                mem.c:27
        .half 0x3301      ; adds r3, #1                      mem.c:26
        .half 0xe7f9      ; b.n 2dc <memset+0x4>
data_load:
        .half 0x0004
        .half 0x0000
