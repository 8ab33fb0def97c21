; Made of sensor.c by to-source.sh, gcc 12.2.1: not to be changed by hand.
; 648 bytes of flash, and 96 bytes of RAM from stack_top on:
; stack_top + 0 reader
; stack_top + 24 lost
; stack_top + 28 many
; stack_top + 32 kept
start:
        .half 0xb510      ; push {r4, lr}                    start.c:10
        .half 0x4a0e      ; ldr r2, [pc, #56]
        .half 0x4b0e      ; ldr r3, [pc, #56]
        .half 0x490f      ; ldr r1, [pc, #60]                start.c:13
        .half 0xb088      ; sub sp, #32                      start.c:10
        .half 0x428b      ; cmp r3, r1                       start.c:13
        .half 0xd311      ; bcc.n 32 <start+0x32>
        .half 0x2400      ; movs r4, #0
        .half 0x4a0d      ; ldr r2, [pc, #52]                start.c:15
        .half 0x4293      ; cmp r3, r2
        .half 0xd310      ; bcc.n 38 <start+0x38>
        .half 0xf000      ; bl d8 <task>                     start.c:17
        .half 0xf85f
        .half 0x2108      ; movs r1, #8                      start.c:18
        .half 0xa801      ; add r0, sp, #4
        .half 0x9401      ; str r4, [sp, #4]                 start.c:18
        .half 0x9402      ; str r4, [sp, #8]
        .half 0x9403      ; str r4, [sp, #12]
        .half 0x9404      ; str r4, [sp, #16]
        .half 0x9405      ; str r4, [sp, #20]
        .half 0x9406      ; str r4, [sp, #24]
        .half 0x9407      ; str r4, [sp, #28]
        .half 0xf000      ; bl 4c <svc>                      start.c:18
        .half 0xf80e
        .half 0xe7fe      ; b.n 30 <start+0x30>              start.c:18
        .half 0xca01      ; ldmia r2!, {r0}                  start.c:14
        .half 0xc301      ; stmia r3!, {r0}
        .half 0xe7e8      ; b.n a <start+0xa>
        .half 0xc310      ; stmia r3!, {r4}                  start.c:16
        .half 0xe7ea      ; b.n 12 <start+0x12>
        .word start + 648
        .word stack_top + 0
        .word stack_top + 0
        .word stack_top + 96
svc:
        .half 0xb5f0      ; push {r4, r5, r6, r7, lr}
        .half 0x4644      ; mov r4, r8
        .half 0x464d      ; mov r5, r9
        .half 0x4656      ; mov r6, sl
        .half 0x465f      ; mov r7, fp
        .half 0xb4f0      ; push {r4, r5, r6, r7}
        .half 0x468b      ; mov fp, r1
        .half 0x6902      ; ldr r2, [r0, #16]
        .half 0x4690      ; mov r8, r2
        .half 0x6942      ; ldr r2, [r0, #20]
        .half 0x4691      ; mov r9, r2
        .half 0x6982      ; ldr r2, [r0, #24]
        .half 0x4692      ; mov sl, r2
        .half 0x4602      ; mov r2, r0
        .half 0xcaf0      ; ldmia r2!, {r4, r5, r6, r7}
        .half 0xdf00      ; svc 0
        .half 0xc0f0      ; stmia r0!, {r4, r5, r6, r7}
        .half 0x4642      ; mov r2, r8
        .half 0x464b      ; mov r3, r9
        .half 0xc00c      ; stmia r0!, {r2, r3}
        .half 0xbcf0      ; pop {r4, r5, r6, r7}
        .half 0x46a0      ; mov r8, r4
        .half 0x46a9      ; mov r9, r5
        .half 0x46b2      ; mov sl, r6
        .half 0x46bb      ; mov fp, r7
        .half 0xbdf0      ; pop {r4, r5, r6, r7, pc}
get_timer:
        .half 0xb570      ; push {r4, r5, r6, lr}            hubris.h:109
        .half 0x0004      ; movs r4, r0
        .half 0xb088      ; sub sp, #32
        .half 0x221c      ; movs r2, #28                     hubris.h:110
        .half 0x2100      ; movs r1, #0
        .half 0xa801      ; add r0, sp, #4
        .half 0xf000      ; bl 278 <memset>
        .half 0xf8f4
        .half 0xa801      ; add r0, sp, #4                   hubris.h:111
        .half 0x2109      ; movs r1, #9
        .half 0xf7ff      ; bl 4c <svc>
        .half 0xffda
        .half 0x9803      ; ldr r0, [sp, #12]                hubris.h:112
        .half 0x9904      ; ldr r1, [sp, #16]
        .half 0x60a0      ; str r0, [r4, #8]
        .half 0x0020      ; movs r0, r4                      hubris.h:113
        .half 0x9a05      ; ldr r2, [sp, #20]                hubris.h:112
        .half 0x9b06      ; ldr r3, [sp, #24]
        .half 0x9e01      ; ldr r6, [sp, #4]
        .half 0x9d02      ; ldr r5, [sp, #8]
        .half 0x6026      ; str r6, [r4, #0]
        .half 0x6065      ; str r5, [r4, #4]
        .half 0x6121      ; str r1, [r4, #16]
        .half 0x6162      ; str r2, [r4, #20]
        .half 0x61a3      ; str r3, [r4, #24]
        .half 0xb008      ; add sp, #32                      hubris.h:113
        .half 0xbd70      ; pop {r4, r5, r6, pc}
reply_fault:
        .half 0x2300      ; movs r3, #0                      hubris.h:63
        .half 0xb500      ; push {lr}                        hubris.h:62
        .half 0xb089      ; sub sp, #36
        .half 0x9001      ; str r0, [sp, #4]                 hubris.h:63
        .half 0x9102      ; str r1, [sp, #8]
        .half 0xa801      ; add r0, sp, #4                   hubris.h:64
        .half 0x210c      ; movs r1, #12
        .half 0x9303      ; str r3, [sp, #12]                hubris.h:63
        .half 0x9304      ; str r3, [sp, #16]
        .half 0x9305      ; str r3, [sp, #20]
        .half 0x9306      ; str r3, [sp, #24]
        .half 0x9307      ; str r3, [sp, #28]
        .half 0xf7ff      ; bl 4c <svc>                      hubris.h:64
        .half 0xffbd
        .half 0xb009      ; add sp, #36                      hubris.h:65
        .half 0xbd00      ; pop {pc}
        .half 0x0000
task:
        .half 0xb5f0      ; push {r4, r5, r6, r7, lr}        sensor.c:36
        .half 0xb09d      ; sub sp, #116
        .half 0xa80c      ; add r0, sp, #48                  sensor.c:37
        .half 0xf7ff      ; bl 80 <get_timer>
        .half 0xffcf
        .half 0x9b0c      ; ldr r3, [sp, #48]
        .half 0x9c0d      ; ldr r4, [sp, #52]
        .half 0x2201      ; movs r2, #1                      sensor.c:38
        .half 0x9300      ; str r3, [sp, #0]                 sensor.c:37
        .half 0x9401      ; str r4, [sp, #4]
        .half 0x9800      ; ldr r0, [sp, #0]                 sensor.c:38
        .half 0x9901      ; ldr r1, [sp, #4]
        .half 0x2300      ; movs r3, #0
        .half 0x1812      ; adds r2, r2, r0
        .half 0x414b      ; adcs r3, r1
        .half 0x4957      ; ldr r1, [pc, #348]
        .half 0x9316      ; str r3, [sp, #88]                sensor.c:38
        .half 0x9103      ; str r1, [sp, #12]                sensor.c:38
        .half 0x9b03      ; ldr r3, [sp, #12]                sensor.c:38
        .half 0x2101      ; movs r1, #1
        .half 0x9317      ; str r3, [sp, #92]
        .half 0x2300      ; movs r3, #0
        .half 0x9114      ; str r1, [sp, #80]
        .half 0xa814      ; add r0, sp, #80                  sensor.c:38
        .half 0x3102      ; adds r1, #2
        .half 0x9215      ; str r2, [sp, #84]                sensor.c:38
        .half 0x9318      ; str r3, [sp, #96]
        .half 0x9319      ; str r3, [sp, #100]
        .half 0x931a      ; str r3, [sp, #104]
        .half 0xf7ff      ; bl 4c <svc>                      sensor.c:38
        .half 0xff9b
        .half 0x2400      ; movs r4, #0                      sensor.c:40
        .half 0x9b03      ; ldr r3, [sp, #12]
        .half 0x2101      ; movs r1, #1                      sensor.c:40
        .half 0xa805      ; add r0, sp, #20
        .half 0x9307      ; str r3, [sp, #28]                sensor.c:40
        .half 0x9405      ; str r4, [sp, #20]
        .half 0x9406      ; str r4, [sp, #24]
        .half 0x9408      ; str r4, [sp, #32]
        .half 0x9409      ; str r4, [sp, #36]
        .half 0x940a      ; str r4, [sp, #40]
        .half 0x940b      ; str r4, [sp, #44]
        .half 0xf7ff      ; bl 4c <svc>                      sensor.c:40
        .half 0xff8e
        .half 0x9806      ; ldr r0, [sp, #24]                sensor.c:40
        .half 0x4b49      ; ldr r3, [pc, #292]               sensor.c:41
        .half 0x9907      ; ldr r1, [sp, #28]                sensor.c:40
        .half 0x9a09      ; ldr r2, [sp, #36]
        .half 0x4298      ; cmp r0, r3                       sensor.c:41
        .half 0xd148      ; bne.n 1ce <task+0xf6>
        .half 0xa814      ; add r0, sp, #80                  sensor.c:42
        .half 0xf7ff      ; bl 80 <get_timer>
        .half 0xff9f
        .half 0x9a14      ; ldr r2, [sp, #80]
        .half 0x9b15      ; ldr r3, [sp, #84]
        .half 0x9200      ; str r2, [sp, #0]
        .half 0x9301      ; str r3, [sp, #4]
        .half 0x9800      ; ldr r0, [sp, #0]                 sensor.c:43
        .half 0x9901      ; ldr r1, [sp, #4]
        .half 0x2201      ; movs r2, #1
        .half 0x2300      ; movs r3, #0
        .half 0x1812      ; adds r2, r2, r0
        .half 0x414b      ; adcs r3, r1
        .half 0x2501      ; movs r5, #1                      sensor.c:43
        .half 0x9307      ; str r3, [sp, #28]
        .half 0x9b03      ; ldr r3, [sp, #12]
        .half 0x2103      ; movs r1, #3                      sensor.c:43
        .half 0xa805      ; add r0, sp, #20
        .half 0x9206      ; str r2, [sp, #24]                sensor.c:43
        .half 0x9308      ; str r3, [sp, #32]
        .half 0x9505      ; str r5, [sp, #20]
        .half 0x9409      ; str r4, [sp, #36]
        .half 0x940a      ; str r4, [sp, #40]
        .half 0x940b      ; str r4, [sp, #44]
        .half 0xf7ff      ; bl 4c <svc>                      sensor.c:43
        .half 0xff6e
        .half 0x4b3a      ; ldr r3, [pc, #232]               sensor.c:44
        .half 0xa805      ; add r0, sp, #20                  sensor.c:44
        .half 0x9305      ; str r3, [sp, #20]                sensor.c:44
        .half 0x4b3a      ; ldr r3, [pc, #232]
        .half 0x210b      ; movs r1, #11                     sensor.c:44
        .half 0x9306      ; str r3, [sp, #24]                sensor.c:44
        .half 0x9407      ; str r4, [sp, #28]
        .half 0x9408      ; str r4, [sp, #32]
        .half 0x9409      ; str r4, [sp, #36]
        .half 0x940a      ; str r4, [sp, #40]
        .half 0x940b      ; str r4, [sp, #44]
        .half 0xf7ff      ; bl 4c <svc>                      sensor.c:44
        .half 0xff61
        .half 0x0020      ; movs r0, r4                      sensor.c:44
        .half 0x4b35      ; ldr r3, [pc, #212]
        .half 0x4a36      ; ldr r2, [pc, #216]
        .half 0x681b      ; ldr r3, [r3, #0]
        .half 0x6812      ; ldr r2, [r2, #0]
        .half 0x4e35      ; ldr r6, [pc, #212]               sensor.c:14
        .half 0x4f36      ; ldr r7, [pc, #216]               sensor.c:17
        .half 0x7931      ; ldrb r1, [r6, #4]                sensor.c:14
        .half 0x2900      ; cmp r1, #0
        .half 0xd10c      ; bne.n 1b8 <task+0xe0>
        .half 0x2c00      ; cmp r4, #0
        .half 0xd001      ; beq.n 1a6 <task+0xce>
        .half 0x4931      ; ldr r1, [pc, #196]
        .half 0x600a      ; str r2, [r1, #0]
        .half 0x2800      ; cmp r0, #0
        .half 0xd001      ; beq.n 1ae <task+0xd6>
        .half 0x4a2e      ; ldr r2, [pc, #184]
        .half 0x6013      ; str r3, [r2, #0]
        .half 0x4b31      ; ldr r3, [pc, #196]               sensor.c:25
        .half 0x681b      ; ldr r3, [r3, #0]
        .half 0x2b00      ; cmp r3, #0
        .half 0xd121      ; bne.n 1fa <task+0x122>
        .half 0xe7ae      ; b.n 116 <task+0x3e>
        .half 0x7831      ; ldrb r1, [r6, #0]                sensor.c:15
        .half 0xb2c9      ; uxtb r1, r1
        .half 0x2b3f      ; cmp r3, #63                      sensor.c:16
        .half 0xd803      ; bhi.n 1c8 <task+0xf0>
        .half 0x54f9      ; strb r1, [r7, r3]                sensor.c:17
        .half 0x0028      ; movs r0, r5
        .half 0x3301      ; adds r3, #1
        .half 0xe7e7      ; b.n 198 <task+0xc0>
        .half 0x002c      ; movs r4, r5                      sensor.c:19
        .half 0x3201      ; adds r2, #1
        .half 0xe7e4      ; b.n 198 <task+0xc0>
        .half 0x2901      ; cmp r1, #1                       sensor.c:46
        .half 0xd003      ; beq.n 1da <task+0x102>
        .half 0x0021      ; movs r1, r4                      sensor.c:47
        .half 0xf7ff      ; bl b6 <reply_fault>              sensor.c:49
        .half 0xff6f
        .half 0xe7e9      ; b.n 1ae <task+0xd6>
        .half 0x2a00      ; cmp r2, #0                       sensor.c:48
        .half 0xd101      ; bne.n 1e2 <task+0x10a>
        .half 0x2104      ; movs r1, #4                      sensor.c:49
        .half 0xe7f8      ; b.n 1d4 <task+0xfc>
        .half 0x2404      ; movs r4, #4                      sensor.c:54
        .half 0x2500      ; movs r5, #0
        .half 0x4b23      ; ldr r3, [pc, #140]               sensor.c:51
        .half 0x6019      ; str r1, [r3, #0]
        .half 0x6058      ; str r0, [r3, #4]                 sensor.c:52
        .half 0x9800      ; ldr r0, [sp, #0]                 sensor.c:54
        .half 0x9901      ; ldr r1, [sp, #4]
        .half 0x1900      ; adds r0, r0, r4
        .half 0x4169      ; adcs r1, r5
        .half 0x6118      ; str r0, [r3, #16]
        .half 0x6159      ; str r1, [r3, #20]
        .half 0x609a      ; str r2, [r3, #8]                 sensor.c:53
        .half 0x4f1a      ; ldr r7, [pc, #104]               sensor.c:25
        .half 0x4b1d      ; ldr r3, [pc, #116]
        .half 0x683a      ; ldr r2, [r7, #0]
        .half 0x2a00      ; cmp r2, #0
        .half 0xd109      ; bne.n 218 <task+0x140>
        .half 0x6959      ; ldr r1, [r3, #20]
        .half 0x9801      ; ldr r0, [sp, #4]
        .half 0x4281      ; cmp r1, r0
        .half 0xd884      ; bhi.n 116 <task+0x3e>
        .half 0xd104      ; bne.n 218 <task+0x140>
        .half 0x6919      ; ldr r1, [r3, #16]
        .half 0x9800      ; ldr r0, [sp, #0]
        .half 0x4281      ; cmp r1, r0
        .half 0xd900      ; bls.n 218 <task+0x140>
        .half 0xe77e      ; b.n 116 <task+0x3e>
        .half 0x689e      ; ldr r6, [r3, #8]                 sensor.c:27
        .half 0x4296      ; cmp r6, r2
        .half 0xd900      ; bls.n 220 <task+0x148>
        .half 0x0016      ; movs r6, r2
        .half 0x2400      ; movs r4, #0                      sensor.c:28
        .half 0x4d13      ; ldr r5, [pc, #76]                sensor.c:29
        .half 0x601c      ; str r4, [r3, #0]                 sensor.c:28
        .half 0x685b      ; ldr r3, [r3, #4]                 sensor.c:29
        .half 0x2102      ; movs r1, #2                      sensor.c:29
        .half 0xa805      ; add r0, sp, #20
        .half 0x9305      ; str r3, [sp, #20]                sensor.c:29
        .half 0x9406      ; str r4, [sp, #24]
        .half 0x9507      ; str r5, [sp, #28]
        .half 0x9608      ; str r6, [sp, #32]
        .half 0x9409      ; str r4, [sp, #36]
        .half 0x940a      ; str r4, [sp, #40]
        .half 0x940b      ; str r4, [sp, #44]
        .half 0xf7ff      ; bl 4c <svc>                      sensor.c:29
        .half 0xff07
        .half 0x683b      ; ldr r3, [r7, #0]                 sensor.c:30
        .half 0x1b9b      ; subs r3, r3, r6
        .half 0x603b      ; str r3, [r7, #0]
        .half 0x42a3      ; cmp r3, r4                       sensor.c:31
        .half 0xd100      ; bne.n 24a <task+0x172>
        .half 0xe765      ; b.n 116 <task+0x3e>
        .half 0x5daa      ; ldrb r2, [r5, r6]                sensor.c:32
        .half 0x3401      ; adds r4, #1                      sensor.c:31
        .half 0x702a      ; strb r2, [r5, #0]                sensor.c:32
        .half 0x3501      ; adds r5, #1                      sensor.c:31
        .half 0xe7f7      ; b.n 244 <task+0x16c>
        .word note_poll
        .half 0xffff      ; .word 0x0000ffff
        .half 0x0000
        .word task_dog
        .word note_dog_sensor
        .word stack_top + 28
        .word stack_top + 24
        .word region_in
        .word stack_top + 32
        .word stack_top + 0
memset:
        .half 0x0003      ; movs r3, r0                      mem.c:26
        .half 0x1882      ; adds r2, r0, r2
        .half 0x4293      ; cmp r3, r2                       mem.c:26
        .half 0xd100      ; bne.n 282 <memset+0xa>
        .half 0x4770      ; bx lr                            mem.c:29
        .half 0x7019      ; strb r1, [r3, #0]                mem.c:27
        .half 0x3301      ; adds r3, #1                      mem.c:26
        .half 0xe7f9      ; b.n 27c <memset+0x4>
