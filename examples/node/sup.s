; Made of sup.c by to-source.sh, gcc 12.2.1: not to be changed by hand.
; 676 bytes of flash, and 144 bytes of RAM from stack_top on:
; stack_top + 0 tasks
start:
        .half 0xb510      ; push {r4, lr}                    start.c:10
        .half 0x4a0e      ; ldr r2, [pc, #56]
        .half 0x4b0e      ; ldr r3, [pc, #56]
        .half 0x490f      ; ldr r1, [pc, #60]                start.c:13
        .half 0xb088      ; sub sp, #32                      start.c:10
        .half 0x428b      ; cmp r3, r1                       start.c:13
        .half 0xd311      ; bcc.n 32 <start+0x32>
        .half 0x2400      ; movs r4, #0
        .half 0x4a0d      ; ldr r2, [pc, #52]                start.c:15
        .half 0x4293      ; cmp r3, r2
        .half 0xd310      ; bcc.n 38 <start+0x38>
        .half 0xf000      ; bl e0 <task>                     start.c:17
        .half 0xf863
        .half 0x2108      ; movs r1, #8                      start.c:18
        .half 0xa801      ; add r0, sp, #4
        .half 0x9401      ; str r4, [sp, #4]                 start.c:18
        .half 0x9402      ; str r4, [sp, #8]
        .half 0x9403      ; str r4, [sp, #12]
        .half 0x9404      ; str r4, [sp, #16]
        .half 0x9405      ; str r4, [sp, #20]
        .half 0x9406      ; str r4, [sp, #24]
        .half 0x9407      ; str r4, [sp, #28]
        .half 0xf000      ; bl 4c <svc>                      start.c:18
        .half 0xf80e
        .half 0xe7fe      ; b.n 30 <start+0x30>              start.c:18
        .half 0xca01      ; ldmia r2!, {r0}                  start.c:14
        .half 0xc301      ; stmia r3!, {r0}
        .half 0xe7e8      ; b.n a <start+0xa>
        .half 0xc310      ; stmia r3!, {r4}                  start.c:16
        .half 0xe7ea      ; b.n 12 <start+0x12>
        .word start + 676
        .word stack_top + 0
        .word stack_top + 0
        .word stack_top + 144
svc:
        .half 0xb5f0      ; push {r4, r5, r6, r7, lr}
        .half 0x4644      ; mov r4, r8
        .half 0x464d      ; mov r5, r9
        .half 0x4656      ; mov r6, sl
        .half 0x465f      ; mov r7, fp
        .half 0xb4f0      ; push {r4, r5, r6, r7}
        .half 0x468b      ; mov fp, r1
        .half 0x6902      ; ldr r2, [r0, #16]
        .half 0x4690      ; mov r8, r2
        .half 0x6942      ; ldr r2, [r0, #20]
        .half 0x4691      ; mov r9, r2
        .half 0x6982      ; ldr r2, [r0, #24]
        .half 0x4692      ; mov sl, r2
        .half 0x4602      ; mov r2, r0
        .half 0xcaf0      ; ldmia r2!, {r4, r5, r6, r7}
        .half 0xdf00      ; svc 0
        .half 0xc0f0      ; stmia r0!, {r4, r5, r6, r7}
        .half 0x4642      ; mov r2, r8
        .half 0x464b      ; mov r3, r9
        .half 0xc00c      ; stmia r0!, {r2, r3}
        .half 0xbcf0      ; pop {r4, r5, r6, r7}
        .half 0x46a0      ; mov r8, r4
        .half 0x46a9      ; mov r9, r5
        .half 0x46b2      ; mov sl, r6
        .half 0x46bb      ; mov fp, r7
        .half 0xbdf0      ; pop {r4, r5, r6, r7, pc}
bite:
        .half 0xb500      ; push {lr}                        sup.c:51
        .half 0xb089      ; sub sp, #36
        .half 0x4201      ; tst r1, r0                       sup.c:52
        .half 0xd00e      ; beq.n a6 <bite+0x26>
        .half 0x4b08      ; ldr r3, [pc, #32]                sup.c:53
        .half 0x2100      ; movs r1, #0
        .half 0x9301      ; str r3, [sp, #4]
        .half 0x466b      ; mov r3, sp
        .half 0x9302      ; str r3, [sp, #8]
        .half 0x2304      ; movs r3, #4
        .half 0xa801      ; add r0, sp, #4                   sup.c:53
        .half 0x9200      ; str r2, [sp, #0]
        .half 0x9303      ; str r3, [sp, #12]                sup.c:53
        .half 0x9104      ; str r1, [sp, #16]
        .half 0x9105      ; str r1, [sp, #20]
        .half 0x9106      ; str r1, [sp, #24]
        .half 0x9107      ; str r1, [sp, #28]
        .half 0xf7ff      ; bl 4c <svc>                      sup.c:53
        .half 0xffd3
        .half 0xb009      ; add sp, #36                      sup.c:54
        .half 0xbd00      ; pop {pc}
        .half 0x46c0      ; nop
        .half 0x0003      ; .word 0xffff0003
        .half 0xffff
kernel_restart_constprop_0:
        .half 0xb500      ; push {lr}                        hubris.h:173
        .half 0x2201      ; movs r2, #1                      hubris.h:175
        .half 0xb08b      ; sub sp, #44                      hubris.h:173
        .half 0xab01      ; add r3, sp, #4                   hubris.h:175
        .half 0x2100      ; movs r1, #0                      hubris.h:176
        .half 0x9304      ; str r3, [sp, #16]
        .half 0x2308      ; movs r3, #8
        .half 0x9202      ; str r2, [sp, #8]                 hubris.h:175
        .half 0x4a06      ; ldr r2, [pc, #24]                hubris.h:176
        .half 0x9001      ; str r0, [sp, #4]                 hubris.h:175
        .half 0xa803      ; add r0, sp, #12                  hubris.h:176
        .half 0x9203      ; str r2, [sp, #12]                hubris.h:176
        .half 0x9305      ; str r3, [sp, #20]
        .half 0x9106      ; str r1, [sp, #24]
        .half 0x9107      ; str r1, [sp, #28]
        .half 0x9108      ; str r1, [sp, #32]
        .half 0x9109      ; str r1, [sp, #36]
        .half 0xf7ff      ; bl 4c <svc>                      hubris.h:176
        .half 0xffbb
        .half 0xb00b      ; add sp, #44                      hubris.h:177
        .half 0xbd00      ; pop {pc}
        .half 0x46c0      ; nop
        .half 0x0002      ; .word 0xffff0002
        .half 0xffff
task:
        .half 0xb5f0      ; push {r4, r5, r6, r7, lr}        sup.c:57
        .half 0xb08f      ; sub sp, #60
        .half 0x2301      ; movs r3, #1                      sup.c:59
        .half 0x2400      ; movs r4, #0
        .half 0x425b      ; negs r3, r3
        .half 0x9309      ; str r3, [sp, #36]
        .half 0x4b5d      ; ldr r3, [pc, #372]
        .half 0x2101      ; movs r1, #1                      sup.c:59
        .half 0xa807      ; add r0, sp, #28
        .half 0x930a      ; str r3, [sp, #40]                sup.c:59
        .half 0x9407      ; str r4, [sp, #28]
        .half 0x9408      ; str r4, [sp, #32]
        .half 0x940b      ; str r4, [sp, #44]
        .half 0x940c      ; str r4, [sp, #48]
        .half 0x940d      ; str r4, [sp, #52]
        .half 0xf7ff      ; bl 4c <svc>                      sup.c:59
        .half 0xffa5
        .half 0x9d09      ; ldr r5, [sp, #36]                sup.c:59
        .half 0x4a58      ; ldr r2, [pc, #352]               sup.c:60
        .half 0x0028      ; movs r0, r5
        .half 0x4958      ; ldr r1, [pc, #352]
        .half 0xf7ff      ; bl 80 <bite>
        .half 0xffb9
        .half 0x0028      ; movs r0, r5                      sup.c:61
        .half 0x4a57      ; ldr r2, [pc, #348]
        .half 0x4958      ; ldr r1, [pc, #352]
        .half 0xf7ff      ; bl 80 <bite>
        .half 0xffb4
        .half 0x0028      ; movs r0, r5                      sup.c:62
        .half 0x4a57      ; ldr r2, [pc, #348]
        .half 0x4957      ; ldr r1, [pc, #348]
        .half 0xf7ff      ; bl 80 <bite>
        .half 0xffaf
        .half 0x0028      ; movs r0, r5                      sup.c:63
        .half 0x2504      ; movs r5, #4                      sup.c:28
        .half 0x4a56      ; ldr r2, [pc, #344]               sup.c:63
        .half 0x4956      ; ldr r1, [pc, #344]
        .half 0xf7ff      ; bl 80 <bite>
        .half 0xffa9
        .half 0x0021      ; movs r1, r4                      sup.c:64
        .half 0x221c      ; movs r2, #28
        .half 0xa807      ; add r0, sp, #28
        .half 0xf000      ; bl 294 <memset>
        .half 0xf8ae
        .half 0x2109      ; movs r1, #9                      sup.c:64
        .half 0xa807      ; add r0, sp, #28
        .half 0xf7ff      ; bl 4c <svc>
        .half 0xff86
        .half 0x9b07      ; ldr r3, [sp, #28]                sup.c:64
        .half 0x3401      ; adds r4, #1                      sup.c:27
        .half 0x9300      ; str r3, [sp, #0]                 sup.c:64
        .half 0x9b08      ; ldr r3, [sp, #32]
        .half 0x9301      ; str r3, [sp, #4]
        .half 0x2100      ; movs r1, #0                      sup.c:28
        .half 0x4b4e      ; ldr r3, [pc, #312]
        .half 0xa807      ; add r0, sp, #28                  sup.c:28
        .half 0x9307      ; str r3, [sp, #28]                sup.c:28
        .half 0xab05      ; add r3, sp, #20
        .half 0x9308      ; str r3, [sp, #32]
        .half 0xab06      ; add r3, sp, #24
        .half 0x9405      ; str r4, [sp, #20]
        .half 0x9509      ; str r5, [sp, #36]
        .half 0x930a      ; str r3, [sp, #40]
        .half 0x950b      ; str r5, [sp, #44]
        .half 0x910c      ; str r1, [sp, #48]
        .half 0x910d      ; str r1, [sp, #52]
        .half 0xf7ff      ; bl 4c <svc>                      sup.c:28
        .half 0xff72
        .half 0x9c06      ; ldr r4, [sp, #24]                sup.c:28
        .half 0x2c00      ; cmp r4, #0                       sup.c:28
        .half 0xd02a      ; beq.n 1c4 <task+0xe4>
        .half 0x2318      ; movs r3, #24                     sup.c:29
        .half 0x4363      ; muls r3, r4
        .half 0x4a46      ; ldr r2, [pc, #280]
        .half 0x18d1      ; adds r1, r2, r3
        .half 0x6848      ; ldr r0, [r1, #4]
        .half 0x2800      ; cmp r0, #0
        .half 0xd120      ; bne.n 1be <task+0xde>
        .half 0x589b      ; ldr r3, [r3, r2]                 sup.c:13
        .half 0x2b00      ; cmp r3, #0
        .half 0xd00d      ; beq.n 19e <task+0xbe>
        .half 0x6908      ; ldr r0, [r1, #16]
        .half 0x6949      ; ldr r1, [r1, #20]
        .half 0x9e00      ; ldr r6, [sp, #0]
        .half 0x9f01      ; ldr r7, [sp, #4]
        .half 0x1a36      ; subs r6, r6, r0
        .half 0x418f      ; sbcs r7, r1
        .half 0x2f00      ; cmp r7, #0
        .half 0xd101      ; bne.n 196 <task+0xb6>
        .half 0x2e40      ; cmp r6, #64
        .half 0xd903      ; bls.n 19e <task+0xbe>
        .half 0x2318      ; movs r3, #24                     sup.c:14
        .half 0x2100      ; movs r1, #0
        .half 0x4363      ; muls r3, r4
        .half 0x50d1      ; str r1, [r2, r3]
        .half 0x2018      ; movs r0, #24                     sup.c:15
        .half 0x9e00      ; ldr r6, [sp, #0]
        .half 0x9f01      ; ldr r7, [sp, #4]
        .half 0x4360      ; muls r0, r4
        .half 0x4b39      ; ldr r3, [pc, #228]
        .half 0x58c2      ; ldr r2, [r0, r3]                 sup.c:16
        .half 0x1819      ; adds r1, r3, r0                  sup.c:15
        .half 0x610e      ; str r6, [r1, #16]
        .half 0x614f      ; str r7, [r1, #20]
        .half 0x1c56      ; adds r6, r2, #1                  sup.c:16
        .half 0x50c6      ; str r6, [r0, r3]
        .half 0x2e01      ; cmp r6, #1                       sup.c:17
        .half 0xd133      ; bne.n 220 <task+0x140>
        .half 0x0020      ; movs r0, r4                      sup.c:18
        .half 0xf7ff      ; bl b0 <kernel_restart.constprop.0>
        .half 0xff79
        .half 0x3401      ; adds r4, #1                      sup.c:31
        .half 0x2c05      ; cmp r4, #5                       sup.c:28
        .half 0xd9c2      ; bls.n 14a <task+0x6a>
        .half 0x2601      ; movs r6, #1                      sup.c:27
        .half 0x4276      ; negs r6, r6
        .half 0x0035      ; movs r5, r6
        .half 0x2701      ; movs r7, #1
        .half 0x4c2f      ; ldr r4, [pc, #188]
        .half 0x69e3      ; ldr r3, [r4, #28]                sup.c:39
        .half 0x2b00      ; cmp r3, #0
        .half 0xd00d      ; beq.n 1f0 <task+0x110>
        .half 0x6a63      ; ldr r3, [r4, #36]                sup.c:40
        .half 0x9901      ; ldr r1, [sp, #4]
        .half 0x6a22      ; ldr r2, [r4, #32]
        .half 0x428b      ; cmp r3, r1
        .half 0xd839      ; bhi.n 252 <task+0x172>
        .half 0xd102      ; bne.n 1e6 <task+0x106>
        .half 0x9900      ; ldr r1, [sp, #0]
        .half 0x428a      ; cmp r2, r1
        .half 0xd835      ; bhi.n 252 <task+0x172>
        .half 0x2300      ; movs r3, #0                      sup.c:41
        .half 0x0038      ; movs r0, r7                      sup.c:42
        .half 0x61e3      ; str r3, [r4, #28]                sup.c:41
        .half 0xf7ff      ; bl b0 <kernel_restart.constprop.0> sup.c:42
        .half 0xff60
        .half 0x3701      ; adds r7, #1                      sup.c:38
        .half 0x3418      ; adds r4, #24
        .half 0x2f06      ; cmp r7, #6
        .half 0xd1ea      ; bne.n 1ce <task+0xee>
        .half 0x1c73      ; adds r3, r6, #1                  sup.c:46
        .half 0xd102      ; bne.n 202 <task+0x122>
        .half 0x1c6b      ; adds r3, r5, #1
        .half 0xd100      ; bne.n 202 <task+0x122>
        .half 0xe770      ; b.n e4 <task+0x4>
        .half 0x2301      ; movs r3, #1                      sup.c:47
        .half 0x9307      ; str r3, [sp, #28]
        .half 0x4b22      ; ldr r3, [pc, #136]
        .half 0x2103      ; movs r1, #3                      sup.c:47
        .half 0x930a      ; str r3, [sp, #40]                sup.c:47
        .half 0x2300      ; movs r3, #0
        .half 0xa807      ; add r0, sp, #28                  sup.c:47
        .half 0x9608      ; str r6, [sp, #32]                sup.c:47
        .half 0x9509      ; str r5, [sp, #36]
        .half 0x930b      ; str r3, [sp, #44]
        .half 0x930c      ; str r3, [sp, #48]
        .half 0x930d      ; str r3, [sp, #52]
        .half 0xf7ff      ; bl 4c <svc>                      sup.c:47
        .half 0xff17
        .half 0xe761      ; b.n e4 <task+0x4>                sup.c:47
        .half 0x2001      ; movs r0, #1                      sup.c:21
        .half 0x2301      ; movs r3, #1                      sup.c:20
        .half 0x4240      ; negs r0, r0                      sup.c:21
        .half 0x604b      ; str r3, [r1, #4]                 sup.c:20
        .half 0x0001      ; movs r1, r0                      sup.c:21
        .half 0x2e05      ; cmp r6, #5
        .half 0xd80a      ; bhi.n 244 <task+0x164>
        .half 0x1812      ; adds r2, r2, r0
        .half 0x4093      ; lsls r3, r2
        .half 0x9302      ; str r3, [sp, #8]
        .half 0x2300      ; movs r3, #0
        .half 0x9303      ; str r3, [sp, #12]
        .half 0x9802      ; ldr r0, [sp, #8]
        .half 0x9903      ; ldr r1, [sp, #12]
        .half 0x9a00      ; ldr r2, [sp, #0]
        .half 0x9b01      ; ldr r3, [sp, #4]
        .half 0x1880      ; adds r0, r0, r2
        .half 0x4159      ; adcs r1, r3
        .half 0x2218      ; movs r2, #24
        .half 0x4362      ; muls r2, r4
        .half 0x4b10      ; ldr r3, [pc, #64]
        .half 0x189b      ; adds r3, r3, r2
        .half 0x6098      ; str r0, [r3, #8]
        .half 0x60d9      ; str r1, [r3, #12]
        .half 0xe7b5      ; b.n 1be <task+0xde>
        .half 0x429d      ; cmp r5, r3                       sup.c:43
        .half 0xd802      ; bhi.n 25c <task+0x17c>
        .half 0xd1cb      ; bne.n 1f0 <task+0x110>
        .half 0x4296      ; cmp r6, r2
        .half 0xd9c9      ; bls.n 1f0 <task+0x110>
        .half 0x0016      ; movs r6, r2
        .half 0x001d      ; movs r5, r3
        .half 0xe7c6      ; b.n 1f0 <task+0x110>
        .half 0x46c0      ; nop
        .half 0xffff      ; .word 0x8000ffff
        .half 0x8000
        .word task_uart
        .word note_uart
        .word task_sensor
        .word note_sensor
        .word task_logger
        .word note_logger
        .word task_client
        .word note_client
        .half 0x0009      ; .word 0xffff0009
        .half 0xffff
        .word stack_top + 0
        .word note_due
memset:
        .half 0x0003      ; movs r3, r0                      mem.c:26
        .half 0x1882      ; adds r2, r0, r2
        .half 0x4293      ; cmp r3, r2                       mem.c:26
        .half 0xd100      ; bne.n 29e <memset+0xa>
        .half 0x4770      ; bx lr                            mem.c:29
        .half 0x7019      ; strb r1, [r3, #0]                mem.c:27
        .half 0x3301      ; adds r3, #1                      mem.c:26
        .half 0xe7f9      ; b.n 298 <memset+0x4>
