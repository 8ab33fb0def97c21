; Made of client.c by to-source.sh, gcc 12.2.1: not to be changed by hand.
; 1124 bytes of flash, and 68 bytes of RAM from stack_top on:
; stack_top + 0 logger
; stack_top + 4 sensor
; stack_top + 8 texts
; stack_top + 12 text
; stack_top + 44 body
; stack_top + 60 sum
; stack_top + 61 have
; stack_top + 62 length
; stack_top + 63 kind
; stack_top + 64 state
start:
        .half 0xb510      ; push {r4, lr}                    start.c:10
        .half 0x4a0e      ; ldr r2, [pc, #56]
        .half 0x4b0e      ; ldr r3, [pc, #56]
        .half 0x490f      ; ldr r1, [pc, #60]                start.c:13
        .half 0xb088      ; sub sp, #32                      start.c:10
        .half 0x428b      ; cmp r3, r1                       start.c:13
        .half 0xd311      ; bcc.n 32 <start+0x32>
        .half 0x2400      ; movs r4, #0
        .half 0x4a0d      ; ldr r2, [pc, #52]                start.c:15
        .half 0x4293      ; cmp r3, r2
        .half 0xd310      ; bcc.n 38 <start+0x38>
        .half 0xf000      ; bl 15c <task>                    start.c:17
        .half 0xf8a1
        .half 0x2108      ; movs r1, #8                      start.c:18
        .half 0xa801      ; add r0, sp, #4
        .half 0x9401      ; str r4, [sp, #4]                 start.c:18
        .half 0x9402      ; str r4, [sp, #8]
        .half 0x9403      ; str r4, [sp, #12]
        .half 0x9404      ; str r4, [sp, #16]
        .half 0x9405      ; str r4, [sp, #20]
        .half 0x9406      ; str r4, [sp, #24]
        .half 0x9407      ; str r4, [sp, #28]
        .half 0xf000      ; bl 4c <svc>                      start.c:18
        .half 0xf80e
        .half 0xe7fe      ; b.n 30 <start+0x30>              start.c:18
        .half 0xca01      ; ldmia r2!, {r0}                  start.c:14
        .half 0xc301      ; stmia r3!, {r0}
        .half 0xe7e8      ; b.n a <start+0xa>
        .half 0xc310      ; stmia r3!, {r4}                  start.c:16
        .half 0xe7ea      ; b.n 12 <start+0x12>
        .word start + 1124
        .word stack_top + 0
        .word stack_top + 0
        .word stack_top + 68
svc:
        .half 0xb5f0      ; push {r4, r5, r6, r7, lr}
        .half 0x4644      ; mov r4, r8
        .half 0x464d      ; mov r5, r9
        .half 0x4656      ; mov r6, sl
        .half 0x465f      ; mov r7, fp
        .half 0xb4f0      ; push {r4, r5, r6, r7}
        .half 0x468b      ; mov fp, r1
        .half 0x6902      ; ldr r2, [r0, #16]
        .half 0x4690      ; mov r8, r2
        .half 0x6942      ; ldr r2, [r0, #20]
        .half 0x4691      ; mov r9, r2
        .half 0x6982      ; ldr r2, [r0, #24]
        .half 0x4692      ; mov sl, r2
        .half 0x4602      ; mov r2, r0
        .half 0xcaf0      ; ldmia r2!, {r4, r5, r6, r7}
        .half 0xdf00      ; svc 0
        .half 0xc0f0      ; stmia r0!, {r4, r5, r6, r7}
        .half 0x4642      ; mov r2, r8
        .half 0x464b      ; mov r3, r9
        .half 0xc00c      ; stmia r0!, {r2, r3}
        .half 0xbcf0      ; pop {r4, r5, r6, r7}
        .half 0x46a0      ; mov r8, r4
        .half 0x46a9      ; mov r9, r5
        .half 0x46b2      ; mov sl, r6
        .half 0x46bb      ; mov fp, r7
        .half 0xbdf0      ; pop {r4, r5, r6, r7, pc}
put:
        .half 0x4a04      ; ldr r2, [pc, #16]                client.c:18
        .half 0x6813      ; ldr r3, [r2, #0]
        .half 0x2b1f      ; cmp r3, #31
        .half 0xd803      ; bhi.n 90 <put+0x10>
        .half 0x1c59      ; adds r1, r3, #1                  client.c:19
        .half 0x6011      ; str r1, [r2, #0]
        .half 0x4a02      ; ldr r2, [pc, #8]
        .half 0x54d0      ; strb r0, [r2, r3]
        .half 0x4770      ; bx lr                            client.c:20
        .half 0x46c0      ; nop
        .word stack_top + 8
        .word stack_top + 12
say:
        .half 0xb510      ; push {r4, lr}                    client.c:23
        .half 0x0004      ; movs r4, r0
        .half 0x7820      ; ldrb r0, [r4, #0]                client.c:24
        .half 0x2800      ; cmp r0, #0
        .half 0xd100      ; bne.n a8 <say+0xc>
        .half 0xbd10      ; pop {r4, pc}                     client.c:26
        .half 0xf7ff      ; bl 80 <put>                      client.c:25
        .half 0xffea
        .half 0x3401      ; adds r4, #1                      client.c:24
        .half 0xe7f7      ; b.n a0 <say+0x4>
number:
        .half 0xb510      ; push {r4, lr}                    client.c:29
        .half 0x0004      ; movs r4, r0
        .half 0x2809      ; cmp r0, #9                       client.c:30
        .half 0xd904      ; bls.n c2 <number+0x12>
        .half 0x210a      ; movs r1, #10                     client.c:31
        .half 0xf000      ; bl 32c <__udivsi3>
        .half 0xf937
        .half 0xf7ff      ; bl b0 <number>
        .half 0xfff7
        .half 0x0020      ; movs r0, r4                      client.c:32
        .half 0x210a      ; movs r1, #10
        .half 0xf000      ; bl 438 <__aeabi_uidivmod>
        .half 0xf9b7
        .half 0x3130      ; adds r1, #48
        .half 0xb2c8      ; uxtb r0, r1
        .half 0xf7ff      ; bl 80 <put>
        .half 0xffd7
        .half 0xbd10      ; pop {r4, pc}                     client.c:33
refresh:
        .half 0x2300      ; movs r3, #0                      hubris.h:132
        .half 0xb500      ; push {lr}                        hubris.h:131
        .half 0xb089      ; sub sp, #36
        .half 0x9001      ; str r0, [sp, #4]                 hubris.h:132
        .half 0x210a      ; movs r1, #10                     hubris.h:133
        .half 0xa801      ; add r0, sp, #4
        .half 0x9302      ; str r3, [sp, #8]                 hubris.h:132
        .half 0x9303      ; str r3, [sp, #12]
        .half 0x9304      ; str r3, [sp, #16]
        .half 0x9305      ; str r3, [sp, #20]
        .half 0x9306      ; str r3, [sp, #24]
        .half 0x9307      ; str r3, [sp, #28]
        .half 0xf7ff      ; bl 4c <svc>                      hubris.h:133
        .half 0xffae
        .half 0x9801      ; ldr r0, [sp, #4]                 hubris.h:134
        .half 0xb009      ; add sp, #36                      hubris.h:135
        .half 0xbd00      ; pop {pc}
        .half 0x0000
log_it:
        .half 0x2301      ; movs r3, #1                      client.c:37
        .half 0xb5f0      ; push {r4, r5, r6, r7, lr}        client.c:36
        .half 0xb08d      ; sub sp, #52
        .half 0x4f13      ; ldr r7, [pc, #76]                client.c:37
        .half 0x9302      ; str r3, [sp, #8]
        .half 0x4b13      ; ldr r3, [pc, #76]
        .half 0xae02      ; add r6, sp, #8
        .half 0x6073      ; str r3, [r6, #4]
        .half 0x683b      ; ldr r3, [r7, #0]
        .half 0x60b3      ; str r3, [r6, #8]
        .half 0x2201      ; movs r2, #1                      client.c:40
        .half 0x4d11      ; ldr r5, [pc, #68]                client.c:40
        .half 0x2400      ; movs r4, #0                      client.c:40
        .half 0x682b      ; ldr r3, [r5, #0]
        .half 0x0021      ; movs r1, r4                      client.c:40
        .half 0x041b      ; lsls r3, r3, #16                 client.c:40
        .half 0x4313      ; orrs r3, r2
        .half 0x9305      ; str r3, [sp, #20]
        .half 0xab01      ; add r3, sp, #4
        .half 0x9308      ; str r3, [sp, #32]
        .half 0x2304      ; movs r3, #4
        .half 0xa805      ; add r0, sp, #20                  client.c:40
        .half 0x9309      ; str r3, [sp, #36]                client.c:40
        .half 0x920b      ; str r2, [sp, #44]
        .half 0x9406      ; str r4, [sp, #24]
        .half 0x9407      ; str r4, [sp, #28]
        .half 0x960a      ; str r6, [sp, #40]
        .half 0xf7ff      ; bl 4c <svc>                      client.c:40
        .half 0xff8d
        .half 0x9a05      ; ldr r2, [sp, #20]                client.c:40
        .half 0x4b08      ; ldr r3, [pc, #32]                client.c:41
        .half 0x429a      ; cmp r2, r3
        .half 0xd904      ; bls.n 144 <log_it+0x4c>
        .half 0x6828      ; ldr r0, [r5, #0]                 client.c:43
        .half 0xf7ff      ; bl d4 <refresh>
        .half 0xffca
        .half 0x6028      ; str r0, [r5, #0]
        .half 0xe7e3      ; b.n 10c <log_it+0x14>            client.c:38
        .half 0x603c      ; str r4, [r7, #0]                 client.c:45
        .half 0xb00d      ; add sp, #52                      client.c:46
        .half 0xbdf0      ; pop {r4, r5, r6, r7, pc}
        .half 0x46c0      ; nop
        .word stack_top + 8
        .word stack_top + 12
        .word stack_top + 0
        .half 0xfeff      ; .word 0xfffffeff
        .half 0xffff
task:
        .half 0xb5f0      ; push {r4, r5, r6, r7, lr}        client.c:104
        .half 0x485c      ; ldr r0, [pc, #368]               client.c:105
        .half 0xb08d      ; sub sp, #52                      client.c:104
        .half 0xf7ff      ; bl d4 <refresh>                  client.c:105
        .half 0xffb7
        .half 0x4e5b      ; ldr r6, [pc, #364]
        .half 0x6030      ; str r0, [r6, #0]
        .half 0x485b      ; ldr r0, [pc, #364]               client.c:106
        .half 0xf7ff      ; bl d4 <refresh>
        .half 0xffb2
        .half 0x4b5a      ; ldr r3, [pc, #360]
        .half 0x6018      ; str r0, [r3, #0]
        .half 0x485a      ; ldr r0, [pc, #360]               client.c:107
        .half 0xf7ff      ; bl 9c <say>
        .half 0xff91
        .half 0xf7ff      ; bl f8 <log_it>                   client.c:108
        .half 0xffbd
        .half 0x2201      ; movs r2, #1                      client.c:111
        .half 0x6833      ; ldr r3, [r6, #0]
        .half 0x2400      ; movs r4, #0
        .half 0x041b      ; lsls r3, r3, #16
        .half 0x4313      ; orrs r3, r2
        .half 0x9305      ; str r3, [sp, #20]
        .half 0xab03      ; add r3, sp, #12
        .half 0x9308      ; str r3, [sp, #32]
        .half 0x2308      ; movs r3, #8
        .half 0x0021      ; movs r1, r4                      client.c:111
        .half 0xa805      ; add r0, sp, #20
        .half 0x9309      ; str r3, [sp, #36]                client.c:111
        .half 0x9406      ; str r4, [sp, #24]
        .half 0x9407      ; str r4, [sp, #28]
        .half 0x940a      ; str r4, [sp, #40]
        .half 0x940b      ; str r4, [sp, #44]
        .half 0xf7ff      ; bl 4c <svc>                      client.c:111
        .half 0xff55
        .half 0x9b06      ; ldr r3, [sp, #24]                client.c:111
        .half 0x9d05      ; ldr r5, [sp, #20]
        .half 0x9301      ; str r3, [sp, #4]
        .half 0x4b4e      ; ldr r3, [pc, #312]               client.c:112
        .half 0x210b      ; movs r1, #11                     client.c:112
        .half 0x9305      ; str r3, [sp, #20]                client.c:112
        .half 0x4b4e      ; ldr r3, [pc, #312]
        .half 0xa805      ; add r0, sp, #20                  client.c:112
        .half 0x9306      ; str r3, [sp, #24]                client.c:112
        .half 0x9407      ; str r4, [sp, #28]
        .half 0x9408      ; str r4, [sp, #32]
        .half 0x9409      ; str r4, [sp, #36]
        .half 0x940a      ; str r4, [sp, #40]
        .half 0x940b      ; str r4, [sp, #44]
        .half 0xf7ff      ; bl 4c <svc>                      client.c:112
        .half 0xff45
        .half 0x4b4a      ; ldr r3, [pc, #296]               client.c:113
        .half 0x429d      ; cmp r5, r3
        .half 0xd905      ; bls.n 1d4 <task+0x78>
        .half 0x6830      ; ldr r0, [r6, #0]                 client.c:114
        .half 0xf7ff      ; bl d4 <refresh>
        .half 0xff83
        .half 0x4b48      ; ldr r3, [pc, #288]               client.c:115
        .half 0x6030      ; str r0, [r6, #0]                 client.c:114
        .half 0x701c      ; strb r4, [r3, #0]                client.c:115
        .half 0x2500      ; movs r5, #0                      client.c:58
        .half 0x9b01      ; ldr r3, [sp, #4]                 client.c:117
        .half 0x429d      ; cmp r5, r3
        .half 0xd0d0      ; beq.n 17e <task+0x22>
        .half 0x4a45      ; ldr r2, [pc, #276]               client.c:71
        .half 0xab03      ; add r3, sp, #12                  client.c:118
        .half 0x7814      ; ldrb r4, [r2, #0]                client.c:71
        .half 0x5d5b      ; ldrb r3, [r3, r5]                client.c:118
        .half 0x4942      ; ldr r1, [pc, #264]               client.c:72
        .half 0x191c      ; adds r4, r3, r4                  client.c:71
        .half 0x7808      ; ldrb r0, [r1, #0]                client.c:72
        .half 0xb2e4      ; uxtb r4, r4                      client.c:71
        .half 0x7014      ; strb r4, [r2, #0]
        .half 0x2804      ; cmp r0, #4                       client.c:72
        .half 0xd819      ; bhi.n 226 <task+0xca>
        .half 0xf000      ; bl 318 <__gnu_thumb1_case_uqi>
        .half 0xf891
        .half 0x0803      ; .short 0x0803
        .half 0x1a0d      ; .short 0x1a0d
        .half 0x0027      ; .byte 0x27
        .half 0x2b7e      ; cmp r3, #126                     client.c:74
        .half 0xd112      ; bne.n 226 <task+0xca>
        .half 0x3b7d      ; subs r3, #125                    client.c:75
        .half 0x700b      ; strb r3, [r1, #0]                client.c:89
        .half 0xe00f      ; b.n 226 <task+0xca>
        .half 0x483c      ; ldr r0, [pc, #240]               client.c:78
        .half 0x7013      ; strb r3, [r2, #0]
        .half 0x7003      ; strb r3, [r0, #0]
        .half 0x2302      ; movs r3, #2                      client.c:79
        .half 0xe7f8      ; b.n 202 <task+0xa6>
        .half 0x4a3a      ; ldr r2, [pc, #232]               client.c:82
        .half 0x483b      ; ldr r0, [pc, #236]               client.c:83
        .half 0x7013      ; strb r3, [r2, #0]                client.c:82
        .half 0x2200      ; movs r2, #0                      client.c:83
        .half 0x7002      ; strb r2, [r0, #0]
        .half 0x2b10      ; cmp r3, #16                      client.c:84
        .half 0xd802      ; bhi.n 224 <task+0xc8>
        .half 0x425a      ; negs r2, r3
        .half 0x415a      ; adcs r2, r3
        .half 0x3203      ; adds r2, #3
        .half 0x700a      ; strb r2, [r1, #0]
        .half 0x3501      ; adds r5, #1                      client.c:117
        .half 0xe7d5      ; b.n 1d6 <task+0x7a>
        .half 0x4c35      ; ldr r4, [pc, #212]               client.c:87
        .half 0x7820      ; ldrb r0, [r4, #0]
        .half 0x1c42      ; adds r2, r0, #1
        .half 0xb2d2      ; uxtb r2, r2
        .half 0x7022      ; strb r2, [r4, #0]
        .half 0x4c33      ; ldr r4, [pc, #204]
        .half 0x5423      ; strb r3, [r4, r0]
        .half 0x4b30      ; ldr r3, [pc, #192]               client.c:88
        .half 0x781b      ; ldrb r3, [r3, #0]
        .half 0x4293      ; cmp r3, r2
        .half 0xd1f2      ; bne.n 226 <task+0xca>
        .half 0x2304      ; movs r3, #4                      client.c:89
        .half 0xe7de      ; b.n 202 <task+0xa6>
        .half 0x2300      ; movs r3, #0                      client.c:92
        .half 0x700b      ; strb r3, [r1, #0]
        .half 0x429c      ; cmp r4, r3                       client.c:93
        .half 0xd13d      ; bne.n 2c8 <task+0x16c>
        .half 0x4b2a      ; ldr r3, [pc, #168]               client.c:50
        .half 0x781f      ; ldrb r7, [r3, #0]
        .half 0x2f54      ; cmp r7, #84
        .half 0xd11e      ; bne.n 292 <task+0x136>
        .half 0x4b29      ; ldr r3, [pc, #164]
        .half 0x781b      ; ldrb r3, [r3, #0]
        .half 0x2b02      ; cmp r3, #2
        .half 0xd130      ; bne.n 2be <task+0x162>
        .half 0x4b29      ; ldr r3, [pc, #164]               client.c:51
        .half 0x482a      ; ldr r0, [pc, #168]               client.c:52
        .half 0x785c      ; ldrb r4, [r3, #1]                client.c:51
        .half 0x781a      ; ldrb r2, [r3, #0]
        .half 0x0224      ; lsls r4, r4, #8
        .half 0x4314      ; orrs r4, r2
        .half 0xba64      ; rev16 r4, r4
        .half 0xb2a4      ; uxth r4, r4
        .half 0xf7ff      ; bl 9c <say>                      client.c:52
        .half 0xff16
        .half 0x210a      ; movs r1, #10                     client.c:53
        .half 0x0020      ; movs r0, r4
        .half 0xf000      ; bl 32c <__udivsi3>
        .half 0xf85a
        .half 0xf7ff      ; bl b0 <number>
        .half 0xff1a
        .half 0x202e      ; movs r0, #46                     client.c:54
        .half 0xf7ff      ; bl 80 <put>
        .half 0xfeff
        .half 0x210a      ; movs r1, #10                     client.c:55
        .half 0x0020      ; movs r0, r4
        .half 0xf000      ; bl 438 <__aeabi_uidivmod>
        .half 0xf8d7
        .half 0x0008      ; movs r0, r1
        .half 0xf7ff      ; bl b0 <number>                   client.c:64
        .half 0xff10
        .half 0xe008      ; b.n 2a4 <task+0x148>             client.c:66
        .half 0x2f4d      ; cmp r7, #77                      client.c:56
        .half 0xd10f      ; bne.n 2b6 <task+0x15a>
        .half 0x481d      ; ldr r0, [pc, #116]               client.c:57
        .half 0xf7ff      ; bl 9c <say>
        .half 0xff00
        .half 0x4b17      ; ldr r3, [pc, #92]                client.c:58
        .half 0x781b      ; ldrb r3, [r3, #0]
        .half 0x429c      ; cmp r4, r3
        .half 0xd302      ; bcc.n 2aa <task+0x14e>
        .half 0xf7ff      ; bl f8 <log_it>                   client.c:97
        .half 0xff28
        .half 0xe7bd      ; b.n 226 <task+0xca>
        .half 0x4b16      ; ldr r3, [pc, #88]                client.c:59
        .half 0x5d18      ; ldrb r0, [r3, r4]
        .half 0xf7ff      ; bl 80 <put>
        .half 0xfee7
        .half 0x3401      ; adds r4, #1                      client.c:58
        .half 0xe7f2      ; b.n 29c <task+0x140>
        .half 0x2f43      ; cmp r7, #67                      client.c:60
        .half 0xd101      ; bne.n 2be <task+0x162>
        .half 0x6024      ; str r4, [r4, #0]                 client.c:61
        .half 0xdeff      ; udf #255
        .half 0x4814      ; ldr r0, [pc, #80]                client.c:63
        .half 0xf7ff      ; bl 9c <say>
        .half 0xfeec
        .half 0x0038      ; movs r0, r7                      client.c:64
        .half 0xe7e1      ; b.n 28c <task+0x130>
        .half 0x4812      ; ldr r0, [pc, #72]                client.c:96
        .half 0xf7ff      ; bl 9c <say>
        .half 0xfee7
        .half 0xe7e9      ; b.n 2a4 <task+0x148>
        .word task_sensor
        .word stack_top + 4
        .word task_logger
        .word stack_top + 0
        .word start + 1092
        .word task_dog
        .word note_dog_client
        .half 0xfeff      ; .word 0xfffffeff
        .half 0xffff
        .word stack_top + 64
        .word stack_top + 60
        .word stack_top + 63
        .word stack_top + 62
        .word stack_top + 61
        .word stack_top + 44
        .word start + 1095
        .word start + 1101
        .word start + 1107
        .word start + 1113
__gnu_thumb1_case_uqi:
        .half 0xb402      ; push {r1}                        lib1funcs.S:2098
        .half 0x4671      ; mov r1, lr                       lib1funcs.S:2099
        .half 0x0849      ; lsrs r1, r1, #1                  lib1funcs.S:2100
        .half 0x0049      ; lsls r1, r1, #1                  lib1funcs.S:2101
        .half 0x5c09      ; ldrb r1, [r1, r0]                lib1funcs.S:2102
        .half 0x0049      ; lsls r1, r1, #1                  lib1funcs.S:2103
        .half 0x448e      ; add lr, r1                       lib1funcs.S:2104
        .half 0xbc02      ; pop {r1}                         lib1funcs.S:2105
        .half 0x4770      ; bx lr                            lib1funcs.S:2106
        .half 0x46c0      ; nop
_udivsi3_skip_div0_test:
__aeabi_uidiv:
__udivsi3:
        .half 0x2200      ; movs r2, #0                      lib1funcs.S:1081
        .half 0x0843      ; lsrs r3, r0, #1
        .half 0x428b      ; cmp r3, r1
        .half 0xd374      ; bcc.n 41e <__udivsi3+0xf2>
        .half 0x0903      ; lsrs r3, r0, #4
        .half 0x428b      ; cmp r3, r1
        .half 0xd35f      ; bcc.n 3fa <__udivsi3+0xce>
        .half 0x0a03      ; lsrs r3, r0, #8
        .half 0x428b      ; cmp r3, r1
        .half 0xd344      ; bcc.n 3ca <__udivsi3+0x9e>
        .half 0x0b03      ; lsrs r3, r0, #12
        .half 0x428b      ; cmp r3, r1
        .half 0xd328      ; bcc.n 398 <__udivsi3+0x6c>
        .half 0x0c03      ; lsrs r3, r0, #16
        .half 0x428b      ; cmp r3, r1
        .half 0xd30d      ; bcc.n 368 <__udivsi3+0x3c>
        .half 0x22ff      ; movs r2, #255
        .half 0x0209      ; lsls r1, r1, #8
        .half 0xba12      ; rev r2, r2
        .half 0x0c03      ; lsrs r3, r0, #16
        .half 0x428b      ; cmp r3, r1
        .half 0xd302      ; bcc.n 35e <__udivsi3+0x32>
        .half 0x1212      ; asrs r2, r2, #8
        .half 0x0209      ; lsls r1, r1, #8
        .half 0xd065      ; beq.n 42a <__udivsi3+0xfe>
        .half 0x0b03      ; lsrs r3, r0, #12
        .half 0x428b      ; cmp r3, r1
        .half 0xd319      ; bcc.n 398 <__udivsi3+0x6c>
        .half 0xe000      ; b.n 368 <__udivsi3+0x3c>
        .half 0x0a09      ; lsrs r1, r1, #8
        .half 0x0bc3      ; lsrs r3, r0, #15
        .half 0x428b      ; cmp r3, r1
        .half 0xd301      ; bcc.n 372 <__udivsi3+0x46>
        .half 0x03cb      ; lsls r3, r1, #15
        .half 0x1ac0      ; subs r0, r0, r3
        .half 0x4152      ; adcs r2, r2
        .half 0x0b83      ; lsrs r3, r0, #14
        .half 0x428b      ; cmp r3, r1
        .half 0xd301      ; bcc.n 37e <__udivsi3+0x52>
        .half 0x038b      ; lsls r3, r1, #14
        .half 0x1ac0      ; subs r0, r0, r3
        .half 0x4152      ; adcs r2, r2
        .half 0x0b43      ; lsrs r3, r0, #13
        .half 0x428b      ; cmp r3, r1
        .half 0xd301      ; bcc.n 38a <__udivsi3+0x5e>
        .half 0x034b      ; lsls r3, r1, #13
        .half 0x1ac0      ; subs r0, r0, r3
        .half 0x4152      ; adcs r2, r2
        .half 0x0b03      ; lsrs r3, r0, #12
        .half 0x428b      ; cmp r3, r1
        .half 0xd301      ; bcc.n 396 <__udivsi3+0x6a>
        .half 0x030b      ; lsls r3, r1, #12
        .half 0x1ac0      ; subs r0, r0, r3
        .half 0x4152      ; adcs r2, r2
        .half 0x0ac3      ; lsrs r3, r0, #11
        .half 0x428b      ; cmp r3, r1
        .half 0xd301      ; bcc.n 3a2 <__udivsi3+0x76>
        .half 0x02cb      ; lsls r3, r1, #11
        .half 0x1ac0      ; subs r0, r0, r3
        .half 0x4152      ; adcs r2, r2
        .half 0x0a83      ; lsrs r3, r0, #10
        .half 0x428b      ; cmp r3, r1
        .half 0xd301      ; bcc.n 3ae <__udivsi3+0x82>
        .half 0x028b      ; lsls r3, r1, #10
        .half 0x1ac0      ; subs r0, r0, r3
        .half 0x4152      ; adcs r2, r2
        .half 0x0a43      ; lsrs r3, r0, #9
        .half 0x428b      ; cmp r3, r1
        .half 0xd301      ; bcc.n 3ba <__udivsi3+0x8e>
        .half 0x024b      ; lsls r3, r1, #9
        .half 0x1ac0      ; subs r0, r0, r3
        .half 0x4152      ; adcs r2, r2
        .half 0x0a03      ; lsrs r3, r0, #8
        .half 0x428b      ; cmp r3, r1
        .half 0xd301      ; bcc.n 3c6 <__udivsi3+0x9a>
        .half 0x020b      ; lsls r3, r1, #8
        .half 0x1ac0      ; subs r0, r0, r3
        .half 0x4152      ; adcs r2, r2
        .half 0xd2cd      ; bcs.n 366 <__udivsi3+0x3a>
        .half 0x09c3      ; lsrs r3, r0, #7
        .half 0x428b      ; cmp r3, r1
        .half 0xd301      ; bcc.n 3d4 <__udivsi3+0xa8>
        .half 0x01cb      ; lsls r3, r1, #7
        .half 0x1ac0      ; subs r0, r0, r3
        .half 0x4152      ; adcs r2, r2
        .half 0x0983      ; lsrs r3, r0, #6
        .half 0x428b      ; cmp r3, r1
        .half 0xd301      ; bcc.n 3e0 <__udivsi3+0xb4>
        .half 0x018b      ; lsls r3, r1, #6
        .half 0x1ac0      ; subs r0, r0, r3
        .half 0x4152      ; adcs r2, r2
        .half 0x0943      ; lsrs r3, r0, #5
        .half 0x428b      ; cmp r3, r1
        .half 0xd301      ; bcc.n 3ec <__udivsi3+0xc0>
        .half 0x014b      ; lsls r3, r1, #5
        .half 0x1ac0      ; subs r0, r0, r3
        .half 0x4152      ; adcs r2, r2
        .half 0x0903      ; lsrs r3, r0, #4
        .half 0x428b      ; cmp r3, r1
        .half 0xd301      ; bcc.n 3f8 <__udivsi3+0xcc>
        .half 0x010b      ; lsls r3, r1, #4
        .half 0x1ac0      ; subs r0, r0, r3
        .half 0x4152      ; adcs r2, r2
        .half 0x08c3      ; lsrs r3, r0, #3
        .half 0x428b      ; cmp r3, r1
        .half 0xd301      ; bcc.n 404 <__udivsi3+0xd8>
        .half 0x00cb      ; lsls r3, r1, #3
        .half 0x1ac0      ; subs r0, r0, r3
        .half 0x4152      ; adcs r2, r2
        .half 0x0883      ; lsrs r3, r0, #2
        .half 0x428b      ; cmp r3, r1
        .half 0xd301      ; bcc.n 410 <__udivsi3+0xe4>
        .half 0x008b      ; lsls r3, r1, #2
        .half 0x1ac0      ; subs r0, r0, r3
        .half 0x4152      ; adcs r2, r2
        .half 0x0843      ; lsrs r3, r0, #1
        .half 0x428b      ; cmp r3, r1
        .half 0xd301      ; bcc.n 41c <__udivsi3+0xf0>
        .half 0x004b      ; lsls r3, r1, #1
        .half 0x1ac0      ; subs r0, r0, r3
        .half 0x4152      ; adcs r2, r2
        .half 0x1a41      ; subs r1, r0, r1
        .half 0xd200      ; bcs.n 424 <__udivsi3+0xf8>
        .half 0x4601      ; mov r1, r0
        .half 0x4152      ; adcs r2, r2
        .half 0x4610      ; mov r0, r2
        .half 0x4770      ; bx lr
        .half 0xe7ff      ; b.n 42c <__udivsi3+0x100>
        .half 0xb501      ; push {r0, lr}                    lib1funcs.S:1130
        .half 0x2000      ; movs r0, #0
        .half 0xf000      ; bl 440 <__aeabi_idiv0>
        .half 0xf806
        .half 0xbd02      ; pop {r1, pc}
        .half 0x46c0      ; nop
__aeabi_uidivmod:
        .half 0x2900      ; cmp r1, #0                       lib1funcs.S:1134
        .half 0xd0f7      ; beq.n 42c <__udivsi3+0x100>      lib1funcs.S:1135
        .half 0xe776      ; b.n 32c <__udivsi3>              lib1funcs.S:1147
        .half 0x4770      ; bx lr                            lib1funcs.S:1148
__aeabi_idiv0:
__aeabi_ldiv0:
        .half 0x4770      ; bx lr
        .half 0x46c0      ; nop
        .half 0x7075      ; .word 0x74007075
        .half 0x7400
        .half 0x6d65      ; .word 0x20706d65
        .half 0x2070
        .half 0x7400      ; .word 0x78657400
        .half 0x7865
        .half 0x2074      ; .word 0x6b002074
        .half 0x6b00
        .half 0x6e69      ; .word 0x20646e69
        .half 0x2064
        .half 0x6200      ; .word 0x64616200
        .half 0x6461
        .half 0x7320      ; .word 0x6d757320
        .half 0x6d75
        .half 0x0000      ; .word 0x00000000
        .half 0x0000
