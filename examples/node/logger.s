; Made of logger.c by to-source.sh, gcc 12.2.1: not to be changed by hand.
; 904 bytes of flash, and 40 bytes of RAM from stack_top on:
; stack_top + 0 uart
; stack_top + 4 number
; stack_top + 8 line
start:
        .half 0xb510      ; push {r4, lr}                    start.c:10
        .half 0x4a0e      ; ldr r2, [pc, #56]
        .half 0x4b0e      ; ldr r3, [pc, #56]
        .half 0x490f      ; ldr r1, [pc, #60]                start.c:13
        .half 0xb088      ; sub sp, #32                      start.c:10
        .half 0x428b      ; cmp r3, r1                       start.c:13
        .half 0xd311      ; bcc.n 32 <start+0x32>
        .half 0x2400      ; movs r4, #0
        .half 0x4a0d      ; ldr r2, [pc, #52]                start.c:15
        .half 0x4293      ; cmp r3, r2
        .half 0xd310      ; bcc.n 38 <start+0x38>
        .half 0xf000      ; bl 12c <task>                    start.c:17
        .half 0xf889
        .half 0x2108      ; movs r1, #8                      start.c:18
        .half 0xa801      ; add r0, sp, #4
        .half 0x9401      ; str r4, [sp, #4]                 start.c:18
        .half 0x9402      ; str r4, [sp, #8]
        .half 0x9403      ; str r4, [sp, #12]
        .half 0x9404      ; str r4, [sp, #16]
        .half 0x9405      ; str r4, [sp, #20]
        .half 0x9406      ; str r4, [sp, #24]
        .half 0x9407      ; str r4, [sp, #28]
        .half 0xf000      ; bl 4c <svc>                      start.c:18
        .half 0xf80e
        .half 0xe7fe      ; b.n 30 <start+0x30>              start.c:18
        .half 0xca01      ; ldmia r2!, {r0}                  start.c:14
        .half 0xc301      ; stmia r3!, {r0}
        .half 0xe7e8      ; b.n a <start+0xa>
        .half 0xc310      ; stmia r3!, {r4}                  start.c:16
        .half 0xe7ea      ; b.n 12 <start+0x12>
        .word start + 904
        .word stack_top + 0
        .word stack_top + 0
        .word stack_top + 40
svc:
        .half 0xb5f0      ; push {r4, r5, r6, r7, lr}
        .half 0x4644      ; mov r4, r8
        .half 0x464d      ; mov r5, r9
        .half 0x4656      ; mov r6, sl
        .half 0x465f      ; mov r7, fp
        .half 0xb4f0      ; push {r4, r5, r6, r7}
        .half 0x468b      ; mov fp, r1
        .half 0x6902      ; ldr r2, [r0, #16]
        .half 0x4690      ; mov r8, r2
        .half 0x6942      ; ldr r2, [r0, #20]
        .half 0x4691      ; mov r9, r2
        .half 0x6982      ; ldr r2, [r0, #24]
        .half 0x4692      ; mov sl, r2
        .half 0x4602      ; mov r2, r0
        .half 0xcaf0      ; ldmia r2!, {r4, r5, r6, r7}
        .half 0xdf00      ; svc 0
        .half 0xc0f0      ; stmia r0!, {r4, r5, r6, r7}
        .half 0x4642      ; mov r2, r8
        .half 0x464b      ; mov r3, r9
        .half 0xc00c      ; stmia r0!, {r2, r3}
        .half 0xbcf0      ; pop {r4, r5, r6, r7}
        .half 0x46a0      ; mov r8, r4
        .half 0x46a9      ; mov r9, r5
        .half 0x46b2      ; mov sl, r6
        .half 0x46bb      ; mov fp, r7
        .half 0xbdf0      ; pop {r4, r5, r6, r7, pc}
refresh:
        .half 0x2300      ; movs r3, #0                      hubris.h:132
        .half 0xb500      ; push {lr}                        hubris.h:131
        .half 0xb089      ; sub sp, #36
        .half 0x9001      ; str r0, [sp, #4]                 hubris.h:132
        .half 0x210a      ; movs r1, #10                     hubris.h:133
        .half 0xa801      ; add r0, sp, #4
        .half 0x9302      ; str r3, [sp, #8]                 hubris.h:132
        .half 0x9303      ; str r3, [sp, #12]
        .half 0x9304      ; str r3, [sp, #16]
        .half 0x9305      ; str r3, [sp, #20]
        .half 0x9306      ; str r3, [sp, #24]
        .half 0x9307      ; str r3, [sp, #28]
        .half 0xf7ff      ; bl 4c <svc>                      hubris.h:133
        .half 0xffd8
        .half 0x9801      ; ldr r0, [sp, #4]                 hubris.h:134
        .half 0xb009      ; add sp, #36                      hubris.h:135
        .half 0xbd00      ; pop {pc}
reply_fault:
        .half 0x2300      ; movs r3, #0                      hubris.h:63
        .half 0xb500      ; push {lr}                        hubris.h:62
        .half 0xb089      ; sub sp, #36
        .half 0x9001      ; str r0, [sp, #4]                 hubris.h:63
        .half 0x9102      ; str r1, [sp, #8]
        .half 0xa801      ; add r0, sp, #4                   hubris.h:64
        .half 0x210c      ; movs r1, #12
        .half 0x9303      ; str r3, [sp, #12]                hubris.h:63
        .half 0x9304      ; str r3, [sp, #16]
        .half 0x9305      ; str r3, [sp, #20]
        .half 0x9306      ; str r3, [sp, #24]
        .half 0x9307      ; str r3, [sp, #28]
        .half 0xf7ff      ; bl 4c <svc>                      hubris.h:64
        .half 0xffc7
        .half 0xb009      ; add sp, #36                      hubris.h:65
        .half 0xbd00      ; pop {pc}
        .half 0x0000
alive:
        .half 0xb510      ; push {r4, lr}                    logger.c:13
        .half 0x2400      ; movs r4, #0                      logger.c:14
        .half 0x4b15      ; ldr r3, [pc, #84]
        .half 0xb088      ; sub sp, #32                      logger.c:13
        .half 0x9301      ; str r3, [sp, #4]                 logger.c:14
        .half 0x4b15      ; ldr r3, [pc, #84]
        .half 0xa801      ; add r0, sp, #4                   logger.c:14
        .half 0x210b      ; movs r1, #11
        .half 0x9302      ; str r3, [sp, #8]                 logger.c:14
        .half 0x9403      ; str r4, [sp, #12]
        .half 0x9404      ; str r4, [sp, #16]
        .half 0x9405      ; str r4, [sp, #20]
        .half 0x9406      ; str r4, [sp, #24]
        .half 0x9407      ; str r4, [sp, #28]
        .half 0xf7ff      ; bl 4c <svc>                      logger.c:14
        .half 0xffb4
        .half 0x221c      ; movs r2, #28                     logger.c:15
        .half 0x0021      ; movs r1, r4
        .half 0xa801      ; add r0, sp, #4
        .half 0xf000      ; bl 260 <memset>
        .half 0xf8b9
        .half 0xa801      ; add r0, sp, #4                   logger.c:15
        .half 0x2109      ; movs r1, #9
        .half 0xf7ff      ; bl 4c <svc>
        .half 0xffab
        .half 0x2004      ; movs r0, #4                      logger.c:15
        .half 0x2100      ; movs r1, #0
        .half 0x9a01      ; ldr r2, [sp, #4]                 logger.c:15
        .half 0x9b02      ; ldr r3, [sp, #8]
        .half 0x9405      ; str r4, [sp, #20]                logger.c:15
        .half 0x1812      ; adds r2, r2, r0                  logger.c:15
        .half 0x414b      ; adcs r3, r1
        .half 0x2101      ; movs r1, #1                      logger.c:15
        .half 0x9303      ; str r3, [sp, #12]
        .half 0x4b07      ; ldr r3, [pc, #28]
        .half 0x9101      ; str r1, [sp, #4]
        .half 0xa801      ; add r0, sp, #4                   logger.c:15
        .half 0x3102      ; adds r1, #2
        .half 0x9202      ; str r2, [sp, #8]                 logger.c:15
        .half 0x9304      ; str r3, [sp, #16]
        .half 0x9406      ; str r4, [sp, #24]
        .half 0x9407      ; str r4, [sp, #28]
        .half 0xf7ff      ; bl 4c <svc>                      logger.c:15
        .half 0xff98
        .half 0xb008      ; add sp, #32                      logger.c:16
        .half 0xbd10      ; pop {r4, pc}
        .word task_dog
        .word note_dog_logger
        .word note_alive
task:
        .half 0xb5f0      ; push {r4, r5, r6, r7, lr}        logger.c:31
        .half 0x4844      ; ldr r0, [pc, #272]               logger.c:32
        .half 0xb091      ; sub sp, #68                      logger.c:31
        .half 0xf7ff      ; bl 80 <refresh>                  logger.c:32
        .half 0xffa5
        .half 0x4f43      ; ldr r7, [pc, #268]
        .half 0x6038      ; str r0, [r7, #0]
        .half 0xf7ff      ; bl c4 <alive>                    logger.c:33
        .half 0xffc3
        .half 0x2400      ; movs r4, #0                      logger.c:35
        .half 0x4b41      ; ldr r3, [pc, #260]
        .half 0x2101      ; movs r1, #1                      logger.c:35
        .half 0xa809      ; add r0, sp, #36
        .half 0x930b      ; str r3, [sp, #44]                logger.c:35
        .half 0x9409      ; str r4, [sp, #36]
        .half 0x940a      ; str r4, [sp, #40]
        .half 0x940c      ; str r4, [sp, #48]
        .half 0x940d      ; str r4, [sp, #52]
        .half 0x940e      ; str r4, [sp, #56]
        .half 0x940f      ; str r4, [sp, #60]
        .half 0xf7ff      ; bl 4c <svc>                      logger.c:35
        .half 0xff7a
        .half 0x990e      ; ldr r1, [sp, #56]                logger.c:35
        .half 0x9d0a      ; ldr r5, [sp, #40]
        .half 0x9101      ; str r1, [sp, #4]
        .half 0x493b      ; ldr r1, [pc, #236]               logger.c:36
        .half 0x9a0b      ; ldr r2, [sp, #44]                logger.c:35
        .half 0x9b0d      ; ldr r3, [sp, #52]
        .half 0x428d      ; cmp r5, r1                       logger.c:36
        .half 0xd0e8      ; beq.n 13a <task+0xe>
        .half 0x0021      ; movs r1, r4                      logger.c:39
        .half 0x2a01      ; cmp r2, #1                       logger.c:38
        .half 0xd106      ; bne.n 17c <task+0x50>
        .half 0x9a01      ; ldr r2, [sp, #4]                 logger.c:40
        .half 0x2103      ; movs r1, #3                      logger.c:41
        .half 0x2a01      ; cmp r2, #1                       logger.c:40
        .half 0xd102      ; bne.n 17c <task+0x50>
        .half 0x2b03      ; cmp r3, #3                       logger.c:42
        .half 0xd804      ; bhi.n 184 <task+0x58>
        .half 0x2104      ; movs r1, #4                      logger.c:43
        .half 0x0028      ; movs r0, r5
        .half 0xf7ff      ; bl a2 <reply_fault>
        .half 0xff90
        .half 0xe7dc      ; b.n 13e <task+0x12>
        .half 0x4b32      ; ldr r3, [pc, #200]               logger.c:46
        .half 0x210a      ; movs r1, #10                     logger.c:47
        .half 0x681e      ; ldr r6, [r3, #0]                 logger.c:46
        .half 0x9303      ; str r3, [sp, #12]
        .half 0x1c73      ; adds r3, r6, #1
        .half 0x9302      ; str r3, [sp, #8]
        .half 0x9a02      ; ldr r2, [sp, #8]
        .half 0x9b03      ; ldr r3, [sp, #12]
        .half 0x0010      ; movs r0, r2                      logger.c:47
        .half 0x601a      ; str r2, [r3, #0]                 logger.c:46
        .half 0xf000      ; bl 270 <__udivsi3>               logger.c:47
        .half 0xf86a
        .half 0x210a      ; movs r1, #10
        .half 0xf000      ; bl 37c <__aeabi_uidivmod>
        .half 0xf8ed
        .half 0x4e2c      ; ldr r6, [pc, #176]
        .half 0x3130      ; adds r1, #48
        .half 0x9802      ; ldr r0, [sp, #8]                 logger.c:48
        .half 0x7031      ; strb r1, [r6, #0]                logger.c:47
        .half 0x210a      ; movs r1, #10                     logger.c:48
        .half 0xf000      ; bl 37c <__aeabi_uidivmod>
        .half 0xf8e6
        .half 0x2320      ; movs r3, #32                     logger.c:49
        .half 0x70b3      ; strb r3, [r6, #2]
        .half 0x4b28      ; ldr r3, [pc, #160]               logger.c:50
        .half 0x3130      ; adds r1, #48                     logger.c:48
        .half 0x930c      ; str r3, [sp, #48]                logger.c:50
        .half 0x2318      ; movs r3, #24
        .half 0x7071      ; strb r1, [r6, #1]                logger.c:48
        .half 0xa809      ; add r0, sp, #36                  logger.c:50
        .half 0x2104      ; movs r1, #4
        .half 0x930d      ; str r3, [sp, #52]                logger.c:50
        .half 0x9509      ; str r5, [sp, #36]
        .half 0x940a      ; str r4, [sp, #40]
        .half 0x940b      ; str r4, [sp, #44]
        .half 0x940e      ; str r4, [sp, #56]
        .half 0x940f      ; str r4, [sp, #60]
        .half 0xf7ff      ; bl 4c <svc>                      logger.c:50
        .half 0xff3d
        .half 0x200a      ; movs r0, #10                     logger.c:52
        .half 0x9a0a      ; ldr r2, [sp, #40]                logger.c:50
        .half 0x9b09      ; ldr r3, [sp, #36]                logger.c:50
        .half 0x18b1      ; adds r1, r6, r2                  logger.c:52
        .half 0x70c8      ; strb r0, [r1, #3]
        .half 0x2b00      ; cmp r3, #0                       logger.c:53
        .half 0xd11f      ; bne.n 220 <task+0xf4>
        .half 0x9607      ; str r6, [sp, #28]                logger.c:20
        .half 0x2604      ; movs r6, #4                      logger.c:23
        .half 0x9b01      ; ldr r3, [sp, #4]                 logger.c:20
        .half 0x3204      ; adds r2, #4                      logger.c:52
        .half 0xac06      ; add r4, sp, #24                  logger.c:20
        .half 0x9306      ; str r3, [sp, #24]
        .half 0x60a2      ; str r2, [r4, #8]
        .half 0x2100      ; movs r1, #0                      logger.c:23
        .half 0x683b      ; ldr r3, [r7, #0]
        .half 0x9a01      ; ldr r2, [sp, #4]
        .half 0x041b      ; lsls r3, r3, #16
        .half 0x4313      ; orrs r3, r2
        .half 0x9309      ; str r3, [sp, #36]
        .half 0xa809      ; add r0, sp, #36                  logger.c:23
        .half 0xab05      ; add r3, sp, #20                  logger.c:23
        .half 0x930c      ; str r3, [sp, #48]
        .half 0x920f      ; str r2, [sp, #60]
        .half 0x910a      ; str r1, [sp, #40]
        .half 0x910b      ; str r1, [sp, #44]
        .half 0x960d      ; str r6, [sp, #52]
        .half 0x940e      ; str r4, [sp, #56]
        .half 0xf7ff      ; bl 4c <svc>                      logger.c:23
        .half 0xff1f
        .half 0x9b09      ; ldr r3, [sp, #36]                logger.c:23
        .half 0x4a12      ; ldr r2, [pc, #72]                logger.c:24
        .half 0x4293      ; cmp r3, r2
        .half 0xd904      ; bls.n 220 <task+0xf4>
        .half 0x6838      ; ldr r0, [r7, #0]                 logger.c:26
        .half 0xf7ff      ; bl 80 <refresh>
        .half 0xff32
        .half 0x6038      ; str r0, [r7, #0]
        .half 0xe7e6      ; b.n 1ee <task+0xc2>              logger.c:21
        .half 0x930a      ; str r3, [sp, #40]                logger.c:55
        .half 0x9b03      ; ldr r3, [sp, #12]
        .half 0x2102      ; movs r1, #2                      logger.c:55
        .half 0x930b      ; str r3, [sp, #44]                logger.c:55
        .half 0x2304      ; movs r3, #4
        .half 0x930c      ; str r3, [sp, #48]
        .half 0x2300      ; movs r3, #0
        .half 0xa809      ; add r0, sp, #36                  logger.c:55
        .half 0x9509      ; str r5, [sp, #36]                logger.c:55
        .half 0x930d      ; str r3, [sp, #52]
        .half 0x930e      ; str r3, [sp, #56]
        .half 0x930f      ; str r3, [sp, #60]
        .half 0xf7ff      ; bl 4c <svc>                      logger.c:55
        .half 0xff08
        .half 0xe77f      ; b.n 13e <task+0x12>
        .half 0x46c0      ; nop
        .word task_uart
        .word stack_top + 0
        .word note_alive
        .half 0xffff      ; .word 0x0000ffff
        .half 0x0000
        .word stack_top + 4
        .word stack_top + 8
        .word stack_top + 11
        .half 0xfeff      ; .word 0xfffffeff
        .half 0xffff
memset:
        .half 0x0003      ; movs r3, r0                      mem.c:26
        .half 0x1882      ; adds r2, r0, r2
        .half 0x4293      ; cmp r3, r2                       mem.c:26
        .half 0xd100      ; bne.n 26a <memset+0xa>
        .half 0x4770      ; bx lr                            mem.c:29
        .half 0x7019      ; strb r1, [r3, #0]                mem.c:27
        .half 0x3301      ; adds r3, #1                      mem.c:26
        .half 0xe7f9      ; b.n 264 <memset+0x4>
_udivsi3_skip_div0_test:
__aeabi_uidiv:
__udivsi3:
        .half 0x2200      ; movs r2, #0                      lib1funcs.S:1081
        .half 0x0843      ; lsrs r3, r0, #1
        .half 0x428b      ; cmp r3, r1
        .half 0xd374      ; bcc.n 362 <__udivsi3+0xf2>
        .half 0x0903      ; lsrs r3, r0, #4
        .half 0x428b      ; cmp r3, r1
        .half 0xd35f      ; bcc.n 33e <__udivsi3+0xce>
        .half 0x0a03      ; lsrs r3, r0, #8
        .half 0x428b      ; cmp r3, r1
        .half 0xd344      ; bcc.n 30e <__udivsi3+0x9e>
        .half 0x0b03      ; lsrs r3, r0, #12
        .half 0x428b      ; cmp r3, r1
        .half 0xd328      ; bcc.n 2dc <__udivsi3+0x6c>
        .half 0x0c03      ; lsrs r3, r0, #16
        .half 0x428b      ; cmp r3, r1
        .half 0xd30d      ; bcc.n 2ac <__udivsi3+0x3c>
        .half 0x22ff      ; movs r2, #255
        .half 0x0209      ; lsls r1, r1, #8
        .half 0xba12      ; rev r2, r2
        .half 0x0c03      ; lsrs r3, r0, #16
        .half 0x428b      ; cmp r3, r1
        .half 0xd302      ; bcc.n 2a2 <__udivsi3+0x32>
        .half 0x1212      ; asrs r2, r2, #8
        .half 0x0209      ; lsls r1, r1, #8
        .half 0xd065      ; beq.n 36e <__udivsi3+0xfe>
        .half 0x0b03      ; lsrs r3, r0, #12
        .half 0x428b      ; cmp r3, r1
        .half 0xd319      ; bcc.n 2dc <__udivsi3+0x6c>
        .half 0xe000      ; b.n 2ac <__udivsi3+0x3c>
        .half 0x0a09      ; lsrs r1, r1, #8
        .half 0x0bc3      ; lsrs r3, r0, #15
        .half 0x428b      ; cmp r3, r1
        .half 0xd301      ; bcc.n 2b6 <__udivsi3+0x46>
        .half 0x03cb      ; lsls r3, r1, #15
        .half 0x1ac0      ; subs r0, r0, r3
        .half 0x4152      ; adcs r2, r2
        .half 0x0b83      ; lsrs r3, r0, #14
        .half 0x428b      ; cmp r3, r1
        .half 0xd301      ; bcc.n 2c2 <__udivsi3+0x52>
        .half 0x038b      ; lsls r3, r1, #14
        .half 0x1ac0      ; subs r0, r0, r3
        .half 0x4152      ; adcs r2, r2
        .half 0x0b43      ; lsrs r3, r0, #13
        .half 0x428b      ; cmp r3, r1
        .half 0xd301      ; bcc.n 2ce <__udivsi3+0x5e>
        .half 0x034b      ; lsls r3, r1, #13
        .half 0x1ac0      ; subs r0, r0, r3
        .half 0x4152      ; adcs r2, r2
        .half 0x0b03      ; lsrs r3, r0, #12
        .half 0x428b      ; cmp r3, r1
        .half 0xd301      ; bcc.n 2da <__udivsi3+0x6a>
        .half 0x030b      ; lsls r3, r1, #12
        .half 0x1ac0      ; subs r0, r0, r3
        .half 0x4152      ; adcs r2, r2
        .half 0x0ac3      ; lsrs r3, r0, #11
        .half 0x428b      ; cmp r3, r1
        .half 0xd301      ; bcc.n 2e6 <__udivsi3+0x76>
        .half 0x02cb      ; lsls r3, r1, #11
        .half 0x1ac0      ; subs r0, r0, r3
        .half 0x4152      ; adcs r2, r2
        .half 0x0a83      ; lsrs r3, r0, #10
        .half 0x428b      ; cmp r3, r1
        .half 0xd301      ; bcc.n 2f2 <__udivsi3+0x82>
        .half 0x028b      ; lsls r3, r1, #10
        .half 0x1ac0      ; subs r0, r0, r3
        .half 0x4152      ; adcs r2, r2
        .half 0x0a43      ; lsrs r3, r0, #9
        .half 0x428b      ; cmp r3, r1
        .half 0xd301      ; bcc.n 2fe <__udivsi3+0x8e>
        .half 0x024b      ; lsls r3, r1, #9
        .half 0x1ac0      ; subs r0, r0, r3
        .half 0x4152      ; adcs r2, r2
        .half 0x0a03      ; lsrs r3, r0, #8
        .half 0x428b      ; cmp r3, r1
        .half 0xd301      ; bcc.n 30a <__udivsi3+0x9a>
        .half 0x020b      ; lsls r3, r1, #8
        .half 0x1ac0      ; subs r0, r0, r3
        .half 0x4152      ; adcs r2, r2
        .half 0xd2cd      ; bcs.n 2aa <__udivsi3+0x3a>
        .half 0x09c3      ; lsrs r3, r0, #7
        .half 0x428b      ; cmp r3, r1
        .half 0xd301      ; bcc.n 318 <__udivsi3+0xa8>
        .half 0x01cb      ; lsls r3, r1, #7
        .half 0x1ac0      ; subs r0, r0, r3
        .half 0x4152      ; adcs r2, r2
        .half 0x0983      ; lsrs r3, r0, #6
        .half 0x428b      ; cmp r3, r1
        .half 0xd301      ; bcc.n 324 <__udivsi3+0xb4>
        .half 0x018b      ; lsls r3, r1, #6
        .half 0x1ac0      ; subs r0, r0, r3
        .half 0x4152      ; adcs r2, r2
        .half 0x0943      ; lsrs r3, r0, #5
        .half 0x428b      ; cmp r3, r1
        .half 0xd301      ; bcc.n 330 <__udivsi3+0xc0>
        .half 0x014b      ; lsls r3, r1, #5
        .half 0x1ac0      ; subs r0, r0, r3
        .half 0x4152      ; adcs r2, r2
        .half 0x0903      ; lsrs r3, r0, #4
        .half 0x428b      ; cmp r3, r1
        .half 0xd301      ; bcc.n 33c <__udivsi3+0xcc>
        .half 0x010b      ; lsls r3, r1, #4
        .half 0x1ac0      ; subs r0, r0, r3
        .half 0x4152      ; adcs r2, r2
        .half 0x08c3      ; lsrs r3, r0, #3
        .half 0x428b      ; cmp r3, r1
        .half 0xd301      ; bcc.n 348 <__udivsi3+0xd8>
        .half 0x00cb      ; lsls r3, r1, #3
        .half 0x1ac0      ; subs r0, r0, r3
        .half 0x4152      ; adcs r2, r2
        .half 0x0883      ; lsrs r3, r0, #2
        .half 0x428b      ; cmp r3, r1
        .half 0xd301      ; bcc.n 354 <__udivsi3+0xe4>
        .half 0x008b      ; lsls r3, r1, #2
        .half 0x1ac0      ; subs r0, r0, r3
        .half 0x4152      ; adcs r2, r2
        .half 0x0843      ; lsrs r3, r0, #1
        .half 0x428b      ; cmp r3, r1
        .half 0xd301      ; bcc.n 360 <__udivsi3+0xf0>
        .half 0x004b      ; lsls r3, r1, #1
        .half 0x1ac0      ; subs r0, r0, r3
        .half 0x4152      ; adcs r2, r2
        .half 0x1a41      ; subs r1, r0, r1
        .half 0xd200      ; bcs.n 368 <__udivsi3+0xf8>
        .half 0x4601      ; mov r1, r0
        .half 0x4152      ; adcs r2, r2
        .half 0x4610      ; mov r0, r2
        .half 0x4770      ; bx lr
        .half 0xe7ff      ; b.n 370 <__udivsi3+0x100>
        .half 0xb501      ; push {r0, lr}                    lib1funcs.S:1130
        .half 0x2000      ; movs r0, #0
        .half 0xf000      ; bl 384 <__aeabi_idiv0>
        .half 0xf806
        .half 0xbd02      ; pop {r1, pc}
        .half 0x46c0      ; nop
__aeabi_uidivmod:
        .half 0x2900      ; cmp r1, #0                       lib1funcs.S:1134
        .half 0xd0f7      ; beq.n 370 <__udivsi3+0x100>      lib1funcs.S:1135
        .half 0xe776      ; b.n 270 <__udivsi3>              lib1funcs.S:1147
        .half 0x4770      ; bx lr                            lib1funcs.S:1148
__aeabi_idiv0:
__aeabi_ldiv0:
        .half 0x4770      ; bx lr
        .half 0x46c0      ; nop
