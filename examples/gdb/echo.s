; Made of echo.c by to-source.sh, gcc 12.2.1: not to be changed by hand.
; 248 bytes of flash, and 16 bytes of RAM from stack_top on:
; stack_top + 0 line
start:
        .half 0xb510      ; push {r4, lr}                    start.c:10
        .half 0x4a0e      ; ldr r2, [pc, #56]
        .half 0x4b0e      ; ldr r3, [pc, #56]
        .half 0x490f      ; ldr r1, [pc, #60]                start.c:13
        .half 0xb088      ; sub sp, #32                      start.c:10
        .half 0x428b      ; cmp r3, r1                       start.c:13
        .half 0xd311      ; bcc.n 32 <start+0x32>
        .half 0x2400      ; movs r4, #0
        .half 0x4a0d      ; ldr r2, [pc, #52]                start.c:15
        .half 0x4293      ; cmp r3, r2
        .half 0xd310      ; bcc.n 38 <start+0x38>
        .half 0xf000      ; bl c8 <task>                     start.c:17
        .half 0xf857
        .half 0x2108      ; movs r1, #8                      hubris.h:148
        .half 0xa801      ; add r0, sp, #4
        .half 0x9401      ; str r4, [sp, #4]                 hubris.h:147
        .half 0x9402      ; str r4, [sp, #8]
        .half 0x9403      ; str r4, [sp, #12]
        .half 0x9404      ; str r4, [sp, #16]
        .half 0x9405      ; str r4, [sp, #20]
        .half 0x9406      ; str r4, [sp, #24]
        .half 0x9407      ; str r4, [sp, #28]
        .half 0xf000      ; bl 4c <svc>                      hubris.h:148
        .half 0xf80e
        .half 0xe7fe      ; b.n 30 <start+0x30>              hubris.h:149
        .half 0xca01      ; ldmia r2!, {r0}                  start.c:14
        .half 0xc301      ; stmia r3!, {r0}
        .half 0xe7e8      ; b.n a <start+0xa>
        .half 0xc310      ; stmia r3!, {r4}                  start.c:16
        .half 0xe7ea      ; b.n 12 <start+0x12>
        .word start + 248
        .word stack_top + 0
        .word stack_top + 0
        .word stack_top + 16
svc:
        .half 0xb5f0      ; push {r4, r5, r6, r7, lr}
        .half 0x4644      ; mov r4, r8
        .half 0x464d      ; mov r5, r9
        .half 0x4656      ; mov r6, sl
        .half 0x465f      ; mov r7, fp
        .half 0xb4f0      ; push {r4, r5, r6, r7}
        .half 0x468b      ; mov fp, r1
        .half 0x6902      ; ldr r2, [r0, #16]
        .half 0x4690      ; mov r8, r2
        .half 0x6942      ; ldr r2, [r0, #20]
        .half 0x4691      ; mov r9, r2
        .half 0x6982      ; ldr r2, [r0, #24]
        .half 0x4692      ; mov sl, r2
        .half 0x4602      ; mov r2, r0
        .half 0xcaf0      ; ldmia r2!, {r4, r5, r6, r7}
        .half 0xdf00      ; svc 0
        .half 0xc0f0      ; stmia r0!, {r4, r5, r6, r7}
        .half 0x4642      ; mov r2, r8
        .half 0x464b      ; mov r3, r9
        .half 0xc00c      ; stmia r0!, {r2, r3}
        .half 0xbcf0      ; pop {r4, r5, r6, r7}
        .half 0x46a0      ; mov r8, r4
        .half 0x46a9      ; mov r9, r5
        .half 0x46b2      ; mov sl, r6
        .half 0x46bb      ; mov fp, r7
        .half 0xbdf0      ; pop {r4, r5, r6, r7, pc}
take:
        .half 0x4b07      ; ldr r3, [pc, #28]                echo.c:15
        .half 0x7919      ; ldrb r1, [r3, #4]                echo.c:15
        .half 0x795a      ; ldrb r2, [r3, #5]
        .half 0x0212      ; lsls r2, r2, #8
        .half 0x430a      ; orrs r2, r1
        .half 0x7999      ; ldrb r1, [r3, #6]
        .half 0x0409      ; lsls r1, r1, #16
        .half 0x4311      ; orrs r1, r2
        .half 0x79da      ; ldrb r2, [r3, #7]
        .half 0x0612      ; lsls r2, r2, #24
        .half 0x430a      ; orrs r2, r1
        .half 0xd0f4      ; beq.n 82 <take+0x2>
        .half 0x7818      ; ldrb r0, [r3, #0]                echo.c:16
        .half 0xb2c0      ; uxtb r0, r0
        .half 0x4770      ; bx lr                            echo.c:17
        .half 0x46c0      ; nop
        .word region_in
add:
        .half 0x6803      ; ldr r3, [r0, #0]                 echo.c:21
        .half 0x18c2      ; adds r2, r0, r3
        .half 0x3301      ; adds r3, #1                      echo.c:22
        .half 0x7111      ; strb r1, [r2, #4]                echo.c:21
        .half 0x6003      ; str r3, [r0, #0]                 echo.c:22
        .half 0x4770      ; bx lr                            echo.c:23
write:
        .half 0x0003      ; movs r3, r0                      echo.c:27
        .half 0x6801      ; ldr r1, [r0, #0]                 echo.c:27
        .half 0x1a1a      ; subs r2, r3, r0
        .half 0x4291      ; cmp r1, r2
        .half 0xd800      ; bhi.n bc <write+0xc>
        .half 0x4770      ; bx lr                            echo.c:29
        .half 0x7919      ; ldrb r1, [r3, #4]                echo.c:28
        .half 0x68c2      ; ldr r2, [r0, #12]
        .half 0x3301      ; adds r3, #1
        .half 0x7011      ; strb r1, [r2, #0]
        .half 0xe7f5      ; b.n b2 <write+0x2>               echo.c:27
        .half 0x0000
task:
        .half 0xb570      ; push {r4, r5, r6, lr}            echo.c:32
        .half 0x4b09      ; ldr r3, [pc, #36]                echo.c:33
        .half 0x4c09      ; ldr r4, [pc, #36]
        .half 0x60e3      ; str r3, [r4, #12]
        .half 0x2300      ; movs r3, #0                      echo.c:36
        .half 0x6023      ; str r3, [r4, #0]
        .half 0xf7ff      ; bl 80 <take>                     echo.c:38
        .half 0xffd4
        .half 0x0005      ; movs r5, r0
        .half 0x0001      ; movs r1, r0                      echo.c:39
        .half 0x0020      ; movs r0, r4
        .half 0xf7ff      ; bl a4 <add>
        .half 0xffe1
        .half 0x2d0a      ; cmp r5, #10                      echo.c:40
        .half 0xd1f6      ; bne.n d4 <task+0xc>
        .half 0x0020      ; movs r0, r4                      echo.c:41
        .half 0xf7ff      ; bl b0 <write>
        .half 0xffe2
        .half 0xe7f0      ; b.n d0 <task+0x8>                echo.c:34
        .half 0x46c0      ; nop
        .word region_out
        .word stack_top + 0
