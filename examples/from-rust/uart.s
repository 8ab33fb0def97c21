; Made of uart.rs by to-source.sh, rustc 1.63.0, and from-c: not to be changed by hand.
; 2508 bytes of flash, and 0 bytes of RAM from stack_top on.
start:
        .half 0xb510      ; push {r4, lr}                    start.c:10
        .half 0x4a0e      ; ldr r2, [pc, #56]
        .half 0x4b0e      ; ldr r3, [pc, #56]
        .half 0x490f      ; ldr r1, [pc, #60]                start.c:13
        .half 0xb088      ; sub sp, #32                      start.c:10
        .half 0x428b      ; cmp r3, r1                       start.c:13
        .half 0xd311      ; bcc.n 32 <start+0x32>
        .half 0x2400      ; movs r4, #0
        .half 0x4a0d      ; ldr r2, [pc, #52]                start.c:15
        .half 0x4293      ; cmp r3, r2
        .half 0xd310      ; bcc.n 38 <start+0x38>
        .half 0xf000      ; bl 16c <task>                    start.c:17
        .half 0xf8a9
        .half 0x2108      ; movs r1, #8                      start.c:18
        .half 0xa801      ; add r0, sp, #4
        .half 0x9401      ; str r4, [sp, #4]                 start.c:18
        .half 0x9402      ; str r4, [sp, #8]
        .half 0x9403      ; str r4, [sp, #12]
        .half 0x9404      ; str r4, [sp, #16]
        .half 0x9405      ; str r4, [sp, #20]
        .half 0x9406      ; str r4, [sp, #24]
        .half 0x9407      ; str r4, [sp, #28]
        .half 0xf000      ; bl 4c <svc>                      start.c:18
        .half 0xf80e
        .half 0xe7fe      ; b.n 30 <start+0x30>              start.c:18
        .half 0xca01      ; ldmia r2!, {r0}                  start.c:14
        .half 0xc301      ; stmia r3!, {r0}
        .half 0xe7e8      ; b.n a <start+0xa>
        .half 0xc310      ; stmia r3!, {r4}                  start.c:16
        .half 0xe7ea      ; b.n 12 <start+0x12>
        .word start + 2508
        .word stack_top + 0
        .word stack_top + 0
        .word stack_top + 0
svc:
        .half 0xb5f0      ; push {r4, r5, r6, r7, lr}
        .half 0x4644      ; mov r4, r8
        .half 0x464d      ; mov r5, r9
        .half 0x4656      ; mov r6, sl
        .half 0x465f      ; mov r7, fp
        .half 0xb4f0      ; push {r4, r5, r6, r7}
        .half 0x468b      ; mov fp, r1
        .half 0x6902      ; ldr r2, [r0, #16]
        .half 0x4690      ; mov r8, r2
        .half 0x6942      ; ldr r2, [r0, #20]
        .half 0x4691      ; mov r9, r2
        .half 0x6982      ; ldr r2, [r0, #24]
        .half 0x4692      ; mov sl, r2
        .half 0x4602      ; mov r2, r0
        .half 0xcaf0      ; ldmia r2!, {r4, r5, r6, r7}
        .half 0xdf00      ; svc 0
        .half 0xc0f0      ; stmia r0!, {r4, r5, r6, r7}
        .half 0x4642      ; mov r2, r8
        .half 0x464b      ; mov r3, r9
        .half 0xc00c      ; stmia r0!, {r2, r3}
        .half 0xbcf0      ; pop {r4, r5, r6, r7}
        .half 0x46a0      ; mov r8, r4
        .half 0x46a9      ; mov r9, r5
        .half 0x46b2      ; mov sl, r6
        .half 0x46bb      ; mov fp, r7
        .half 0xbdf0      ; pop {r4, r5, r6, r7, pc}
_ZN4uart4Uart4pump17h8b4f78e62219df2cE:
        .half 0xb5f0      ; push {r4, r5, r6, r7, lr}        uart.rs:24
        .half 0xaf03      ; add r7, sp, #12
        .half 0xb081      ; sub sp, #4
        .half 0x6881      ; ldr r1, [r0, #8]                 uart.rs:25
        .half 0x2900      ; cmp r1, #0
        .half 0xd019      ; beq.n c0 <_ZN4uart4Uart4pump17h8b4f78e62219df2cE+0x40>
        .half 0x6842      ; ldr r2, [r0, #4]
        .half 0x2a00      ; cmp r2, #0
        .half 0xd016      ; beq.n c0 <_ZN4uart4Uart4pump17h8b4f78e62219df2cE+0x40>
        .half 0x1e4c      ; subs r4, r1, #1
        .half 0x1e52      ; subs r2, r2, #1
        .half 0x6801      ; ldr r1, [r0, #0]                 uart.rs:27
        .half 0x4b0c      ; ldr r3, [pc, #48]
        .half 0x290f      ; cmp r1, #15
        .half 0xd812      ; bhi.n c4 <_ZN4uart4Uart4pump17h8b4f78e62219df2cE+0x44>
        .half 0x1845      ; adds r5, r0, r1
        .half 0x7e2d      ; ldrb r5, [r5, #24]
        .half 0x701d      ; strb r5, [r3, #0]                mod.rs:1574
        .half 0x1c4d      ; adds r5, r1, #1                  uart.rs:28
        .half 0x210f      ; movs r1, #15
        .half 0x4029      ; ands r1, r5
        .half 0xc016      ; stmia r0!, {r1, r2, r4}
        .half 0x2500      ; movs r5, #0
        .half 0x380c      ; subs r0, #12
        .half 0x1e52      ; subs r2, r2, #1                  uart.rs:25
        .half 0x416d      ; adcs r5, r5
        .half 0x1e66      ; subs r6, r4, #1
        .half 0x42a6      ; cmp r6, r4
        .half 0xd202      ; bcs.n c0 <_ZN4uart4Uart4pump17h8b4f78e62219df2cE+0x40>
        .half 0x2d00      ; cmp r5, #0
        .half 0x4634      ; mov r4, r6
        .half 0xd1ec      ; bne.n 9a <_ZN4uart4Uart4pump17h8b4f78e62219df2cE+0x1a>
        .half 0xb001      ; add sp, #4                       uart.rs:32
        .half 0xbdf0      ; pop {r4, r5, r6, r7, pc}
        .half 0x4608      ; mov r0, r1                       uart.rs:27
        .half 0xf000      ; bl 580 <_ZN4core9panicking18panic_bounds_check17h0a644426c76fc7a6E>
        .half 0xfa5b
        .half 0xdefe      ; udf #254
        .word region_out
_ZN4uart4Uart4fill17hc672fa67417b29e3E:
        .half 0xb5f0      ; push {r4, r5, r6, r7, lr}        uart.rs:35
        .half 0xaf03      ; add r7, sp, #12
        .half 0xb089      ; sub sp, #36
        .half 0x4604      ; mov r4, r0
        .half 0x68c0      ; ldr r0, [r0, #12]                uart.rs:36
        .half 0x2801      ; cmp r0, #1
        .half 0xd141      ; bne.n 162 <_ZN4uart4Uart4fill17hc672fa67417b29e3E+0x92>
        .half 0xcc06      ; ldmia r4!, {r1, r2}              uart.rs:37
        .half 0x2310      ; movs r3, #16
        .half 0x1a98      ; subs r0, r3, r2                  uart.rs:38
        .half 0x1852      ; adds r2, r2, r1                  uart.rs:37
        .half 0x210f      ; movs r1, #15
        .half 0x4011      ; ands r1, r2
        .half 0x1a5a      ; subs r2, r3, r1                  uart.rs:38
        .half 0x3c08      ; subs r4, #8                      uart.rs:37
        .half 0x4290      ; cmp r0, r2
        .half 0xd800      ; bhi.n f4 <_ZN4uart4Uart4fill17hc672fa67417b29e3E+0x24>
        .half 0x4602      ; mov r2, r0
        .half 0x2a00      ; cmp r2, #0                       uart.rs:39
        .half 0xd034      ; beq.n 162 <_ZN4uart4Uart4fill17hc672fa67417b29e3E+0x92>
        .half 0x1850      ; adds r0, r2, r1                  uart.rs:42
        .half 0x2811      ; cmp r0, #17                      index.rs:314
        .half 0xd233      ; bcs.n 166 <_ZN4uart4Uart4fill17hc672fa67417b29e3E+0x96>
        .half 0x8aa0      ; ldrh r0, [r4, #20]               uart.rs:42
        .half 0x6923      ; ldr r3, [r4, #16]
        .half 0x2600      ; movs r6, #0
        .half 0x9608      ; str r6, [sp, #32]                userlib.rs:25
        .half 0x9607      ; str r6, [sp, #28]
        .half 0x9206      ; str r2, [sp, #24]
        .half 0x1861      ; adds r1, r4, r1                  mut_ptr.rs:469
        .half 0x3118      ; adds r1, #24
        .half 0x9105      ; str r1, [sp, #20]                userlib.rs:25
        .half 0x9304      ; str r3, [sp, #16]
        .half 0x9603      ; str r6, [sp, #12]
        .half 0x9002      ; str r0, [sp, #8]
        .half 0xa802      ; add r0, sp, #8
        .half 0x2104      ; movs r1, #4
        .half 0x9100      ; str r1, [sp, #0]
        .half 0xf7ff      ; bl 4c <svc>                      userlib.rs:28
        .half 0xff96
        .half 0x9802      ; ldr r0, [sp, #8]                 userlib.rs:222
        .half 0x9d03      ; ldr r5, [sp, #12]
        .half 0x6921      ; ldr r1, [r4, #16]                uart.rs:43
        .half 0x1949      ; adds r1, r1, r5
        .half 0x6121      ; str r1, [r4, #16]
        .half 0x2800      ; cmp r0, #0                       uart.rs:44
        .half 0xd101      ; bne.n 132 <_ZN4uart4Uart4fill17hc672fa67417b29e3E+0x62>
        .half 0x2d00      ; cmp r5, #0
        .half 0xd10f      ; bne.n 152 <_ZN4uart4Uart4fill17hc672fa67417b29e3E+0x82>
        .half 0x8aa2      ; ldrh r2, [r4, #20]               uart.rs:45
        .half 0x9101      ; str r1, [sp, #4]
        .half 0x9608      ; str r6, [sp, #32]                userlib.rs:25
        .half 0x9607      ; str r6, [sp, #28]
        .half 0x9606      ; str r6, [sp, #24]
        .half 0x9900      ; ldr r1, [sp, #0]
        .half 0x9105      ; str r1, [sp, #20]
        .half 0xa901      ; add r1, sp, #4
        .half 0x9104      ; str r1, [sp, #16]
        .half 0x9003      ; str r0, [sp, #12]
        .half 0x9202      ; str r2, [sp, #8]
        .half 0xa802      ; add r0, sp, #8
        .half 0x2102      ; movs r1, #2
        .half 0xf7ff      ; bl 4c <svc>                      userlib.rs:28
        .half 0xff7e
        .half 0x60e6      ; str r6, [r4, #12]                uart.rs:46
        .half 0x6860      ; ldr r0, [r4, #4]                 uart.rs:48
        .half 0x1940      ; adds r0, r0, r5
        .half 0x6060      ; str r0, [r4, #4]
        .half 0x4620      ; mov r0, r4                       uart.rs:49
        .half 0xf7ff      ; bl 80 <_ZN4uart4Uart4pump17h8b4f78e62219df2cE>
        .half 0xff91
        .half 0x68e0      ; ldr r0, [r4, #12]                uart.rs:36
        .half 0xe7bb      ; b.n da <_ZN4uart4Uart4fill17hc672fa67417b29e3E+0xa>
        .half 0xb009      ; add sp, #36                      uart.rs:51
        .half 0xbdf0      ; pop {r4, r5, r6, r7, pc}
        .half 0xf000      ; bl 5c4 <_ZN4core5slice5index24slice_end_index_len_fail17h3555901245b2c3fbE> index.rs:315
        .half 0xfa2d
        .half 0xdefe      ; udf #254
task:
        .half 0xb580      ; push {r7, lr}                    uart.rs:55
        .half 0xaf00      ; add r7, sp, #0
        .half 0xb096      ; sub sp, #88
        .half 0x2500      ; movs r5, #0
        .half 0x950e      ; str r5, [sp, #56]                uart.rs:57
        .half 0x950d      ; str r5, [sp, #52]
        .half 0x950c      ; str r5, [sp, #48]
        .half 0x950b      ; str r5, [sp, #44]
        .half 0x9508      ; str r5, [sp, #32]
        .half 0x2004      ; movs r0, #4
        .half 0x9004      ; str r0, [sp, #16]
        .half 0x9007      ; str r0, [sp, #28]
        .half 0x9506      ; str r5, [sp, #24]
        .half 0x9505      ; str r5, [sp, #20]
        .half 0x2601      ; movs r6, #1
        .half 0x9610      ; str r6, [sp, #64]                userlib.rs:25
        .half 0x4834      ; ldr r0, [pc, #208]
        .half 0x900f      ; str r0, [sp, #60]
        .half 0xac0f      ; add r4, sp, #60
        .half 0x4620      ; mov r0, r4
        .half 0x3008      ; adds r0, #8
        .half 0x2114      ; movs r1, #20
        .half 0xf000      ; bl 6ea <__aeabi_memclr4>
        .half 0xfaa7
        .half 0x2107      ; movs r1, #7
        .half 0x4620      ; mov r0, r4                       userlib.rs:28
        .half 0xf7ff      ; bl 4c <svc>
        .half 0xff54
        .half 0xac0f      ; add r4, sp, #60
        .half 0x3408      ; adds r4, #8
        .half 0xa80f      ; add r0, sp, #60
        .half 0x3008      ; adds r0, #8
        .half 0x9001      ; str r0, [sp, #4]
        .half 0xa80f      ; add r0, sp, #60
        .half 0x3008      ; adds r0, #8
        .half 0x9002      ; str r0, [sp, #8]
        .half 0xa80f      ; add r0, sp, #60
        .half 0x1d00      ; adds r0, r0, #4
        .half 0x9003      ; str r0, [sp, #12]
        .half 0x2d01      ; cmp r5, #1                       uart.rs:60
        .half 0xd105      ; bne.n 1ca <task+0x5e>
        .half 0xa80f      ; add r0, sp, #60
        .half 0x2201      ; movs r2, #1
        .half 0x4928      ; ldr r1, [pc, #160]               userlib.rs:203
        .half 0xf000      ; bl 628 <_ZN7userlib8sys_recv17h27932de7786bdb53E>
        .half 0xfa30
        .half 0xe01c      ; b.n 204 <task+0x98>
        .half 0xa80f      ; add r0, sp, #60
        .half 0x2500      ; movs r5, #0
        .half 0x4925      ; ldr r1, [pc, #148]               userlib.rs:195
        .half 0x462a      ; mov r2, r5
        .half 0xf000      ; bl 628 <_ZN7userlib8sys_recv17h27932de7786bdb53E>
        .half 0xfa29
        .half 0x980f      ; ldr r0, [sp, #60]
        .half 0x2800      ; cmp r0, #0
        .half 0xd13e      ; bne.n 25a <task+0xee>
        .half 0xa80f      ; add r0, sp, #60
        .half 0x8a81      ; ldrh r1, [r0, #20]               userlib.rs:196
        .half 0x4821      ; ldr r0, [pc, #132]               uart.rs:66
        .half 0x4281      ; cmp r1, r0
        .half 0xd00e      ; beq.n 204 <task+0x98>
        .half 0x9810      ; ldr r0, [sp, #64]
        .half 0x2801      ; cmp r0, #1                       uart.rs:71
        .half 0xd120      ; bne.n 22e <task+0xc2>
        .half 0x9813      ; ldr r0, [sp, #76]
        .half 0x2801      ; cmp r0, #1                       uart.rs:73
        .half 0xd121      ; bne.n 236 <task+0xca>
        .half 0x9812      ; ldr r0, [sp, #72]
        .half 0x2804      ; cmp r0, #4                       uart.rs:75
        .half 0xd22b      ; bcs.n 250 <task+0xe4>
        .half 0x9804      ; ldr r0, [sp, #16]                userlib.rs:25
        .half 0x9010      ; str r0, [sp, #64]
        .half 0x910f      ; str r1, [sp, #60]
        .half 0x2114      ; movs r1, #20
        .half 0x9801      ; ldr r0, [sp, #4]
        .half 0xe01d      ; b.n 240 <task+0xd4>
        .half 0x9804      ; ldr r0, [sp, #16]                uart.rs:67
        .half 0x9007      ; str r0, [sp, #28]
        .half 0x9610      ; str r6, [sp, #64]                userlib.rs:25
        .half 0x4815      ; ldr r0, [pc, #84]
        .half 0x900f      ; str r0, [sp, #60]
        .half 0x2114      ; movs r1, #20
        .half 0x4620      ; mov r0, r4
        .half 0xf000      ; bl 6ea <__aeabi_memclr4>
        .half 0xfa6a
        .half 0xa80f      ; add r0, sp, #60
        .half 0x2107      ; movs r1, #7
        .half 0xf7ff      ; bl 4c <svc>                      userlib.rs:28
        .half 0xff17
        .half 0xad05      ; add r5, sp, #20
        .half 0x4628      ; mov r0, r5                       uart.rs:69
        .half 0xf7ff      ; bl 80 <_ZN4uart4Uart4pump17h8b4f78e62219df2cE>
        .half 0xff2d
        .half 0x4628      ; mov r0, r5                       uart.rs:70
        .half 0xf7ff      ; bl d0 <_ZN4uart4Uart4fill17hc672fa67417b29e3E>
        .half 0xff52
        .half 0xe00e      ; b.n 24c <task+0xe0>
        .half 0x910f      ; str r1, [sp, #60]                userlib.rs:25
        .half 0x2118      ; movs r1, #24
        .half 0x9803      ; ldr r0, [sp, #12]
        .half 0xe004      ; b.n 240 <task+0xd4>
        .half 0x2003      ; movs r0, #3
        .half 0x9010      ; str r0, [sp, #64]                userlib.rs:25
        .half 0x910f      ; str r1, [sp, #60]
        .half 0x2114      ; movs r1, #20
        .half 0x9802      ; ldr r0, [sp, #8]
        .half 0xf000      ; bl 6ea <__aeabi_memclr4>
        .half 0xfa53
        .half 0xa80f      ; add r0, sp, #60
        .half 0x210c      ; movs r1, #12
        .half 0xf7ff      ; bl 4c <svc>
        .half 0xff00
        .half 0x9d08      ; ldr r5, [sp, #32]                option.rs:554
        .half 0xe7b4      ; b.n 1ba <task+0x4e>
        .half 0xa805      ; add r0, sp, #20
        .half 0x8281      ; strh r1, [r0, #20]               uart.rs:78
        .half 0x9509      ; str r5, [sp, #36]
        .half 0x9608      ; str r6, [sp, #32]
        .half 0xe7e6      ; b.n 228 <task+0xbc>
        .half 0xf000      ; bl 680 <_ZN7userlib9sys_panic17h7b02fdcb40ac5b1eE> userlib.rs:197
        .half 0xfa11
        .half 0xdefe      ; udf #254
        .word note_sent
        .word start + 2508
        .half 0xffff      ; .word 0x0000ffff
        .half 0x0000
_ZN4core9panicking9panic_fmt17hbe438df0e0c85290E:
        .half 0xb580      ; push {r7, lr}                    panicking.rs:127
        .half 0xaf00      ; add r7, sp, #0
        .half 0xb086      ; sub sp, #24
        .half 0xaa01      ; add r2, sp, #4
        .half 0x2301      ; movs r3, #1
        .half 0x7413      ; strb r3, [r2, #16]               panic_info.rs:51
        .half 0x9104      ; str r1, [sp, #16]
        .half 0x9003      ; str r0, [sp, #12]
        .half 0x4803      ; ldr r0, [pc, #12]
        .half 0x9002      ; str r0, [sp, #8]
        .half 0x4803      ; ldr r0, [pc, #12]
        .half 0x9001      ; str r0, [sp, #4]
        .half 0x4610      ; mov r0, r2                       panicking.rs:142
        .half 0xf000      ; bl 6a8 <rust_begin_unwind>
        .half 0xfa0f
        .half 0xdefe      ; udf #254
        .word start + 2172
        .word start + 2508
_ZN4core3ptr88drop_in_place_LT_core__panic__panic_info___1:
        .half 0x4770      ; bx lr                            mod.rs:487
        .half 0x0000
_ZN36__LT_T_u20_as_u20_core__any__Any_GT_7type_id17he484_2:
        .half 0x4801      ; ldr r0, [pc, #4]                 any.rs:204
        .half 0x4902      ; ldr r1, [pc, #8]
        .half 0x4770      ; bx lr                            any.rs:206
        .half 0x46c0      ; nop
        .half 0x82bd      ; .word 0x3e1082bd
        .half 0x3e10
        .half 0x9b12      ; .word 0xdba79b12
        .half 0xdba7
_ZN4core3fmt3num3imp54__LT_impl_u20_core__fmt__Display_u_3:
        .half 0xb5f0      ; push {r4, r5, r6, r7, lr}        num.rs:279
        .half 0xaf03      ; add r7, sp, #12
        .half 0xb093      ; sub sp, #76
        .half 0x9106      ; str r1, [sp, #24]
        .half 0x6802      ; ldr r2, [r0, #0]                 num.rs:44
        .half 0x4b85      ; ldr r3, [pc, #532]
        .half 0x4985      ; ldr r1, [pc, #532]
        .half 0x2627      ; movs r6, #39
        .half 0x428a      ; cmp r2, r1                       num.rs:230
        .half 0xd32d      ; bcc.n 318 <_ZN4core3fmt3num3imp54_$LT$impl$u20$core..fmt..Display$u20$for$u20$usize$GT$3fmt17had8012
        .half 0x4615      ; mov r5, r2
        .half 0x9608      ; str r6, [sp, #32]                num.rs:232
        .half 0x4628      ; mov r0, r5
        .half 0x4982      ; ldr r1, [pc, #520]
        .half 0xf000      ; bl 6f4 <__udivsi3>
        .half 0xfa16
        .half 0x9007      ; str r0, [sp, #28]
        .half 0x4981      ; ldr r1, [pc, #516]
        .half 0x4341      ; muls r1, r0
        .half 0x1949      ; adds r1, r1, r5
        .half 0xb28a      ; uxth r2, r1                      num.rs:234
        .half 0x0892      ; lsrs r2, r2, #2
        .half 0x487f      ; ldr r0, [pc, #508]
        .half 0x4342      ; muls r2, r0
        .half 0x0c52      ; lsrs r2, r2, #17
        .half 0x0053      ; lsls r3, r2, #1
        .half 0x487e      ; ldr r0, [pc, #504]
        .half 0x5cc0      ; ldrb r0, [r0, r3]                intrinsics.rs:2137
        .half 0xac09      ; add r4, sp, #36
        .half 0x19a4      ; adds r4, r4, r6
        .half 0x1f26      ; subs r6, r4, #4
        .half 0x7030      ; strb r0, [r6, #0]
        .half 0x487b      ; ldr r0, [pc, #492]               const_ptr.rs:457
        .half 0x18c0      ; adds r0, r0, r3
        .half 0x4b76      ; ldr r3, [pc, #472]
        .half 0x7840      ; ldrb r0, [r0, #1]                intrinsics.rs:2137
        .half 0x7070      ; strb r0, [r6, #1]
        .half 0x9e08      ; ldr r6, [sp, #32]
        .half 0x435a      ; muls r2, r3
        .half 0x1850      ; adds r0, r2, r1
        .half 0xb280      ; uxth r0, r0                      num.rs:235
        .half 0x0040      ; lsls r0, r0, #1
        .half 0x4976      ; ldr r1, [pc, #472]
        .half 0x5c09      ; ldrb r1, [r1, r0]                intrinsics.rs:2137
        .half 0x1ea2      ; subs r2, r4, #2
        .half 0x7011      ; strb r1, [r2, #0]
        .half 0x4974      ; ldr r1, [pc, #464]               const_ptr.rs:457
        .half 0x1808      ; adds r0, r1, r0
        .half 0x7840      ; ldrb r0, [r0, #1]                intrinsics.rs:2137
        .half 0x7050      ; strb r0, [r2, #1]
        .half 0x9a07      ; ldr r2, [sp, #28]
        .half 0x1f36      ; subs r6, r6, #4                  num.rs:236
        .half 0x4872      ; ldr r0, [pc, #456]               num.rs:230
        .half 0x4285      ; cmp r5, r0
        .half 0x4615      ; mov r5, r2
        .half 0xd8d2      ; bhi.n 2be <_ZN4core3fmt3num3imp54_$LT$impl$u20$core..fmt..Display$u20$for$u20$usize$GT$3fmt17had8012
        .half 0x2a63      ; cmp r2, #99                      num.rs:249
        .half 0xd912      ; bls.n 342 <_ZN4core3fmt3num3imp54_$LT$impl$u20$core..fmt..Display$u20$for$u20$usize$GT$3fmt17had8012
        .half 0xb290      ; uxth r0, r2                      num.rs:250
        .half 0x0880      ; lsrs r0, r0, #2                  num.rs:251
        .half 0x496c      ; ldr r1, [pc, #432]
        .half 0x4341      ; muls r1, r0
        .half 0x0c49      ; lsrs r1, r1, #17
        .half 0x434b      ; muls r3, r1
        .half 0x1898      ; adds r0, r3, r2
        .half 0xb280      ; uxth r0, r0                      num.rs:250
        .half 0x0040      ; lsls r0, r0, #1
        .half 0x4a6a      ; ldr r2, [pc, #424]               const_ptr.rs:457
        .half 0x5c13      ; ldrb r3, [r2, r0]                intrinsics.rs:2137
        .half 0x1eb6      ; subs r6, r6, #2                  num.rs:252
        .half 0xac09      ; add r4, sp, #36
        .half 0x55a3      ; strb r3, [r4, r6]                intrinsics.rs:2137
        .half 0x19a3      ; adds r3, r4, r6                  mut_ptr.rs:469
        .half 0x1810      ; adds r0, r2, r0                  const_ptr.rs:457
        .half 0x7840      ; ldrb r0, [r0, #1]                intrinsics.rs:2137
        .half 0x7058      ; strb r0, [r3, #1]
        .half 0xe000      ; b.n 344 <_ZN4core3fmt3num3imp54_$LT$impl$u20$core..fmt..Display$u20$for$u20$usize$GT$3fmt17had80124d
        .half 0x4611      ; mov r1, r2
        .half 0x290a      ; cmp r1, #10                      num.rs:257
        .half 0x9806      ; ldr r0, [sp, #24]
        .half 0xd204      ; bcs.n 354 <_ZN4core3fmt3num3imp54_$LT$impl$u20$core..fmt..Display$u20$for$u20$usize$GT$3fmt17had8012
        .half 0x1e75      ; subs r5, r6, #1                  num.rs:258
        .half 0x3130      ; adds r1, #48                     num.rs:259
        .half 0xaa09      ; add r2, sp, #36
        .half 0x5551      ; strb r1, [r2, r5]
        .half 0xe009      ; b.n 368 <_ZN4core3fmt3num3imp54_$LT$impl$u20$core..fmt..Display$u20$for$u20$usize$GT$3fmt17had80124d
        .half 0x0049      ; lsls r1, r1, #1                  num.rs:261
        .half 0x4a60      ; ldr r2, [pc, #384]               const_ptr.rs:457
        .half 0x5c53      ; ldrb r3, [r2, r1]                intrinsics.rs:2137
        .half 0x1eb5      ; subs r5, r6, #2                  num.rs:262
        .half 0xac09      ; add r4, sp, #36
        .half 0x5563      ; strb r3, [r4, r5]                intrinsics.rs:2137
        .half 0x1963      ; adds r3, r4, r5                  mut_ptr.rs:469
        .half 0x1851      ; adds r1, r2, r1                  const_ptr.rs:457
        .half 0x7849      ; ldrb r1, [r1, #1]                intrinsics.rs:2137
        .half 0x7059      ; strb r1, [r3, #1]
        .half 0x2327      ; movs r3, #39
        .half 0x6801      ; ldr r1, [r0, #0]                 mod.rs:1830
        .half 0x2401      ; movs r4, #1
        .half 0x460a      ; mov r2, r1
        .half 0x9408      ; str r4, [sp, #32]
        .half 0x4022      ; ands r2, r4
        .half 0x2411      ; movs r4, #17
        .half 0x0424      ; lsls r4, r4, #16
        .half 0x2a00      ; cmp r2, #0                       mod.rs:1356
        .half 0x9405      ; str r4, [sp, #20]
        .half 0xd000      ; beq.n 380 <_ZN4core3fmt3num3imp54_$LT$impl$u20$core..fmt..Display$u20$for$u20$usize$GT$3fmt17had8012
        .half 0x242b      ; movs r4, #43
        .half 0x9407      ; str r4, [sp, #28]
        .half 0x1b5c      ; subs r4, r3, r5
        .half 0xab09      ; add r3, sp, #36
        .half 0x195e      ; adds r6, r3, r5                  mut_ptr.rs:469
        .half 0x074b      ; lsls r3, r1, #29                 mod.rs:1887
        .half 0x17db      ; asrs r3, r3, #31
        .half 0x4d54      ; ldr r5, [pc, #336]               mod.rs:1361
        .half 0x401d      ; ands r5, r3
        .half 0x6883      ; ldr r3, [r0, #8]                 mod.rs:1378
        .half 0x2b00      ; cmp r3, #0
        .half 0xd034      ; beq.n 400 <_ZN4core3fmt3num3imp54_$LT$impl$u20$core..fmt..Display$u20$for$u20$usize$GT$3fmt17had8012
        .half 0x9604      ; str r6, [sp, #16]
        .half 0x9403      ; str r4, [sp, #12]
        .half 0x18a4      ; adds r4, r4, r2
        .half 0x68c6      ; ldr r6, [r0, #12]                mod.rs:1387
        .half 0x42a6      ; cmp r6, r4
        .half 0xd93b      ; bls.n 41a <_ZN4core3fmt3num3imp54_$LT$impl$u20$core..fmt..Display$u20$for$u20$usize$GT$3fmt17had8012
        .half 0x0708      ; lsls r0, r1, #28                 mod.rs:1393
        .half 0xd44a      ; bmi.n 43c <_ZN4core3fmt3num3imp54_$LT$impl$u20$core..fmt..Display$u20$for$u20$usize$GT$3fmt17had8012
        .half 0x1b31      ; subs r1, r6, r4                  mod.rs:1406
        .half 0x9c06      ; ldr r4, [sp, #24]
        .half 0x4620      ; mov r0, r4
        .half 0xf000      ; bl 51c <_ZN4core3fmt9Formatter7padding17hd6612b8e9c20b441E>
        .half 0xf8b6
        .half 0x9a05      ; ldr r2, [sp, #20]
        .half 0x9002      ; str r0, [sp, #8]
        .half 0x4290      ; cmp r0, r2
        .half 0xd100      ; bne.n 3ba <_ZN4core3fmt3num3imp54_$LT$impl$u20$core..fmt..Display$u20$for$u20$usize$GT$3fmt17had8012
        .half 0x2100      ; movs r1, #0
        .half 0x9e04      ; ldr r6, [sp, #16]
        .half 0x9802      ; ldr r0, [sp, #8]                 mod.rs:1406
        .half 0x4290      ; cmp r0, r2
        .half 0xd039      ; beq.n 436 <_ZN4core3fmt3num3imp54_$LT$impl$u20$core..fmt..Display$u20$for$u20$usize$GT$3fmt17had8012
        .half 0x9105      ; str r1, [sp, #20]
        .half 0x4620      ; mov r0, r4                       mod.rs:1407
        .half 0x9907      ; ldr r1, [sp, #28]
        .half 0x462a      ; mov r2, r5
        .half 0xf000      ; bl 4e4 <_ZN4core3fmt9Formatter12pad_integral12write_prefix17he523e0ecddb7bd62E>
        .half 0xf88b
        .half 0x2800      ; cmp r0, #0
        .half 0xd131      ; bne.n 436 <_ZN4core3fmt3num3imp54_$LT$impl$u20$core..fmt..Display$u20$for$u20$usize$GT$3fmt17had8012
        .half 0x69a5      ; ldr r5, [r4, #24]                mod.rs:1408
        .half 0x69e4      ; ldr r4, [r4, #28]
        .half 0x68e3      ; ldr r3, [r4, #12]
        .half 0x4628      ; mov r0, r5
        .half 0x4631      ; mov r1, r6
        .half 0x9a03      ; ldr r2, [sp, #12]
        .half 0x4798      ; blx r3
        .half 0x2800      ; cmp r0, #0
        .half 0xd128      ; bne.n 436 <_ZN4core3fmt3num3imp54_$LT$impl$u20$core..fmt..Display$u20$for$u20$usize$GT$3fmt17had8012
        .half 0x2600      ; movs r6, #0
        .half 0x9905      ; ldr r1, [sp, #20]
        .half 0x42b1      ; cmp r1, r6                       range.rs:621
        .half 0xd066      ; beq.n 4ba <_ZN4core3fmt3num3imp54_$LT$impl$u20$core..fmt..Display$u20$for$u20$usize$GT$3fmt17had8012
        .half 0x6922      ; ldr r2, [r4, #16]                mod.rs:1276
        .half 0x4628      ; mov r0, r5
        .half 0x9902      ; ldr r1, [sp, #8]
        .half 0x4790      ; blx r2
        .half 0x9905      ; ldr r1, [sp, #20]
        .half 0x1c76      ; adds r6, r6, #1                  uint_macros.rs:464
        .half 0x2800      ; cmp r0, #0                       mod.rs:1276
        .half 0xd0f5      ; beq.n 3e8 <_ZN4core3fmt3num3imp54_$LT$impl$u20$core..fmt..Display$u20$for$u20$usize$GT$3fmt17had8012
        .half 0x1e70      ; subs r0, r6, #1
        .half 0xe05d      ; b.n 4bc <_ZN4core3fmt3num3imp54_$LT$impl$u20$core..fmt..Display$u20$for$u20$usize$GT$3fmt17had80124d
        .half 0x9907      ; ldr r1, [sp, #28]                mod.rs:1382
        .half 0x462a      ; mov r2, r5
        .half 0xf000      ; bl 4e4 <_ZN4core3fmt9Formatter12pad_integral12write_prefix17he523e0ecddb7bd62E>
        .half 0xf86e
        .half 0x2800      ; cmp r0, #0
        .half 0xd114      ; bne.n 436 <_ZN4core3fmt3num3imp54_$LT$impl$u20$core..fmt..Display$u20$for$u20$usize$GT$3fmt17had8012
        .half 0x9906      ; ldr r1, [sp, #24]
        .half 0x6988      ; ldr r0, [r1, #24]                mod.rs:1383
        .half 0x69c9      ; ldr r1, [r1, #28]
        .half 0x68cb      ; ldr r3, [r1, #12]
        .half 0x4631      ; mov r1, r6
        .half 0x4622      ; mov r2, r4
        .half 0xe00b      ; b.n 432 <_ZN4core3fmt3num3imp54_$LT$impl$u20$core..fmt..Display$u20$for$u20$usize$GT$3fmt17had80124d
        .half 0x9907      ; ldr r1, [sp, #28]                mod.rs:1388
        .half 0x462a      ; mov r2, r5
        .half 0xf000      ; bl 4e4 <_ZN4core3fmt9Formatter12pad_integral12write_prefix17he523e0ecddb7bd62E>
        .half 0xf861
        .half 0x2800      ; cmp r0, #0
        .half 0x9a03      ; ldr r2, [sp, #12]
        .half 0x9904      ; ldr r1, [sp, #16]
        .half 0xd105      ; bne.n 436 <_ZN4core3fmt3num3imp54_$LT$impl$u20$core..fmt..Display$u20$for$u20$usize$GT$3fmt17had8012
        .half 0x9b06      ; ldr r3, [sp, #24]
        .half 0x6998      ; ldr r0, [r3, #24]                mod.rs:1389
        .half 0x69db      ; ldr r3, [r3, #28]
        .half 0x68db      ; ldr r3, [r3, #12]
        .half 0x4798      ; blx r3
        .half 0x9008      ; str r0, [sp, #32]
        .half 0x9808      ; ldr r0, [sp, #32]                num.rs:288
        .half 0xb013      ; add sp, #76
        .half 0xbdf0      ; pop {r4, r5, r6, r7, pc}
        .half 0x2020      ; movs r0, #32
        .half 0x9a06      ; ldr r2, [sp, #24]
        .half 0x5c11      ; ldrb r1, [r2, r0]                mod.rs:1151
        .half 0x9102      ; str r1, [sp, #8]
        .half 0x2101      ; movs r1, #1
        .half 0x5411      ; strb r1, [r2, r0]                mod.rs:1342
        .half 0x6850      ; ldr r0, [r2, #4]                 mod.rs:1151
        .half 0x9001      ; str r0, [sp, #4]
        .half 0x2030      ; movs r0, #48
        .half 0x6050      ; str r0, [r2, #4]                 mod.rs:1342
        .half 0x4610      ; mov r0, r2                       mod.rs:1396
        .half 0x9907      ; ldr r1, [sp, #28]
        .half 0x462a      ; mov r2, r5
        .half 0xf000      ; bl 4e4 <_ZN4core3fmt9Formatter12pad_integral12write_prefix17he523e0ecddb7bd62E>
        .half 0xf845
        .half 0x2800      ; cmp r0, #0
        .half 0xd1eb      ; bne.n 436 <_ZN4core3fmt3num3imp54_$LT$impl$u20$core..fmt..Display$u20$for$u20$usize$GT$3fmt17had8012
        .half 0x1b31      ; subs r1, r6, r4                  mod.rs:1397
        .half 0x9806      ; ldr r0, [sp, #24]
        .half 0xf000      ; bl 51c <_ZN4core3fmt9Formatter7padding17hd6612b8e9c20b441E>
        .half 0xf85b
        .half 0x4606      ; mov r6, r0
        .half 0x9805      ; ldr r0, [sp, #20]
        .half 0x4286      ; cmp r6, r0
        .half 0xd100      ; bne.n 470 <_ZN4core3fmt3num3imp54_$LT$impl$u20$core..fmt..Display$u20$for$u20$usize$GT$3fmt17had8012
        .half 0x2100      ; movs r1, #0
        .half 0x4286      ; cmp r6, r0                       mod.rs:1397
        .half 0xd0e0      ; beq.n 436 <_ZN4core3fmt3num3imp54_$LT$impl$u20$core..fmt..Display$u20$for$u20$usize$GT$3fmt17had8012
        .half 0x9107      ; str r1, [sp, #28]
        .half 0x9d06      ; ldr r5, [sp, #24]
        .half 0x69a8      ; ldr r0, [r5, #24]                mod.rs:1398
        .half 0x69ec      ; ldr r4, [r5, #28]
        .half 0x68e3      ; ldr r3, [r4, #12]
        .half 0x9005      ; str r0, [sp, #20]
        .half 0x9904      ; ldr r1, [sp, #16]
        .half 0x9a03      ; ldr r2, [sp, #12]
        .half 0x4798      ; blx r3
        .half 0x2800      ; cmp r0, #0
        .half 0xd1d5      ; bne.n 436 <_ZN4core3fmt3num3imp54_$LT$impl$u20$core..fmt..Display$u20$for$u20$usize$GT$3fmt17had8012
        .half 0x3520      ; adds r5, #32
        .half 0x9504      ; str r5, [sp, #16]
        .half 0x2500      ; movs r5, #0
        .half 0x9907      ; ldr r1, [sp, #28]
        .half 0x42a9      ; cmp r1, r5                       range.rs:621
        .half 0xd00a      ; beq.n 4ac <_ZN4core3fmt3num3imp54_$LT$impl$u20$core..fmt..Display$u20$for$u20$usize$GT$3fmt17had8012
        .half 0x6922      ; ldr r2, [r4, #16]                mod.rs:1276
        .half 0x9805      ; ldr r0, [sp, #20]
        .half 0x4631      ; mov r1, r6
        .half 0x4790      ; blx r2
        .half 0x9907      ; ldr r1, [sp, #28]
        .half 0x1c6d      ; adds r5, r5, #1                  uint_macros.rs:464
        .half 0x2800      ; cmp r0, #0                       mod.rs:1276
        .half 0xd0f5      ; beq.n 492 <_ZN4core3fmt3num3imp54_$LT$impl$u20$core..fmt..Display$u20$for$u20$usize$GT$3fmt17had8012
        .half 0x1e68      ; subs r0, r5, #1                  cmp.rs:1398
        .half 0x4288      ; cmp r0, r1                       mod.rs:1399
        .half 0xd3c4      ; bcc.n 436 <_ZN4core3fmt3num3imp54_$LT$impl$u20$core..fmt..Display$u20$for$u20$usize$GT$3fmt17had8012
        .half 0x9802      ; ldr r0, [sp, #8]                 mod.rs:1401
        .half 0x9904      ; ldr r1, [sp, #16]
        .half 0x7008      ; strb r0, [r1, #0]
        .half 0x9806      ; ldr r0, [sp, #24]                mod.rs:1400
        .half 0x9901      ; ldr r1, [sp, #4]
        .half 0x6041      ; str r1, [r0, #4]
        .half 0xe002      ; b.n 4c0 <_ZN4core3fmt3num3imp54_$LT$impl$u20$core..fmt..Display$u20$for$u20$usize$GT$3fmt17had80124d
        .half 0x4608      ; mov r0, r1
        .half 0x4288      ; cmp r0, r1                       cmp.rs:1398
        .half 0xd301      ; bcc.n 4c4 <_ZN4core3fmt3num3imp54_$LT$impl$u20$core..fmt..Display$u20$for$u20$usize$GT$3fmt17had8012
        .half 0x2000      ; movs r0, #0
        .half 0xe7b7      ; b.n 434 <_ZN4core3fmt3num3imp54_$LT$impl$u20$core..fmt..Display$u20$for$u20$usize$GT$3fmt17had80124d
        .half 0x2001      ; movs r0, #1
        .half 0xe7b5      ; b.n 434 <_ZN4core3fmt3num3imp54_$LT$impl$u20$core..fmt..Display$u20$for$u20$usize$GT$3fmt17had80124d
        .half 0xff9c      ; .word 0x0000ff9c
        .half 0x0000
        .half 0x2710      ; .word 0x00002710
        .half 0x0000
        .half 0xd8f0      ; .word 0xffffd8f0
        .half 0xffff
        .half 0x147b      ; .word 0x0000147b
        .half 0x0000
        .word start + 2188
        .half 0xe0ff      ; .word 0x05f5e0ff
        .half 0x05f5
        .word start + 2508
_ZN4core3fmt9Formatter12pad_integral12write_prefix17he52_4:
        .half 0xb5b0      ; push {r4, r5, r7, lr}            mod.rs:1370
        .half 0xaf02      ; add r7, sp, #8
        .half 0x4614      ; mov r4, r2
        .half 0x4605      ; mov r5, r0
        .half 0x2011      ; movs r0, #17
        .half 0x0400      ; lsls r0, r0, #16
        .half 0x4281      ; cmp r1, r0                       mod.rs:1371
        .half 0xd007      ; beq.n 504 <_ZN4core3fmt9Formatter12pad_integral12write_prefix17he523e0ecddb7bd62E+0x20>
        .half 0x69a8      ; ldr r0, [r5, #24]                mod.rs:1372
        .half 0x69ea      ; ldr r2, [r5, #28]
        .half 0x6912      ; ldr r2, [r2, #16]
        .half 0x4790      ; blx r2
        .half 0x2800      ; cmp r0, #0
        .half 0xd001      ; beq.n 504 <_ZN4core3fmt9Formatter12pad_integral12write_prefix17he523e0ecddb7bd62E+0x20>
        .half 0x2001      ; movs r0, #1
        .half 0xbdb0      ; pop {r4, r5, r7, pc}             mod.rs:1375
        .half 0x2c00      ; cmp r4, #0                       mod.rs:1374
        .half 0xd006      ; beq.n 516 <_ZN4core3fmt9Formatter12pad_integral12write_prefix17he523e0ecddb7bd62E+0x32>
        .half 0x69a8      ; ldr r0, [r5, #24]
        .half 0x69e9      ; ldr r1, [r5, #28]
        .half 0x68cb      ; ldr r3, [r1, #12]
        .half 0x2200      ; movs r2, #0
        .half 0x4621      ; mov r1, r4
        .half 0x4798      ; blx r3
        .half 0xbdb0      ; pop {r4, r5, r7, pc}             mod.rs:1375
        .half 0x2000      ; movs r0, #0
        .half 0xbdb0      ; pop {r4, r5, r7, pc}
        .half 0x0000
_ZN4core3fmt9Formatter7padding17hd6612b8e9c20b441E:
        .half 0xb5f0      ; push {r4, r5, r6, r7, lr}        mod.rs:1493
        .half 0xaf03      ; add r7, sp, #12
        .half 0xb083      ; sub sp, #12
        .half 0x2220      ; movs r2, #32
        .half 0x5c83      ; ldrb r3, [r0, r2]                mod.rs:1498
        .half 0x2b03      ; cmp r3, #3                       mod.rs:1503
        .half 0xd100      ; bne.n 52c <_ZN4core3fmt9Formatter7padding17hd6612b8e9c20b441E+0x10>
        .half 0x2301      ; movs r3, #1
        .half 0x2200      ; movs r2, #0
        .half 0x009b      ; lsls r3, r3, #2
        .half 0xa401      ; add r4, pc, #4
        .half 0x58e3      ; ldr r3, [r4, r3]
        .half 0x460c      ; mov r4, r1
        .half 0x469f      ; mov pc, r3
        .word start + 1365
        .word start + 1353
        .word start + 1359
        .word start + 1353
        .half 0x2400      ; movs r4, #0
        .half 0x460a      ; mov r2, r1
        .half 0xe002      ; b.n 554 <_ZN4core3fmt9Formatter7padding17hd6612b8e9c20b441E+0x38>
        .half 0x084a      ; lsrs r2, r1, #1                  mod.rs:1506
        .half 0x1c49      ; adds r1, r1, #1
        .half 0x084c      ; lsrs r4, r1, #1
        .half 0x9401      ; str r4, [sp, #4]
        .half 0x1c54      ; adds r4, r2, #1                  mod.rs:1509
        .half 0x6841      ; ldr r1, [r0, #4]
        .half 0x9102      ; str r1, [sp, #8]
        .half 0x6986      ; ldr r6, [r0, #24]
        .half 0x69c5      ; ldr r5, [r0, #28]
        .half 0x1e64      ; subs r4, r4, #1                  cmp.rs:1398
        .half 0xd009      ; beq.n 578 <_ZN4core3fmt9Formatter7padding17hd6612b8e9c20b441E+0x5c> range.rs:621
        .half 0x692a      ; ldr r2, [r5, #16]                mod.rs:1510
        .half 0x4630      ; mov r0, r6
        .half 0x9902      ; ldr r1, [sp, #8]
        .half 0x4790      ; blx r2
        .half 0x2800      ; cmp r0, #0
        .half 0xd0f7      ; beq.n 560 <_ZN4core3fmt9Formatter7padding17hd6612b8e9c20b441E+0x44>
        .half 0x2011      ; movs r0, #17
        .half 0x0400      ; lsls r0, r0, #16
        .half 0x2100      ; movs r1, #0
        .half 0xe001      ; b.n 57c <_ZN4core3fmt9Formatter7padding17hd6612b8e9c20b441E+0x60>
        .half 0x9901      ; ldr r1, [sp, #4]
        .half 0x9802      ; ldr r0, [sp, #8]
        .half 0xb003      ; add sp, #12                      mod.rs:1514
        .half 0xbdf0      ; pop {r4, r5, r6, r7, pc}
_ZN4core9panicking18panic_bounds_check17h0a644426c76fc7a6E:
        .half 0xb580      ; push {r7, lr}                    panicking.rs:79
        .half 0xaf00      ; add r7, sp, #0
        .half 0xb08c      ; sub sp, #48
        .half 0x2110      ; movs r1, #16
        .half 0x9101      ; str r1, [sp, #4]
        .half 0x9000      ; str r0, [sp, #0]
        .half 0x2002      ; movs r0, #2
        .half 0x9007      ; str r0, [sp, #28]                mod.rs:393
        .half 0xa908      ; add r1, sp, #32
        .half 0x9106      ; str r1, [sp, #24]
        .half 0x2100      ; movs r1, #0
        .half 0x9105      ; str r1, [sp, #20]
        .half 0x9104      ; str r1, [sp, #16]
        .half 0x9003      ; str r0, [sp, #12]
        .half 0x4806      ; ldr r0, [pc, #24]
        .half 0x9002      ; str r0, [sp, #8]
        .half 0x4806      ; ldr r0, [pc, #24]                panicking.rs:84
        .half 0x900b      ; str r0, [sp, #44]
        .half 0x4669      ; mov r1, sp
        .half 0x910a      ; str r1, [sp, #40]
        .half 0x9009      ; str r0, [sp, #36]
        .half 0xa801      ; add r0, sp, #4
        .half 0x9008      ; str r0, [sp, #32]
        .half 0xa802      ; add r0, sp, #8
        .half 0x4903      ; ldr r1, [pc, #12]
        .half 0xf7ff      ; bl 26c <_ZN4core9panicking9panic_fmt17hbe438df0e0c85290E>
        .half 0xfe5b
        .half 0xdefe      ; udf #254
        .word start + 2156
        .word start + 681
        .word start + 2088
_ZN4core5slice5index24slice_end_index_len_fail17h3555901_5:
        .half 0xb580      ; push {r7, lr}                    index.rs:64
        .half 0xaf00      ; add r7, sp, #0
        .half 0xf000      ; bl 5ce <_ZN4core10intrinsics17const_eval_select17h25ba3ed75df6eb54E> index.rs:67
        .half 0xf801
        .half 0xdefe      ; udf #254
_ZN4core10intrinsics17const_eval_select17h25ba3ed75df6eb54E:
        .half 0xb580      ; push {r7, lr}                    intrinsics.rs:2367
        .half 0xaf00      ; add r7, sp, #0
        .half 0xf000      ; bl 5d8 <_ZN4core3ops8function6FnOnce9call_once17h0f7311afb468840aE> intrinsics.rs:2376
        .half 0xf801
        .half 0xdefe      ; udf #254
_ZN4core3ops8function6FnOnce9call_once17h0f7311afb468840aE:
        .half 0xb580      ; push {r7, lr}                    function.rs:248
        .half 0xaf00      ; add r7, sp, #0
        .half 0xf000      ; bl 5e4 <_ZN4core5slice5index27slice_end_index_len_fail_rt17h1810964bfc437a18E>
        .half 0xf802
        .half 0xdefe      ; udf #254
        .half 0x0000
_ZN4core5slice5index27slice_end_index_len_fail_rt17h1810_6:
        .half 0xb580      ; push {r7, lr}                    index.rs:72
        .half 0xaf00      ; add r7, sp, #0
        .half 0xb08c      ; sub sp, #48
        .half 0x2110      ; movs r1, #16
        .half 0x9101      ; str r1, [sp, #4]
        .half 0x9000      ; str r0, [sp, #0]
        .half 0x2002      ; movs r0, #2
        .half 0x9007      ; str r0, [sp, #28]                mod.rs:393
        .half 0xa908      ; add r1, sp, #32
        .half 0x9106      ; str r1, [sp, #24]
        .half 0x2100      ; movs r1, #0
        .half 0x9105      ; str r1, [sp, #20]
        .half 0x9104      ; str r1, [sp, #16]
        .half 0x9003      ; str r0, [sp, #12]
        .half 0x4806      ; ldr r0, [pc, #24]
        .half 0x9002      ; str r0, [sp, #8]
        .half 0x4806      ; ldr r0, [pc, #24]                index.rs:73
        .half 0x900b      ; str r0, [sp, #44]
        .half 0xa901      ; add r1, sp, #4
        .half 0x910a      ; str r1, [sp, #40]
        .half 0x9009      ; str r0, [sp, #36]
        .half 0x4668      ; mov r0, sp
        .half 0x9008      ; str r0, [sp, #32]
        .half 0xa802      ; add r0, sp, #8
        .half 0x4903      ; ldr r1, [pc, #12]
        .half 0xf7ff      ; bl 26c <_ZN4core9panicking9panic_fmt17hbe438df0e0c85290E>
        .half 0xfe29
        .half 0xdefe      ; udf #254
        .word start + 2472
        .word start + 681
        .word start + 2488
_ZN7userlib8sys_recv17h27932de7786bdb53E:
        .half 0xb5f0      ; push {r4, r5, r6, r7, lr}        userlib.rs:175
        .half 0xaf03      ; add r7, sp, #12
        .half 0xb087      ; sub sp, #28
        .half 0x4604      ; mov r4, r0
        .half 0x2600      ; movs r6, #0
        .half 0x9606      ; str r6, [sp, #24]                userlib.rs:25
        .half 0x9605      ; str r6, [sp, #20]
        .half 0x9604      ; str r6, [sp, #16]
        .half 0x480f      ; ldr r0, [pc, #60]
        .half 0x9002      ; str r0, [sp, #8]
        .half 0x9601      ; str r6, [sp, #4]
        .half 0x9100      ; str r1, [sp, #0]
        .half 0xb290      ; uxth r0, r2
        .half 0x2800      ; cmp r0, #0                       userlib.rs:176
        .half 0xd000      ; beq.n 648 <_ZN7userlib8sys_recv17h27932de7786bdb53E+0x20>
        .half 0x480d      ; ldr r0, [pc, #52]
        .half 0x9003      ; str r0, [sp, #12]                userlib.rs:25
        .half 0x4668      ; mov r0, sp
        .half 0x2501      ; movs r5, #1
        .half 0x4629      ; mov r1, r5                       userlib.rs:28
        .half 0xf7ff      ; bl 4c <svc>
        .half 0xfcfc
        .half 0x9800      ; ldr r0, [sp, #0]                 userlib.rs:181
        .half 0x2800      ; cmp r0, #0
        .half 0xd001      ; beq.n 65e <_ZN7userlib8sys_recv17h27932de7786bdb53E+0x36>
        .half 0x462e      ; mov r6, r5
        .half 0xe008      ; b.n 670 <_ZN7userlib8sys_recv17h27932de7786bdb53E+0x48>
        .half 0x9801      ; ldr r0, [sp, #4]                 userlib.rs:185
        .half 0x82a0      ; strh r0, [r4, #20]               userlib.rs:184
        .half 0x9805      ; ldr r0, [sp, #20]                userlib.rs:189
        .half 0x9904      ; ldr r1, [sp, #16]                userlib.rs:188
        .half 0x9a03      ; ldr r2, [sp, #12]                userlib.rs:187
        .half 0x60a2      ; str r2, [r4, #8]                 userlib.rs:184
        .half 0x60e1      ; str r1, [r4, #12]
        .half 0x6120      ; str r0, [r4, #16]
        .half 0x9802      ; ldr r0, [sp, #8]                 userlib.rs:186
        .half 0x6026      ; str r6, [r4, #0]                 userlib.rs:184
        .half 0x6060      ; str r0, [r4, #4]
        .half 0xb007      ; add sp, #28                      userlib.rs:191
        .half 0xbdf0      ; pop {r4, r5, r6, r7, pc}
        .word note_sent
        .half 0xffff      ; .word 0x8000ffff
        .half 0x8000
_ZN7userlib9sys_panic17h7b02fdcb40ac5b1eE:
        .half 0xb580      ; push {r7, lr}                    userlib.rs:261
        .half 0xaf00      ; add r7, sp, #0
        .half 0xb088      ; sub sp, #32
        .half 0x2004      ; movs r0, #4
        .half 0x9002      ; str r0, [sp, #8]                 userlib.rs:25
        .half 0x4806      ; ldr r0, [pc, #24]
        .half 0x9001      ; str r0, [sp, #4]
        .half 0xac01      ; add r4, sp, #4
        .half 0x4620      ; mov r0, r4
        .half 0x3008      ; adds r0, #8
        .half 0x2114      ; movs r1, #20
        .half 0xf000      ; bl 6ea <__aeabi_memclr4>
        .half 0xf828
        .half 0x2108      ; movs r1, #8
        .half 0x4620      ; mov r0, r4                       userlib.rs:28
        .half 0xf7ff      ; bl 4c <svc>
        .half 0xfcd5
        .half 0xe7fe      ; b.n 6a2 <_ZN7userlib9sys_panic17h7b02fdcb40ac5b1eE+0x22> userlib.rs:263
        .word start + 2504
rust_begin_unwind:
        .half 0xb580      ; push {r7, lr}                    userlib.rs:352
        .half 0xaf00      ; add r7, sp, #0
        .half 0xb088      ; sub sp, #32
        .half 0x68c0      ; ldr r0, [r0, #12]                panic_info.rs:130
        .half 0x6801      ; ldr r1, [r0, #0]                 location.rs:128
        .half 0x6880      ; ldr r0, [r0, #8]                 location.rs:152
        .half 0x9002      ; str r0, [sp, #8]                 userlib.rs:25
        .half 0x9101      ; str r1, [sp, #4]
        .half 0xac01      ; add r4, sp, #4
        .half 0x4620      ; mov r0, r4
        .half 0x3008      ; adds r0, #8
        .half 0x2114      ; movs r1, #20
        .half 0xf000      ; bl 6ea <__aeabi_memclr4>
        .half 0xf813
        .half 0x2108      ; movs r1, #8
        .half 0x4620      ; mov r0, r4                       userlib.rs:28
        .half 0xf7ff      ; bl 4c <svc>
        .half 0xfcc0
        .half 0xe7fe      ; b.n 6cc <rust_begin_unwind+0x24> userlib.rs:356
memset:
        .half 0x0003      ; movs r3, r0                      mem.c:26
        .half 0x1882      ; adds r2, r0, r2
        .half 0x4293      ; cmp r3, r2                       mem.c:26
        .half 0xd100      ; bne.n 6d8 <memset+0xa>
        .half 0x4770      ; bx lr                            mem.c:29
        .half 0x7019      ; strb r1, [r3, #0]                mem.c:27
        .half 0x3301      ; adds r3, #1                      mem.c:26
        .half 0xe7f9      ; b.n 6d2 <memset+0x4>
__aeabi_memclr:
__aeabi_memclr_localalias:
        .half 0xb510      ; push {r4, lr}                    mem.c:50
        .half 0x000a      ; movs r2, r1
        .half 0x2100      ; movs r1, #0
        .half 0xf7ff      ; bl 6ce <memset>
        .half 0xfff3
        .half 0xbd10      ; pop {r4, pc}
__aeabi_memclr4:
        .half 0xb510      ; push {r4, lr}                    mem.c:51
        .half 0xf7ff      ; bl 6de <__aeabi_memclr>
        .half 0xfff7
        .half 0xbd10      ; pop {r4, pc}
        .half 0x0000
_udivsi3_skip_div0_test:
__aeabi_uidiv:
__udivsi3:
        .half 0x2200      ; movs r2, #0                      lib1funcs.S:1081
        .half 0x0843      ; lsrs r3, r0, #1
        .half 0x428b      ; cmp r3, r1
        .half 0xd374      ; bcc.n 7e6 <__udivsi3+0xf2>
        .half 0x0903      ; lsrs r3, r0, #4
        .half 0x428b      ; cmp r3, r1
        .half 0xd35f      ; bcc.n 7c2 <__udivsi3+0xce>
        .half 0x0a03      ; lsrs r3, r0, #8
        .half 0x428b      ; cmp r3, r1
        .half 0xd344      ; bcc.n 792 <__udivsi3+0x9e>
        .half 0x0b03      ; lsrs r3, r0, #12
        .half 0x428b      ; cmp r3, r1
        .half 0xd328      ; bcc.n 760 <__udivsi3+0x6c>
        .half 0x0c03      ; lsrs r3, r0, #16
        .half 0x428b      ; cmp r3, r1
        .half 0xd30d      ; bcc.n 730 <__udivsi3+0x3c>
        .half 0x22ff      ; movs r2, #255
        .half 0x0209      ; lsls r1, r1, #8
        .half 0xba12      ; rev r2, r2
        .half 0x0c03      ; lsrs r3, r0, #16
        .half 0x428b      ; cmp r3, r1
        .half 0xd302      ; bcc.n 726 <__udivsi3+0x32>
        .half 0x1212      ; asrs r2, r2, #8
        .half 0x0209      ; lsls r1, r1, #8
        .half 0xd065      ; beq.n 7f2 <__udivsi3+0xfe>
        .half 0x0b03      ; lsrs r3, r0, #12
        .half 0x428b      ; cmp r3, r1
        .half 0xd319      ; bcc.n 760 <__udivsi3+0x6c>
        .half 0xe000      ; b.n 730 <__udivsi3+0x3c>
        .half 0x0a09      ; lsrs r1, r1, #8
        .half 0x0bc3      ; lsrs r3, r0, #15
        .half 0x428b      ; cmp r3, r1
        .half 0xd301      ; bcc.n 73a <__udivsi3+0x46>
        .half 0x03cb      ; lsls r3, r1, #15
        .half 0x1ac0      ; subs r0, r0, r3
        .half 0x4152      ; adcs r2, r2
        .half 0x0b83      ; lsrs r3, r0, #14
        .half 0x428b      ; cmp r3, r1
        .half 0xd301      ; bcc.n 746 <__udivsi3+0x52>
        .half 0x038b      ; lsls r3, r1, #14
        .half 0x1ac0      ; subs r0, r0, r3
        .half 0x4152      ; adcs r2, r2
        .half 0x0b43      ; lsrs r3, r0, #13
        .half 0x428b      ; cmp r3, r1
        .half 0xd301      ; bcc.n 752 <__udivsi3+0x5e>
        .half 0x034b      ; lsls r3, r1, #13
        .half 0x1ac0      ; subs r0, r0, r3
        .half 0x4152      ; adcs r2, r2
        .half 0x0b03      ; lsrs r3, r0, #12
        .half 0x428b      ; cmp r3, r1
        .half 0xd301      ; bcc.n 75e <__udivsi3+0x6a>
        .half 0x030b      ; lsls r3, r1, #12
        .half 0x1ac0      ; subs r0, r0, r3
        .half 0x4152      ; adcs r2, r2
        .half 0x0ac3      ; lsrs r3, r0, #11
        .half 0x428b      ; cmp r3, r1
        .half 0xd301      ; bcc.n 76a <__udivsi3+0x76>
        .half 0x02cb      ; lsls r3, r1, #11
        .half 0x1ac0      ; subs r0, r0, r3
        .half 0x4152      ; adcs r2, r2
        .half 0x0a83      ; lsrs r3, r0, #10
        .half 0x428b      ; cmp r3, r1
        .half 0xd301      ; bcc.n 776 <__udivsi3+0x82>
        .half 0x028b      ; lsls r3, r1, #10
        .half 0x1ac0      ; subs r0, r0, r3
        .half 0x4152      ; adcs r2, r2
        .half 0x0a43      ; lsrs r3, r0, #9
        .half 0x428b      ; cmp r3, r1
        .half 0xd301      ; bcc.n 782 <__udivsi3+0x8e>
        .half 0x024b      ; lsls r3, r1, #9
        .half 0x1ac0      ; subs r0, r0, r3
        .half 0x4152      ; adcs r2, r2
        .half 0x0a03      ; lsrs r3, r0, #8
        .half 0x428b      ; cmp r3, r1
        .half 0xd301      ; bcc.n 78e <__udivsi3+0x9a>
        .half 0x020b      ; lsls r3, r1, #8
        .half 0x1ac0      ; subs r0, r0, r3
        .half 0x4152      ; adcs r2, r2
        .half 0xd2cd      ; bcs.n 72e <__udivsi3+0x3a>
        .half 0x09c3      ; lsrs r3, r0, #7
        .half 0x428b      ; cmp r3, r1
        .half 0xd301      ; bcc.n 79c <__udivsi3+0xa8>
        .half 0x01cb      ; lsls r3, r1, #7
        .half 0x1ac0      ; subs r0, r0, r3
        .half 0x4152      ; adcs r2, r2
        .half 0x0983      ; lsrs r3, r0, #6
        .half 0x428b      ; cmp r3, r1
        .half 0xd301      ; bcc.n 7a8 <__udivsi3+0xb4>
        .half 0x018b      ; lsls r3, r1, #6
        .half 0x1ac0      ; subs r0, r0, r3
        .half 0x4152      ; adcs r2, r2
        .half 0x0943      ; lsrs r3, r0, #5
        .half 0x428b      ; cmp r3, r1
        .half 0xd301      ; bcc.n 7b4 <__udivsi3+0xc0>
        .half 0x014b      ; lsls r3, r1, #5
        .half 0x1ac0      ; subs r0, r0, r3
        .half 0x4152      ; adcs r2, r2
        .half 0x0903      ; lsrs r3, r0, #4
        .half 0x428b      ; cmp r3, r1
        .half 0xd301      ; bcc.n 7c0 <__udivsi3+0xcc>
        .half 0x010b      ; lsls r3, r1, #4
        .half 0x1ac0      ; subs r0, r0, r3
        .half 0x4152      ; adcs r2, r2
        .half 0x08c3      ; lsrs r3, r0, #3
        .half 0x428b      ; cmp r3, r1
        .half 0xd301      ; bcc.n 7cc <__udivsi3+0xd8>
        .half 0x00cb      ; lsls r3, r1, #3
        .half 0x1ac0      ; subs r0, r0, r3
        .half 0x4152      ; adcs r2, r2
        .half 0x0883      ; lsrs r3, r0, #2
        .half 0x428b      ; cmp r3, r1
        .half 0xd301      ; bcc.n 7d8 <__udivsi3+0xe4>
        .half 0x008b      ; lsls r3, r1, #2
        .half 0x1ac0      ; subs r0, r0, r3
        .half 0x4152      ; adcs r2, r2
        .half 0x0843      ; lsrs r3, r0, #1
        .half 0x428b      ; cmp r3, r1
        .half 0xd301      ; bcc.n 7e4 <__udivsi3+0xf0>
        .half 0x004b      ; lsls r3, r1, #1
        .half 0x1ac0      ; subs r0, r0, r3
        .half 0x4152      ; adcs r2, r2
        .half 0x1a41      ; subs r1, r0, r1
        .half 0xd200      ; bcs.n 7ec <__udivsi3+0xf8>
        .half 0x4601      ; mov r1, r0
        .half 0x4152      ; adcs r2, r2
        .half 0x4610      ; mov r0, r2
        .half 0x4770      ; bx lr
        .half 0xe7ff      ; b.n 7f4 <__udivsi3+0x100>
        .half 0xb501      ; push {r0, lr}                    lib1funcs.S:1130
        .half 0x2000      ; movs r0, #0
        .half 0xf000      ; bl 808 <__aeabi_idiv0>
        .half 0xf806
        .half 0xbd02      ; pop {r1, pc}
        .half 0x46c0      ; nop
__aeabi_uidivmod:
        .half 0x2900      ; cmp r1, #0                       lib1funcs.S:1134
        .half 0xd0f7      ; beq.n 7f4 <__udivsi3+0x100>      lib1funcs.S:1135
        .half 0xe776      ; b.n 6f4 <__udivsi3>              lib1funcs.S:1147
        .half 0x4770      ; bx lr                            lib1funcs.S:1148
__aeabi_idiv0:
__aeabi_ldiv0:
        .half 0x4770      ; bx lr
        .half 0x46c0      ; nop
        .half 0x7865      ; .word 0x6d617865
        .half 0x6d61
        .half 0x6c70      ; .word 0x73656c70
        .half 0x7365
        .half 0x662f      ; .word 0x6f72662f
        .half 0x6f72
        .half 0x2d6d      ; .word 0x75722d6d
        .half 0x7572
        .half 0x7473      ; .word 0x752f7473
        .half 0x752f
        .half 0x7261      ; .word 0x2e747261
        .half 0x2e74
        .half 0x7372      ; .word 0x00007372
        .half 0x0000
        .word start + 2060
        .half 0x001a      ; .word 0x0000001a
        .half 0x0000
        .half 0x001b      ; .word 0x0000001b
        .half 0x0000
        .half 0x0039      ; .word 0x00000039
        .half 0x0000
        .half 0x6e69      ; .word 0x65646e69
        .half 0x6564
        .half 0x2078      ; .word 0x756f2078
        .half 0x756f
        .half 0x2074      ; .word 0x666f2074
        .half 0x666f
        .half 0x6220      ; .word 0x756f6220
        .half 0x756f
        .half 0x646e      ; .word 0x3a73646e
        .half 0x3a73
        .half 0x7420      ; .word 0x65687420
        .half 0x6568
        .half 0x6c20      ; .word 0x6e656c20
        .half 0x6e65
        .half 0x6920      ; .word 0x20736920
        .half 0x2073
        .half 0x6220      ; .word 0x74756220
        .half 0x7475
        .half 0x7420      ; .word 0x65687420
        .half 0x6568
        .half 0x6920      ; .word 0x646e6920
        .half 0x646e
        .half 0x7865      ; .word 0x69207865
        .half 0x6920
        .half 0x2073      ; .word 0x00002073
        .half 0x0000
        .word start + 2104
        .half 0x0020      ; .word 0x00000020
        .half 0x0000
        .word start + 2136
        .half 0x0012      ; .word 0x00000012
        .half 0x0000
        .word start + 661
        .half 0x0000      ; .word 0x00000000
        .half 0x0000
        .half 0x0001      ; .word 0x00000001
        .half 0x0000
        .word start + 665
        .half 0x3030      ; .word 0x31303030
        .half 0x3130
        .half 0x3230      ; .word 0x33303230
        .half 0x3330
        .half 0x3430      ; .word 0x35303430
        .half 0x3530
        .half 0x3630      ; .word 0x37303630
        .half 0x3730
        .half 0x3830      ; .word 0x39303830
        .half 0x3930
        .half 0x3031      ; .word 0x31313031
        .half 0x3131
        .half 0x3231      ; .word 0x33313231
        .half 0x3331
        .half 0x3431      ; .word 0x35313431
        .half 0x3531
        .half 0x3631      ; .word 0x37313631
        .half 0x3731
        .half 0x3831      ; .word 0x39313831
        .half 0x3931
        .half 0x3032      ; .word 0x31323032
        .half 0x3132
        .half 0x3232      ; .word 0x33323232
        .half 0x3332
        .half 0x3432      ; .word 0x35323432
        .half 0x3532
        .half 0x3632      ; .word 0x37323632
        .half 0x3732
        .half 0x3832      ; .word 0x39323832
        .half 0x3932
        .half 0x3033      ; .word 0x31333033
        .half 0x3133
        .half 0x3233      ; .word 0x33333233
        .half 0x3333
        .half 0x3433      ; .word 0x35333433
        .half 0x3533
        .half 0x3633      ; .word 0x37333633
        .half 0x3733
        .half 0x3833      ; .word 0x39333833
        .half 0x3933
        .half 0x3034      ; .word 0x31343034
        .half 0x3134
        .half 0x3234      ; .word 0x33343234
        .half 0x3334
        .half 0x3434      ; .word 0x35343434
        .half 0x3534
        .half 0x3634      ; .word 0x37343634
        .half 0x3734
        .half 0x3834      ; .word 0x39343834
        .half 0x3934
        .half 0x3035      ; .word 0x31353035
        .half 0x3135
        .half 0x3235      ; .word 0x33353235
        .half 0x3335
        .half 0x3435      ; .word 0x35353435
        .half 0x3535
        .half 0x3635      ; .word 0x37353635
        .half 0x3735
        .half 0x3835      ; .word 0x39353835
        .half 0x3935
        .half 0x3036      ; .word 0x31363036
        .half 0x3136
        .half 0x3236      ; .word 0x33363236
        .half 0x3336
        .half 0x3436      ; .word 0x35363436
        .half 0x3536
        .half 0x3636      ; .word 0x37363636
        .half 0x3736
        .half 0x3836      ; .word 0x39363836
        .half 0x3936
        .half 0x3037      ; .word 0x31373037
        .half 0x3137
        .half 0x3237      ; .word 0x33373237
        .half 0x3337
        .half 0x3437      ; .word 0x35373437
        .half 0x3537
        .half 0x3637      ; .word 0x37373637
        .half 0x3737
        .half 0x3837      ; .word 0x39373837
        .half 0x3937
        .half 0x3038      ; .word 0x31383038
        .half 0x3138
        .half 0x3238      ; .word 0x33383238
        .half 0x3338
        .half 0x3438      ; .word 0x35383438
        .half 0x3538
        .half 0x3638      ; .word 0x37383638
        .half 0x3738
        .half 0x3838      ; .word 0x39383838
        .half 0x3938
        .half 0x3039      ; .word 0x31393039
        .half 0x3139
        .half 0x3239      ; .word 0x33393239
        .half 0x3339
        .half 0x3439      ; .word 0x35393439
        .half 0x3539
        .half 0x3639      ; .word 0x37393639
        .half 0x3739
        .half 0x3839      ; .word 0x39393839
        .half 0x3939
        .half 0x6f20      ; .word 0x74756f20
        .half 0x7475
        .half 0x6f20      ; .word 0x20666f20
        .half 0x2066
        .half 0x6172      ; .word 0x676e6172
        .half 0x676e
        .half 0x2065      ; .word 0x6f662065
        .half 0x6f66
        .half 0x2072      ; .word 0x6c732072
        .half 0x6c73
        .half 0x6369      ; .word 0x20656369
        .half 0x2065
        .half 0x666f      ; .word 0x6c20666f
        .half 0x6c20
        .half 0x6e65      ; .word 0x74676e65
        .half 0x7467
        .half 0x2068      ; .short 0x2068
        .half 0x696c      ; .short 0x696c
        .half 0x7262      ; .word 0x72617262
        .half 0x7261
        .half 0x2f79      ; .word 0x6f632f79
        .half 0x6f63
        .half 0x6572      ; .word 0x732f6572
        .half 0x732f
        .half 0x6372      ; .word 0x732f6372
        .half 0x732f
        .half 0x696c      ; .word 0x6563696c
        .half 0x6563
        .half 0x692f      ; .word 0x646e692f
        .half 0x646e
        .half 0x7865      ; .word 0x722e7865
        .half 0x722e
        .half 0x7273      ; .byte 0x73
        .half 0x6e61      ; .short 0x6e61
        .half 0x6567      ; .word 0x65206567
        .half 0x6520
        .half 0x646e      ; .word 0x6920646e
        .half 0x6920
        .half 0x646e      ; .word 0x7865646e
        .half 0x7865
        .half 0x0020      ; .word 0x00000020
        .half 0x0000
        .word start + 2453
        .half 0x0010      ; .word 0x00000010
        .half 0x0000
        .word start + 2388
        .half 0x0022      ; .word 0x00000022
        .half 0x0000
        .word start + 2422
        .half 0x001f      ; .word 0x0000001f
        .half 0x0000
        .half 0x0049      ; .word 0x00000049
        .half 0x0000
        .half 0x0005      ; .word 0x00000005
        .half 0x0000
        .half 0x6572      ; .word 0x76636572
        .half 0x7663
