; Made of client.rs by to-source.sh, rustc 1.63.0, and from-c: not to be changed by hand.
; 3804 bytes of flash, and 0 bytes of RAM from stack_top on.
start:
        .half 0xb510      ; push {r4, lr}                    start.c:10
        .half 0x4a0e      ; ldr r2, [pc, #56]
        .half 0x4b0e      ; ldr r3, [pc, #56]
        .half 0x490f      ; ldr r1, [pc, #60]                start.c:13
        .half 0xb088      ; sub sp, #32                      start.c:10
        .half 0x428b      ; cmp r3, r1                       start.c:13
        .half 0xd311      ; bcc.n 32 <start+0x32>
        .half 0x2400      ; movs r4, #0
        .half 0x4a0d      ; ldr r2, [pc, #52]                start.c:15
        .half 0x4293      ; cmp r3, r2
        .half 0xd310      ; bcc.n 38 <start+0x38>
        .half 0xf000      ; bl 164 <task>                    start.c:17
        .half 0xf8a5
        .half 0x2108      ; movs r1, #8                      start.c:18
        .half 0xa801      ; add r0, sp, #4
        .half 0x9401      ; str r4, [sp, #4]                 start.c:18
        .half 0x9402      ; str r4, [sp, #8]
        .half 0x9403      ; str r4, [sp, #12]
        .half 0x9404      ; str r4, [sp, #16]
        .half 0x9405      ; str r4, [sp, #20]
        .half 0x9406      ; str r4, [sp, #24]
        .half 0x9407      ; str r4, [sp, #28]
        .half 0xf000      ; bl 4c <svc>                      start.c:18
        .half 0xf80e
        .half 0xe7fe      ; b.n 30 <start+0x30>              start.c:18
        .half 0xca01      ; ldmia r2!, {r0}                  start.c:14
        .half 0xc301      ; stmia r3!, {r0}
        .half 0xe7e8      ; b.n a <start+0xa>
        .half 0xc310      ; stmia r3!, {r4}                  start.c:16
        .half 0xe7ea      ; b.n 12 <start+0x12>
        .word start + 3804
        .word stack_top + 0
        .word stack_top + 0
        .word stack_top + 0
svc:
        .half 0xb5f0      ; push {r4, r5, r6, r7, lr}
        .half 0x4644      ; mov r4, r8
        .half 0x464d      ; mov r5, r9
        .half 0x4656      ; mov r6, sl
        .half 0x465f      ; mov r7, fp
        .half 0xb4f0      ; push {r4, r5, r6, r7}
        .half 0x468b      ; mov fp, r1
        .half 0x6902      ; ldr r2, [r0, #16]
        .half 0x4690      ; mov r8, r2
        .half 0x6942      ; ldr r2, [r0, #20]
        .half 0x4691      ; mov r9, r2
        .half 0x6982      ; ldr r2, [r0, #24]
        .half 0x4692      ; mov sl, r2
        .half 0x4602      ; mov r2, r0
        .half 0xcaf0      ; ldmia r2!, {r4, r5, r6, r7}
        .half 0xdf00      ; svc 0
        .half 0xc0f0      ; stmia r0!, {r4, r5, r6, r7}
        .half 0x4642      ; mov r2, r8
        .half 0x464b      ; mov r3, r9
        .half 0xc00c      ; stmia r0!, {r2, r3}
        .half 0xbcf0      ; pop {r4, r5, r6, r7}
        .half 0x46a0      ; mov r8, r4
        .half 0x46a9      ; mov r9, r5
        .half 0x46b2      ; mov sl, r6
        .half 0x46bb      ; mov fp, r7
        .half 0xbdf0      ; pop {r4, r5, r6, r7, pc}
_ZN4core3ptr45drop_in_place_LT__RF_mut_u20_client__Line__1:
        .half 0x4770      ; bx lr                            mod.rs:487
_ZN50__LT__RF_mut_u20_W_u20_as_u20_core__fmt__Write_GT_1_2:
        .half 0xb5d0      ; push {r4, r6, r7, lr}            mod.rs:197
        .half 0xaf02      ; add r7, sp, #8
        .half 0xb082      ; sub sp, #8
        .half 0x6800      ; ldr r0, [r0, #0]                 mod.rs:198
        .half 0x2200      ; movs r2, #0
        .half 0x9201      ; str r2, [sp, #4]                 mod.rs:164
        .half 0x2980      ; cmp r1, #128                     methods.rs:1638
        .half 0xd203      ; bcs.n 9a <_ZN50_$LT$$RF$mut$u20$W$u20$as$u20$core..fmt..Write$GT$10write_char17h3995ed61d341035bE+0x
        .half 0xaa01      ; add r2, sp, #4
        .half 0x7011      ; strb r1, [r2, #0]                methods.rs:1669
        .half 0x2201      ; movs r2, #1
        .half 0xe02f      ; b.n fa <_ZN50_$LT$$RF$mut$u20$W$u20$as$u20$core..fmt..Write$GT$10write_char17h3995ed61d341035bE+0x78
        .half 0x0aca      ; lsrs r2, r1, #11                 methods.rs:1640
        .half 0xd10a      ; bne.n b4 <_ZN50_$LT$$RF$mut$u20$W$u20$as$u20$core..fmt..Write$GT$10write_char17h3995ed61d341035bE+0x
        .half 0x223f      ; movs r2, #63
        .half 0x400a      ; ands r2, r1                      methods.rs:1673
        .half 0x3280      ; adds r2, #128
        .half 0xab01      ; add r3, sp, #4
        .half 0x705a      ; strb r2, [r3, #1]
        .half 0x0989      ; lsrs r1, r1, #6                  methods.rs:1672
        .half 0x22c0      ; movs r2, #192
        .half 0x430a      ; orrs r2, r1
        .half 0x701a      ; strb r2, [r3, #0]
        .half 0x2202      ; movs r2, #2
        .half 0xe022      ; b.n fa <_ZN50_$LT$$RF$mut$u20$W$u20$as$u20$core..fmt..Write$GT$10write_char17h3995ed61d341035bE+0x78
        .half 0x0c0a      ; lsrs r2, r1, #16                 methods.rs:1642
        .half 0xd10e      ; bne.n d6 <_ZN50_$LT$$RF$mut$u20$W$u20$as$u20$core..fmt..Write$GT$10write_char17h3995ed61d341035bE+0x
        .half 0x223f      ; movs r2, #63
        .half 0x400a      ; ands r2, r1                      methods.rs:1678
        .half 0x3280      ; adds r2, #128
        .half 0xab01      ; add r3, sp, #4
        .half 0x709a      ; strb r2, [r3, #2]
        .half 0x0b0a      ; lsrs r2, r1, #12                 methods.rs:1676
        .half 0x24e0      ; movs r4, #224
        .half 0x4314      ; orrs r4, r2
        .half 0x701c      ; strb r4, [r3, #0]
        .half 0x0509      ; lsls r1, r1, #20                 methods.rs:1677
        .half 0x0e89      ; lsrs r1, r1, #26
        .half 0x3180      ; adds r1, #128
        .half 0x7059      ; strb r1, [r3, #1]
        .half 0x2203      ; movs r2, #3
        .half 0xe011      ; b.n fa <_ZN50_$LT$$RF$mut$u20$W$u20$as$u20$core..fmt..Write$GT$10write_char17h3995ed61d341035bE+0x78
        .half 0x233f      ; movs r3, #63
        .half 0x400b      ; ands r3, r1                      methods.rs:1684
        .half 0x3380      ; adds r3, #128
        .half 0xaa01      ; add r2, sp, #4
        .half 0x70d3      ; strb r3, [r2, #3]
        .half 0x0c8b      ; lsrs r3, r1, #18                 methods.rs:1681
        .half 0x24f0      ; movs r4, #240
        .half 0x431c      ; orrs r4, r3
        .half 0x7014      ; strb r4, [r2, #0]
        .half 0x050b      ; lsls r3, r1, #20                 methods.rs:1683
        .half 0x0e9b      ; lsrs r3, r3, #26
        .half 0x3380      ; adds r3, #128
        .half 0x7093      ; strb r3, [r2, #2]
        .half 0x0389      ; lsls r1, r1, #14                 methods.rs:1682
        .half 0x0e89      ; lsrs r1, r1, #26
        .half 0x3180      ; adds r1, #128
        .half 0x7051      ; strb r1, [r2, #1]
        .half 0x2204      ; movs r2, #4
        .half 0xa901      ; add r1, sp, #4
        .half 0xf000      ; bl 136 <_ZN49_$LT$client..Line$u20$as$u20$core..fmt..Write$GT$9write_str17hbb256598d448e9b1E> mod.rs:164
        .half 0xf81b
        .half 0x2000      ; movs r0, #0
        .half 0xb002      ; add sp, #8                       mod.rs:199
        .half 0xbdd0      ; pop {r4, r6, r7, pc}
_ZN50__LT__RF_mut_u20_W_u20_as_u20_core__fmt__Write_GT_9_3:
        .half 0xb5b0      ; push {r4, r5, r7, lr}            mod.rs:201
        .half 0xaf02      ; add r7, sp, #8
        .half 0xb088      ; sub sp, #32
        .half 0x6800      ; ldr r0, [r0, #0]                 mod.rs:202
        .half 0x9001      ; str r0, [sp, #4]
        .half 0xaa02      ; add r2, sp, #8
        .half 0x4610      ; mov r0, r2                       mod.rs:187
        .half 0xc938      ; ldmia r1!, {r3, r4, r5}
        .half 0xc038      ; stmia r0!, {r3, r4, r5}
        .half 0xc938      ; ldmia r1!, {r3, r4, r5}
        .half 0xc038      ; stmia r0!, {r3, r4, r5}
        .half 0xa801      ; add r0, sp, #4
        .half 0x4611      ; mov r1, r2
        .half 0xf000      ; bl 678 <_ZN4core3fmt5write17h3c7ff4c3b622dfd4E>
        .half 0xfaaa
        .half 0xb008      ; add sp, #32                      mod.rs:203
        .half 0xbdb0      ; pop {r4, r5, r7, pc}
_ZN50__LT__RF_mut_u20_W_u20_as_u20_core__fmt__Write_GT_9_4:
        .half 0xb580      ; push {r7, lr}                    mod.rs:193
        .half 0xaf00      ; add r7, sp, #0
        .half 0x6800      ; ldr r0, [r0, #0]                 mod.rs:194
        .half 0xf000      ; bl 136 <_ZN49_$LT$client..Line$u20$as$u20$core..fmt..Write$GT$9write_str17hbb256598d448e9b1E>
        .half 0xf802
        .half 0x2000      ; movs r0, #0
        .half 0xbd80      ; pop {r7, pc}                     mod.rs:195
_ZN49__LT_client__Line_u20_as_u20_core__fmt__Write_GT_9w_5:
        .half 0xb5d0      ; push {r4, r6, r7, lr}            client.rs:19
        .half 0xaf02      ; add r7, sp, #8
        .half 0x2a00      ; cmp r2, #0                       macros.rs:146
        .half 0xd00c      ; beq.n 158 <_ZN49_$LT$client..Line$u20$as$u20$core..fmt..Write$GT$9write_str17hbb256598d448e9b1E+0x22
        .half 0x6803      ; ldr r3, [r0, #0]                 client.rs:21
        .half 0x2b13      ; cmp r3, #19
        .half 0xd80a      ; bhi.n 15a <_ZN49_$LT$client..Line$u20$as$u20$core..fmt..Write$GT$9write_str17hbb256598d448e9b1E+0x24
        .half 0x18c3      ; adds r3, r0, r3
        .half 0x780c      ; ldrb r4, [r1, #0]                option.rs:1755
        .half 0x711c      ; strb r4, [r3, #4]                client.rs:21
        .half 0x6803      ; ldr r3, [r0, #0]                 client.rs:22
        .half 0x1c5b      ; adds r3, r3, #1
        .half 0x6003      ; str r3, [r0, #0]
        .half 0x1e52      ; subs r2, r2, #1                  macros.rs:146
        .half 0x1c49      ; adds r1, r1, #1                  mut_ptr.rs:469
        .half 0x2a00      ; cmp r2, #0                       macros.rs:146
        .half 0xd1f3      ; bne.n 140 <_ZN49_$LT$client..Line$u20$as$u20$core..fmt..Write$GT$9write_str17hbb256598d448e9b1E+0xa>
        .half 0xbdd0      ; pop {r4, r6, r7, pc}             client.rs:25
        .half 0x4618      ; mov r0, r3                       client.rs:21
        .half 0xf000      ; bl 5d0 <_ZN4core9panicking18panic_bounds_check17h0a644426c76fc7a6E>
        .half 0xfa38
        .half 0xdefe      ; udf #254
        .half 0x0000
task:
        .half 0xb580      ; push {r7, lr}                    client.rs:39
        .half 0xaf00      ; add r7, sp, #0
        .half 0xb098      ; sub sp, #96
        .half 0x200a      ; movs r0, #10
        .half 0x9003      ; str r0, [sp, #12]                client.rs:41
        .half 0xa811      ; add r0, sp, #68
        .half 0x1d00      ; adds r0, r0, #4
        .half 0x9002      ; str r0, [sp, #8]
        .half 0xa804      ; add r0, sp, #16
        .half 0x1d00      ; adds r0, r0, #4
        .half 0x9001      ; str r0, [sp, #4]
        .half 0xa040      ; add r0, pc, #256
        .half 0x8804      ; ldrh r4, [r0, #0]
        .half 0xad04      ; add r5, sp, #16
        .half 0x2118      ; movs r1, #24
        .half 0x4628      ; mov r0, r5                       client.rs:43
        .half 0xf000      ; bl 93a <__aeabi_memclr4>
        .half 0xfbd9
        .half 0xae11      ; add r6, sp, #68
        .half 0x211c      ; movs r1, #28
        .half 0x4630      ; mov r0, r6                       userlib.rs:25
        .half 0xf000      ; bl 93a <__aeabi_memclr4>
        .half 0xfbd4
        .half 0x2109      ; movs r1, #9
        .half 0x4630      ; mov r0, r6                       userlib.rs:28
        .half 0xf7ff      ; bl 4c <svc>
        .half 0xff59
        .half 0x9812      ; ldr r0, [sp, #72]                num.rs:54
        .half 0x900b      ; str r0, [sp, #44]                client.rs:44
        .half 0x9811      ; ldr r0, [sp, #68]                userlib.rs:276
        .half 0x900a      ; str r0, [sp, #40]                client.rs:44
        .half 0x4833      ; ldr r0, [pc, #204]               client.rs:45
        .half 0x900f      ; str r0, [sp, #60]
        .half 0xa80a      ; add r0, sp, #40
        .half 0x900e      ; str r0, [sp, #56]
        .half 0x4832      ; ldr r0, [pc, #200]
        .half 0x900d      ; str r0, [sp, #52]
        .half 0xa803      ; add r0, sp, #12
        .half 0x900c      ; str r0, [sp, #48]
        .half 0x9510      ; str r5, [sp, #64]
        .half 0x2002      ; movs r0, #2
        .half 0x9016      ; str r0, [sp, #88]                mod.rs:187
        .half 0xa80c      ; add r0, sp, #48
        .half 0x9015      ; str r0, [sp, #84]
        .half 0x2500      ; movs r5, #0
        .half 0x9514      ; str r5, [sp, #80]
        .half 0x9513      ; str r5, [sp, #76]
        .half 0x2003      ; movs r0, #3
        .half 0x9012      ; str r0, [sp, #72]
        .half 0x482c      ; ldr r0, [pc, #176]
        .half 0x9011      ; str r0, [sp, #68]
        .half 0xa810      ; add r0, sp, #64
        .half 0xa911      ; add r1, sp, #68
        .half 0xf000      ; bl 678 <_ZN4core3fmt5write17h3c7ff4c3b622dfd4E>
        .half 0xfa53
        .half 0x9510      ; str r5, [sp, #64]                client.rs:29
        .half 0x9411      ; str r4, [sp, #68]                userlib.rs:25
        .half 0x2118      ; movs r1, #24
        .half 0x9802      ; ldr r0, [sp, #8]
        .half 0xf000      ; bl 93a <__aeabi_memclr4>
        .half 0xfbae
        .half 0xa811      ; add r0, sp, #68
        .half 0x210a      ; movs r1, #10
        .half 0xf7ff      ; bl 4c <svc>                      userlib.rs:28
        .half 0xff33
        .half 0x9804      ; ldr r0, [sp, #16]                client.rs:31
        .half 0x2815      ; cmp r0, #21                      index.rs:303
        .half 0xd23e      ; bcs.n 26a <task+0x106>
        .half 0x9911      ; ldr r1, [sp, #68]
        .half 0x900e      ; str r0, [sp, #56]                client.rs:31
        .half 0x9801      ; ldr r0, [sp, #4]
        .half 0x900d      ; str r0, [sp, #52]
        .half 0x2601      ; movs r6, #1
        .half 0x960c      ; str r6, [sp, #48]
        .half 0x9617      ; str r6, [sp, #92]                userlib.rs:25
        .half 0xa80c      ; add r0, sp, #48
        .half 0x9016      ; str r0, [sp, #88]
        .half 0x2004      ; movs r0, #4
        .half 0x9015      ; str r0, [sp, #84]
        .half 0xa810      ; add r0, sp, #64
        .half 0x9014      ; str r0, [sp, #80]
        .half 0x9513      ; str r5, [sp, #76]
        .half 0x481d      ; ldr r0, [pc, #116]
        .half 0x9012      ; str r0, [sp, #72]
        .half 0x0408      ; lsls r0, r1, #16                 userlib.rs:152
        .half 0x1c40      ; adds r0, r0, #1
        .half 0x9011      ; str r0, [sp, #68]                userlib.rs:25
        .half 0xa811      ; add r0, sp, #68
        .half 0x4629      ; mov r1, r5                       userlib.rs:28
        .half 0xf7ff      ; bl 4c <svc>
        .half 0xff19
        .half 0x9811      ; ldr r0, [sp, #68]                userlib.rs:161
        .half 0x4919      ; ldr r1, [pc, #100]               client.rs:32
        .half 0x4288      ; cmp r0, r1
        .half 0xd8d8      ; bhi.n 1d4 <task+0x70>
        .half 0x207d      ; movs r0, #125
        .half 0x00c0      ; lsls r0, r0, #3
        .half 0x9903      ; ldr r1, [sp, #12]                client.rs:47
        .half 0x4341      ; muls r1, r0
        .half 0x9103      ; str r1, [sp, #12]
        .half 0x980b      ; ldr r0, [sp, #44]                client.rs:48
        .half 0x990a      ; ldr r1, [sp, #40]
        .half 0x9517      ; str r5, [sp, #92]                userlib.rs:25
        .half 0x9516      ; str r5, [sp, #88]
        .half 0x9515      ; str r5, [sp, #84]
        .half 0x4a14      ; ldr r2, [pc, #80]
        .half 0x9214      ; str r2, [sp, #80]
        .half 0x1c89      ; adds r1, r1, #2                  client.rs:48
        .half 0x4168      ; adcs r0, r5
        .half 0x9013      ; str r0, [sp, #76]                userlib.rs:25
        .half 0x9112      ; str r1, [sp, #72]
        .half 0x9611      ; str r6, [sp, #68]
        .half 0xa811      ; add r0, sp, #68
        .half 0x2103      ; movs r1, #3
        .half 0xf7ff      ; bl 4c <svc>                      userlib.rs:28
        .half 0xff00
        .half 0x9517      ; str r5, [sp, #92]                userlib.rs:25
        .half 0x9516      ; str r5, [sp, #88]
        .half 0x9515      ; str r5, [sp, #84]
        .half 0x480e      ; ldr r0, [pc, #56]
        .half 0x9014      ; str r0, [sp, #80]
        .half 0x480c      ; ldr r0, [pc, #48]
        .half 0x9013      ; str r0, [sp, #76]
        .half 0x9512      ; str r5, [sp, #72]
        .half 0x4808      ; ldr r0, [pc, #32]
        .half 0x9011      ; str r0, [sp, #68]
        .half 0xa811      ; add r0, sp, #68
        .half 0x4631      ; mov r1, r6                       userlib.rs:28
        .half 0xf7ff      ; bl 4c <svc>
        .half 0xfef2
        .half 0xe789      ; b.n 17e <task+0x1a>
        .half 0xf000      ; bl 614 <_ZN4core5slice5index24slice_end_index_len_fail17h3555901245b2c3fbE> index.rs:304
        .half 0xf9d3
        .half 0xdefe      ; udf #254
        .word start + 2025
        .word start + 2013
        .word start + 3380
        .word task_uart
        .word start + 3804
        .half 0xfeff      ; .word 0xfffffeff
        .half 0xffff
        .word note_timer
        .half 0xffff      ; .word 0x8000ffff
        .half 0x8000
_ZN4core3ops8function6FnOnce9call_once17hc00214fcc0eb24f0E:
        .half 0x6800      ; ldr r0, [r0, #0]                 mod.rs:1504
        .half 0xe7fe      ; b.n 292 <_ZN4core3ops8function6FnOnce9call_once17hc00214fcc0eb24f0E+0x2> mod.rs:309
_ZN4core9panicking9panic_fmt17hbe438df0e0c85290E:
        .half 0xb580      ; push {r7, lr}                    panicking.rs:127
        .half 0xaf00      ; add r7, sp, #0
        .half 0xb086      ; sub sp, #24
        .half 0xaa01      ; add r2, sp, #4
        .half 0x2301      ; movs r3, #1
        .half 0x7413      ; strb r3, [r2, #16]               panic_info.rs:51
        .half 0x9104      ; str r1, [sp, #16]
        .half 0x9003      ; str r0, [sp, #12]
        .half 0x4803      ; ldr r0, [pc, #12]
        .half 0x9002      ; str r0, [sp, #8]
        .half 0x4803      ; ldr r0, [pc, #12]
        .half 0x9001      ; str r0, [sp, #4]
        .half 0x4610      ; mov r0, r2                       panicking.rs:142
        .half 0xf000      ; bl 8f8 <rust_begin_unwind>
        .half 0xfb23
        .half 0xdefe      ; udf #254
        .word start + 3472
        .word start + 3804
_ZN4core3ptr88drop_in_place_LT_core__panic__panic_info___6:
        .half 0x4770      ; bx lr                            mod.rs:487
        .half 0x0000
_ZN36__LT_T_u20_as_u20_core__any__Any_GT_7type_id17he484_7:
        .half 0x4801      ; ldr r0, [pc, #4]                 any.rs:204
        .half 0x4902      ; ldr r1, [pc, #8]
        .half 0x4770      ; bx lr                            any.rs:206
        .half 0x46c0      ; nop
        .half 0x82bd      ; .word 0x3e1082bd
        .half 0x3e10
        .half 0x9b12      ; .word 0xdba79b12
        .half 0xdba7
_ZN4core3fmt3num3imp54__LT_impl_u20_core__fmt__Display_u_8:
        .half 0xb580      ; push {r7, lr}                    num.rs:279
        .half 0xaf00      ; add r7, sp, #0
        .half 0x6800      ; ldr r0, [r0, #0]                 num.rs:44
        .half 0xf000      ; bl 2dc <_ZN4core3fmt3num3imp7fmt_u3217h98ddb01b1b227d3bE> num.rs:287
        .half 0xf801
        .half 0xbd80      ; pop {r7, pc}                     num.rs:288
_ZN4core3fmt3num3imp7fmt_u3217h98ddb01b1b227d3bE:
        .half 0xb5f0      ; push {r4, r5, r6, r7, lr}        num.rs:211
        .half 0xaf03      ; add r7, sp, #12
        .half 0xb08d      ; sub sp, #52
        .half 0x9100      ; str r1, [sp, #0]
        .half 0x4b31      ; ldr r3, [pc, #196]
        .half 0x4932      ; ldr r1, [pc, #200]
        .half 0x2627      ; movs r6, #39
        .half 0x4288      ; cmp r0, r1                       num.rs:230
        .half 0xd32d      ; bcc.n 34a <_ZN4core3fmt3num3imp7fmt_u3217h98ddb01b1b227d3bE+0x6e>
        .half 0x4605      ; mov r5, r0
        .half 0x9602      ; str r6, [sp, #8]                 num.rs:232
        .half 0x4628      ; mov r0, r5
        .half 0x492e      ; ldr r1, [pc, #184]
        .half 0xf000      ; bl 944 <__udivsi3>
        .half 0xfb25
        .half 0x9001      ; str r0, [sp, #4]
        .half 0x492d      ; ldr r1, [pc, #180]
        .half 0x4341      ; muls r1, r0
        .half 0x1949      ; adds r1, r1, r5
        .half 0xb28a      ; uxth r2, r1                      num.rs:234
        .half 0x0892      ; lsrs r2, r2, #2
        .half 0x482c      ; ldr r0, [pc, #176]
        .half 0x4342      ; muls r2, r0
        .half 0x0c52      ; lsrs r2, r2, #17
        .half 0x0053      ; lsls r3, r2, #1
        .half 0x482b      ; ldr r0, [pc, #172]
        .half 0x5cc0      ; ldrb r0, [r0, r3]                intrinsics.rs:2137
        .half 0xac03      ; add r4, sp, #12
        .half 0x19a4      ; adds r4, r4, r6
        .half 0x1f26      ; subs r6, r4, #4
        .half 0x7030      ; strb r0, [r6, #0]
        .half 0x4828      ; ldr r0, [pc, #160]               const_ptr.rs:457
        .half 0x18c0      ; adds r0, r0, r3
        .half 0x4b23      ; ldr r3, [pc, #140]
        .half 0x7840      ; ldrb r0, [r0, #1]                intrinsics.rs:2137
        .half 0x7070      ; strb r0, [r6, #1]
        .half 0x9e02      ; ldr r6, [sp, #8]
        .half 0x435a      ; muls r2, r3
        .half 0x1850      ; adds r0, r2, r1
        .half 0xb280      ; uxth r0, r0                      num.rs:235
        .half 0x0040      ; lsls r0, r0, #1
        .half 0x4923      ; ldr r1, [pc, #140]
        .half 0x5c09      ; ldrb r1, [r1, r0]                intrinsics.rs:2137
        .half 0x1ea2      ; subs r2, r4, #2
        .half 0x7011      ; strb r1, [r2, #0]
        .half 0x4921      ; ldr r1, [pc, #132]               const_ptr.rs:457
        .half 0x1808      ; adds r0, r1, r0
        .half 0x7840      ; ldrb r0, [r0, #1]                intrinsics.rs:2137
        .half 0x7050      ; strb r0, [r2, #1]
        .half 0x9801      ; ldr r0, [sp, #4]
        .half 0x1f36      ; subs r6, r6, #4                  num.rs:236
        .half 0x491f      ; ldr r1, [pc, #124]               num.rs:230
        .half 0x428d      ; cmp r5, r1
        .half 0x4605      ; mov r5, r0
        .half 0xd8d2      ; bhi.n 2f0 <_ZN4core3fmt3num3imp7fmt_u3217h98ddb01b1b227d3bE+0x14>
        .half 0x2863      ; cmp r0, #99                      num.rs:249
        .half 0xd912      ; bls.n 374 <_ZN4core3fmt3num3imp7fmt_u3217h98ddb01b1b227d3bE+0x98>
        .half 0xb281      ; uxth r1, r0                      num.rs:250
        .half 0x088a      ; lsrs r2, r1, #2                  num.rs:251
        .half 0x4919      ; ldr r1, [pc, #100]
        .half 0x4351      ; muls r1, r2
        .half 0x0c49      ; lsrs r1, r1, #17
        .half 0x434b      ; muls r3, r1
        .half 0x1818      ; adds r0, r3, r0
        .half 0xb280      ; uxth r0, r0                      num.rs:250
        .half 0x0040      ; lsls r0, r0, #1
        .half 0x4a16      ; ldr r2, [pc, #88]                const_ptr.rs:457
        .half 0x5c13      ; ldrb r3, [r2, r0]                intrinsics.rs:2137
        .half 0x1eb6      ; subs r6, r6, #2                  num.rs:252
        .half 0xac03      ; add r4, sp, #12
        .half 0x55a3      ; strb r3, [r4, r6]                intrinsics.rs:2137
        .half 0x19a3      ; adds r3, r4, r6                  mut_ptr.rs:469
        .half 0x1810      ; adds r0, r2, r0                  const_ptr.rs:457
        .half 0x7840      ; ldrb r0, [r0, #1]                intrinsics.rs:2137
        .half 0x7058      ; strb r0, [r3, #1]
        .half 0xe000      ; b.n 376 <_ZN4core3fmt3num3imp7fmt_u3217h98ddb01b1b227d3bE+0x9a>
        .half 0x4601      ; mov r1, r0
        .half 0x290a      ; cmp r1, #10                      num.rs:257
        .half 0xd204      ; bcs.n 384 <_ZN4core3fmt3num3imp7fmt_u3217h98ddb01b1b227d3bE+0xa8>
        .half 0x1e70      ; subs r0, r6, #1                  num.rs:258
        .half 0x3130      ; adds r1, #48                     num.rs:259
        .half 0xaa03      ; add r2, sp, #12
        .half 0x5411      ; strb r1, [r2, r0]
        .half 0xe009      ; b.n 398 <_ZN4core3fmt3num3imp7fmt_u3217h98ddb01b1b227d3bE+0xbc>
        .half 0x0049      ; lsls r1, r1, #1                  num.rs:261
        .half 0x4a0d      ; ldr r2, [pc, #52]                const_ptr.rs:457
        .half 0x5c53      ; ldrb r3, [r2, r1]                intrinsics.rs:2137
        .half 0x1eb0      ; subs r0, r6, #2                  num.rs:262
        .half 0xac03      ; add r4, sp, #12
        .half 0x5423      ; strb r3, [r4, r0]                intrinsics.rs:2137
        .half 0x1823      ; adds r3, r4, r0                  mut_ptr.rs:469
        .half 0x1851      ; adds r1, r2, r1                  const_ptr.rs:457
        .half 0x7849      ; ldrb r1, [r1, #1]                intrinsics.rs:2137
        .half 0x7059      ; strb r1, [r3, #1]
        .half 0xa903      ; add r1, sp, #12
        .half 0x1809      ; adds r1, r1, r0                  mut_ptr.rs:469
        .half 0x2227      ; movs r2, #39
        .half 0x1a12      ; subs r2, r2, r0                  num.rs:271
        .half 0x9800      ; ldr r0, [sp, #0]                 num.rs:273
        .half 0xf000      ; bl 3c4 <_ZN4core3fmt9Formatter12pad_integral17h17e9c2a4c5203e71E>
        .half 0xf80f
        .half 0xb00d      ; add sp, #52                      num.rs:274
        .half 0xbdf0      ; pop {r4, r5, r6, r7, pc}
        .half 0x46c0      ; nop
        .half 0xff9c      ; .word 0x0000ff9c
        .half 0x0000
        .half 0x2710      ; .word 0x00002710
        .half 0x0000
        .half 0xd8f0      ; .word 0xffffd8f0
        .half 0xffff
        .half 0x147b      ; .word 0x0000147b
        .half 0x0000
        .word start + 3488
        .half 0xe0ff      ; .word 0x05f5e0ff
        .half 0x05f5
_ZN4core3fmt9Formatter12pad_integral17h17e9c2a4c5203e71E:
        .half 0xb5f0      ; push {r4, r5, r6, r7, lr}        mod.rs:1349
        .half 0xaf03      ; add r7, sp, #12
        .half 0xb089      ; sub sp, #36
        .half 0x4616      ; mov r6, r2
        .half 0x9106      ; str r1, [sp, #24]
        .half 0x4605      ; mov r5, r0
        .half 0x6800      ; ldr r0, [r0, #0]                 mod.rs:1830
        .half 0x2201      ; movs r2, #1
        .half 0x4601      ; mov r1, r0
        .half 0x9208      ; str r2, [sp, #32]
        .half 0x4011      ; ands r1, r2
        .half 0x2211      ; movs r2, #17
        .half 0x0413      ; lsls r3, r2, #16
        .half 0x2900      ; cmp r1, #0                       mod.rs:1356
        .half 0x461a      ; mov r2, r3
        .half 0xd000      ; beq.n 3e6 <_ZN4core3fmt9Formatter12pad_integral17h17e9c2a4c5203e71E+0x22>
        .half 0x222b      ; movs r2, #43
        .half 0x9207      ; str r2, [sp, #28]
        .half 0x0742      ; lsls r2, r0, #29                 mod.rs:1887
        .half 0x17d2      ; asrs r2, r2, #31
        .half 0x4c50      ; ldr r4, [pc, #320]               mod.rs:1361
        .half 0x4014      ; ands r4, r2
        .half 0x68aa      ; ldr r2, [r5, #8]                 mod.rs:1378
        .half 0x2a00      ; cmp r2, #0
        .half 0xd033      ; beq.n 45e <_ZN4core3fmt9Formatter12pad_integral17h17e9c2a4c5203e71E+0x9a>
        .half 0x9605      ; str r6, [sp, #20]
        .half 0x1989      ; adds r1, r1, r6
        .half 0x68ee      ; ldr r6, [r5, #12]                mod.rs:1387
        .half 0x428e      ; cmp r6, r1
        .half 0xd93b      ; bls.n 478 <_ZN4core3fmt9Formatter12pad_integral17h17e9c2a4c5203e71E+0xb4>
        .half 0x9303      ; str r3, [sp, #12]
        .half 0x0700      ; lsls r0, r0, #28                 mod.rs:1393
        .half 0xd449      ; bmi.n 49a <_ZN4core3fmt9Formatter12pad_integral17h17e9c2a4c5203e71E+0xd6>
        .half 0x1a71      ; subs r1, r6, r1                  mod.rs:1406
        .half 0x4628      ; mov r0, r5
        .half 0xf000      ; bl 56c <_ZN4core3fmt9Formatter7padding17hd6612b8e9c20b441E>
        .half 0xf8af
        .half 0x9a03      ; ldr r2, [sp, #12]
        .half 0x9004      ; str r0, [sp, #16]
        .half 0x4290      ; cmp r0, r2
        .half 0xd100      ; bne.n 418 <_ZN4core3fmt9Formatter12pad_integral17h17e9c2a4c5203e71E+0x54>
        .half 0x2100      ; movs r1, #0
        .half 0x9e05      ; ldr r6, [sp, #20]
        .half 0x9804      ; ldr r0, [sp, #16]                mod.rs:1406
        .half 0x4290      ; cmp r0, r2
        .half 0xd039      ; beq.n 494 <_ZN4core3fmt9Formatter12pad_integral17h17e9c2a4c5203e71E+0xd0>
        .half 0x9105      ; str r1, [sp, #20]
        .half 0x4628      ; mov r0, r5                       mod.rs:1407
        .half 0x9907      ; ldr r1, [sp, #28]
        .half 0x4622      ; mov r2, r4
        .half 0xf000      ; bl 534 <_ZN4core3fmt9Formatter12pad_integral12write_prefix17he523e0ecddb7bd62E>
        .half 0xf884
        .half 0x2800      ; cmp r0, #0
        .half 0xd131      ; bne.n 494 <_ZN4core3fmt9Formatter12pad_integral17h17e9c2a4c5203e71E+0xd0>
        .half 0x69ac      ; ldr r4, [r5, #24]                mod.rs:1408
        .half 0x69ed      ; ldr r5, [r5, #28]
        .half 0x68eb      ; ldr r3, [r5, #12]
        .half 0x4620      ; mov r0, r4
        .half 0x9906      ; ldr r1, [sp, #24]
        .half 0x4632      ; mov r2, r6
        .half 0x4798      ; blx r3
        .half 0x2800      ; cmp r0, #0
        .half 0xd128      ; bne.n 494 <_ZN4core3fmt9Formatter12pad_integral17h17e9c2a4c5203e71E+0xd0>
        .half 0x2600      ; movs r6, #0
        .half 0x9905      ; ldr r1, [sp, #20]
        .half 0x42b1      ; cmp r1, r6                       range.rs:621
        .half 0xd06a      ; beq.n 520 <_ZN4core3fmt9Formatter12pad_integral17h17e9c2a4c5203e71E+0x15c>
        .half 0x692a      ; ldr r2, [r5, #16]                mod.rs:1276
        .half 0x4620      ; mov r0, r4
        .half 0x9904      ; ldr r1, [sp, #16]
        .half 0x4790      ; blx r2
        .half 0x9905      ; ldr r1, [sp, #20]
        .half 0x1c76      ; adds r6, r6, #1                  uint_macros.rs:464
        .half 0x2800      ; cmp r0, #0                       mod.rs:1276
        .half 0xd0f5      ; beq.n 446 <_ZN4core3fmt9Formatter12pad_integral17h17e9c2a4c5203e71E+0x82>
        .half 0x1e70      ; subs r0, r6, #1
        .half 0xe061      ; b.n 522 <_ZN4core3fmt9Formatter12pad_integral17h17e9c2a4c5203e71E+0x15e>
        .half 0x4628      ; mov r0, r5                       mod.rs:1382
        .half 0x9907      ; ldr r1, [sp, #28]
        .half 0x4622      ; mov r2, r4
        .half 0xf000      ; bl 534 <_ZN4core3fmt9Formatter12pad_integral12write_prefix17he523e0ecddb7bd62E>
        .half 0xf866
        .half 0x2800      ; cmp r0, #0
        .half 0xd113      ; bne.n 494 <_ZN4core3fmt9Formatter12pad_integral17h17e9c2a4c5203e71E+0xd0>
        .half 0x69a8      ; ldr r0, [r5, #24]                mod.rs:1383
        .half 0x69e9      ; ldr r1, [r5, #28]
        .half 0x68cb      ; ldr r3, [r1, #12]
        .half 0x9906      ; ldr r1, [sp, #24]
        .half 0x4632      ; mov r2, r6
        .half 0xe00b      ; b.n 490 <_ZN4core3fmt9Formatter12pad_integral17h17e9c2a4c5203e71E+0xcc>
        .half 0x4628      ; mov r0, r5                       mod.rs:1388
        .half 0x9907      ; ldr r1, [sp, #28]
        .half 0x4622      ; mov r2, r4
        .half 0xf000      ; bl 534 <_ZN4core3fmt9Formatter12pad_integral12write_prefix17he523e0ecddb7bd62E>
        .half 0xf859
        .half 0x2800      ; cmp r0, #0
        .half 0x9a05      ; ldr r2, [sp, #20]
        .half 0xd105      ; bne.n 494 <_ZN4core3fmt9Formatter12pad_integral17h17e9c2a4c5203e71E+0xd0>
        .half 0x69a8      ; ldr r0, [r5, #24]                mod.rs:1389
        .half 0x69e9      ; ldr r1, [r5, #28]
        .half 0x68cb      ; ldr r3, [r1, #12]
        .half 0x9906      ; ldr r1, [sp, #24]
        .half 0x4798      ; blx r3
        .half 0x9008      ; str r0, [sp, #32]
        .half 0x9808      ; ldr r0, [sp, #32]                mod.rs:1412
        .half 0xb009      ; add sp, #36
        .half 0xbdf0      ; pop {r4, r5, r6, r7, pc}
        .half 0x9104      ; str r1, [sp, #16]
        .half 0x2020      ; movs r0, #32
        .half 0x5c29      ; ldrb r1, [r5, r0]                mod.rs:1151
        .half 0x9102      ; str r1, [sp, #8]
        .half 0x2101      ; movs r1, #1
        .half 0x5429      ; strb r1, [r5, r0]                mod.rs:1342
        .half 0x6868      ; ldr r0, [r5, #4]                 mod.rs:1151
        .half 0x9001      ; str r0, [sp, #4]
        .half 0x2030      ; movs r0, #48
        .half 0x6068      ; str r0, [r5, #4]                 mod.rs:1342
        .half 0x4628      ; mov r0, r5                       mod.rs:1396
        .half 0x9907      ; ldr r1, [sp, #28]
        .half 0x4622      ; mov r2, r4
        .half 0xf000      ; bl 534 <_ZN4core3fmt9Formatter12pad_integral12write_prefix17he523e0ecddb7bd62E>
        .half 0xf83e
        .half 0x2800      ; cmp r0, #0
        .half 0xd1eb      ; bne.n 494 <_ZN4core3fmt9Formatter12pad_integral17h17e9c2a4c5203e71E+0xd0>
        .half 0x9804      ; ldr r0, [sp, #16]                mod.rs:1397
        .half 0x1a31      ; subs r1, r6, r0
        .half 0x4628      ; mov r0, r5
        .half 0xf000      ; bl 56c <_ZN4core3fmt9Formatter7padding17hd6612b8e9c20b441E>
        .half 0xf853
        .half 0x4606      ; mov r6, r0
        .half 0x9803      ; ldr r0, [sp, #12]
        .half 0x4286      ; cmp r6, r0
        .half 0xd001      ; beq.n 4d2 <_ZN4core3fmt9Formatter12pad_integral17h17e9c2a4c5203e71E+0x10e>
        .half 0x460c      ; mov r4, r1
        .half 0xe000      ; b.n 4d4 <_ZN4core3fmt9Formatter12pad_integral17h17e9c2a4c5203e71E+0x110>
        .half 0x2400      ; movs r4, #0
        .half 0x4286      ; cmp r6, r0                       mod.rs:1397
        .half 0xd0dd      ; beq.n 494 <_ZN4core3fmt9Formatter12pad_integral17h17e9c2a4c5203e71E+0xd0>
        .half 0x69a8      ; ldr r0, [r5, #24]                mod.rs:1398
        .half 0x69e9      ; ldr r1, [r5, #28]
        .half 0x9103      ; str r1, [sp, #12]
        .half 0x68cb      ; ldr r3, [r1, #12]
        .half 0x9004      ; str r0, [sp, #16]
        .half 0x9906      ; ldr r1, [sp, #24]
        .half 0x9a05      ; ldr r2, [sp, #20]
        .half 0x4798      ; blx r3
        .half 0x2800      ; cmp r0, #0
        .half 0xd1d3      ; bne.n 494 <_ZN4core3fmt9Formatter12pad_integral17h17e9c2a4c5203e71E+0xd0>
        .half 0x9407      ; str r4, [sp, #28]
        .half 0x4628      ; mov r0, r5
        .half 0x3020      ; adds r0, #32
        .half 0x9006      ; str r0, [sp, #24]
        .half 0x2400      ; movs r4, #0
        .half 0x9807      ; ldr r0, [sp, #28]                range.rs:621
        .half 0x42a0      ; cmp r0, r4
        .half 0xd00b      ; beq.n 514 <_ZN4core3fmt9Formatter12pad_integral17h17e9c2a4c5203e71E+0x150>
        .half 0x9803      ; ldr r0, [sp, #12]                mod.rs:1276
        .half 0x6902      ; ldr r2, [r0, #16]
        .half 0x9804      ; ldr r0, [sp, #16]
        .half 0x4631      ; mov r1, r6
        .half 0x4790      ; blx r2
        .half 0x1c64      ; adds r4, r4, #1                  uint_macros.rs:464
        .half 0x2800      ; cmp r0, #0                       mod.rs:1276
        .half 0xd0f4      ; beq.n 4f6 <_ZN4core3fmt9Formatter12pad_integral17h17e9c2a4c5203e71E+0x132>
        .half 0x1e60      ; subs r0, r4, #1                  cmp.rs:1398
        .half 0x9907      ; ldr r1, [sp, #28]                mod.rs:1399
        .half 0x4288      ; cmp r0, r1
        .half 0xd3bf      ; bcc.n 494 <_ZN4core3fmt9Formatter12pad_integral17h17e9c2a4c5203e71E+0xd0>
        .half 0x9802      ; ldr r0, [sp, #8]                 mod.rs:1401
        .half 0x9906      ; ldr r1, [sp, #24]
        .half 0x7008      ; strb r0, [r1, #0]
        .half 0x9801      ; ldr r0, [sp, #4]                 mod.rs:1400
        .half 0x6068      ; str r0, [r5, #4]
        .half 0xe002      ; b.n 526 <_ZN4core3fmt9Formatter12pad_integral17h17e9c2a4c5203e71E+0x162>
        .half 0x4608      ; mov r0, r1
        .half 0x4288      ; cmp r0, r1                       cmp.rs:1398
        .half 0xd301      ; bcc.n 52a <_ZN4core3fmt9Formatter12pad_integral17h17e9c2a4c5203e71E+0x166>
        .half 0x2000      ; movs r0, #0
        .half 0xe7b3      ; b.n 492 <_ZN4core3fmt9Formatter12pad_integral17h17e9c2a4c5203e71E+0xce>
        .half 0x2001      ; movs r0, #1
        .half 0xe7b1      ; b.n 492 <_ZN4core3fmt9Formatter12pad_integral17h17e9c2a4c5203e71E+0xce>
        .half 0x46c0      ; nop
        .word start + 3804
_ZN4core3fmt9Formatter12pad_integral12write_prefix17he52_9:
        .half 0xb5b0      ; push {r4, r5, r7, lr}            mod.rs:1370
        .half 0xaf02      ; add r7, sp, #8
        .half 0x4614      ; mov r4, r2
        .half 0x4605      ; mov r5, r0
        .half 0x2011      ; movs r0, #17
        .half 0x0400      ; lsls r0, r0, #16
        .half 0x4281      ; cmp r1, r0                       mod.rs:1371
        .half 0xd007      ; beq.n 554 <_ZN4core3fmt9Formatter12pad_integral12write_prefix17he523e0ecddb7bd62E+0x20>
        .half 0x69a8      ; ldr r0, [r5, #24]                mod.rs:1372
        .half 0x69ea      ; ldr r2, [r5, #28]
        .half 0x6912      ; ldr r2, [r2, #16]
        .half 0x4790      ; blx r2
        .half 0x2800      ; cmp r0, #0
        .half 0xd001      ; beq.n 554 <_ZN4core3fmt9Formatter12pad_integral12write_prefix17he523e0ecddb7bd62E+0x20>
        .half 0x2001      ; movs r0, #1
        .half 0xbdb0      ; pop {r4, r5, r7, pc}             mod.rs:1375
        .half 0x2c00      ; cmp r4, #0                       mod.rs:1374
        .half 0xd006      ; beq.n 566 <_ZN4core3fmt9Formatter12pad_integral12write_prefix17he523e0ecddb7bd62E+0x32>
        .half 0x69a8      ; ldr r0, [r5, #24]
        .half 0x69e9      ; ldr r1, [r5, #28]
        .half 0x68cb      ; ldr r3, [r1, #12]
        .half 0x2200      ; movs r2, #0
        .half 0x4621      ; mov r1, r4
        .half 0x4798      ; blx r3
        .half 0xbdb0      ; pop {r4, r5, r7, pc}             mod.rs:1375
        .half 0x2000      ; movs r0, #0
        .half 0xbdb0      ; pop {r4, r5, r7, pc}
        .half 0x0000
_ZN4core3fmt9Formatter7padding17hd6612b8e9c20b441E:
        .half 0xb5f0      ; push {r4, r5, r6, r7, lr}        mod.rs:1493
        .half 0xaf03      ; add r7, sp, #12
        .half 0xb083      ; sub sp, #12
        .half 0x2220      ; movs r2, #32
        .half 0x5c83      ; ldrb r3, [r0, r2]                mod.rs:1498
        .half 0x2b03      ; cmp r3, #3                       mod.rs:1503
        .half 0xd100      ; bne.n 57c <_ZN4core3fmt9Formatter7padding17hd6612b8e9c20b441E+0x10>
        .half 0x2301      ; movs r3, #1
        .half 0x2200      ; movs r2, #0
        .half 0x009b      ; lsls r3, r3, #2
        .half 0xa401      ; add r4, pc, #4
        .half 0x58e3      ; ldr r3, [r4, r3]
        .half 0x460c      ; mov r4, r1
        .half 0x469f      ; mov pc, r3
        .word start + 1445
        .word start + 1433
        .word start + 1439
        .word start + 1433
        .half 0x2400      ; movs r4, #0
        .half 0x460a      ; mov r2, r1
        .half 0xe002      ; b.n 5a4 <_ZN4core3fmt9Formatter7padding17hd6612b8e9c20b441E+0x38>
        .half 0x084a      ; lsrs r2, r1, #1                  mod.rs:1506
        .half 0x1c49      ; adds r1, r1, #1
        .half 0x084c      ; lsrs r4, r1, #1
        .half 0x9401      ; str r4, [sp, #4]
        .half 0x1c54      ; adds r4, r2, #1                  mod.rs:1509
        .half 0x6841      ; ldr r1, [r0, #4]
        .half 0x9102      ; str r1, [sp, #8]
        .half 0x6986      ; ldr r6, [r0, #24]
        .half 0x69c5      ; ldr r5, [r0, #28]
        .half 0x1e64      ; subs r4, r4, #1                  cmp.rs:1398
        .half 0xd009      ; beq.n 5c8 <_ZN4core3fmt9Formatter7padding17hd6612b8e9c20b441E+0x5c> range.rs:621
        .half 0x692a      ; ldr r2, [r5, #16]                mod.rs:1510
        .half 0x4630      ; mov r0, r6
        .half 0x9902      ; ldr r1, [sp, #8]
        .half 0x4790      ; blx r2
        .half 0x2800      ; cmp r0, #0
        .half 0xd0f7      ; beq.n 5b0 <_ZN4core3fmt9Formatter7padding17hd6612b8e9c20b441E+0x44>
        .half 0x2011      ; movs r0, #17
        .half 0x0400      ; lsls r0, r0, #16
        .half 0x2100      ; movs r1, #0
        .half 0xe001      ; b.n 5cc <_ZN4core3fmt9Formatter7padding17hd6612b8e9c20b441E+0x60>
        .half 0x9901      ; ldr r1, [sp, #4]
        .half 0x9802      ; ldr r0, [sp, #8]
        .half 0xb003      ; add sp, #12                      mod.rs:1514
        .half 0xbdf0      ; pop {r4, r5, r6, r7, pc}
_ZN4core9panicking18panic_bounds_check17h0a644426c76fc7a6E:
        .half 0xb580      ; push {r7, lr}                    panicking.rs:79
        .half 0xaf00      ; add r7, sp, #0
        .half 0xb08c      ; sub sp, #48
        .half 0x2114      ; movs r1, #20
        .half 0x9101      ; str r1, [sp, #4]
        .half 0x9000      ; str r0, [sp, #0]
        .half 0x2002      ; movs r0, #2
        .half 0x9007      ; str r0, [sp, #28]                mod.rs:393
        .half 0xa908      ; add r1, sp, #32
        .half 0x9106      ; str r1, [sp, #24]
        .half 0x2100      ; movs r1, #0
        .half 0x9105      ; str r1, [sp, #20]
        .half 0x9104      ; str r1, [sp, #16]
        .half 0x9003      ; str r0, [sp, #12]
        .half 0x4806      ; ldr r0, [pc, #24]
        .half 0x9002      ; str r0, [sp, #8]
        .half 0x4806      ; ldr r0, [pc, #24]                panicking.rs:84
        .half 0x900b      ; str r0, [sp, #44]
        .half 0x4669      ; mov r1, sp
        .half 0x910a      ; str r1, [sp, #40]
        .half 0x9009      ; str r0, [sp, #36]
        .half 0xa801      ; add r0, sp, #4
        .half 0x9008      ; str r0, [sp, #32]
        .half 0xa802      ; add r0, sp, #8
        .half 0x4903      ; ldr r1, [pc, #12]
        .half 0xf7ff      ; bl 294 <_ZN4core9panicking9panic_fmt17hbe438df0e0c85290E>
        .half 0xfe47
        .half 0xdefe      ; udf #254
        .word start + 3456
        .word start + 721
        .word start + 3352
_ZN4core5slice5index24slice_end_index_len_fail17h3555901_10:
        .half 0xb580      ; push {r7, lr}                    index.rs:64
        .half 0xaf00      ; add r7, sp, #0
        .half 0xf000      ; bl 61e <_ZN4core10intrinsics17const_eval_select17h25ba3ed75df6eb54E> index.rs:67
        .half 0xf801
        .half 0xdefe      ; udf #254
_ZN4core10intrinsics17const_eval_select17h25ba3ed75df6eb54E:
        .half 0xb580      ; push {r7, lr}                    intrinsics.rs:2367
        .half 0xaf00      ; add r7, sp, #0
        .half 0xf000      ; bl 628 <_ZN4core3ops8function6FnOnce9call_once17h0f7311afb468840aE> intrinsics.rs:2376
        .half 0xf801
        .half 0xdefe      ; udf #254
_ZN4core3ops8function6FnOnce9call_once17h0f7311afb468840aE:
        .half 0xb580      ; push {r7, lr}                    function.rs:248
        .half 0xaf00      ; add r7, sp, #0
        .half 0xf000      ; bl 634 <_ZN4core5slice5index27slice_end_index_len_fail_rt17h1810964bfc437a18E>
        .half 0xf802
        .half 0xdefe      ; udf #254
        .half 0x0000
_ZN4core5slice5index27slice_end_index_len_fail_rt17h1810_11:
        .half 0xb580      ; push {r7, lr}                    index.rs:72
        .half 0xaf00      ; add r7, sp, #0
        .half 0xb08c      ; sub sp, #48
        .half 0x2114      ; movs r1, #20
        .half 0x9101      ; str r1, [sp, #4]
        .half 0x9000      ; str r0, [sp, #0]
        .half 0x2002      ; movs r0, #2
        .half 0x9007      ; str r0, [sp, #28]                mod.rs:393
        .half 0xa908      ; add r1, sp, #32
        .half 0x9106      ; str r1, [sp, #24]
        .half 0x2100      ; movs r1, #0
        .half 0x9105      ; str r1, [sp, #20]
        .half 0x9104      ; str r1, [sp, #16]
        .half 0x9003      ; str r0, [sp, #12]
        .half 0x4806      ; ldr r0, [pc, #24]
        .half 0x9002      ; str r0, [sp, #8]
        .half 0x4806      ; ldr r0, [pc, #24]                index.rs:73
        .half 0x900b      ; str r0, [sp, #44]
        .half 0xa901      ; add r1, sp, #4
        .half 0x910a      ; str r1, [sp, #40]
        .half 0x9009      ; str r0, [sp, #36]
        .half 0x4668      ; mov r0, sp
        .half 0x9008      ; str r0, [sp, #32]
        .half 0xa802      ; add r0, sp, #8
        .half 0x4903      ; ldr r1, [pc, #12]
        .half 0xf7ff      ; bl 294 <_ZN4core9panicking9panic_fmt17hbe438df0e0c85290E>
        .half 0xfe15
        .half 0xdefe      ; udf #254
        .word start + 3772
        .word start + 721
        .word start + 3788
_ZN4core3fmt5write17h3c7ff4c3b622dfd4E:
        .half 0xb5f0      ; push {r4, r5, r6, r7, lr}        mod.rs:1183
        .half 0xaf03      ; add r7, sp, #12
        .half 0xb091      ; sub sp, #68
        .half 0x2320      ; movs r3, #32
        .half 0xac08      ; add r4, sp, #32
        .half 0x2203      ; movs r2, #3
        .half 0x9405      ; str r4, [sp, #20]
        .half 0x54e2      ; strb r2, [r4, r3]                mod.rs:238
        .half 0x9309      ; str r3, [sp, #36]
        .half 0x2200      ; movs r2, #0
        .half 0x9208      ; str r2, [sp, #32]
        .half 0x4b45      ; ldr r3, [pc, #276]
        .half 0x930f      ; str r3, [sp, #60]
        .half 0x900e      ; str r0, [sp, #56]
        .half 0x920c      ; str r2, [sp, #48]
        .half 0x920a      ; str r2, [sp, #40]
        .half 0x6888      ; ldr r0, [r1, #8]                 mod.rs:1187
        .half 0x9007      ; str r0, [sp, #28]
        .half 0x2800      ; cmp r0, #0
        .half 0xd047      ; beq.n 730 <_ZN4core3fmt5write17h3c7ff4c3b622dfd4E+0xb8>
        .half 0x68c8      ; ldr r0, [r1, #12]                mod.rs:1201
        .half 0x2800      ; cmp r0, #0                       macros.rs:146
        .half 0x4614      ; mov r4, r2
        .half 0xd068      ; beq.n 77a <_ZN4core3fmt5write17h3c7ff4c3b622dfd4E+0x102>
        .half 0x9202      ; str r2, [sp, #8]
        .half 0x9a05      ; ldr r2, [sp, #20]
        .half 0x3220      ; adds r2, #32
        .half 0x9205      ; str r2, [sp, #20]
        .half 0x221f      ; movs r2, #31
        .half 0x06d3      ; lsls r3, r2, #27
        .half 0x1e42      ; subs r2, r0, #1                  macros.rs:146
        .half 0x439a      ; bics r2, r3
        .half 0x1c52      ; adds r2, r2, #1
        .half 0x9201      ; str r2, [sp, #4]
        .half 0x0140      ; lsls r0, r0, #5
        .half 0x9003      ; str r0, [sp, #12]
        .half 0x9104      ; str r1, [sp, #16]
        .half 0x680d      ; ldr r5, [r1, #0]
        .half 0x2400      ; movs r4, #0
        .half 0x686a      ; ldr r2, [r5, #4]                 mod.rs:1208
        .half 0x2a00      ; cmp r2, #0
        .half 0xd006      ; beq.n 6da <_ZN4core3fmt5write17h3c7ff4c3b622dfd4E+0x62>
        .half 0x980f      ; ldr r0, [sp, #60]                mod.rs:1209
        .half 0x68c3      ; ldr r3, [r0, #12]
        .half 0x6829      ; ldr r1, [r5, #0]
        .half 0x980e      ; ldr r0, [sp, #56]
        .half 0x4798      ; blx r3
        .half 0x2800      ; cmp r0, #0
        .half 0xd15e      ; bne.n 798 <_ZN4core3fmt5write17h3c7ff4c3b622dfd4E+0x120>
        .half 0x9807      ; ldr r0, [sp, #28]                mod.rs:1228
        .half 0x1906      ; adds r6, r0, r4
        .half 0x7f30      ; ldrb r0, [r6, #28]               mod.rs:1229
        .half 0x9905      ; ldr r1, [sp, #20]
        .half 0x7008      ; strb r0, [r1, #0]
        .half 0x6870      ; ldr r0, [r6, #4]                 mod.rs:1228
        .half 0x9009      ; str r0, [sp, #36]
        .half 0x68b0      ; ldr r0, [r6, #8]                 mod.rs:1230
        .half 0x9008      ; str r0, [sp, #32]
        .half 0x4631      ; mov r1, r6                       mod.rs:1234
        .half 0x3114      ; adds r1, #20
        .half 0x9804      ; ldr r0, [sp, #16]                mod.rs:1213
        .half 0x9506      ; str r5, [sp, #24]
        .half 0x6905      ; ldr r5, [r0, #16]
        .half 0x4628      ; mov r0, r5                       mod.rs:1234
        .half 0xf000      ; bl 7a8 <_ZN4core3fmt8getcount17ha087ace213a5da07E>
        .half 0xf856
        .half 0x910b      ; str r1, [sp, #44]
        .half 0x900a      ; str r0, [sp, #40]
        .half 0x360c      ; adds r6, #12                     mod.rs:1235
        .half 0x4628      ; mov r0, r5
        .half 0x4631      ; mov r1, r6
        .half 0xf000      ; bl 7a8 <_ZN4core3fmt8getcount17ha087ace213a5da07E>
        .half 0xf84f
        .half 0x910d      ; str r1, [sp, #52]
        .half 0x900c      ; str r0, [sp, #48]
        .half 0x9807      ; ldr r0, [sp, #28]                mod.rs:1242
        .half 0x5900      ; ldr r0, [r0, r4]
        .half 0x00c1      ; lsls r1, r0, #3                  const_ptr.rs:457
        .half 0x5868      ; ldr r0, [r5, r1]                 mod.rs:1245
        .half 0x1869      ; adds r1, r5, r1                  const_ptr.rs:457
        .half 0x9d06      ; ldr r5, [sp, #24]
        .half 0x684a      ; ldr r2, [r1, #4]                 mod.rs:1245
        .half 0xa908      ; add r1, sp, #32
        .half 0x4790      ; blx r2
        .half 0x2800      ; cmp r0, #0                       mod.rs:1213
        .half 0xd139      ; bne.n 798 <_ZN4core3fmt5write17h3c7ff4c3b622dfd4E+0x120>
        .half 0x3420      ; adds r4, #32                     macros.rs:146
        .half 0x3508      ; adds r5, #8
        .half 0x9803      ; ldr r0, [sp, #12]
        .half 0x42a0      ; cmp r0, r4
        .half 0xd1cb      ; bne.n 6c6 <_ZN4core3fmt5write17h3c7ff4c3b622dfd4E+0x4e>
        .half 0xe021      ; b.n 774 <_ZN4core3fmt5write17h3c7ff4c3b622dfd4E+0xfc>
        .half 0x6948      ; ldr r0, [r1, #20]                mod.rs:1190
        .half 0x2800      ; cmp r0, #0                       macros.rs:146
        .half 0x4614      ; mov r4, r2
        .half 0xd020      ; beq.n 77a <_ZN4core3fmt5write17h3c7ff4c3b622dfd4E+0x102>
        .half 0x9202      ; str r2, [sp, #8]
        .half 0x2207      ; movs r2, #7
        .half 0x0752      ; lsls r2, r2, #29
        .half 0x1e40      ; subs r0, r0, #1
        .half 0x4390      ; bics r0, r2
        .half 0x1c46      ; adds r6, r0, #1
        .half 0x680c      ; ldr r4, [r1, #0]
        .half 0x9104      ; str r1, [sp, #16]
        .half 0x690d      ; ldr r5, [r1, #16]                mod.rs:1190
        .half 0x9601      ; str r6, [sp, #4]
        .half 0x6862      ; ldr r2, [r4, #4]                 mod.rs:1194
        .half 0x2a00      ; cmp r2, #0
        .half 0xd006      ; beq.n 760 <_ZN4core3fmt5write17h3c7ff4c3b622dfd4E+0xe8>
        .half 0x980f      ; ldr r0, [sp, #60]                mod.rs:1195
        .half 0x68c3      ; ldr r3, [r0, #12]
        .half 0x6821      ; ldr r1, [r4, #0]
        .half 0x980e      ; ldr r0, [sp, #56]
        .half 0x4798      ; blx r3
        .half 0x2800      ; cmp r0, #0
        .half 0xd11b      ; bne.n 798 <_ZN4core3fmt5write17h3c7ff4c3b622dfd4E+0x120>
        .half 0xcd05      ; ldmia r5!, {r0, r2}              mod.rs:1197
        .half 0xa908      ; add r1, sp, #32
        .half 0x3d08      ; subs r5, #8
        .half 0x4790      ; blx r2
        .half 0x2800      ; cmp r0, #0
        .half 0xd115      ; bne.n 798 <_ZN4core3fmt5write17h3c7ff4c3b622dfd4E+0x120>
        .half 0x3508      ; adds r5, #8
        .half 0x3408      ; adds r4, #8                      macros.rs:146
        .half 0x1e76      ; subs r6, r6, #1
        .half 0xd1eb      ; bne.n 74c <_ZN4core3fmt5write17h3c7ff4c3b622dfd4E+0xd4>
        .half 0x9a02      ; ldr r2, [sp, #8]
        .half 0x9904      ; ldr r1, [sp, #16]
        .half 0x9c01      ; ldr r4, [sp, #4]
        .half 0x6848      ; ldr r0, [r1, #4]                 mod.rs:1220
        .half 0x4284      ; cmp r4, r0                       index.rs:209
        .half 0xd202      ; bcs.n 786 <_ZN4core3fmt5write17h3c7ff4c3b622dfd4E+0x10e>
        .half 0x00e3      ; lsls r3, r4, #3
        .half 0x680a      ; ldr r2, [r1, #0]
        .half 0x18d2      ; adds r2, r2, r3
        .half 0x4284      ; cmp r4, r0                       mod.rs:1220
        .half 0xd208      ; bcs.n 79c <_ZN4core3fmt5write17h3c7ff4c3b622dfd4E+0x124>
        .half 0x980f      ; ldr r0, [sp, #60]                mod.rs:1221
        .half 0x68c3      ; ldr r3, [r0, #12]
        .half 0xca06      ; ldmia r2, {r1, r2}
        .half 0x980e      ; ldr r0, [sp, #56]
        .half 0x4798      ; blx r3
        .half 0x2800      ; cmp r0, #0
        .half 0xd001      ; beq.n 79c <_ZN4core3fmt5write17h3c7ff4c3b622dfd4E+0x124>
        .half 0x2001      ; movs r0, #1
        .half 0xe000      ; b.n 79e <_ZN4core3fmt5write17h3c7ff4c3b622dfd4E+0x126>
        .half 0x2000      ; movs r0, #0
        .half 0xb011      ; add sp, #68                      mod.rs:1225
        .half 0xbdf0      ; pop {r4, r5, r6, r7, pc}
        .half 0x46c0      ; nop
        .word start + 3300
_ZN4core3fmt8getcount17ha087ace213a5da07E:
        .half 0xb5d0      ; push {r4, r6, r7, lr}            mod.rs:1248
        .half 0xaf02      ; add r7, sp, #8
        .half 0x680b      ; ldr r3, [r1, #0]                 mod.rs:1249
        .half 0x2b00      ; cmp r3, #0
        .half 0xd00b      ; beq.n 7ca <_ZN4core3fmt8getcount17ha087ace213a5da07E+0x22>
        .half 0x4602      ; mov r2, r0
        .half 0x2000      ; movs r0, #0
        .half 0x2b01      ; cmp r3, #1
        .half 0xd109      ; bne.n 7ce <_ZN4core3fmt8getcount17ha087ace213a5da07E+0x26>
        .half 0x6849      ; ldr r1, [r1, #4]                 mod.rs:1252
        .half 0x00cb      ; lsls r3, r1, #3                  mod.rs:361
        .half 0x18d1      ; adds r1, r2, r3
        .half 0x6849      ; ldr r1, [r1, #4]
        .half 0x4c05      ; ldr r4, [pc, #20]
        .half 0x42a1      ; cmp r1, r4
        .half 0xd003      ; beq.n 7d0 <_ZN4core3fmt8getcount17ha087ace213a5da07E+0x28>
        .half 0xbdd0      ; pop {r4, r6, r7, pc}             mod.rs:1259
        .half 0x1d08      ; adds r0, r1, #4                  mod.rs:1250
        .half 0xe001      ; b.n 7d2 <_ZN4core3fmt8getcount17ha087ace213a5da07E+0x2a>
        .half 0xbdd0      ; pop {r4, r6, r7, pc}             mod.rs:1259
        .half 0x58d0      ; ldr r0, [r2, r3]                 mod.rs:364
        .half 0x6801      ; ldr r1, [r0, #0]
        .half 0x2001      ; movs r0, #1
        .half 0xbdd0      ; pop {r4, r6, r7, pc}             mod.rs:1259
        .word start + 657
_ZN4core3fmt3num3imp52__LT_impl_u20_core__fmt__Display_u_12:
        .half 0xb580      ; push {r7, lr}                    num.rs:279
        .half 0xaf00      ; add r7, sp, #0
        .half 0x6800      ; ldr r0, [r0, #0]                 num.rs:44
        .half 0xf7ff      ; bl 2dc <_ZN4core3fmt3num3imp7fmt_u3217h98ddb01b1b227d3bE> num.rs:287
        .half 0xfd7b
        .half 0xbd80      ; pop {r7, pc}                     num.rs:288
_ZN4core3fmt3num3imp52__LT_impl_u20_core__fmt__Display_u_13:
        .half 0xb5f0      ; push {r4, r5, r6, r7, lr}        num.rs:279
        .half 0xaf03      ; add r7, sp, #12
        .half 0xb091      ; sub sp, #68
        .half 0x460d      ; mov r5, r1
        .half 0x6802      ; ldr r2, [r0, #0]                 num.rs:45
        .half 0x6841      ; ldr r1, [r0, #4]
        .half 0x4b3a      ; ldr r3, [pc, #232]
        .half 0x2600      ; movs r6, #0
        .half 0x483a      ; ldr r0, [pc, #232]
        .half 0x1a10      ; subs r0, r2, r0                  num.rs:230
        .half 0x4608      ; mov r0, r1
        .half 0x41b0      ; sbcs r0, r6
        .half 0xd33c      ; bcc.n 87c <_ZN4core3fmt3num3imp52_$LT$impl$u20$core..fmt..Display$u20$for$u20$u64$GT$3fmt17h2eb39283
        .half 0x9500      ; str r5, [sp, #0]
        .half 0x2427      ; movs r4, #39
        .half 0x9601      ; str r6, [sp, #4]
        .half 0x9406      ; str r4, [sp, #24]                num.rs:232
        .half 0x4610      ; mov r0, r2
        .half 0x9105      ; str r1, [sp, #20]
        .half 0x4615      ; mov r5, r2
        .half 0x9202      ; str r2, [sp, #8]
        .half 0x4a34      ; ldr r2, [pc, #208]
        .half 0x4633      ; mov r3, r6
        .half 0xf000      ; bl a5c <__aeabi_uldivmod>
        .half 0xf921
        .half 0x9003      ; str r0, [sp, #12]
        .half 0x9104      ; str r1, [sp, #16]
        .half 0x43f3      ; mvns r3, r6
        .half 0x4a31      ; ldr r2, [pc, #196]
        .half 0xf000      ; bl a9c <__aeabi_lmul>
        .half 0xf93b
        .half 0x1940      ; adds r0, r0, r5
        .half 0xb281      ; uxth r1, r0                      num.rs:234
        .half 0x0889      ; lsrs r1, r1, #2
        .half 0x4a2f      ; ldr r2, [pc, #188]
        .half 0x4351      ; muls r1, r2
        .half 0x0c49      ; lsrs r1, r1, #17
        .half 0x004a      ; lsls r2, r1, #1
        .half 0x4d2e      ; ldr r5, [pc, #184]
        .half 0x5cab      ; ldrb r3, [r5, r2]                intrinsics.rs:2137
        .half 0xae07      ; add r6, sp, #28
        .half 0x1936      ; adds r6, r6, r4
        .half 0x1f34      ; subs r4, r6, #4
        .half 0x7023      ; strb r3, [r4, #0]
        .half 0x4b27      ; ldr r3, [pc, #156]
        .half 0x18aa      ; adds r2, r5, r2                  const_ptr.rs:457
        .half 0x7852      ; ldrb r2, [r2, #1]                intrinsics.rs:2137
        .half 0x7062      ; strb r2, [r4, #1]
        .half 0x9c06      ; ldr r4, [sp, #24]
        .half 0x4359      ; muls r1, r3
        .half 0x1808      ; adds r0, r1, r0
        .half 0xb280      ; uxth r0, r0                      num.rs:235
        .half 0x0040      ; lsls r0, r0, #1
        .half 0x5c29      ; ldrb r1, [r5, r0]                intrinsics.rs:2137
        .half 0x1eb2      ; subs r2, r6, #2
        .half 0x9e01      ; ldr r6, [sp, #4]
        .half 0x7011      ; strb r1, [r2, #0]
        .half 0x1828      ; adds r0, r5, r0                  const_ptr.rs:457
        .half 0x7840      ; ldrb r0, [r0, #1]                intrinsics.rs:2137
        .half 0x7050      ; strb r0, [r2, #1]
        .half 0x1f24      ; subs r4, r4, #4                  num.rs:236
        .half 0x4824      ; ldr r0, [pc, #144]               num.rs:230
        .half 0x9902      ; ldr r1, [sp, #8]
        .half 0x1a40      ; subs r0, r0, r1
        .half 0x4630      ; mov r0, r6
        .half 0x9905      ; ldr r1, [sp, #20]
        .half 0x4188      ; sbcs r0, r1
        .half 0x9803      ; ldr r0, [sp, #12]
        .half 0x4602      ; mov r2, r0
        .half 0x9904      ; ldr r1, [sp, #16]
        .half 0xd3c8      ; bcc.n 808 <_ZN4core3fmt3num3imp52_$LT$impl$u20$core..fmt..Display$u20$for$u20$u64$GT$3fmt17h2eb39283
        .half 0x4602      ; mov r2, r0
        .half 0x9d00      ; ldr r5, [sp, #0]
        .half 0xe000      ; b.n 87e <_ZN4core3fmt3num3imp52_$LT$impl$u20$core..fmt..Display$u20$for$u20$u64$GT$3fmt17h2eb39283b7
        .half 0x2427      ; movs r4, #39
        .half 0x2a63      ; cmp r2, #99                      num.rs:249
        .half 0xd913      ; bls.n 8aa <_ZN4core3fmt3num3imp52_$LT$impl$u20$core..fmt..Display$u20$for$u20$u64$GT$3fmt17h2eb39283
        .half 0xb290      ; uxth r0, r2
        .half 0x0880      ; lsrs r0, r0, #2                  num.rs:251
        .half 0x4919      ; ldr r1, [pc, #100]
        .half 0x4341      ; muls r1, r0
        .half 0x0c48      ; lsrs r0, r1, #17
        .half 0x4343      ; muls r3, r0
        .half 0x1899      ; adds r1, r3, r2
        .half 0xb289      ; uxth r1, r1                      num.rs:250
        .half 0x0049      ; lsls r1, r1, #1
        .half 0x4a16      ; ldr r2, [pc, #88]                const_ptr.rs:457
        .half 0x5c53      ; ldrb r3, [r2, r1]                intrinsics.rs:2137
        .half 0x1ea6      ; subs r6, r4, #2                  num.rs:252
        .half 0xac07      ; add r4, sp, #28
        .half 0x55a3      ; strb r3, [r4, r6]                intrinsics.rs:2137
        .half 0x19a3      ; adds r3, r4, r6                  mut_ptr.rs:469
        .half 0x4634      ; mov r4, r6
        .half 0x1851      ; adds r1, r2, r1                  const_ptr.rs:457
        .half 0x7849      ; ldrb r1, [r1, #1]                intrinsics.rs:2137
        .half 0x7059      ; strb r1, [r3, #1]
        .half 0xe000      ; b.n 8ac <_ZN4core3fmt3num3imp52_$LT$impl$u20$core..fmt..Display$u20$for$u20$u64$GT$3fmt17h2eb39283b7
        .half 0x4610      ; mov r0, r2
        .half 0x280a      ; cmp r0, #10                      num.rs:257
        .half 0xd204      ; bcs.n 8ba <_ZN4core3fmt3num3imp52_$LT$impl$u20$core..fmt..Display$u20$for$u20$u64$GT$3fmt17h2eb39283
        .half 0x1e62      ; subs r2, r4, #1                  num.rs:258
        .half 0x3030      ; adds r0, #48                     num.rs:259
        .half 0xa907      ; add r1, sp, #28
        .half 0x5488      ; strb r0, [r1, r2]
        .half 0xe009      ; b.n 8ce <_ZN4core3fmt3num3imp52_$LT$impl$u20$core..fmt..Display$u20$for$u20$u64$GT$3fmt17h2eb39283b7
        .half 0x0040      ; lsls r0, r0, #1                  num.rs:261
        .half 0x490c      ; ldr r1, [pc, #48]                const_ptr.rs:457
        .half 0x5c0b      ; ldrb r3, [r1, r0]                intrinsics.rs:2137
        .half 0x1ea2      ; subs r2, r4, #2                  num.rs:262
        .half 0xac07      ; add r4, sp, #28
        .half 0x54a3      ; strb r3, [r4, r2]                intrinsics.rs:2137
        .half 0x18a3      ; adds r3, r4, r2                  mut_ptr.rs:469
        .half 0x1808      ; adds r0, r1, r0                  const_ptr.rs:457
        .half 0x7840      ; ldrb r0, [r0, #1]                intrinsics.rs:2137
        .half 0x7058      ; strb r0, [r3, #1]
        .half 0xa807      ; add r0, sp, #28
        .half 0x1881      ; adds r1, r0, r2                  mut_ptr.rs:469
        .half 0x2027      ; movs r0, #39
        .half 0x1a82      ; subs r2, r0, r2                  num.rs:271
        .half 0x4628      ; mov r0, r5                       num.rs:273
        .half 0xf7ff      ; bl 3c4 <_ZN4core3fmt9Formatter12pad_integral17h17e9c2a4c5203e71E>
        .half 0xfd74
        .half 0xb011      ; add sp, #68                      num.rs:288
        .half 0xbdf0      ; pop {r4, r5, r6, r7, pc}
        .half 0xff9c      ; .word 0x0000ff9c
        .half 0x0000
        .half 0x2710      ; .word 0x00002710
        .half 0x0000
        .half 0xd8f0      ; .word 0xffffd8f0
        .half 0xffff
        .half 0x147b      ; .word 0x0000147b
        .half 0x0000
        .word start + 3488
        .half 0xe0ff      ; .word 0x05f5e0ff
        .half 0x05f5
rust_begin_unwind:
        .half 0xb580      ; push {r7, lr}                    userlib.rs:352
        .half 0xaf00      ; add r7, sp, #0
        .half 0xb088      ; sub sp, #32
        .half 0x68c0      ; ldr r0, [r0, #12]                panic_info.rs:130
        .half 0x6801      ; ldr r1, [r0, #0]                 location.rs:128
        .half 0x6880      ; ldr r0, [r0, #8]                 location.rs:152
        .half 0x9002      ; str r0, [sp, #8]                 userlib.rs:25
        .half 0x9101      ; str r1, [sp, #4]
        .half 0xac01      ; add r4, sp, #4
        .half 0x4620      ; mov r0, r4
        .half 0x3008      ; adds r0, #8
        .half 0x2114      ; movs r1, #20
        .half 0xf000      ; bl 93a <__aeabi_memclr4>
        .half 0xf813
        .half 0x2108      ; movs r1, #8
        .half 0x4620      ; mov r0, r4                       userlib.rs:28
        .half 0xf7ff      ; bl 4c <svc>
        .half 0xfb98
        .half 0xe7fe      ; b.n 91c <rust_begin_unwind+0x24> userlib.rs:356
memset:
        .half 0x0003      ; movs r3, r0                      mem.c:26
        .half 0x1882      ; adds r2, r0, r2
        .half 0x4293      ; cmp r3, r2                       mem.c:26
        .half 0xd100      ; bne.n 928 <memset+0xa>
        .half 0x4770      ; bx lr                            mem.c:29
        .half 0x7019      ; strb r1, [r3, #0]                mem.c:27
        .half 0x3301      ; adds r3, #1                      mem.c:26
        .half 0xe7f9      ; b.n 922 <memset+0x4>
__aeabi_memclr:
__aeabi_memclr_localalias:
        .half 0xb510      ; push {r4, lr}                    mem.c:50
        .half 0x000a      ; movs r2, r1
        .half 0x2100      ; movs r1, #0
        .half 0xf7ff      ; bl 91e <memset>
        .half 0xfff3
        .half 0xbd10      ; pop {r4, pc}
__aeabi_memclr4:
        .half 0xb510      ; push {r4, lr}                    mem.c:51
        .half 0xf7ff      ; bl 92e <__aeabi_memclr>
        .half 0xfff7
        .half 0xbd10      ; pop {r4, pc}
        .half 0x0000
_udivsi3_skip_div0_test:
__aeabi_uidiv:
__udivsi3:
        .half 0x2200      ; movs r2, #0                      lib1funcs.S:1081
        .half 0x0843      ; lsrs r3, r0, #1
        .half 0x428b      ; cmp r3, r1
        .half 0xd374      ; bcc.n a36 <__udivsi3+0xf2>
        .half 0x0903      ; lsrs r3, r0, #4
        .half 0x428b      ; cmp r3, r1
        .half 0xd35f      ; bcc.n a12 <__udivsi3+0xce>
        .half 0x0a03      ; lsrs r3, r0, #8
        .half 0x428b      ; cmp r3, r1
        .half 0xd344      ; bcc.n 9e2 <__udivsi3+0x9e>
        .half 0x0b03      ; lsrs r3, r0, #12
        .half 0x428b      ; cmp r3, r1
        .half 0xd328      ; bcc.n 9b0 <__udivsi3+0x6c>
        .half 0x0c03      ; lsrs r3, r0, #16
        .half 0x428b      ; cmp r3, r1
        .half 0xd30d      ; bcc.n 980 <__udivsi3+0x3c>
        .half 0x22ff      ; movs r2, #255
        .half 0x0209      ; lsls r1, r1, #8
        .half 0xba12      ; rev r2, r2
        .half 0x0c03      ; lsrs r3, r0, #16
        .half 0x428b      ; cmp r3, r1
        .half 0xd302      ; bcc.n 976 <__udivsi3+0x32>
        .half 0x1212      ; asrs r2, r2, #8
        .half 0x0209      ; lsls r1, r1, #8
        .half 0xd065      ; beq.n a42 <__udivsi3+0xfe>
        .half 0x0b03      ; lsrs r3, r0, #12
        .half 0x428b      ; cmp r3, r1
        .half 0xd319      ; bcc.n 9b0 <__udivsi3+0x6c>
        .half 0xe000      ; b.n 980 <__udivsi3+0x3c>
        .half 0x0a09      ; lsrs r1, r1, #8
        .half 0x0bc3      ; lsrs r3, r0, #15
        .half 0x428b      ; cmp r3, r1
        .half 0xd301      ; bcc.n 98a <__udivsi3+0x46>
        .half 0x03cb      ; lsls r3, r1, #15
        .half 0x1ac0      ; subs r0, r0, r3
        .half 0x4152      ; adcs r2, r2
        .half 0x0b83      ; lsrs r3, r0, #14
        .half 0x428b      ; cmp r3, r1
        .half 0xd301      ; bcc.n 996 <__udivsi3+0x52>
        .half 0x038b      ; lsls r3, r1, #14
        .half 0x1ac0      ; subs r0, r0, r3
        .half 0x4152      ; adcs r2, r2
        .half 0x0b43      ; lsrs r3, r0, #13
        .half 0x428b      ; cmp r3, r1
        .half 0xd301      ; bcc.n 9a2 <__udivsi3+0x5e>
        .half 0x034b      ; lsls r3, r1, #13
        .half 0x1ac0      ; subs r0, r0, r3
        .half 0x4152      ; adcs r2, r2
        .half 0x0b03      ; lsrs r3, r0, #12
        .half 0x428b      ; cmp r3, r1
        .half 0xd301      ; bcc.n 9ae <__udivsi3+0x6a>
        .half 0x030b      ; lsls r3, r1, #12
        .half 0x1ac0      ; subs r0, r0, r3
        .half 0x4152      ; adcs r2, r2
        .half 0x0ac3      ; lsrs r3, r0, #11
        .half 0x428b      ; cmp r3, r1
        .half 0xd301      ; bcc.n 9ba <__udivsi3+0x76>
        .half 0x02cb      ; lsls r3, r1, #11
        .half 0x1ac0      ; subs r0, r0, r3
        .half 0x4152      ; adcs r2, r2
        .half 0x0a83      ; lsrs r3, r0, #10
        .half 0x428b      ; cmp r3, r1
        .half 0xd301      ; bcc.n 9c6 <__udivsi3+0x82>
        .half 0x028b      ; lsls r3, r1, #10
        .half 0x1ac0      ; subs r0, r0, r3
        .half 0x4152      ; adcs r2, r2
        .half 0x0a43      ; lsrs r3, r0, #9
        .half 0x428b      ; cmp r3, r1
        .half 0xd301      ; bcc.n 9d2 <__udivsi3+0x8e>
        .half 0x024b      ; lsls r3, r1, #9
        .half 0x1ac0      ; subs r0, r0, r3
        .half 0x4152      ; adcs r2, r2
        .half 0x0a03      ; lsrs r3, r0, #8
        .half 0x428b      ; cmp r3, r1
        .half 0xd301      ; bcc.n 9de <__udivsi3+0x9a>
        .half 0x020b      ; lsls r3, r1, #8
        .half 0x1ac0      ; subs r0, r0, r3
        .half 0x4152      ; adcs r2, r2
        .half 0xd2cd      ; bcs.n 97e <__udivsi3+0x3a>
        .half 0x09c3      ; lsrs r3, r0, #7
        .half 0x428b      ; cmp r3, r1
        .half 0xd301      ; bcc.n 9ec <__udivsi3+0xa8>
        .half 0x01cb      ; lsls r3, r1, #7
        .half 0x1ac0      ; subs r0, r0, r3
        .half 0x4152      ; adcs r2, r2
        .half 0x0983      ; lsrs r3, r0, #6
        .half 0x428b      ; cmp r3, r1
        .half 0xd301      ; bcc.n 9f8 <__udivsi3+0xb4>
        .half 0x018b      ; lsls r3, r1, #6
        .half 0x1ac0      ; subs r0, r0, r3
        .half 0x4152      ; adcs r2, r2
        .half 0x0943      ; lsrs r3, r0, #5
        .half 0x428b      ; cmp r3, r1
        .half 0xd301      ; bcc.n a04 <__udivsi3+0xc0>
        .half 0x014b      ; lsls r3, r1, #5
        .half 0x1ac0      ; subs r0, r0, r3
        .half 0x4152      ; adcs r2, r2
        .half 0x0903      ; lsrs r3, r0, #4
        .half 0x428b      ; cmp r3, r1
        .half 0xd301      ; bcc.n a10 <__udivsi3+0xcc>
        .half 0x010b      ; lsls r3, r1, #4
        .half 0x1ac0      ; subs r0, r0, r3
        .half 0x4152      ; adcs r2, r2
        .half 0x08c3      ; lsrs r3, r0, #3
        .half 0x428b      ; cmp r3, r1
        .half 0xd301      ; bcc.n a1c <__udivsi3+0xd8>
        .half 0x00cb      ; lsls r3, r1, #3
        .half 0x1ac0      ; subs r0, r0, r3
        .half 0x4152      ; adcs r2, r2
        .half 0x0883      ; lsrs r3, r0, #2
        .half 0x428b      ; cmp r3, r1
        .half 0xd301      ; bcc.n a28 <__udivsi3+0xe4>
        .half 0x008b      ; lsls r3, r1, #2
        .half 0x1ac0      ; subs r0, r0, r3
        .half 0x4152      ; adcs r2, r2
        .half 0x0843      ; lsrs r3, r0, #1
        .half 0x428b      ; cmp r3, r1
        .half 0xd301      ; bcc.n a34 <__udivsi3+0xf0>
        .half 0x004b      ; lsls r3, r1, #1
        .half 0x1ac0      ; subs r0, r0, r3
        .half 0x4152      ; adcs r2, r2
        .half 0x1a41      ; subs r1, r0, r1
        .half 0xd200      ; bcs.n a3c <__udivsi3+0xf8>
        .half 0x4601      ; mov r1, r0
        .half 0x4152      ; adcs r2, r2
        .half 0x4610      ; mov r0, r2
        .half 0x4770      ; bx lr
        .half 0xe7ff      ; b.n a44 <__udivsi3+0x100>
        .half 0xb501      ; push {r0, lr}                    lib1funcs.S:1130
        .half 0x2000      ; movs r0, #0
        .half 0xf000      ; bl a58 <__aeabi_idiv0>
        .half 0xf806
        .half 0xbd02      ; pop {r1, pc}
        .half 0x46c0      ; nop
__aeabi_uidivmod:
        .half 0x2900      ; cmp r1, #0                       lib1funcs.S:1134
        .half 0xd0f7      ; beq.n a44 <__udivsi3+0x100>      lib1funcs.S:1135
        .half 0xe776      ; b.n 944 <__udivsi3>              lib1funcs.S:1147
        .half 0x4770      ; bx lr                            lib1funcs.S:1148
__aeabi_idiv0:
__aeabi_ldiv0:
        .half 0x4770      ; bx lr
        .half 0x46c0      ; nop
__aeabi_uldivmod:
        .half 0x2b00      ; cmp r3, #0                       bpabi-v6m.S:148
        .half 0xd111      ; bne.n a84 <__aeabi_uldivmod+0x28>
        .half 0x2a00      ; cmp r2, #0
        .half 0xd10f      ; bne.n a84 <__aeabi_uldivmod+0x28>
        .half 0x2900      ; cmp r1, #0
        .half 0xd100      ; bne.n a6a <__aeabi_uldivmod+0xe>
        .half 0x2800      ; cmp r0, #0
        .half 0xd002      ; beq.n a72 <__aeabi_uldivmod+0x16>
        .half 0x2100      ; movs r1, #0
        .half 0x43c9      ; mvns r1, r1
        .half 0x0008      ; movs r0, r1
        .half 0xb407      ; push {r0, r1, r2}
        .half 0x4802      ; ldr r0, [pc, #8]
        .half 0xa102      ; add r1, pc, #8
        .half 0x1840      ; adds r0, r0, r1
        .half 0x9002      ; str r0, [sp, #8]
        .half 0xbd03      ; pop {r0, r1, pc}
        .half 0x46c0      ; nop
        .half 0xffd9      ; .word 0xffffffd9
        .half 0xffff
        .half 0xb403      ; push {r0, r1}                    bpabi-v6m.S:150
        .half 0x4668      ; mov r0, sp                       bpabi-v6m.S:151
        .half 0xb501      ; push {r0, lr}                    bpabi-v6m.S:152
        .half 0x9802      ; ldr r0, [sp, #8]                 bpabi-v6m.S:153
        .half 0xf000      ; bl af8 <__udivmoddi4>            bpabi-v6m.S:154
        .half 0xf834
        .half 0x9b01      ; ldr r3, [sp, #4]                 bpabi-v6m.S:155
        .half 0x469e      ; mov lr, r3                       bpabi-v6m.S:156
        .half 0xb002      ; add sp, #8                       bpabi-v6m.S:157
        .half 0xbc0c      ; pop {r2, r3}                     bpabi-v6m.S:158
        .half 0x4770      ; bx lr                            bpabi-v6m.S:159
        .half 0x46c0      ; nop
__aeabi_lmul:
__muldi3:
        .half 0xb5f0      ; push {r4, r5, r6, r7, lr}        libgcc2.c:529
        .half 0x46ce      ; mov lr, r9
        .half 0x4699      ; mov r9, r3
        .half 0x0c03      ; lsrs r3, r0, #16                 libgcc2.c:532
        .half 0x469c      ; mov ip, r3
        .half 0x0413      ; lsls r3, r2, #16
        .half 0x4647      ; mov r7, r8                       libgcc2.c:529
        .half 0x0c1b      ; lsrs r3, r3, #16                 libgcc2.c:532
        .half 0x001d      ; movs r5, r3
        .half 0x000e      ; movs r6, r1                      libgcc2.c:529
        .half 0x4661      ; mov r1, ip                       libgcc2.c:532
        .half 0x0404      ; lsls r4, r0, #16
        .half 0x0c24      ; lsrs r4, r4, #16
        .half 0xb580      ; push {r7, lr}                    libgcc2.c:529
        .half 0x0007      ; movs r7, r0
        .half 0x0c10      ; lsrs r0, r2, #16                 libgcc2.c:532
        .half 0x434b      ; muls r3, r1
        .half 0x4365      ; muls r5, r4
        .half 0x4341      ; muls r1, r0
        .half 0x4360      ; muls r0, r4
        .half 0x0c2c      ; lsrs r4, r5, #16
        .half 0x18c0      ; adds r0, r0, r3
        .half 0x1824      ; adds r4, r4, r0
        .half 0x468c      ; mov ip, r1
        .half 0x42a3      ; cmp r3, r4
        .half 0xd903      ; bls.n ad8 <__aeabi_lmul+0x3c>
        .half 0x2380      ; movs r3, #128                    libgcc2.c:532
        .half 0x025b      ; lsls r3, r3, #9
        .half 0x4698      ; mov r8, r3
        .half 0x44c4      ; add ip, r8
        .half 0x4649      ; mov r1, r9                       libgcc2.c:534
        .half 0x4379      ; muls r1, r7
        .half 0x4356      ; muls r6, r2                      libgcc2.c:535
        .half 0x0c23      ; lsrs r3, r4, #16                 libgcc2.c:532
        .half 0x042d      ; lsls r5, r5, #16
        .half 0x0c2d      ; lsrs r5, r5, #16
        .half 0x1989      ; adds r1, r1, r6                  libgcc2.c:535
        .half 0x4463      ; add r3, ip                       libgcc2.c:532
        .half 0x0424      ; lsls r4, r4, #16
        .half 0x1960      ; adds r0, r4, r5
        .half 0x18c9      ; adds r1, r1, r3                  libgcc2.c:534
        .half 0xbcc0      ; pop {r6, r7}                     libgcc2.c:538
        .half 0x46b9      ; mov r9, r7
        .half 0x46b0      ; mov r8, r6
        .half 0xbdf0      ; pop {r4, r5, r6, r7, pc}
        .half 0x46c0      ; nop
__udivmoddi4:
        .half 0xb5f0      ; push {r4, r5, r6, r7, lr}        libgcc2.c:928
        .half 0x4657      ; mov r7, sl
        .half 0x464e      ; mov r6, r9
        .half 0x4645      ; mov r5, r8
        .half 0x46de      ; mov lr, fp
        .half 0xb5e0      ; push {r5, r6, r7, lr}
        .half 0x0004      ; movs r4, r0
        .half 0x000d      ; movs r5, r1
        .half 0x4692      ; mov sl, r2
        .half 0x4699      ; mov r9, r3
        .half 0xb083      ; sub sp, #12
        .half 0x428b      ; cmp r3, r1                       libgcc2.c:940
        .half 0xd830      ; bhi.n b74 <__udivmoddi4+0x7c>
        .half 0xd02d      ; beq.n b70 <__udivmoddi4+0x78>
        .half 0x4649      ; mov r1, r9                       libgcc2.c:942
        .half 0x4650      ; mov r0, sl
        .half 0xf000      ; bl c90 <__clzdi2>
        .half 0xf8ba
        .half 0x0029      ; movs r1, r5                      libgcc2.c:943
        .half 0x0006      ; movs r6, r0                      libgcc2.c:942
        .half 0x0020      ; movs r0, r4                      libgcc2.c:943
        .half 0xf000      ; bl c90 <__clzdi2>
        .half 0xf8b5
        .half 0x1a33      ; subs r3, r6, r0                  libgcc2.c:945
        .half 0x4698      ; mov r8, r3
        .half 0x3b20      ; subs r3, #32                     libgcc2.c:946
        .half 0xd434      ; bmi.n b98 <__udivmoddi4+0xa0>
        .half 0x469b      ; mov fp, r3
        .half 0x4653      ; mov r3, sl
        .half 0x465a      ; mov r2, fp
        .half 0x4093      ; lsls r3, r2
        .half 0x4642      ; mov r2, r8
        .half 0x001f      ; movs r7, r3
        .half 0x4653      ; mov r3, sl
        .half 0x4093      ; lsls r3, r2
        .half 0x001e      ; movs r6, r3
        .half 0x42af      ; cmp r7, r5                       libgcc2.c:953
        .half 0xd83b      ; bhi.n bbc <__udivmoddi4+0xc4>
        .half 0x42af      ; cmp r7, r5
        .half 0xd100      ; bne.n b4a <__udivmoddi4+0x52>
        .half 0xe079      ; b.n c3e <__udivmoddi4+0x146>
        .half 0x465b      ; mov r3, fp                       libgcc2.c:956
        .half 0x1ba4      ; subs r4, r4, r6                  libgcc2.c:955
        .half 0x41bd      ; sbcs r5, r7
        .half 0x2b00      ; cmp r3, #0                       libgcc2.c:956
        .half 0xda00      ; bge.n b56 <__udivmoddi4+0x5e>
        .half 0xe076      ; b.n c44 <__udivmoddi4+0x14c>
        .half 0x2200      ; movs r2, #0
        .half 0x2300      ; movs r3, #0
        .half 0x9200      ; str r2, [sp, #0]
        .half 0x9301      ; str r3, [sp, #4]
        .half 0x2301      ; movs r3, #1
        .half 0x465a      ; mov r2, fp
        .half 0x4093      ; lsls r3, r2
        .half 0x9301      ; str r3, [sp, #4]
        .half 0x2301      ; movs r3, #1
        .half 0x4642      ; mov r2, r8
        .half 0x4093      ; lsls r3, r2
        .half 0x9300      ; str r3, [sp, #0]
        .half 0xe029      ; b.n bc4 <__udivmoddi4+0xcc>
        .half 0x4282      ; cmp r2, r0                       libgcc2.c:940
        .half 0xd9cf      ; bls.n b14 <__udivmoddi4+0x1c>
        .half 0x2200      ; movs r2, #0                      libgcc2.c:929
        .half 0x2300      ; movs r3, #0
        .half 0x9200      ; str r2, [sp, #0]
        .half 0x9301      ; str r3, [sp, #4]
        .half 0x9b0c      ; ldr r3, [sp, #48]                libgcc2.c:983
        .half 0x2b00      ; cmp r3, #0
        .half 0xd001      ; beq.n b86 <__udivmoddi4+0x8e>
        .half 0x601c      ; str r4, [r3, #0]                 libgcc2.c:984
        .half 0x605d      ; str r5, [r3, #4]
        .half 0x9800      ; ldr r0, [sp, #0]                 libgcc2.c:986
        .half 0x9901      ; ldr r1, [sp, #4]
        .half 0xb003      ; add sp, #12
        .half 0xbcf0      ; pop {r4, r5, r6, r7}
        .half 0x46bb      ; mov fp, r7
        .half 0x46b2      ; mov sl, r6
        .half 0x46a9      ; mov r9, r5
        .half 0x46a0      ; mov r8, r4
        .half 0xbdf0      ; pop {r4, r5, r6, r7, pc}
        .half 0x4642      ; mov r2, r8                       libgcc2.c:946
        .half 0x469b      ; mov fp, r3
        .half 0x2320      ; movs r3, #32
        .half 0x1a9b      ; subs r3, r3, r2
        .half 0x4652      ; mov r2, sl
        .half 0x40da      ; lsrs r2, r3
        .half 0x4641      ; mov r1, r8
        .half 0x0013      ; movs r3, r2
        .half 0x464a      ; mov r2, r9
        .half 0x408a      ; lsls r2, r1
        .half 0x0017      ; movs r7, r2
        .half 0x4642      ; mov r2, r8
        .half 0x431f      ; orrs r7, r3
        .half 0x4653      ; mov r3, sl
        .half 0x4093      ; lsls r3, r2
        .half 0x001e      ; movs r6, r3
        .half 0x42af      ; cmp r7, r5                       libgcc2.c:953
        .half 0xd9c3      ; bls.n b44 <__udivmoddi4+0x4c>
        .half 0x2200      ; movs r2, #0                      libgcc2.c:929
        .half 0x2300      ; movs r3, #0
        .half 0x9200      ; str r2, [sp, #0]
        .half 0x9301      ; str r3, [sp, #4]
        .half 0x4643      ; mov r3, r8                       libgcc2.c:959
        .half 0x2b00      ; cmp r3, #0
        .half 0xd0d8      ; beq.n b7c <__udivmoddi4+0x84>
        .half 0x07fb      ; lsls r3, r7, #31                 libgcc2.c:961
        .half 0x0872      ; lsrs r2, r6, #1
        .half 0x431a      ; orrs r2, r3
        .half 0x4646      ; mov r6, r8
        .half 0x087b      ; lsrs r3, r7, #1
        .half 0xe00e      ; b.n bf4 <__udivmoddi4+0xfc>      libgcc2.c:965
        .half 0x42ab      ; cmp r3, r5                       libgcc2.c:968
        .half 0xd101      ; bne.n bde <__udivmoddi4+0xe6>
        .half 0x42a2      ; cmp r2, r4
        .half 0xd80c      ; bhi.n bf8 <__udivmoddi4+0x100>
        .half 0x1aa4      ; subs r4, r4, r2                  libgcc2.c:969
        .half 0x419d      ; sbcs r5, r3
        .half 0x2001      ; movs r0, #1
        .half 0x1924      ; adds r4, r4, r4
        .half 0x416d      ; adcs r5, r5
        .half 0x2100      ; movs r1, #0
        .half 0x3e01      ; subs r6, #1                      libgcc2.c:972
        .half 0x1824      ; adds r4, r4, r0                  libgcc2.c:969
        .half 0x414d      ; adcs r5, r1
        .half 0x2e00      ; cmp r6, #0                       libgcc2.c:973
        .half 0xd006      ; beq.n c02 <__udivmoddi4+0x10a>
        .half 0x42ab      ; cmp r3, r5                       libgcc2.c:968
        .half 0xd9ee      ; bls.n bd6 <__udivmoddi4+0xde>
        .half 0x3e01      ; subs r6, #1                      libgcc2.c:972
        .half 0x1924      ; adds r4, r4, r4                  libgcc2.c:971
        .half 0x416d      ; adcs r5, r5
        .half 0x2e00      ; cmp r6, #0                       libgcc2.c:973
        .half 0xd1f8      ; bne.n bf4 <__udivmoddi4+0xfc>
        .half 0x9800      ; ldr r0, [sp, #0]                 libgcc2.c:977
        .half 0x9901      ; ldr r1, [sp, #4]
        .half 0x465b      ; mov r3, fp                       libgcc2.c:978
        .half 0x1900      ; adds r0, r0, r4                  libgcc2.c:977
        .half 0x4169      ; adcs r1, r5
        .half 0x2b00      ; cmp r3, #0                       libgcc2.c:978
        .half 0xdb24      ; blt.n c5a <__udivmoddi4+0x162>
        .half 0x002b      ; movs r3, r5
        .half 0x465a      ; mov r2, fp
        .half 0x4644      ; mov r4, r8
        .half 0x40d3      ; lsrs r3, r2
        .half 0x002a      ; movs r2, r5
        .half 0x40e2      ; lsrs r2, r4
        .half 0x001c      ; movs r4, r3
        .half 0x465b      ; mov r3, fp                       libgcc2.c:979
        .half 0x0015      ; movs r5, r2                      libgcc2.c:978
        .half 0x2b00      ; cmp r3, #0                       libgcc2.c:979
        .half 0xdb2a      ; blt.n c7c <__udivmoddi4+0x184>
        .half 0x0026      ; movs r6, r4
        .half 0x409e      ; lsls r6, r3
        .half 0x0033      ; movs r3, r6
        .half 0x0026      ; movs r6, r4
        .half 0x4647      ; mov r7, r8
        .half 0x40be      ; lsls r6, r7
        .half 0x0032      ; movs r2, r6
        .half 0x1a80      ; subs r0, r0, r2
        .half 0x4199      ; sbcs r1, r3
        .half 0x9000      ; str r0, [sp, #0]
        .half 0x9101      ; str r1, [sp, #4]
        .half 0xe79e      ; b.n b7c <__udivmoddi4+0x84>
        .half 0x42a3      ; cmp r3, r4                       libgcc2.c:953
        .half 0xd8bc      ; bhi.n bbc <__udivmoddi4+0xc4>
        .half 0xe782      ; b.n b4a <__udivmoddi4+0x52>
        .half 0x4642      ; mov r2, r8                       libgcc2.c:956
        .half 0x2320      ; movs r3, #32
        .half 0x2100      ; movs r1, #0
        .half 0x1a9b      ; subs r3, r3, r2
        .half 0x2200      ; movs r2, #0
        .half 0x9100      ; str r1, [sp, #0]
        .half 0x9201      ; str r2, [sp, #4]
        .half 0x2201      ; movs r2, #1
        .half 0x40da      ; lsrs r2, r3
        .half 0x9201      ; str r2, [sp, #4]
        .half 0xe785      ; b.n b66 <__udivmoddi4+0x6e>
        .half 0x4642      ; mov r2, r8                       libgcc2.c:978
        .half 0x2320      ; movs r3, #32
        .half 0x1a9b      ; subs r3, r3, r2
        .half 0x002a      ; movs r2, r5
        .half 0x4646      ; mov r6, r8
        .half 0x409a      ; lsls r2, r3
        .half 0x0023      ; movs r3, r4
        .half 0x40f3      ; lsrs r3, r6
        .half 0x4644      ; mov r4, r8
        .half 0x4313      ; orrs r3, r2
        .half 0x002a      ; movs r2, r5
        .half 0x40e2      ; lsrs r2, r4
        .half 0x001c      ; movs r4, r3
        .half 0x465b      ; mov r3, fp                       libgcc2.c:979
        .half 0x0015      ; movs r5, r2                      libgcc2.c:978
        .half 0x2b00      ; cmp r3, #0                       libgcc2.c:979
        .half 0xdad4      ; bge.n c26 <__udivmoddi4+0x12e>
        .half 0x4642      ; mov r2, r8
        .half 0x002f      ; movs r7, r5
        .half 0x2320      ; movs r3, #32
        .half 0x0026      ; movs r6, r4
        .half 0x4097      ; lsls r7, r2
        .half 0x1a9b      ; subs r3, r3, r2
        .half 0x40de      ; lsrs r6, r3
        .half 0x003b      ; movs r3, r7
        .half 0x4333      ; orrs r3, r6
        .half 0xe7cd      ; b.n c2c <__udivmoddi4+0x134>
__clzdi2:
        .half 0xb510      ; push {r4, lr}                    lib1funcs.S:1764
        .half 0x2900      ; cmp r1, #0                       lib1funcs.S:1765
        .half 0xd103      ; bne.n c9e <__clzdi2+0xe>         lib1funcs.S:1766
        .half 0xf000      ; bl ca8 <__clzsi2>                lib1funcs.S:1775
        .half 0xf807
        .half 0x3020      ; adds r0, #32                     lib1funcs.S:1776
        .half 0xe002      ; b.n ca4 <__clzdi2+0x14>          lib1funcs.S:1777
        .half 0x0008      ; movs r0, r1                      lib1funcs.S:1779
        .half 0xf000      ; bl ca8 <__clzsi2>                lib1funcs.S:1780
        .half 0xf802
        .half 0xbd10      ; pop {r4, pc}                     lib1funcs.S:1783
        .half 0x46c0      ; nop
__clzsi2:
        .half 0x211c      ; movs r1, #28                     lib1funcs.S:1703
        .half 0x2301      ; movs r3, #1                      lib1funcs.S:1704
        .half 0x041b      ; lsls r3, r3, #16                 lib1funcs.S:1705
        .half 0x4298      ; cmp r0, r3                       lib1funcs.S:1706
        .half 0xd301      ; bcc.n cb6 <__clzsi2+0xe>         lib1funcs.S:1707
        .half 0x0c00      ; lsrs r0, r0, #16                 lib1funcs.S:1708
        .half 0x3910      ; subs r1, #16                     lib1funcs.S:1709
        .half 0x0a1b      ; lsrs r3, r3, #8                  lib1funcs.S:1710
        .half 0x4298      ; cmp r0, r3                       lib1funcs.S:1711
        .half 0xd301      ; bcc.n cc0 <__clzsi2+0x18>        lib1funcs.S:1712
        .half 0x0a00      ; lsrs r0, r0, #8                  lib1funcs.S:1713
        .half 0x3908      ; subs r1, #8                      lib1funcs.S:1714
        .half 0x091b      ; lsrs r3, r3, #4                  lib1funcs.S:1715
        .half 0x4298      ; cmp r0, r3                       lib1funcs.S:1716
        .half 0xd301      ; bcc.n cca <__clzsi2+0x22>        lib1funcs.S:1717
        .half 0x0900      ; lsrs r0, r0, #4                  lib1funcs.S:1718
        .half 0x3904      ; subs r1, #4                      lib1funcs.S:1719
        .half 0xa202      ; add r2, pc, #8                   lib1funcs.S:1720
        .half 0x5c10      ; ldrb r0, [r2, r0]                lib1funcs.S:1721
        .half 0x1840      ; adds r0, r0, r1                  lib1funcs.S:1722
        .half 0x4770      ; bx lr                            lib1funcs.S:1723
        .half 0x46c0      ; nop
        .half 0x0304      ; .word 0x02020304
        .half 0x0202
        .half 0x0101      ; .word 0x01010101
        .half 0x0101
        .half 0x0000
        .half 0x0000
        .half 0x0000
        .half 0x0000
        .word start + 129
        .half 0x0004      ; .word 0x00000004
        .half 0x0000
        .half 0x0004      ; .word 0x00000004
        .half 0x0000
        .word start + 297
        .word start + 131
        .word start + 263
        .half 0x7865      ; .word 0x6d617865
        .half 0x6d61
        .half 0x6c70      ; .word 0x73656c70
        .half 0x7365
        .half 0x662f      ; .word 0x6f72662f
        .half 0x6f72
        .half 0x2d6d      ; .word 0x75722d6d
        .half 0x7572
        .half 0x7473      ; .word 0x632f7473
        .half 0x632f
        .half 0x696c      ; .word 0x6e65696c
        .half 0x6e65
        .half 0x2e74      ; .word 0x73722e74
        .half 0x7372
        .word start + 3324
        .half 0x001c      ; .word 0x0000001c
        .half 0x0000
        .half 0x0015      ; .word 0x00000015
        .half 0x0000
        .half 0x000d      ; .word 0x0000000d
        .half 0x0000
        .half 0x696c      ; .word 0x656e696c
        .half 0x656e
        .half 0x2020      ; .byte 0x20
        .half 0x7461      ; .short 0x7461
        .half 0x0a20      ; .byte 0x20
        .half 0x0000      ; .short 0x0000
        .word start + 3368
        .half 0x0005      ; .word 0x00000005
        .half 0x0000
        .word start + 3373
        .half 0x0004      ; .word 0x00000004
        .half 0x0000
        .word start + 3377
        .half 0x0001      ; .word 0x00000001
        .half 0x0000
        .half 0x6e69      ; .word 0x65646e69
        .half 0x6564
        .half 0x2078      ; .word 0x756f2078
        .half 0x756f
        .half 0x2074      ; .word 0x666f2074
        .half 0x666f
        .half 0x6220      ; .word 0x756f6220
        .half 0x756f
        .half 0x646e      ; .word 0x3a73646e
        .half 0x3a73
        .half 0x7420      ; .word 0x65687420
        .half 0x6568
        .half 0x6c20      ; .word 0x6e656c20
        .half 0x6e65
        .half 0x6920      ; .word 0x20736920
        .half 0x2073
        .half 0x6220      ; .word 0x74756220
        .half 0x7475
        .half 0x7420      ; .word 0x65687420
        .half 0x6568
        .half 0x6920      ; .word 0x646e6920
        .half 0x646e
        .half 0x7865      ; .word 0x69207865
        .half 0x6920
        .half 0x2073      ; .word 0x00002073
        .half 0x0000
        .word start + 3404
        .half 0x0020      ; .word 0x00000020
        .half 0x0000
        .word start + 3436
        .half 0x0012      ; .word 0x00000012
        .half 0x0000
        .word start + 701
        .half 0x0000      ; .word 0x00000000
        .half 0x0000
        .half 0x0001      ; .word 0x00000001
        .half 0x0000
        .word start + 705
        .half 0x3030      ; .word 0x31303030
        .half 0x3130
        .half 0x3230      ; .word 0x33303230
        .half 0x3330
        .half 0x3430      ; .word 0x35303430
        .half 0x3530
        .half 0x3630      ; .word 0x37303630
        .half 0x3730
        .half 0x3830      ; .word 0x39303830
        .half 0x3930
        .half 0x3031      ; .word 0x31313031
        .half 0x3131
        .half 0x3231      ; .word 0x33313231
        .half 0x3331
        .half 0x3431      ; .word 0x35313431
        .half 0x3531
        .half 0x3631      ; .word 0x37313631
        .half 0x3731
        .half 0x3831      ; .word 0x39313831
        .half 0x3931
        .half 0x3032      ; .word 0x31323032
        .half 0x3132
        .half 0x3232      ; .word 0x33323232
        .half 0x3332
        .half 0x3432      ; .word 0x35323432
        .half 0x3532
        .half 0x3632      ; .word 0x37323632
        .half 0x3732
        .half 0x3832      ; .word 0x39323832
        .half 0x3932
        .half 0x3033      ; .word 0x31333033
        .half 0x3133
        .half 0x3233      ; .word 0x33333233
        .half 0x3333
        .half 0x3433      ; .word 0x35333433
        .half 0x3533
        .half 0x3633      ; .word 0x37333633
        .half 0x3733
        .half 0x3833      ; .word 0x39333833
        .half 0x3933
        .half 0x3034      ; .word 0x31343034
        .half 0x3134
        .half 0x3234      ; .word 0x33343234
        .half 0x3334
        .half 0x3434      ; .word 0x35343434
        .half 0x3534
        .half 0x3634      ; .word 0x37343634
        .half 0x3734
        .half 0x3834      ; .word 0x39343834
        .half 0x3934
        .half 0x3035      ; .word 0x31353035
        .half 0x3135
        .half 0x3235      ; .word 0x33353235
        .half 0x3335
        .half 0x3435      ; .word 0x35353435
        .half 0x3535
        .half 0x3635      ; .word 0x37353635
        .half 0x3735
        .half 0x3835      ; .word 0x39353835
        .half 0x3935
        .half 0x3036      ; .word 0x31363036
        .half 0x3136
        .half 0x3236      ; .word 0x33363236
        .half 0x3336
        .half 0x3436      ; .word 0x35363436
        .half 0x3536
        .half 0x3636      ; .word 0x37363636
        .half 0x3736
        .half 0x3836      ; .word 0x39363836
        .half 0x3936
        .half 0x3037      ; .word 0x31373037
        .half 0x3137
        .half 0x3237      ; .word 0x33373237
        .half 0x3337
        .half 0x3437      ; .word 0x35373437
        .half 0x3537
        .half 0x3637      ; .word 0x37373637
        .half 0x3737
        .half 0x3837      ; .word 0x39373837
        .half 0x3937
        .half 0x3038      ; .word 0x31383038
        .half 0x3138
        .half 0x3238      ; .word 0x33383238
        .half 0x3338
        .half 0x3438      ; .word 0x35383438
        .half 0x3538
        .half 0x3638      ; .word 0x37383638
        .half 0x3738
        .half 0x3838      ; .word 0x39383838
        .half 0x3938
        .half 0x3039      ; .word 0x31393039
        .half 0x3139
        .half 0x3239      ; .word 0x33393239
        .half 0x3339
        .half 0x3439      ; .word 0x35393439
        .half 0x3539
        .half 0x3639      ; .word 0x37393639
        .half 0x3739
        .half 0x3839      ; .word 0x39393839
        .half 0x3939
        .half 0x6f20      ; .word 0x74756f20
        .half 0x7475
        .half 0x6f20      ; .word 0x20666f20
        .half 0x2066
        .half 0x6172      ; .word 0x676e6172
        .half 0x676e
        .half 0x2065      ; .word 0x6f662065
        .half 0x6f66
        .half 0x2072      ; .word 0x6c732072
        .half 0x6c73
        .half 0x6369      ; .word 0x20656369
        .half 0x2065
        .half 0x666f      ; .word 0x6c20666f
        .half 0x6c20
        .half 0x6e65      ; .word 0x74676e65
        .half 0x7467
        .half 0x2068      ; .short 0x2068
        .half 0x696c      ; .short 0x696c
        .half 0x7262      ; .word 0x72617262
        .half 0x7261
        .half 0x2f79      ; .word 0x6f632f79
        .half 0x6f63
        .half 0x6572      ; .word 0x732f6572
        .half 0x732f
        .half 0x6372      ; .word 0x732f6372
        .half 0x732f
        .half 0x696c      ; .word 0x6563696c
        .half 0x6563
        .half 0x692f      ; .word 0x646e692f
        .half 0x646e
        .half 0x7865      ; .word 0x722e7865
        .half 0x722e
        .half 0x7273      ; .byte 0x73
        .half 0x6e61      ; .short 0x6e61
        .half 0x6567      ; .word 0x65206567
        .half 0x6520
        .half 0x646e      ; .word 0x6920646e
        .half 0x6920
        .half 0x646e      ; .word 0x7865646e
        .half 0x7865
        .half 0x0020      ; .word 0x00000020
        .half 0x0000
        .word start + 3753
        .half 0x0010      ; .word 0x00000010
        .half 0x0000
        .word start + 3688
        .half 0x0022      ; .word 0x00000022
        .half 0x0000
        .word start + 3722
        .half 0x001f      ; .word 0x0000001f
        .half 0x0000
        .half 0x0049      ; .word 0x00000049
        .half 0x0000
        .half 0x0005      ; .word 0x00000005
        .half 0x0000
