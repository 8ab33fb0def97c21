; three of six accesses lie in the region of the stack, one in the first region, two in the second one
        ldr r4, first
        ldr r5, second
loop:   ldr r0, [sp, #0]
        adds r0, #1
        str r0, [sp, #0]
        str r0, [r5, #0]
        eors r1, r0
        ldr r2, [r4, #4]
        adds r2, r2, r1
        str r2, [sp, #4]
        ldr r3, [r5, #4]
        adds r2, r2, r3
        b loop
        .align 2
first:  .word region_first
second: .word region_second
