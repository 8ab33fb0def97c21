; four of six accesses lie in the region of the stack, two in the buffer
        ldr r4, buffer
loop:   ldr r0, [sp, #0]
        adds r0, #1
        str r0, [sp, #0]
        str r0, [r4, #0]
        eors r1, r0
        ldr r2, [sp, #4]
        adds r2, r2, r1
        str r2, [sp, #4]
        ldr r3, [r4, #4]
        adds r2, r2, r3
        b loop
        .align 2
buffer: .word region_buffer
