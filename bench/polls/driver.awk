# Writes a driver that asks a port 21 times on end whether a byte waits, a load, a compare and a branch each, and then writes a
# byte to a console; a byte that waits is written there at once.
# usage: awk -f driver.awk > driver.s
BEGIN {
    print "        ldr r4, port"
    print "        ldr r5, console"
    print "        movs r6, #46"
    print "poll:"
    for (k = 0; k < 21; k++) print "        ldrb r0, [r4, #4]\n        cmp r0, #0\n        bne echo"
    print "        strb r6, [r5, #0]"
    print "        b poll"
    print "echo:   ldrb r0, [r4, #0]"
    print "        strb r0, [r5, #0]"
    print "        b poll"
    print "        .align 2"
    print "port:   .word region_port"
    print "console: .word region_console"
}
