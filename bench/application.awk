# Writes an application for bench/build.sh: 32 tasks with as many interrupts, and for each task a source of 1,000 lines, each
# ten of which have a label, branches back and on, loads of words and a directive. The files are DIR/app.toml and DIR/t0.s to
# DIR/t31.s, named from the working directory. usage: awk -v dir=DIR -f application.awk
BEGIN {
    tasks = 32
    lines = 1000
    app = dir "/app.toml"
    print "[board]\nflash = 1048576\nram = 262144\n[supervisor]\nfault = \"fault\"" > app
    for (task = 0; task < tasks; task++) {
        describe(task)
        write_source(task)
    }
    for (region = 0; region < 4; region++)
        printf "[[region]]\nname = \"shared%d\"\nsize = %d\n", region, 500 * (region + 1) > app
    for (device = 0; device < 2; device++)
        printf "[[device]]\nname = \"device%d\"\nbase = %d\nsize = 4096\n", device, 1073741824 + 4096 * device > app
    for (line = 0; line < tasks; line++)
        printf "[[interrupt]]\nline = %d\ntask = \"t%d\"\nnotification = \"line\"\n", line, line > app
    close(app)
}

function describe(task) {
    printf "[[task]]\nname = \"t%d\"\nsource = \"%s/t%d.s\"\npriority = %d\n", task, dir, task, task > app
    printf "flash = 4096\nram = 2048\nstack = 512\nnotifications = [\"fault\", \"timer\", \"line\"]\n" > app
    printf "uses = [\"shared%d\", \"device%d\"]\nreads = [\"shared%d\"]\n", task % 4, task % 2, (task + 1) % 4 > app
}

# Ten lines of 28 bytes, so that the words stand at multiples of 4 and every branch reaches.
function write_source(task,    source, block, blocks) {
    source = dir "/t" task ".s"
    blocks = lines / 10
    for (block = 0; block < blocks; block++) {
        printf "l%d:     ldr r3, w%d ; the word below\n", block, block > source
        printf "        movs r0, #%d\n", (block * 7 + task) % 256 > source
        printf "        lsls r2, r1, #%d\n", block % 31 + 1 > source
        printf "        ldr r4, [sp, #%d]\n", block % 200 * 4 > source
        print statement(block + task) > source
        printf "        cmp r2, r%d\n", block % 7 > source
        printf "        bne l%d\n", (block > 0 ? block - 1 : 0) > source
        printf "        adds r%d, #note_t%d_line\n", block % 8, (task + block) % tasks > source
        printf "        b l%d\n", (block + 1 < blocks ? block + 1 : block) > source
        printf "w%d:     .word %s, %d\n", block, value(task, block), block * 65537 > source
    }
    close(source)
}

# Each of them is 4 bytes long.
function statement(k) {
    k = k % 5
    if (k == 0) return "        bl l0"
    if (k == 1) return "        .half 48896, 0xbf00 ; two nops"
    if (k == 2) return "        dmb sy"
    if (k == 3) return "        mrs r5, apsr"
    return "        .byte 0, 191, 0, 191"
}

function value(task, block) {
    if (block % 5 == 0) return "stack_top+4"
    if (block % 5 == 1) return "region_shared" block % 4
    if (block % 5 == 2) return "l" block "+1"
    if (block % 5 == 3) return "region_device" block % 2
    return "task_t" (task + block) % tasks
}
