# Writes the application of a task that makes a system call in each fifth turn and uses so many regions, none, one or two, and its
# supervisor, which waits.
# usage: awk -f application.awk -v regions=1 > app.toml
BEGIN {
    print "[board]\nflash = 4096\nram = 4096\n[supervisor]\nfault = \"fault\""
    print "[[region]]\nname = \"first\"\nsize = 256\n[[region]]\nname = \"second\"\nsize = 256"
    print "[[task]]\nname = \"supervisor\"\nsource = \"bench/timers/supervisor.s\"\npriority = 0"
    print "flash = 256\nram = 256\nstack = 64\nnotifications = [\"fault\"]"
    print "[[task]]\nname = \"worker\"\nsource = \"bench/calls/worker.s\"\npriority = 1"
    print "flash = 256\nram = 256\nstack = 64"
    if (regions == 1) print "uses = [\"first\"]"
    if (regions == 2) print "uses = [\"first\", \"second\"]"
}
