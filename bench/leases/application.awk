# Writes the application of 8 clients that lend 256 bytes for reading and 256 for writing to one server, which borrows 64 of
# them at a time, for ever, all of one priority.
# usage: awk -f application.awk > app.toml
function task(name, source, priority, ram) {
    printf "[[task]]\nname = \"%s\"\nsource = \"bench/%s.s\"\npriority = %d\n", name, source, priority
    printf "flash = 256\nram = %d\nstack = 64\n", ram
}
BEGIN {
    print "[board]\nflash = 8192\nram = 16384\n[supervisor]\nfault = \"fault\""
    task("supervisor", "timers/supervisor", 0, 256)
    print "notifications = [\"fault\"]"
    task("server", "leases/server", 1, 512)
    for (k = 1; k <= 8; k++) task("client" k, "leases/client", 1, 1024)
}
