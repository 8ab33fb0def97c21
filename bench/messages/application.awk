# Writes the application of 16 clients, or of as many as are asked for, that call 4 servers for ever, all of one priority: a server that waits takes a call
# at once, and one that runs takes the best of those that wait for it.
# usage: awk -f application.awk [-v clients=507] > app.toml
function task(name, source, priority) {
    printf "[[task]]\nname = \"%s\"\nsource = \"bench/%s.s\"\npriority = %d\n", name, source, priority
    print "flash = 256\nram = 256\nstack = 64"
}
BEGIN {
    if (!clients) clients = 16
    room = 256 * (clients + 5)
    printf "[board]\nflash = %d\nram = %d\n[supervisor]\nfault = \"fault\"\n", room, room
    task("supervisor", "timers/supervisor", 0)
    print "notifications = [\"fault\"]"
    for (k = 1; k <= 4; k++) task("server" k, "messages/server", 1)
    for (k = 1; k <= clients; k++) task("client" k, "out/client" (k % 4 + 1), 1)
}
