# Writes the application of 32 tasks, or of as many as are asked for: a supervisor, and tasks that wait for timers, up to four of one
# priority, or eight where there are more than 32.
# usage: awk -f application.awk [-v tasks=512] > app.toml
function task(name, source, priority, note) {
    printf "[[task]]\nname = \"%s\"\nsource = \"bench/timers/%s.s\"\npriority = %d\n", name, source, priority
    printf "flash = 256\nram = 256\nstack = 64\nnotifications = [\"%s\"]\n", note
}
BEGIN {
    if (!tasks) tasks = 32
    alike = tasks > 32 ? 8 : 4
    printf "[board]\nflash = %d\nram = %d\n[supervisor]\nfault = \"fault\"\n", 256 * tasks, 256 * tasks
    task("supervisor", "supervisor", 0, "fault")
    for (k = 1; k < tasks; k++) task("timer" k, "timer", 1 + int(k / alike), "over")
}
