# state, over the bytes of a saved state in decimal, behind app.awk.
function u16(at) { return byte[at] + 256 * byte[at + 1] }
function u32(at) { return u16(at) + 65536 * u16(at + 2) }
function u64(at) { return sprintf("%.0f", u32(at) + 4294967296 * u32(at + 4)) }
{ for (k = 1; k <= NF; k++) byte[n++] = $k }
END {
    if (refused) exit 1
    state = ENVIRON["FILE"]
    length_of = ENVIRON["LENGTH"] + 0
    if (n < 100 || byte[0] "," byte[1] "," byte[2] "," byte[3] != "72,66,83,49") refuse(state " is no saved state: it does not begin with HBS1")
    if (100 + 132 * u32(8) + 72 * u32(32) + u32(12) != length_of) refuse(state " is no saved state: it has " length_of " bytes, and says otherwise")
    if (u32(8) != tasks) refuse(state " has " u32(8) " tasks, and " ENVIRON["APP"] " " tasks)
    split("offers,waits for the answer to,listens to anyone,listens to the kernel,listens to", waits, ",")
    split("well stopped faulted", health)
    printf "turn %d, tick %s, next call %d, last ran %s\n", u32(4), u64(16), u32(28), task(u32(24))
    for (k = 0; k < 64; k++) if (byte[36 + k]) printf "line %d %s\n", k, byte[36 + k] == 1 ? "enabled" : "pending"
    for (t = 0; t < tasks; t++) print task(t) told(100 + 132 * t)
    for (d = 0; d < u32(32); d++) {
        at = 100 + 132 * tasks + 72 * d
        printf "device %d: count %.0f, %d bytes wait", d, u32(at), u32(at + 4)
        for (k = 0; k < u32(at + 4); k++) printf "%s%02x", k ? " " : ": ", byte[at + 8 + k]
        print ""
    }
    for (t = 0; t < tasks; t++) if (awaited(t) >= 0) print waiting(t)
}
# the task that a task waits for: the receiver of its call, or the one that it listens to; -1 where it waits for no task
function awaited(t,    at) {
    at = 100 + 132 * t
    return byte[at + 1] == 0 && (byte[at + 3] == 1 || byte[at + 3] == 2 || byte[at + 3] == 5) ? u16(at + 104) % 1024 : -1
}
# whom a task waits for, whom that one waits for, and so on to a task that waits for no other, or round to one that was named
function waiting(t,    text, named) {
    text = task(t)
    while (awaited(t) >= 0) {
        named[t] = 1
        t = awaited(t)
        text = text (text ~ / waits for / ? ", which" : "") " waits for " task(t)
        if (t in named) return text ": these wait for each other"
    }
    return text ", which " (byte[100 + 132 * t + 1] ? "is " health[byte[100 + 132 * t + 1] + 1] : byte[100 + 132 * t + 3] ? waits[byte[100 + 132 * t + 3]] : "is ready")
}
function told(at,    kind, text) {
    kind = byte[at + 3]
    text = ", generation " byte[at] ", " health[byte[at + 1] + 1]
    if (byte[at + 2]) text = text " by fault " byte[at + 2] " " hexadecimal(u32(at + 4)) " " hexadecimal(u32(at + 8))
    text = text ", pc " hexadecimal(u32(at + 72))
    if (kind == 1 || kind == 2)
        text = text ", " waits[kind] " call " u32(at + 100) " to " task(u16(at + 104) % 1024) ", operation " u16(at + 106) ", " u32(at + 128) " leases"
    if (kind >= 3) text = text ", " waits[kind] (kind == 5 ? " " task(u16(at + 104) % 1024) : "") ", mask " hexadecimal(u32(at + 100))
    if (u32(at + 80)) text = text ", posted " hexadecimal(u32(at + 80))
    if (u32(at + 84)) text = text ", timer at " u64(at + 88) " for " hexadecimal(u32(at + 96))
    return text
}
