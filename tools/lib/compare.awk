# compare, over the second trace; FIRST names the first.
BEGIN {
    # how many of r4 to r10 each call takes, and of r4 to r9 each gives, as it matters here: no deadline, and no time
    split("7 4 4 1 5 5 2 2 2 0 1 2 2 1", takes)
    split("2 6 0 0 2 2 3 0 0 0 1 1 0 1", gives)
    file = 1
    while ((getline < ENVIRON["FIRST"]) > 0) tell(++at)
    close(ENVIRON["FIRST"])
    file = 2
}
{ tell(NR) }
function tell(n,    part) {
    number_of = n
    if ($1 == "end") ended[file] = 1
    else if (ended[file]) {
        if ($1 == "task") { split($5, part, ":"); add("task " $2, $4 " " part[1]) }
    }
    else if ($2 == "call") { last[file, $3] = $4; add("task " $3, "call " $4 words(5, takes[$4 + 1] + 0)) }
    else if ($2 == "ret") add("task " $3, "ret" words(4, gives[last[file, $3] + 1] + 0))
    else if ($2 == "fault") add("task " $3, $2 " " $4 words(5, 2))
    else if ($2 == "restart") add("task " $3, $2 " " $4)
    else if ($2 == "offer") { client[file, $3] = $4; add("task " $4, $2 " to " $5) }
    else if ($2 == "in" || $2 == "out") add("device " $3, $2 " " $4 (NF > 4 ? " " $5 : ""))
    # of a call that was offered before the text begins, as in what `resume` writes, its client is not told
    else if (!((file, $3) in client)) return
    else if ($2 == "borrow") add("task " client[file, $3], $2 " " $4 " " $5 " " $6 " " $7)
    else if ($2 == "take" || $2 == "close") add("task " client[file, $3], $2 " " $4)
}
# registers; flash and RAM are where each version has them
function words(from, many,    k, text) {
    text = ""
    for (k = from; k < from + many; k++) text = text " " ($k ~ /^(080|2000|2001|2002|2003)/ ? "address" : $k)
    return text
}
function add(who, text) {
    if (!(who in known)) { known[who] = 1; order[++whos] = who }
    told[file, who, ++count[file, who]] = text
    line[file, who, count[file, who]] = number_of
}
function shown(f, who, k) { return k <= count[f, who] ? sprintf("line %d: %s", line[f, who, k], told[f, who, k]) : "nothing more" }
END {
    for (w = 1; w <= whos; w++) {
        who = order[w]
        most = count[1, who] > count[2, who] ? count[1, who] : count[2, who]
        for (k = 1; k <= most && told[1, who, k] == told[2, who, k]; k++) {}
        if (k > most) { printf "%s: the same %d\n", who, most; continue }
        printf "%s: the first %d are the same\n    first   %s\n    second  %s\n", who, k - 1, shown(1, who, k), shown(2, who, k)
        differ = 1
    }
    exit differ
}
