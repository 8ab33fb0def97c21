# check: which of the things that a case asks for a trace does not keep, behind app.awk. ASKS has a line for each of them: the line of the
# file of cases, and what stands there, with tasks as their indices. Written is, of each that is not kept, its line and why.
BEGIN {
    digits = "0123456789abcdef"
    for (k = 0; k < 256; k++) {
        hex = substr(digits, int(k / 16) + 1, 1) substr(digits, k % 16 + 1, 1)
        if (k) of[sprintf("%c", k)] = hex
        shown[hex] = k == 10 ? "\\n" : k == 34 ? "\\\"" : k == 92 ? "\\\\" : k >= 32 && k < 127 ? sprintf("%c", k) : "\\x" hex
    }
    while ((getline line < ENVIRON["ASKS"]) > 0) read_ask(line)
    close(ENVIRON["ASKS"])
    at = 1
}
function read_ask(line,    part) {
    split(line, part, " ")
    place[++asks] = part[1]
    word[asks] = part[2]
    sub(/^[^ ]* [^ ]* */, "", line)
    if (word[asks] ~ /^(out|within|times)$/) {
        amount[asks] = part[3]
        sub(/^[^ ]* */, "", line)
    }
    if (word[asks] == "never") amount[asks] = 0
    words[asks] = line
    if (word[asks] == "tells" || word[asks] == "within") in_order[++orders] = asks
    if (word[asks] == "never" || word[asks] == "times") counted[++counts] = asks
    if (word[asks] == "out") read_text(asks, substr(line, 2, length(line) - 2))
    if (word[asks] == "calls") longest = longest == "" || line < longest ? line : longest
    if (word[asks] == "faults") says_faults = 1
}
# the bytes that device amount[k] is to give out
function read_text(k, text,    byte) {
    asked[amount[k]] = 1
    while (text != "") {
        byte = substr(text, 1, 1)
        text = substr(text, 2)
        if (byte == "\\") {
            byte = substr(text, 1, 1)
            text = substr(text, 2)
            if (byte == "x") { wanted[k, ++wants[k]] = tolower(substr(text, 1, 2)); text = substr(text, 3); continue }
            byte = byte == "n" ? "\n" : byte == "r" ? "\r" : byte == "t" ? "\t" : byte
        }
        wanted[k, ++wants[k]] = of[byte]
    }
}
function begins(text, k) { return index(text " ", words[k] " ") == 1 }
$1 == "end" { ends = $2; turns = $3; exit }
{
    text = $0
    sub(/^[^ ]* /, "", text)
    if ($2 == "fault" && ++faults == 1) first_fault = $0
    else if ($2 == "out") { if ($3 in asked) given[$3, ++gives[$3]] = $4 }
    else if ($2 == "offer") { offered[$3] = $1; client[$3] = $4; server[$3] = $5; order[++calls] = $3 }
    else if ($2 == "close") closed[$3] = $1
    if (at <= orders && begins(text, in_order[at])) {
        k = in_order[at++]
        if (word[k] == "within" && $1 - found > amount[k])
            why[k] = "it took " $1 - found " turns, more than " amount[k] ", from turn " found + 0 " to turn " $1 ": " words[k]
        found = $1
    }
    for (c = 1; c <= counts; c++) if (begins(text, counted[c]) && ++times[counted[c]] == 1) first_time[counted[c]] = $0
}
function lines(n) { return n == 1 ? "1 line" : n " lines" }
# which bytes came, and where they are others
function judge_out(k,    device, n, many, same, from, text) {
    device = amount[k]
    many = gives[device] + 0
    for (same = 0; same < many && same < wants[k] && given[device, same + 1] == wanted[k, same + 1]; same++) {}
    if (same == many && same == wants[k] + 0) return
    from = same > 40 ? same - 20 : 0
    text = from ? ".." : ""
    for (n = from + 1; n <= many && n <= from + 60; n++) text = text shown[given[device, n]]
    if (n <= many) text = text ".."
    why[k] = "device " device " gave out \"" text "\", which differs from byte " same + 1 " on"
}
function judge_calls(k,    c, n, last) {
    for (c = 1; c <= calls; c++) {
        n = order[c]
        last = n in closed ? closed[n] : turns
        if (last - offered[n] <= words[k] + 0) continue
        why[k] = "call " n " of " task(client[n]) " to " task(server[n]) " is open from turn " offered[n] " on, " \
            (n in closed ? "until turn " last : "still at the end") ": " last - offered[n] " turns, more than " words[k]
        return
    }
}
END {
    if (refused) exit 1
    for (k = 1; k <= asks; k++) {
        if (word[k] == "faults" && faults + 0 != words[k]) why[k] = (faults == 1 ? "1 fault" : faults + 0 " faults") ", not " words[k] (faults ? ", the first: " first_fault : "")
        if (word[k] == "ends" && ends != words[k]) why[k] = "it ends as " ends " in turn " turns ", not as " words[k]
        if (word[k] == "out") judge_out(k)
        if (word[k] == "calls") judge_calls(k)
        if ((word[k] == "never" || word[k] == "times") && times[k] + 0 != amount[k])
            why[k] = lines(times[k] + 0) ", not " amount[k] (times[k] ? ", the first: " first_time[k] : ": " words[k])
    }
    if (at <= orders) why[in_order[at]] = "nothing tells this behind " (found == "" ? "the beginning" : "turn " found) ": " words[in_order[at]]
    for (k = 1; k <= asks; k++) if (k in why) print place[k], why[k]
    if (faults && !says_faults) print ENVIRON["BEGUN"], "a task faults: " first_fault
}
