# The script of an arrival time: the lines of a script, and between them the events of an arrival, so many turns later. Each line of
# the two has in front of it which of them it is of. A line of the script stays as it is; what the arrival lists stands an event a
# line, so that on each turn it comes behind what the script lists there, whatever series either has.
function refuse(text) { print name ": " text > "/dev/stderr"; bad = 1; exit 1 }
function words(from,   k, text) { text = $from; for (k = from + 1; k <= NF; k++) text = text " " $k; return text }
# an event of the arrival, behind those of its turn and of the turns before
function list(turn, event,   k) {
    for (k = ++arriving; k > 1 && when[k - 1] > turn + later; k--) { when[k] = when[k - 1]; comes[k] = comes[k - 1] }
    when[k] = turn + later
    comes[k] = event
}
# the bytes of the text that the line ends with, the first on a turn and each further one so many turns later
function spell(text, device, turn, step,   k, c) {
    sub(/[ \t]+$/, "", text)
    for (k = 2; k < length(text); k++) {
        c = substr(text, k, 1)
        c = c == "\\" ? escape[substr(text, ++k, 1)] : byte[c]
        list(turn, "in " device " " c)
        turn += step
    }
}
BEGIN {
    for (k = 32; k < 127; k++) byte[sprintf("%c", k)] = k
    byte["\t"] = 9
    escape["\""] = 34; escape["\\"] = 92; escape["n"] = 10; escape["r"] = 13; escape["t"] = 9; escape["0"] = 0
}
{ sub(/\r$/, ""); line[$1]++ }
NF == 1 || $2 ~ /^#/ { next }
$2 == "every" && $1 == 1 { print "every " $3 " " $4; next }
$2 == "every" { refuse(ENVIRON["ARRIVAL"] ": line " line[2] " has an every, which no arrival may have") }
$2 != "at" && $2 != "from" { refuse(ENVIRON[$1 == 1 ? "SCRIPT" : "ARRIVAL"] ": line " line[$1] " is no line of a script") }
$1 == 1 {
    turn[++own] = $3
    at = match($0, /[ \t]"/)
    event[own] = at ? substr($0, 3) : words(2)
    next
}
{ text = match($0, /[ \t]"/) ? substr($0, RSTART + 1) : "" }
$2 == "at" && text != "" { spell(text, $5, $3, 0); next }
$2 == "at" { list($3, words(4)); next }
text != "" { spell(text, $7, $3, $5); next }
{ for (k = $3 + 0; k <= $7 + 0 && $5 + 0 > 0; k += $5) list(k, words(8)) }
END {
    if (bad) exit 1
    i = j = 1
    while (i <= own || j <= arriving)
        if (j > arriving || i <= own && turn[i] + 0 <= when[j]) print event[i++]
        else { print "at " when[j] " " comes[j]; j++ }
}
