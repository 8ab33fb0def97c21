# check: the counts of two listings of `cover` of one application, together. What is known to be code is what is known in either.
$1 ~ /^([0-9]+|-)$/ && length($2) == 8 {
    at = $2
    if (!(at in text)) { places[++many] = at; count[at] = "-" }
    if ($1 != "-") count[at] += $1
    line = $0
    sub(/^[^ ]+ [^ ]+ ?/, "", line)
    if (match(line, /; taken [0-9]+/)) taken[at] += substr(line, RSTART + 8, RLENGTH - 8)
    sub(/;.*/, "", line)
    text[at] = line
}
END {
    for (k = 1; k <= many; k++) {
        at = places[k]
        instructions++
        reached += count[at] != "-"
        branch = text[at] ~ /^b(eq|ne|cs|cc|mi|pl|vs|vc|hi|ls|ge|lt|gt|le) /
        ways += 2 * branch
        gone += branch && taken[at] > 0
        gone += branch && count[at] != "-" && count[at] > taken[at] + 0
        print count[at], at, text[at] (at in taken ? "; taken " taken[at] : "")
    }
    print "in all " reached + 0 " of " instructions + 0 " instructions, " gone + 0 " of " ways + 0 " ways"
}
