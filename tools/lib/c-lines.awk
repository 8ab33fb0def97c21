# c-lines, over what `cover` wrote, behind places.awk and cover.awk.
$1 ~ /^([0-9]+|-)$/ && $2 ~ /^[0-9a-f]+$/ && length($2) == 8 {
    count[$2] = $1 == "-" ? 0 : $1
    if (match($0, /; taken [0-9]+/)) taken[$2] = substr($0, RSTART + 8, RLENGTH - 8) + 0
}
# the place of C or Rust that a line of a made source tells, or that an earlier one told
function in_c(t, k,    n, words) {
    n = split(told_line[t, k], words, /[ \t]+/)
    if (words[n] ~ /\.[A-Za-z]+:[0-9]+$/) c_place = words[n]
    else if (told_line[t, k] ~ /^ *\.word/ || told_line[t, k] ~ /^[A-Za-z_].*:$/) c_place = ""
    return c_place
}
function section(name) { print "TN:\nSF:" name; found = hit = 0 }
function line_of(n, many) { print "DA:" n "," many; found++; hit += many > 0 }
function over_it() { print "LF:" found "\nLH:" hit "\nend_of_record" }
# whether a line has a conditional branch
function branches(t, k,    text) {
    text = tolower(bare(told_line[t, k]))
    sub(/^[ \t]*[a-z_][a-z0-9_]*[ \t]*:/, "", text)
    return text ~ /^[ \t]*b(eq|ne|cs|cc|mi|pl|vs|vc|hi|ls|ge|lt|gt|le|hs|lo)[ \t]/
}
# as the command `lcov` does: all lines with an instruction, known to be code or not
function show_assembly(t,    k, at, ways, gone) {
    section(source[t])
    for (k = 1; k <= lines[t]; k++) {
        at = hexadecimal(flash[t] + at_line[t, k])
        if (!takes_line[t, k] || !branches(t, k)) continue
        if (at in taken) {
            print "BRDA:" k ",0,0," taken[at] "\nBRDA:" k ",0,1," count[at] - taken[at]
            gone += (taken[at] > 0) + (count[at] - taken[at] > 0)
        } else print "BRDA:" k ",0,0,-\nBRDA:" k ",0,1,-"
        ways += 2
    }
    print "BRF:" ways + 0 "\nBRH:" gone + 0
    for (k = 1; k <= lines[t]; k++) if (takes_line[t, k]) line_of(k, count[hexadecimal(flash[t] + at_line[t, k])] + 0)
    over_it()
}
function show(t,    k, at, n, files, folder, part, f) {
    if (told_line[t, 1] !~ /^; Made of [^ ]*\.[a-z]+ /) { show_assembly(t); return }
    split("", most); split("", last)
    c_place = ""
    for (k = 1; k <= lines[t]; k++) {
        if (in_c(t, k) == "" || !takes_line[t, k]) continue
        at = hexadecimal(flash[t] + at_line[t, k])
        if (!(at in count)) continue
        if (!(c_place in most) || count[at] > most[c_place]) most[c_place] = count[at]
        split(c_place, part, ":")
        if (part[2] + 0 > last[part[1]] + 0) last[part[1]] = part[2]
    }
    folder = source[t]
    sub(/[^\/]*$/, "", folder)
    n = split(told_line[t, 1], files, " ")
    for (f = 4; f <= n && files[f] != "by"; f++) {
        if (!(files[f] in last)) continue
        section(folder files[f])
        for (k = 1; k <= last[files[f]]; k++) if ((files[f] ":" k) in most) line_of(k, most[files[f] ":" k])
        over_it()
    }
}
END { if (refused) exit 1; for (t = 0; t < tasks; t++) show(t) }
