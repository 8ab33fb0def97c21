# lines, over a trace, behind places.awk.
$2 == "insn" { count[$4]++ }
function counted(t, k) { return count[hexadecimal(flash[t] + at_line[t, k])] + 0 }
function show_line(many, line,    text) {
    text = sprintf("%8s  %s", many, line)
    sub(/[ \t]+$/, "", text)
    print text
}
# how many of its instructions ran at all
function show_sum(t,    k, of, reached) {
    for (k = 1; k <= lines[t]; k++)
        if (takes_line[t, k]) { of++; reached += counted(t, k) > 0 }
    printf "%s: %d of %d instructions\n", source[t], reached, of
}
# each file in C that the source is made of and that lies beside it, the first one in any case
function show_c(t,    k, n, words, at, most, files, folder, file, line, got, number_of) {
    for (k = 1; k <= lines[t]; k++) {
        n = split(told_line[t, k], words, /[ \t]+/)
        if (!takes_line[t, k] || words[n] !~ /\.[A-Za-z]+:[0-9]+$/) continue
        at = words[n]
        if (!(at in most) || counted(t, k) > most[at]) most[at] = counted(t, k)
    }
    folder = source[t]
    sub(/[^\/]*$/, "", folder)
    n = split(told_line[t, 1], files, " ")
    for (k = 4; k <= n && files[k] != "by"; k++) {
        if (files[k] !~ /\.c$/) continue
        file = folder files[k]
        number_of = 0
        while ((got = (getline line < file)) > 0) {
            if (++number_of == 1 && k > 4) print file ":"
            at = files[k] ":" number_of
            show_line(at in most ? most[at] : "-", line)
        }
        close(file)
        if (got < 0 && k == 4) refuse("cannot read " file ", of which " source[t] " is made")
    }
}
END {
    if (refused) exit 1
    for (t = 0; t < tasks; t++) {
        show_sum(t)
        if (told_line[t, 1] ~ /^; Made of [^ ]*\.c /) { show_c(t); if (refused) exit 1; continue }
        for (k = 1; k <= lines[t]; k++) show_line(takes_line[t, k] ? counted(t, k) : "-", told_line[t, k])
    }
}
