# Where everything of an application lies, by its description and its sources alone (docs/FORMATS.md, Plan, Building and Assembler).
# Behind app.awk; sources are named from where `go` is called. Of task t it knows flash[t] and ram[t], its first bytes; lines[t], how many
# lines its source has, and ends[t], how many bytes they make. Of line k it knows told_line[t, k], at_line[t, k], the offset of its code,
# and takes_line[t, k], how many bytes of instructions; of an offset label[t, at] and line_at[t, at]; the k-th label and the k-th
# variable of C are label_name[t, k] at label_at[t, k], and variable[t, k] at offset[t, k] from `stack_top` on.
BEGIN { if (!refused) lay_out() }
function rounded(bytes,    size) {
    size = 256
    while (size < bytes) size *= 2
    return size
}
# the largest first, of equals the one that stands first
function lay_out(    at, k, t) {
    for (t = 0; t < tasks; t++) {
        if (!(t in source)) refuse_key(t, "source")
        if (!(t in flash_size)) refuse_key(t, "flash")
        if (!(t in ram_size)) refuse_key(t, "ram")
        if (!(t in stack)) refuse_key(t, "stack")
        flash_size[t] = rounded(flash_size[t])
        ram_size[t] = rounded(ram_size[t])
    }
    for (k = 0; k < regions; k++) region_size[k] = rounded(region_size[k])
    at = 134217728
    for (k = 1048576; k >= 256; k /= 2)
        for (t = 0; t < tasks; t++)
            if (flash_size[t] == k) { flash[t] = at; at += k }
    at = 536870912
    for (k = 262144; k >= 256; k /= 2) {
        for (t = 0; t < tasks; t++)
            if (ram_size[t] == k) { ram[t] = at; at += k }
        for (t = 0; t < regions; t++) if (region_size[t] == k) at += k
    }
    for (t = 0; t < tasks; t++) walk(t)
}
function refuse_key(t, key) { refuse(ENVIRON["APP"] ": task[" t "]." key " is not on a line of its own") }
function walk(t,    at, line, got, number_of, text, statement, bytes, in_c, made, parts) {
    at = 0
    number_of = 0
    in_c = ""
    made = 0
    while ((got = (getline line < source[t])) > 0) {
        number_of++
        sub(/\r$/, "", line)
        # what to-source.sh makes has its variables at its beginning, and its instructions as `.half` with a comment
        if (number_of == 1) made = line ~ /^; Made of .* by to-source\.sh/
        if (made && line ~ /^; stack_top \+ [0-9]+ [A-Za-z_]/) {
            split(line, parts, " ")
            variable[t, ++variables[t]] = parts[5]
            offset[t, variables[t]] = parts[4]
        }
        text = bare(line)
        if (match(text, /^[ \t]*[A-Za-z_][A-Za-z0-9_]*[ \t]*:/)) {
            statement = substr(text, RSTART, RLENGTH - 1)
            gsub(/[ \t]/, "", statement)
            text = substr(text, RLENGTH + 1)
            label[t, at] = label_name[t, ++labels[t]] = statement
            label_at[t, labels[t]] = at
        }
        sub(/^[ \t]+/, "", text)
        bytes = text == "" ? 0 : takes(text, at)
        # of C the line of C, which stands at its first instruction
        if (made && match(line, /[^ \t]+\.[A-Za-z]+:[0-9]+$/)) in_c = substr(line, RSTART)
        else if (text ~ /^\.word/) in_c = ""
        if (bytes > 0 && tolower(text) !~ /^\.align/) line_at[t, at] = in_c != "" ? in_c : "line " number_of
        at_line[t, number_of] = at
        takes_line[t, number_of] = text ~ /^\./ && !(made && text ~ /^\.half/ && line ~ /;/) ? 0 : bytes
        told_line[t, number_of] = line
        at += bytes
    }
    if (got < 0) refuse("cannot read " source[t] ", the source of " name[t] ": sources are named from where go was called")
    lines[t] = number_of
    ends[t] = at
    close(source[t])
}
# without its comment
function bare(line,    k, c, quoted) {
    if (!index(line, ";")) return line
    quoted = 0
    for (k = 1; k <= length(line); k++) {
        c = substr(line, k, 1)
        if (c == "\\" && quoted) k++
        else if (c == "\"") quoted = !quoted
        else if (c == ";" && !quoted) return substr(line, 1, k - 1)
    }
    return line
}
# how many bytes a statement makes
function takes(text, at,    word, rest, n, parts) {
    word = tolower(text)
    sub(/[ \t].*/, "", word)
    rest = substr(text, length(word) + 1)
    if (word == ".byte") return split(rest, parts, ",")
    if (word == ".half") return 2 * split(rest, parts, ",")
    if (word == ".word") return 4 * split(rest, parts, ",")
    if (word == ".space") return integer(rest)
    if (word == ".align") { n = 1; for (rest = integer(rest); rest > 0; rest--) n *= 2; return (n - at % n) % n }
    if (word == ".ascii") { sub(/^[^"]*"/, "", rest); sub(/"[^"]*$/, "", rest); gsub(/\\./, "x", rest); return length(rest) }
    return word ~ /^(bl|dsb|dmb|isb|mrs|msr)$/ ? 4 : 2
}
# what has this address: the task's name, the label before it, and the line of its source
function place(digits) {
    if (!(digits in placed)) placed[digits] = place_of(number(digits))
    return placed[digits]
}
function place_of(pc,    t, at, k, text) {
    for (t = 0; t < tasks && (pc < flash[t] || pc >= flash[t] + flash_size[t]); t++) {}
    if (t == tasks) return ""
    at = pc - flash[t]
    if (at >= ends[t]) return name[t] " behind its end"
    for (k = at; k > 0 && !((t, k) in label); k--) {}
    text = (t, k) in label ? label[t, k] : ""
    if (at > k || text == "") text = text "+" at - k
    return name[t] " " text ((t, at) in line_at ? " (" line_at[t, at] ")" : "")
}
