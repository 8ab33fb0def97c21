# Writes a linked task, as to-source.sh tells it, as assembly: a label for each function, `.half` for each halfword, and `.word` with
# a name where an address stands, so that the builder may place it anywhere.
function number(digits,    k, n) {
    n = 0
    digits = tolower(digits)
    for (k = 1; k <= length(digits); k++) n = 16 * n + index("0123456789abcdef", substr(digits, k, 1)) - 1
    return n
}
function refuse(why) { print "to-source: " why | "cat 1>&2"; close("cat 1>&2"); failed = 1; exit 1 }
BEGIN { RAM = 536870912; print "; Made of " of ": not to be changed by hand." }
# objdump: a section of variables, and the power of two to which it is aligned; `stack_top` is a multiple of 8
$1 == "section" && $3 > 3 { refuse("a variable in " $2 " is to stand at a multiple of more than 8") }
# nm: a name that is open; the builder has these (docs/FORMATS.md, Building)
$1 == "symbol" && $2 == "U" {
    if ($3 !~ /^((task|note|region)_.*|ram|ram_size|stack_top)$/) refuse($3 " is not defined")
    open[$3] = 1
}
# a weak one, which is 0 where it is not defined
$1 == "symbol" && $2 ~ /^[wv]$/ { absent[$3] = 1 }
# nm: value, kind, name
$1 == "symbol" && NF == 4 {
    at = number($2)
    if ($4 == "data_load") load = at
    if ($4 == "bss_end") ram = at - RAM
    if ($3 ~ /^[BbDdV]$/ && $4 !~ /^(data_begin|data_end|bss_end)$/) variables = variables "; stack_top + " at - RAM " " $4 "\n"
    if ($3 ~ /^[TtW]$/ && $4 !~ /^\$/) {
        gsub(/[^A-Za-z0-9_]/, "_", $4)
        if (length($4) > 64) $4 = substr($4, 1, 56) "_" ++longer
        if (!($4 in used)) { used[$4] = 1; labels[at] = labels[at] $4 ":\n" }
    }
}
# readelf: place, info, kind, value, name. What is told from where it stands, as a branch is, stays right within the flash
$1 == "address" && $4 == "R_ARM_ABS32" && !($6 in absent) {
    at = number($2)
    if (at % 4) refuse("an address stands at " $2 ", which is no multiple of 4")
    base[at] = $6 in open ? $6 : number($5) < RAM ? "start" : "stack_top"
}
$1 == "address" && $4 !~ /^R_ARM_(ABS32|NONE|THM_(CALL|JUMP[0-9]*|PC[0-9]*))$/ && !($4 == "R_ARM_REL32" && number($5) < RAM) {
    refuse("an address of the kind " $4)
}
# objdump: a line of C, or an instruction
# what stands in a header and is compiled in place is of the line that calls it
$1 == "code" && $2 == "inlined" { if (place ~ /\.h:/) { place = $4; sub(/.*\//, "", place) } next }
$1 == "code" && $2 ~ /:[0-9]+$/ { place = $2; sub(/.*\//, "", place); next }
$1 == "code" && $2 ~ /^[0-9a-f]+:$/ {
    at = number(substr($2, 1, length($2) - 1))
    text = $0
    sub(/^code +[0-9a-f]+:[ \t]*/, "", text)
    gsub(/[\t ]+/, " ", text)
    sub(/ *[@;].*/, "", text)
    text = substr(text, 1, 100)
    told[at] = sprintf("%-32s %s", text, place)
    gsub(/[^ -~]/, "?", told[at])
    sub(/ +$/, "", told[at])
    place = ""
}
$1 == "half" { half[n++] = $2 }
# the word at this place, as the label or symbol that it is counted from
function term(at, value,    from) {
    if (base[at] == "start") from = 0
    else if (base[at] == "stack_top") from = RAM
    else {
        from = 0
        if (value == 0) return base[at]
    }
    value -= from
    if (value >= 2147483648) value -= 4294967296
    return base[at] (value < 0 ? " - " (-value) : " + " value)
}
END {
    if (failed) exit 1
    if (n == 0) refuse("nothing was linked")
    printf "; %d bytes of flash, and %d bytes of RAM from stack_top on%s\n%s", 2 * n, ram, variables == "" ? "." : ":", variables
    for (k = 0; k < n; k++) {
        at = 2 * k
        if (at in labels) printf "%s", labels[at]
        linked = at < load ? at : RAM + at - load
        if (linked in base) {
            printf "        .word %s\n", term(linked, number(half[k + 1] half[k]))
            k++
        } else if (at in told)
            printf "        .half 0x%s      ; %s\n", half[k], told[at]
        else
            printf "        .half 0x%s\n", half[k]
    }
}
