# check: reads a file of cases (docs/CASES.md), behind app.awk, and writes what is to be done, case by case, with all that holds for it:
#     case LINE NAME, app LINE APP, script LINE SCRIPT, steps LINE N, ask LINE WORD .., run
# The lines of a script that stand in the file itself go to MADE/lines.K, K being the case's number: each with its line and a tab before it.
BEGIN {
    split("tick irq in out post call ret close listen offer take borrow fault restart irqstat find", list)
    for (k in list) kind[list[k]] = 1
    file = ENVIRON["FILE"]
    n = split("case NAME;app APP;script SCRIPT;steps N;every P tick;at T EVENT;from A every P to B EVENT, or from A every P in D TEXT;after N WORDS | EVENT ..;feed T D GAP HEX ..;" \
        "repeat FROM STEP TO EVENT;faults N;ends still, bound or supervisor;out D \"TEXT\";tells WORDS;within N WORDS;never WORDS;" \
        "times N WORDS;calls N;same FILE;like FILE;sweep ARRIVAL FROM TO;unharmed ARRIVAL FROM TO;covers A B;together A B", list, ";")
    for (k = 1; k <= n; k++) form[first(list[k])] = list[k]
}
function wrong(line, what) { refuse(file ":" line ": " what) }
function malformed(word) { wrong(NR, "it is to be: " form[word] (form[word] ~ /WORDS/ ? ", WORDS as a trace without --all tells them" : "")) }
function is_number(text, least, most) { return text ~ /^(0|[1-9][0-9]*)$/ && length(text) <= 10 && text + 0 >= least && text + 0 <= most }
function is_event(text,    word, n) {
    n = split(text, word, " ")
    if (n == 1) return word[1] == "tick"
    if (n == 2) return word[1] == "irq" && is_number(word[2], 0, 63)
    return n == 3 && word[1] == "in" && is_number(word[2], 0, 7) && is_number(word[3], 0, 255)
}
# bytes for a device, as a text in quotes
function is_text(text) { return text ~ /^in [0-7] +".*"$/ }
# the words of a text from the k-th on
function from(text, k) {
    for (; k > 1; k--) if (!sub(/^[^ ]+ */, "", text)) return ""
    return text
}
function first(text) { sub(/ .*/, "", text); return text }
# the beginning of a line of a trace
function are_words(text) { sub(/ *\|.*/, "", text); return first(text) in kind }
# each event behind a `|`
function are_events(text,    part, n, k) {
    n = split(text, part, "|")
    for (k = 2; k <= n; k++) {
        sub(/^ +/, "", part[k]); sub(/ +$/, "", part[k])
        if (!is_event(part[k])) return 0
    }
    return n > 1
}
function number_of_hexadecimal(text) { return text ~ /^[0-9a-fA-F][0-9a-fA-F]$/ ? number(text) : -1 }
# lines of a script
function script_line(text) { own[++owns] = text; own_at[owns] = NR }
function feed(text,    word, n, k, byte) {
    n = split(text, word, " ")
    if (n < 4 || !is_number(word[1], 0, 999999999) || !is_number(word[2], 0, 7) || !is_number(word[3], 0, 999999999)) return 0
    for (k = 4; k <= n; k++) {
        byte = number_of_hexadecimal(word[k])
        if (byte < 0 || word[1] + (k - 4) * word[3] > 999999999) return 0
        script_line("at " word[1] + (k - 4) * word[3] " in " word[2] " " byte)
    }
    return 1
}
function repeat(text,    word, turn) {
    split(text, word, " ")
    if (!is_number(word[1], 0, 999999999) || !is_number(word[2], 1, 999999999) || !is_number(word[3], 0, 1000000000)) return 0
    if (!is_event(from(text, 4)) || word[3] - word[1] > 65536 * word[2]) return 0
    for (turn = word[1] + 0; turn < word[3]; turn += word[2]) script_line("at " turn " " from(text, 4))
    return 1
}
function path_and_stretch(text,    word, n) {
    n = split(text, word, " ")
    return n >= 3 && is_number(word[n - 1], 0, 1000000000) && is_number(word[n], 0, 1000000000) && word[n - 1] + 0 <= word[n] + 0
}
function is_share(text) { return is_number(text, 0, 100) }
# whether a line of this word has this form
function is_right(word, rest) {
    if (word ~ /^(app|script|same|like|case)$/) return rest != ""
    if (word == "steps") return is_number(rest, 0, 1000000000)
    if (word == "faults" || word == "calls") return is_number(rest, 0, 1000000000)
    if (word == "ends") return rest ~ /^(still|bound|supervisor)$/
    if (word == "tells" || word == "never") return are_words(rest)
    if (word == "within" || word == "times") return is_number(first(rest), 0, 1000000000) && are_words(from(rest, 2))
    if (word == "out") return is_number(first(rest), 0, 7) && from(rest, 2) ~ /^"([^"\\]|\\[nrt"\\]|\\x[0-9a-fA-F][0-9a-fA-F])*"$/
    if (word == "sweep" || word == "unharmed") return path_and_stretch(rest)
    if (word == "covers" || word == "together") return rest ~ /^[0-9]+ +[0-9]+$/ && is_share(first(rest)) && is_share(from(rest, 2))
    if (word == "every") return rest ~ / tick$/ && is_number(first(rest), 1, 1000000000) && from(rest, 2) == "tick"
    if (word == "at") return is_number(first(rest), 0, 999999999) && (is_event(from(rest, 2)) || is_text(from(rest, 2)))
    if (word == "from") return is_number(first(rest), 0, 999999999) && from(rest, 2) ~ /^every [0-9]+ / && (is_text(from(rest, 4)) || from(rest, 4) ~ /^to [0-9]+ / && is_event(from(rest, 6)))
    if (word == "after") return is_number(first(rest), 1, 1000000000) && are_words(from(rest, 2)) && are_events(rest)
    return 1
}
# the names of tasks as their indices; a description is read once, as long as it is the same
function indices(text, line,    at, wanted, t, before) {
    before = ""
    while (match(text, /\{[^{}]*\}/)) {
        wanted = substr(text, RSTART + 1, RLENGTH - 2)
        at = RSTART
        if (app != known_app) {
            if ((getline t < app) < 0) { wrong(app_at, "cannot read " app); return "" }
            close(app)
            split("", name)
            read_app(app)
            if (refused) return ""
            known_app = app
        }
        for (t = 0; t < tasks && name[t] != wanted; t++) {}
        if (t == tasks) { wrong(line, app " has no task " wanted); return "" }
        before = before substr(text, 1, at - 1) t
        text = substr(text, at + length(wanted) + 2)
    }
    return before text
}
function keep_common(    k) {
    common_app = app; common_app_at = app_at; common_script = script; common_script_at = script_at; common_steps = steps
    for (k = 1; k <= owns; k++) { common_own[k] = own[k]; common_own_at[k] = own_at[k] }
    for (k = 1; k <= asks; k++) { common_ask[k] = ask[k]; common_ask_at[k] = ask_at[k] }
    common_owns = owns
    common_asks = asks
}
function begin_case(title,    k) {
    if (title in titles) { wrong(NR, "the case in line " titles[title] " has this name"); return }
    titles[title] = NR
    if (!cases) keep_common(); else write_case()
    if (refused) return
    app = common_app; app_at = common_app_at; script = common_script; script_at = common_script_at; steps = common_steps
    owns = common_owns
    asks = common_asks
    for (k = 1; k <= owns; k++) { own[k] = common_own[k]; own_at[k] = common_own_at[k] }
    for (k = 1; k <= asks; k++) { ask[k] = common_ask[k]; ask_at[k] = common_ask_at[k] }
    cases++
    case_title = title
    case_at = NR
}
function write_case(    k, word, text, lines, last) {
    if (app == "") { wrong(case_at, "this case has no app"); return }
    if (steps == "") { wrong(case_at, "this case has no steps"); return }
    print "case", case_at, case_title
    print "app", app_at, app
    print "steps", case_at, steps
    if (script != "") print "script", script_at, script
    lines = ENVIRON["MADE"] "/lines." cases
    for (k = 1; k <= owns; k++) {
        text = own[k]
        if (text ~ /^after /) text = indices(text, own_at[k])
        if (refused) return
        print own_at[k] "\t" text > lines
    }
    if (owns) close(lines)
    split("", last)
    for (k = 1; k <= asks; k++) last[first(ask[k])] = k
    for (k = 1; k <= asks; k++) {
        text = ask[k]
        word = first(text)
        # of these the last one counts
        if (word ~ /^(faults|ends)$/ && k < last[word]) continue
        if (word ~ /^(tells|within|never|times)$/) text = indices(text, ask_at[k])
        if (refused) return
        print "ask", ask_at[k], text
    }
    print "run"
}
{
    if (refused) exit 1
    text = $0
    sub(/\r$/, "", text)
    if (text ~ /[\001-\010\013-\037\177]/) { wrong(NR, "a byte that is not allowed"); exit 1 }
    sub(/^[ \t]+/, "", text)
    sub(/[ \t]+$/, "", text)
    if (text == "" || text ~ /^#/) next
    word = text
    sub(/[ \t].*/, "", word)
    if (!(word in form)) { wrong(NR, "no line of a case begins with " word); exit 1 }
    # a text and a path keep their blanks
    if (word !~ /^(app|script|out|same|like|sweep|unharmed)$/ && !(word ~ /^(at|from)$/ && text ~ /"/)) gsub(/[ \t]+/, " ", text)
    rest = substr(text, length(word) + 1)
    sub(/^[ \t]+/, "", rest)
    if (word == "out") sub(/[ \t]+/, " ", rest)
    if (!is_right(word, rest)) { malformed(word); exit 1 }
    if (word == "case") begin_case(rest)
    else if (word == "app") { app = rest; app_at = NR }
    else if (word == "script") { script = rest; script_at = NR; owns = 0 }
    else if (word == "steps") steps = rest
    else if (word == "feed" || word == "repeat") {
        if (!(word == "feed" ? feed(rest) : repeat(rest))) malformed(word)
    } else if (word ~ /^(every|at|from|after)$/) script_line(text)
    else { ask[++asks] = word " " rest; ask_at[asks] = NR }
    if (refused) exit 1
}
END {
    if (refused) exit 1
    if (!cases) refuse(file " has no case")
    else write_case()
    if (refused) exit 1
}
