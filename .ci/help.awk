# Makes crates/help_text/src/texts.rt, what `help` says, of the tables of docs/FORMATS.md: the commands, what each takes and
# writes, the statuses, and the causes of each kind of file. The gate compares the two.
# usage: awk -f .ci/help.awk docs/FORMATS.md > crates/help_text/src/texts.rt
function trimmed(text) { gsub(/^[ \t]+|[ \t]+$/, "", text); return text }
function rust(text) { gsub(/\\/, "\\\\", text); gsub(/"/, "\\\"", text); return text }
# a line of the text, cut at blanks where it is wider than 110, with what follows further in
function say(first, further, text,    line, room, at) {
    line = first text
    while (length(line) > 110) {
        for (at = 110; at > length(further) && substr(line, at, 1) != " "; at--) {}
        lines[++many] = substr(line, 1, at - 1)
        line = further substr(line, at + 1)
    }
    lines[++many] = line
}
function tell(constant, about,    k) {
    print "\n/// " about "\npub(crate) const " constant ": &[&str] = &["
    for (k = 1; k <= many; k++) print "    \"" rust(lines[k]) "\\n\","
    print "];"
    many = 0
}
/^## / { section = substr($0, 4); table = "" ; next }
!/^\|/ { table = ""; next }
/^\|---/ { next }
{
    cells = split($0, cell, /\|/)
    for (k = 1; k <= cells; k++) cell[k] = trimmed(cell[k])
    gsub(/`/, "", cell[2])
    if (table == "") { table = section ": " cell[2] " " cell[3]; next }
}
table == "Command line: command in short" {
    split(cell[2], word, " ")
    name[++commands] = word[1]
    words[commands] = cell[2]
    short[commands] = cell[3]
    does[commands] = cell[4]
}
table == "Command line: limit is" { limit[++limits] = sprintf("    %-35s  %s", cell[2], cell[3]) }
table == "Command line: command takes" { takes[cell[2]] = cell[3]; writes[cell[2]] = cell[4] }
table == "Command line: status when" { status[statuses] = cell[2]; when[statuses] = cell[3]; text[statuses++] = cell[4] }
table == "Commands: command with" { form[++forms] = cell[2]; with[forms] = cell[3] }
table == "Commands: command does" { session[++sessions] = cell[2]; acts[sessions] = cell[3]; answers[sessions] = cell[4] }
table == "Sweep: word is" { word_of[++words_of_outcome] = cell[2]; word_is[words_of_outcome] = cell[3] }
table == "Sweep: line of" { line_of[++lines_of_sweep] = cell[2]; line_is[lines_of_sweep] = cell[3] }
table ~ /: cause / { cause[section, ++causes[section]] = cell[2]; because[section, causes[section]] = cell[3] }
function tell_causes(constant, of, place, from,    k, words_of, number) {
    say("", "", "causes of " of ", the place is " place)
    say("    0   ", "        ", (of == "TRACE" ? "more than 16777216 bytes" : "more than 2097152 bytes") "; the place is that number")
    for (k = 1; k <= causes[from]; k++) {
        number = cause[from, k] + 0
        words_of = cause[from, k]
        sub(/^[0-9]+ ?/, "", words_of)
        say(sprintf("    %-4d", number), "        ", (words_of == "" ? "" : words_of ": ") because[from, k])
    }
    tell(constant, "The causes of " of ".")
}
# the causes of a line that is answered with its cause alone: those of a text that are a line's own, and further ones
function tell_line_causes(constant, of, own, further,    k) {
    say("", "", "causes of a line of " of ", which is answered by `refused <cause>`")
    for (k = 1; k <= own; k++) say(sprintf("    %-4d", cause["Commands", k]), "        ", because["Commands", k])
    for (k = 1; k <= causes[further]; k++) say(sprintf("    %-4d", cause[further, k]), "        ", because[further, k])
    tell(constant, "The causes of a line of " of " that is carried out as it comes.")
}
BEGIN { statuses = 0 }
END {
    print "//! What `help` says, made of the tables of docs/FORMATS.md by .ci/help.awk: not to be changed by"
    print "//! hand."
    for (k = 1; k <= commands; k++) say(sprintf("%-52s  ", words[k]), sprintf("%54s", ""), short[k])
    say("", "", "")
    say("", "", "hubris help COMMAND says what one of them takes and answers. docs/FORMATS.md has the formats, docs/GUIDE.md a first application.")
    tell("COMMANDS", "The commands.")
    for (k = 1; k <= commands; k++) {
        say("hubris ", "", words[k])
        say("    ", "    ", does[k])
        say("takes   ", "        ", takes[name[k]])
        say("writes  ", "        ", writes[name[k]])
        tell(toupper(name[k]), "The command `" name[k] "`.")
    }
    say("", "", "limits")
    for (k = 1; k <= limits; k++) say("", "", limit[k])
    tell("LIMITS", "The limits.")
    say("", "", "statuses")
    for (k = 0; k < statuses; k++)
        say("    " status[k] "   ", "        ", when[k] (text[k] ~ /^what/ ? "" : "; writes " text[k]))
    tell("STATUSES", "The statuses.")
    far = sprintf("%39s", "")
    say("", "", "commands, a line each")
    for (k = 1; k <= forms; k++) say(sprintf("    %-33s  ", form[k]), far, with[k])
    say("", "", "what each does, and its answer")
    for (k = 1; k <= sessions; k++) say(sprintf("    %-33s  ", session[k]), far, acts[k] (acts[k] == "" ? "" : "; ") "answers " answers[k])
    tell("SESSION", "The commands of a session, and what each answers.")
    say("", "", "lines")
    for (k = 1; k <= lines_of_sweep; k++) say(sprintf("    %-33s  ", line_of[k]), far, line_is[k])
    say("", "", "words of an outcome, in this order")
    for (k = 1; k <= words_of_outcome; k++) say(sprintf("    %-33s  ", word_of[k]), far, word_is[k])
    tell("OUTCOMES", "The lines of a sweep, and the words of an outcome.")
    tell_causes("IMAGE_CAUSES", "IMAGE", "a byte of it", "Image")
    tell_causes("SCRIPT_CAUSES", "SCRIPT", "a line of it, from 1 on", "Script")
    tell_causes("APPLICATION_CAUSES", "APP", "a key or an entry of it", "Application")
    tell_causes("SOURCE_CAUSES", "a source", "a line of it, from 1 on", "Assembler")
    tell_causes("TRACE_CAUSES", "TRACE", "a line of it, from 1 on", "Audit")
    tell_causes("STATE_CAUSES", "STATE", "a byte of it", "Saved state")
    tell_causes("COMMANDS_CAUSES", "COMMANDS", "a line of it, from 1 on", "Commands")
    tell_line_causes("LINE_CAUSES", "COMMANDS", 3, "Live")
    tell_causes("ARRIVAL_CAUSES", "ARRIVAL", "a line of it, from 1 on, or 0", "Sweep")
}
