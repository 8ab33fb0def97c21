# refusal, over what `hubris` wrote. The tables are those of docs/FORMATS.md. What a file is, is told by its beginning, its name and its
# lines.
BEGIN {
    split("no TOML, which a reader of TOML tells closer|unknown key|a key or table that has to be there|a value of another type|" \
        "a number out of its range|no name, or an empty source|the name was used before|no task has this name|" \
        "the task has no such notification|neither a region nor a device has this name|more than 512 tasks|no task|" \
        "more than 32 notifications|more than 6 entries in `uses` and `reads`|task 0 alone has priority 0|task 0 has to be started|" \
        "the stack is larger than `ram`, or no multiple of 8|an earlier interrupt has this line|" \
        "the size is no power of two, the base no multiple of it, or it lies outside 0x40000000 to 0x5fffffff|" \
        "it overlaps an earlier device|the board has no room, so many bytes are needed", app, "|")
    split("a byte that is not allowed|no name before the `:`|the label stands on an earlier line|unknown mnemonic|" \
        "number or kind of operands|a register that this instruction does not take|no number|neither a label nor a symbol|" \
        "out of range|no multiple, or at a wrong address|register list|more than 1,048,576 bytes|" \
        "the label is a register or a symbol of the builder|more than 255 bytes in a line|" \
        "the code is longer than the task's `flash`, in bytes", source, "|")
    split("a byte that is not allowed|no form of a line|no number or text, or one out of range|" \
        "a first turn below that of an earlier line, or an `every` behind|more than 65,536 events, or nine of one turn", script, "|")
    split("a byte that is not allowed|no command, not one of its numbers of words, or no kind|no number of this form, or one out of range|" \
        "more than 1,024 commands", commands, "|")
    split("too short|no image; a description is for `go` and `build`|a number out of its range|too long|task 0 alone has priority 0|" \
        "flags of a task|the stack is no multiple of 4|rights of a region|a region's size or base|a region outside of its area|" \
        "regions overlap|the entry lies in no code of the task|an interrupt's line|an interrupt's task|an interrupt without bits|" \
        "no name|a name twice", image, "|")
    split("too short|no saved state|a number out of its range, or of another image or other devices|too long|a task's record|" \
        "what a task waits for does not agree with the rest|a device's record|it is of a later turn", state, "|")
}
# what kind of file it is, and of a text its line
function look(file, wanted,    text, k) {
    kind = line = ""
    for (k = 1; (getline text < file) > 0 && (k <= wanted || kind == ""); k++) {
        if (k == 1 && text ~ /^HB[IS]/) { kind = text ~ /^HBS/ ? "state" : "image"; break }
        if (kind == "" && text ~ /^[ \t]*(at|every|from)[ \t]/) kind = "script"
        if (kind == "" && text ~ /^[ \t]*(break|clear|step|back|go|regs|mem)[ \t]/) kind = "commands"
        if (k == wanted) line = text
    }
    close(file)
    if (file ~ /\.s$/) kind = "source"
    sub(/\r$/, "", line)
}
function say(what, cause) { return what == "" ? "cause " cause : what }
/^refused / && NF >= 4 {
    found = 1
    file = $0
    sub(/^refused /, "", file)
    sub(/ [^ ]* [^ ]*$/, "", file)
    cause = $(NF - 1)
    place = $NF
    if (cause == 0) { print file ": longer than " place " bytes"; next }
    if (place !~ /^[0-9]+$/) { print file ": " (place == "-" ? "" : place ": ") say(app[cause], cause); next }
    look(file, place)
    if (kind == "image") print file ": byte " place ": " say(image[cause], cause)
    else if (kind == "state") print file ": byte " place ": " say(state[cause], cause)
    else if (kind == "source" && cause == 15) print file ": " source[cause] ": " place
    else if (kind == "") print file ":" place ": cause " cause "\n" line
    else {
        what = kind == "source" ? source[cause] : kind == "script" ? script[cause] : commands[cause]
        print file ":" place ": " say(what, cause) "\n" line
    }
    next
}
{ print }
END { exit found }
