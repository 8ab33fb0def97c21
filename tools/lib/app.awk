# Reads the description APP of an application (docs/FORMATS.md, Application), as those of examples/ are written: a key a line, and each
# task under its own [[task]]. Of task t it knows name[t], source[t], flash_size[t], ram_size[t], stack[t], stopped[t]; of the k-th
# shared region region_size[k].
BEGIN { if (ENVIRON["APP"] != "") read_app(ENVIRON["APP"]) }
function read_app(file,    line, got, table, key, value, t) {
    tasks = regions = 0
    while ((got = (getline line < file)) > 0) {
        sub(/\r$/, "", line)
        if (line ~ /^[ \t]*\[/) {
            table = line
            sub(/#.*/, "", table)
            gsub(/[ \t]/, "", table)
            if (table == "[[task]]") tasks++
            if (table == "[[region]]") regions++
        } else if (line ~ /^[ \t]*[A-Za-z_]+[ \t]*=/) {
            key = value = line
            sub(/[ \t]*=.*/, "", key)
            sub(/^[ \t]*/, "", key)
            sub(/^[^=]*=[ \t]*/, "", value)
            if (table == "[[task]]") task_key(tasks - 1, key, value)
            else if (table == "[[region]]" && key == "size") region_size[regions - 1] = integer(value)
        }
    }
    close(file)
    if (got < 0) refuse("cannot read " file)
    if (tasks == 0) refuse(file " is no description: no line is [[task]]")
    for (t = 0; t < tasks; t++) if (!(t in name)) refuse(file ": task[" t "].name is not on a line of its own")
}
function task_key(t, key, value) {
    if (key == "name") name[t] = string_of(value)
    else if (key == "source") source[t] = string_of(value)
    else if (key == "flash") flash_size[t] = integer(value)
    else if (key == "ram") ram_size[t] = integer(value)
    else if (key == "stack") stack[t] = integer(value)
    else if (key == "start") stopped[t] = value ~ /^false/
}
function string_of(value,    end) {
    end = index(substr(value, 2), substr(value, 1, 1))
    return end ? substr(value, 2, end - 1) : ""
}
function integer(value) {
    sub(/#.*/, "", value)
    gsub(/[ \t_+]/, "", value)
    if (value ~ /^0x/) return number(substr(value, 3))
    if (value ~ /^0o/) return in_base(substr(value, 3), 8)
    if (value ~ /^0b/) return in_base(substr(value, 3), 2)
    return value + 0
}
function task(t) { return (t in name) ? name[t] : "task " t }
