# gdb, behind places.awk: the tasks, their labels, and the lines of sources in assembly that are instructions.
END {
    if (refused) exit 1
    for (t = 0; t < tasks; t++) {
        print "task", hexadecimal(flash[t]), hexadecimal(ram[t] + stack[t]), ends[t], name[t], source[t]
        for (k = 1; k <= labels[t]; k++) print "label", t, hexadecimal(flash[t] + label_at[t, k]), label_name[t, k]
        for (k = 1; k <= lines[t]; k++) if (takes_line[t, k]) print "line", t, hexadecimal(flash[t] + at_line[t, k]), k
    }
}
