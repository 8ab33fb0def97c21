# labels, behind places.awk.
END {
    if (refused) exit 1
    for (t = 0; t < tasks; t++) {
        for (k = 1; k <= labels[t]; k++) print hexadecimal(flash[t] + label_at[t, k]), name[t] "." label_name[t, k]
        for (k = 1; k <= variables[t]; k++) print hexadecimal(ram[t] + stack[t] + offset[t, k]), name[t] "." variable[t, k]
    }
}
