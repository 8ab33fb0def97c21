# profile, over what `cover` wrote, behind places.awk and cover.awk.
$1 ~ /^[0-9]+$/ && length($2) == 8 { turns[function_of(number($2))] += $1; all += $1 }
# the label before an address, or at it
function function_of(pc,    t, k) {
    for (t = 0; t < tasks && (pc < flash[t] || pc >= flash[t] + flash_size[t]); t++) {}
    if (t == tasks) return "-"
    for (k = pc - flash[t]; k > 0 && !((t, k) in label); k--) {}
    return name[t] "." ((t, k) in label ? label[t, k] : "-")
}
END {
    if (refused) exit 1
    for (f in turns) if (turns[f] > 0) printf "%.0f %.1f%% %s\n", turns[f], 100 * turns[f] / all, f
}
