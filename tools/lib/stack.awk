# stack, over a trace with `--all`, behind places.awk. A stack is at the bottom of its task's RAM and grows downwards.
BEGIN { turn = -1; for (t = 0; t < tasks; t++) least[t] = ram[t] + stack[t] }
$1 == "end" { exit }
$2 == "insn" { runs = $3; turn = $1 }
# a turn without `insn`, whose code may not be executed, is one of the task that faults in it
$2 == "fault" {
    if (turn != $1) { runs = $3; turn = $1 }
    if ($4 == 3 && number($5) < ram[$3] && number($5) >= ram[$3] - 256) over_at[$3] = $1
}
$2 == "high" && turn == $1 {
    sp = number($8)
    if (sp < least[runs]) { least[runs] = sp; least_at[runs] = $1 }
}
END {
    if (refused) exit 1
    print "task stack used left turn"
    for (t = 0; t < tasks; t++)
        print name[t], stack[t], ram[t] + stack[t] - least[t], least[t] - ram[t], \
            (t in least_at ? least_at[t] : "-") (t in over_at ? " overflow in turn " over_at[t] : "")
}
