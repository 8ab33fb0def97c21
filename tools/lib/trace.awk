# Whether a text is a trace, by the first words of its lines, and one of the application at hand.
BEGIN { turns = " tick irq in out post call ret close listen offer take borrow fault restart irqstat find insn low high idle " }
{
    if ($1 ~ /^[0-9]+$/ && NF > 1 && index(turns, " " $2 " ")) { if ($2 == "insn") insn = 1 }
    else if ($1 == "high") high = 1
    else if ($1 == "task") told_of = $2 + 1
    else if ($1 !~ /^(end|low|mem)$/ && !(NF == 2 && length($0) == 41 && $0 ~ /^[0-9a-f]+ [0-9a-f]+$/))
        refuse(ENVIRON["FILE"] ": line " NR " is no line of a trace")
}
END {
    if (refused) exit 1
    if (NR == 0) refuse(ENVIRON["FILE"] " is no trace: it is empty")
    if (tasks && told_of && tasks != told_of) refuse(ENVIRON["FILE"] " has " told_of " tasks, and " ENVIRON["APP"] " " tasks)
    if (ENVIRON["NEEDS"] == "insn" && !insn) refuse(ENVIRON["FILE"] " has no instructions: it is to be of a run with --all")
    if (ENVIRON["NEEDS"] == "high" && !insn && !high) refuse(ENVIRON["FILE"] " has neither instructions nor registers")
}
