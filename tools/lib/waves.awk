# waves, over a trace, behind app.awk. A task that the supervisor has born again without a start is shown as one that may run, since
# a trace does not tell it.
NR == 1 { head() }
function head(    t) {
    print "$timescale 1 us $end\n$scope module board $end"
    for (t = 0; t < tasks; t++) print "$var wire 1 t" t " " name[t] " $end"
    for (t = 0; t < 8; t++) print "$var wire 8 i" t " in" t " $end\n$var wire 8 o" t " out" t " $end"
    print "$var integer 32 q irq $end\n$var integer 32 n now $end\n$upscope $end\n$enddefinitions $end\n#0"
    for (t = 0; t < tasks; t++) print (stopped[t] ? "z" : "1") "t" t
}
function at(turn) { if (turn != last + 0) { print "#" turn; last = turn } }
function state(turn, t, value) { at(turn); print value "t" t }
function binary(n, width,    text) { text = ""; while (width-- > 0) { text = n % 2 text; n = int(n / 2) } return text }
$1 == "end" { at($3); exit }
$2 == "listen" { state($1, $3, 0) }
$2 == "offer" { state($1, $4, 0) }
$2 == "ret" || $2 == "restart" { state($1, $3, 1) }
$2 == "fault" { state($1, $3, "x") }
$2 == "in" || $2 == "out" { at($1); print "b" binary(number($4), 8) " " substr($2, 1, 1) $3 }
$2 == "irq" { at($1); print "b" binary($3, 32) " q" }
$2 == "tick" { at($1); print "b" binary($3, 32) " n" }
