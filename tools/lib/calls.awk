# calls, over a trace, behind app.awk.
function low(digits) { return number(substr(digits, 5)) }
function seen(call) { if (!(call in known)) { known[call] = 1; order[++calls] = call } }
$1 == "end" { exit }
$2 == "call" && $4 == 0 { operation[$3] = low($5) }
$2 == "offer" { seen($3); client[$3] = $4; server[$3] = $5; offered[$3] = $1; asked[$3] = operation[$4] }
$2 == "take" { seen($3); taken[$3] = $1 }
$2 == "borrow" {
    seen($3)
    times[$3]++
    moved[$3, $4] += $7
    if (!(($3, $5) in lent)) { lent[$3, $5] = 1; leases[$3] = leases[$3] ($3 in leases && leases[$3] != "" ? "," : "") $5 }
}
$2 == "close" { seen($3); closed[$3] = $1; how[$3] = $4; if ($3 in client) closing[client[$3]] = $3 }
# the client goes on with the code, unless it has faulted or was born again
$2 == "ret" && ($3 in closing) { code[closing[$3]] = $4 }
$2 == "ret" || $2 == "fault" || $2 == "restart" { delete closing[$3] }
function or_dash(has, text) { return has ? text : "-" }
END {
    if (refused) exit 1
    print "call client server operation offered taken closed how code borrows read written leases"
    for (k = 1; k <= calls; k++) {
        n = order[k]
        print n, or_dash(n in client, task(client[n])), or_dash(n in server, task(server[n])), or_dash(n in client, asked[n]),
            or_dash(n in offered, offered[n]), or_dash(n in taken, taken[n]), or_dash(n in closed, closed[n]), or_dash(n in how, how[n]),
            or_dash(n in code, code[n]), times[n] + 0, moved[n, "read"] + 0, moved[n, "write"] + 0, or_dash(leases[n] != "", leases[n])
    }
}
