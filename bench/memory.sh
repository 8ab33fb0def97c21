#!/usr/bin/env bash
# What the built program answers where memory ends: each allocation of each command is refused in turn
# (refuse.c). Each answer is status 5 with no byte written and no file put, or status 4 with the same where the put was short
# of memory, or the whole text with the status of the run in which none is refused. It ends with status 1 where one is none.
# It needs gcc and the built program (crates/hubris/out/hubris, made by `rt ci` or `rt run`).
# usage: bench/memory.sh [PROGRAM]
set -eu
export LC_ALL=C
program=${1:+$(realpath "$1")}
cd "$(dirname "$0")/.."
program=${program:-$(realpath crates/hubris/out/hubris)}
[ -x "$program" ] || { echo "build the program first: (cd crates/hubris && rt run)"; exit 1; }
out=bench/out/memory
mkdir -p $out
gcc -O2 -Wall -shared -fPIC -o $out/refuse.so bench/refuse.c
"$program" save crates/hubris/data/a.img crates/hubris/data/e.txt $out/state --steps 2 >$out/text
"$program" build examples/restart/app.toml $out/restart.img >$out/text
printf '%s\n' 'break 08000002' 'go 3' 'back 1' 'regs 0' 'mem 08000000 4' 'notes' 'back 9 change 20000000' > $out/commands
bad=0
while read -r words; do
    rm -f $out/app.img
    status=0
    # shellcheck disable=SC2086
    "$program" $words >$out/text || status=$?
    rm -f $out/app.img
    # shellcheck disable=SC2086
    LD_PRELOAD=$PWD/$out/refuse.so REFUSE_TO=$out/answers REFUSE_TEXT=$out/text REFUSE_OUT=$out/app.img "$program" $words >$out/again || true
    cmp $out/text $out/again || bad=1
    awk -v words="$words" -v status=$status '
        $2 == 5 && $3 == 0 && $5 == "none" && $6 == "kept" { refused++; next }
        $2 == 4 && $3 == 0 && $5 == "none" && $6 == "kept" && words ~ /^(build|migrate|save|picture|lcov)/ { unput++; next }
        $2 == status && $5 == "same" && ($6 == "put") == (words ~ /^(build|migrate|save|picture|lcov)/) { whole++; next }
        { print "  allocation " $1 ": status " $2 ", " $3 " bytes before and " $4 " behind (" $5 "), file " $6; wrong++ }
        END {
            printf "%s: %d allocations, %d with status 5 and nothing told, %d with a failed put, %d with the whole text, %d otherwise\n", words, NR, refused, unput, whole, wrong
            exit wrong > 0 || NR == 0
        }' $out/answers || bad=1
done <<WORDS
go examples/client-server/app.toml examples/client-server/empty.txt --steps 1000
go examples/blinker/app.toml examples/blinker/script.txt --steps 600
go examples/one-task/app.toml examples/one-task/empty.txt --steps 3 --all --mem
build examples/blinker/app.toml $out/app.img
list crates/hubris/data/a.img
run crates/hubris/data/a.img crates/hubris/data/e.txt --steps 3
sample 1 64
migrate crates/hubris/data/a.img $out/app.img
audit examples/client-server/expected-mem.txt
save crates/hubris/data/a.img crates/hubris/data/e.txt $out/app.img --steps 3
resume crates/hubris/data/a.img crates/hubris/data/e.txt $out/state --steps 3
debug crates/hubris/data/a.img crates/hubris/data/e.txt $out/commands
live crates/hubris/data/a.img crates/hubris/data/e.txt $out/commands
cover crates/hubris/data/a.img crates/hubris/data/e.txt --steps 3
cover examples/restart/app.toml examples/restart/empty.txt --steps 300 --labels
sweep crates/hubris/data/a.img crates/hubris/data/e.txt examples/lost-byte/arrival.txt 0 5 --steps 9 --mem
timeline crates/hubris/data/a.img crates/hubris/data/e.txt --steps 3
picture $out/restart.img examples/restart/empty.txt $out/app.img --steps 300 --names examples/restart/app.toml
lcov examples/restart/app.toml examples/restart/empty.txt $out/app.img --steps 300
help
help run
WORDS
rm -rf $out
[ $bad = 0 ]
