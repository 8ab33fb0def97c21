#!/usr/bin/env bash
# What a debugger costs, on crc32 as gcc compiled it, which begins its work anew at its end: `go` of 10^8 turns with sixteen breakpoints that are never reached, in
# the region of its loop, before and behind it, against a `run` that tells nothing, in turns per second and, where valgrind is there, in the host's
# instructions a turn; `back 1` behind a `step` of 10^8 turns, once and a thousand times; searches: for a fault that does not come, for who changed a byte
# last, and the notes of a turn; `go` over 10^9 turns in which nothing happens; and the peak of memory
# against 64 states, also of 512 tasks and 256 KiB of RAM.
# It ends with status 1 where a bar is missed.
# It needs gcc and the built program (crates/hubris/out/hubris, made by `rt ci` or `rt run`).
# usage: bench/debug.sh [PROGRAM]
set -eu
export LC_ALL=C
program=${1:+$(realpath "$1")}
cd "$(dirname "$0")"
program=${program:-$(realpath -m ../crates/hubris/out/hubris)}
[ -x "$program" ] || { echo "build the program first: (cd crates/hubris && rt run)"; exit 1; }
mkdir -p out
gcc -O2 -Wall -o out/measure measure.c
: > out/empty.txt
./endless.sh crc32 > out/crc32.img
missed=0
# a line with its figures, and whether its bar is kept
bar() { awk "$@" || missed=1; }
# seconds and peak KiB of a session, whose commands are the lines handed over
session() {
    local image=$1 script=$2
    cat > out/commands.txt
    out/measure "$program" debug "$image" "$script" out/commands.txt
}
turns=100000000
# the first instruction is never reached again, and behind the code there are tables and zeros
breakpoints() {
    printf 'step 1\nbreak 08000000\nbreak 08000001\n'
    for k in $(seq 0 13); do printf 'break %08x\n' $((0x08000180 + 8 * k)); done
}
{ breakpoints; echo "go $turns"; } > out/past.txt
said=$("$program" debug out/crc32.img out/empty.txt out/past.txt | tail -n 1)
[ "$said" = "at $((turns + 1)) 0 -" ] || { echo "a breakpoint is reached: $said"; exit 1; }
read -r run _ < <(out/measure "$program" run out/crc32.img out/empty.txt --steps "$turns")
read -r go _ < <(session out/crc32.img out/empty.txt < out/past.txt)
bar -v n="$turns" -v run="$run" -v go="$go" 'BEGIN {
    printf "past sixteen breakpoints: %.1f million turns/s, %.2f of a run that tells nothing, at least 0.7\n", n / go / 1e6, run / go
    exit run / go < 0.7
}'
read -r step peak < <(echo "step $turns" | session out/crc32.img out/empty.txt)
read -r once _ < <(printf '%s\n' "step $turns" "back 1" | session out/crc32.img out/empty.txt)
read -r often _ < <({ echo "step $turns"; for _ in $(seq 1000); do echo "back 1"; done; } | session out/crc32.img out/empty.txt)
bar -v n="$turns" -v step="$step" -v once="$once" 'BEGIN {
    printf "step: %.1f million turns/s; back 1 behind it: %.4f s, %.3f of its time, below 0.1\n", n / step / 1e6, once - step, (once - step) / step
    exit once - step >= step / 10
}'
bar -v step="$step" -v often="$often" 'BEGIN { printf "back 1, a thousand times: %.3f s, below 1\n", often - step; exit often - step >= 1 }'
# searches: for a fault that does not come, for the last change of a byte that changed not long ago, and what was told of a turn
read -r search _ < <(echo "go $turns fault" | session out/crc32.img out/empty.txt)
bar -v n="$turns" -v run="$run" -v search="$search" 'BEGIN {
    printf "go to a fault that does not come: %.1f million turns/s, %.2f of a run that tells nothing, at least 0.9\n", n / search / 1e6, run / search
    exit run / search < 0.9
}'
windows() { for k in $(seq 0 63); do printf 'mem %08x 64\n' $((0x20000000 + 64 * k)); done; }
{ echo "step $((turns - 100000))"; windows; echo "step 100000"; windows; } > out/windows.txt
./endless.sh bytecode > out/bytecode.img
changed=$("$program" debug out/bytecode.img out/empty.txt out/windows.txt | awk '
    NF == 2 && $1 in before { for (k = 1; k <= 128; k += 2) if (found == "" && substr(before[$1], k, 2) != substr($2, k, 2)) { found = $1; at = (k - 1) / 2 } }
    NF == 2 { before[$1] = $2 }
    END { print found, at }')
byte=$(printf '%08x' $((0x${changed% *} + ${changed#* })))
{ echo "step $turns"; for _ in $(seq 20); do echo "back 1000000000 change $byte"; done; } > out/changes.txt
first=$("$program" debug out/bytecode.img out/empty.txt out/changes.txt | sed -n 2p)
read -r there _ < <(echo "step $turns" | session out/bytecode.img out/empty.txt)
read -r back _ < <(session out/bytecode.img out/empty.txt < <(cat out/changes.txt))
bar -v byte="$byte" -v ago=$((turns - ${first%% *})) -v step="$there" -v back="$back" 'BEGIN {
    printf "who changed %s, %d turns ago, and nineteen times before: %.4f s each, below 0.1\n", byte, ago, (back - step) / 20
    exit (back - step) / 20 >= 0.1
}'
# a byte of the stack's region that never changes, so that each turn is looked through
for image in crc32 bytecode; do
    printf '%s\n' "step $turns" "back 1000000000 change 20000100" > out/never.txt
    said=$("$program" debug out/$image.img out/empty.txt out/never.txt | tail -n 1)
    [ "$said" = "at 0 0 -" ] || { echo "a byte changed: $said"; exit 1; }
    read -r all _ < <(out/measure "$program" run out/$image.img out/empty.txt --steps "$turns")
    read -r there _ < <(echo "step $turns" | session out/$image.img out/empty.txt)
    read -r back _ < <(session out/$image.img out/empty.txt < <(cat out/never.txt))
    bar -v image="$image" -v run="$all" -v step="$there" -v back="$back" 'BEGIN {
        printf "back past no change of a byte of %s: %.1f of a run that tells nothing, at most 6\n", image, (back - step) / run
        exit back - step > 6 * run
    }'
done
read -r often _ < <({ echo "step $turns"; for _ in $(seq 1000); do echo "notes"; done; } | session out/crc32.img out/empty.txt)
bar -v step="$step" -v often="$often" 'BEGIN { printf "notes, a thousand times: %.3f s, below 1\n", often - step; exit often - step >= 1 }'
# the peak of a session, and how many bytes a state has
memory() {
    local what=$1 image=$2 peak=$3 size
    size=$("$program" save "$image" out/empty.txt out/state --steps 0 | awk '{ print $2 }')
    bar -v what="$what" -v peak="$peak" -v size="$size" 'BEGIN {
        most = 64 * size / 1024 + 8192
        printf "%s: a state of %d bytes, peak %d KiB, below %d\n", what, size, peak, most
        exit peak >= most
    }'
}
: > out/state
memory "crc32" out/crc32.img "$peak"
awk -v tasks=512 -f timers/application.awk | awk '/^ram = / { sub(/[0-9]+/, $3 > 512 ? 262144 : 512) } { print }' > out/states.toml
(cd .. && "$program" build bench/out/states.toml bench/out/states.img) > out/built.txt || { cat out/built.txt; exit 1; }
read -r _ peak < <(printf '%s\n' "step 10000000" "back 1" "back 5000000" | session out/states.img timers/script.txt)
memory "512 tasks" out/states.img "$peak"
echo "at 999999998 tick" > out/late.txt
{ breakpoints; echo "go 1000000000"; } > out/past.txt
read -r late _ < <(session sample/idle.img out/late.txt < out/past.txt)
awk -v a="$late" 'BEGIN { printf "go over idle time: 1000000000 turns in %.1f ms\n", a * 1000 }'
command -v valgrind > out/valgrind.txt || { echo "host instructions a turn: not counted, there is no valgrind"; exit $missed; }
host() { valgrind --tool=callgrind --callgrind-out-file=out/callgrind.txt "$program" "$@" 2>&1 > out/ours.txt | awk '/Collected/ { print $4 }'; }
few=200000 many=1200000
{ breakpoints; echo "go $few"; } > out/few.txt
{ breakpoints; echo "go $many"; } > out/many.txt
go=$(($(host debug out/crc32.img out/empty.txt out/many.txt) - $(host debug out/crc32.img out/empty.txt out/few.txt)))
run=$(($(host run out/crc32.img out/empty.txt --steps $many) - $(host run out/crc32.img out/empty.txt --steps $few)))
bar -v go="$go" -v run="$run" -v n=$((many - few)) 'BEGIN {
    printf "past sixteen breakpoints: %.1f host instructions a turn, a run that tells nothing %.1f, at least 0.7\n", go / n, run / n
    exit run / go < 0.7
}'
exit $missed
