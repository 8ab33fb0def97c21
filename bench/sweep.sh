#!/usr/bin/env bash
# What a sweep costs: an arrival time whose run has no turn left (the script laid, the state saved and loaded), of a board of two tasks
# and of one of 512 tasks and 256 KiB of RAM; and the turns of a hundred arrival times of crc32, as gcc compiled it, against those of a
# `run` that tells nothing, where none may meet another one; and what it saves that a run ends where it meets an earlier one: 200 arrival
# times of a byte in examples/uart.
# It ends with status 1 where a bar is missed.
# It needs gcc and the built program (crates/hubris/out/hubris, made by `rt ci` or `rt run`).
# usage: bench/sweep.sh [PROGRAM]
set -eu
export LC_ALL=C
program=${1:+$(realpath "$1")}
cd "$(dirname "$0")"
program=${program:-$(realpath -m ../crates/hubris/out/hubris)}
[ -x "$program" ] || { echo "build the program first: (cd crates/hubris && rt run)"; exit 1; }
mkdir -p out
gcc -O2 -Wall -o out/measure measure.c
: > out/empty.txt
echo "at 0 tick" > out/arrival.txt
missed=0
# a line with its figures, and whether its bar is kept
bar() { awk "$@" || missed=1; }
seconds() { out/measure "$program" "$@"; }
build() { (cd .. && "$program" build "$1" "bench/out/$2.img") > out/built.txt || { cat out/built.txt; exit 1; }; }
build examples/lost-byte/app.toml small
awk -v tasks=512 -f timers/application.awk | awk '/^ram = / { sub(/[0-9]+/, $3 > 512 ? 262144 : 512) } { print }' > out/states.toml
build bench/out/states.toml states
./endless.sh crc32 > out/crc32.img
# image, its name, arrival times, most microseconds of one
fork() {
    local none some
    read -r none _ < <(seconds sweep "out/$1.img" out/empty.txt out/arrival.txt 10 10 --steps 10)
    read -r some _ < <(seconds sweep "out/$1.img" out/empty.txt out/arrival.txt 10 $((10 + $3)) --steps 10)
    bar -v what="$2" -v none="$none" -v some="$some" -v n="$3" -v most="$4" 'BEGIN {
        each = (some - none) / n * 1e6
        printf "%s: an arrival time without a turn takes %.2f microseconds, below %d\n", what, each, most
        exit each >= most
    }'
}
fork small "two tasks and 1 KiB" 100000 10
fork states "512 tasks and 256 KiB" 300 3000
times=100 turns=1000000
# an arrival that is not over before the bound
printf "at 0 tick\nat %d tick\n" $turns > out/long.txt
read -r run _ < <(seconds run out/crc32.img out/empty.txt --steps $((times * turns)))
read -r sweep _ < <(seconds sweep out/crc32.img out/empty.txt out/long.txt 0 $times --steps $turns)
bar -v n=$((times * turns)) -v run="$run" -v sweep="$sweep" 'BEGIN {
    printf "crc32: %.1f million turns/s, %.2f times as long as a run that tells nothing, at most 1.3\n", n / sweep / 1e6, sweep / run
    exit sweep / run > 1.3
}'
# A run of the same time without an arrival, which no run meets, times the arrival times: what forks alone would cost.
build examples/uart/app.toml uart
echo "at 0 in 1 88" > out/byte.txt
times=200 from=1000 turns=3000000
read -r whole _ < <(seconds run out/uart.img ../examples/uart/script.txt --steps $turns)
read -r sweep _ < <(seconds sweep out/uart.img ../examples/uart/script.txt out/byte.txt $from $((from + times)) --steps $turns)
bar -v n=$times -v whole="$whole" -v sweep="$sweep" 'BEGIN {
    printf "uart, a byte: %d arrival times take as long as %.1f runs, at most 10\n", n, sweep / whole
    exit sweep / whole > 10
}'
exit $missed
