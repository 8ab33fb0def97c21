#!/usr/bin/env bash
# What a state costs: the time and the peak memory of `save` and of `resume` beside those of a `run` of as many turns, with 512 tasks and
# 256 KiB of RAM and no turn made, against the bars of 2 ms each and of twice the state; and `save` of 10^8 turns of an image that gcc
# compiled, against the time of a `run` that tells nothing.
# It needs gcc and the built program (crates/hubris/out/hubris, made by `rt ci` or `rt run`).
# usage: bench/save.sh [PROGRAM]
set -eu
export LC_ALL=C
program=${1:+$(realpath "$1")}
cd "$(dirname "$0")"
program=${program:-$(realpath -m ../crates/hubris/out/hubris)}
[ -x "$program" ] || { echo "build the program first: (cd crates/hubris && rt run)"; exit 1; }
mkdir -p out
gcc -O2 -Wall -o out/measure measure.c
: > out/empty.txt
awk -v tasks=512 -f timers/application.awk | awk '/^ram = / { sub(/[0-9]+/, $3 > 512 ? 262144 : 512) } { print }' > out/states.toml
(cd .. && "$program" build bench/out/states.toml bench/out/states.img) > out/built.txt || { cat out/built.txt; exit 1; }
measure() { for _ in 1 2 3 4 5; do out/measure "$@"; done | sort -n | head -n 1; }
: > out/state
read -r run run_peak < <(measure "$program" run out/states.img out/empty.txt --steps 0)
read -r save save_peak < <(measure "$program" save out/states.img out/empty.txt out/state --steps 0)
read -r resume resume_peak < <(measure "$program" resume out/states.img out/empty.txt out/state --steps 0)
size=$(wc -c < out/state)
awk -v size="$size" -v run="$run" -v save="$save" -v resume="$resume" -v a="$run_peak" -v b="$save_peak" -v c="$resume_peak" 'BEGIN {
    printf "a state of %d bytes: save %.2f ms, resume %.2f ms more than a run of no turn; peak %d and %d KiB more\n", size, (save - run) * 1000, (resume - run) * 1000, b - a, c - a
    print "bar, below 2 ms and twice the state: " (save - run < 0.002 && resume - run < 0.002 && b - a < size / 512 && c - a < size / 512 ? "kept" : "missed")
}'
cp programs/sha256.img out/states.img
read -r run _ < <(measure "$program" run out/states.img out/empty.txt --steps 100000000)
read -r save _ < <(measure "$program" save out/states.img out/empty.txt out/state --steps 100000000)
awk -v run="$run" -v save="$save" 'BEGIN { printf "10^8 turns of sha256: save %.3f s, run %.3f s\n", save, run }'
