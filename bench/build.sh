#!/usr/bin/env bash
# How long `hubris build` takes over 32 tasks with a source of 1,000 lines each (application.awk writes them to out/), and how
# much memory it has at its peak, against the bar: below 1 second and below 64 MiB. The seconds are those of the processor, so
# that other work on the machine counts little, the best of four; the wall time is the best of three.
# It needs gcc and the built program (crates/hubris/out/hubris, made by `rt ci` or `rt run`).
# usage: bench/build.sh [PROGRAM]
set -eu
export LC_ALL=C
program=${1:+$(realpath "$1")}
cd "$(dirname "$0")"
program=${program:-../crates/hubris/out/hubris}
[ -x "$program" ] || { echo "build the program first: (cd crates/hubris && rt run)"; exit 1; }
mkdir -p out
gcc -O2 -Wall -o out/measure measure.c
awk -v dir=out -f application.awk
command=("$program" build out/app.toml out/app.img)
rm -f out/app.img
said=$("${command[@]}") || { echo "not built: $said"; exit 1; }
[ "$said" = "built $(wc -c <out/app.img) bytes" ] || { echo "said $said, which is not so"; exit 1; }
TIMEFORMAT='%U %S'
took=$(for _ in 1 2 3 4; do { time "${command[@]}" >out/build.txt; } 2>&1; done | awk '{ print $1 + $2 }' | sort -n | head -n 1)
read -r wall peak < <(out/measure "${command[@]}")
lines=$(cat out/t*.s | wc -l)
awk -v said="$said" -v n="$lines" -v took="$took" -v wall="$wall" -v peak="$peak" 'BEGIN {
    printf "%d lines in 32 sources, %s: %.3f s of the processor, %.3f s of wall time, peak %d KiB\n", n, said, took, wall, peak
    print "bar, below 1 s and 64 MiB: " (took < 1 && peak < 65536 ? "kept" : "missed")
}'
