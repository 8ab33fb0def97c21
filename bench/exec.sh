#!/bin/bash
# How many millions of instructions a second `decode` and `exec` reach together, over a loop of ten
# mixed instructions (crates/exec_bench), and the ratio to the time of the same loop in plain C
# (bench/exec.c). Both are seconds of the processor, so that other work on the machine counts little.
# usage: bench/exec.sh [STEPS]
set -eu
cd "$(dirname "$0")/.."
steps=${1:-100000000}
out=bench/out
mkdir -p $out
(cd crates/exec_bench && rt run -- 10) >$out/build.log 2>&1 || { cat $out/build.log; exit 1; }
${CC:-cc} -O2 -o $out/exec_c bench/exec.c
TIMEFORMAT=%U
ours=$({ time crates/exec_bench/out/exec_bench "$steps" >$out/ours.txt; } 2>&1)
plain=$({ time $out/exec_c "$steps" >$out/plain.txt 2>/dev/null; } 2>&1)
cmp $out/ours.txt $out/plain.txt
cat $out/ours.txt
awk -v n="$steps" -v ours="$ours" -v plain="$plain" 'BEGIN {
    printf "%.1f million instructions a second, %.1f times the time of plain C\n", n / ours / 1e6, ours / plain
}'
