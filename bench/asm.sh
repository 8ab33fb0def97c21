#!/usr/bin/env bash
# How many lines a second `hubris build` takes of one source of 1,000, 10,000 and 100,000 lines: a label, a branch to an
# earlier label and a load of a constant in every ten lines.
# It needs gcc and the built program (crates/hubris/out/hubris, made by `rt ci` or `rt run`).
# usage: bench/asm.sh [PROGRAM]
set -eu
export LC_ALL=C
program=${1:+$(realpath "$1")}
cd "$(dirname "$0")"
program=${program:-../crates/hubris/out/hubris}
[ -x "$program" ] || { echo "build the program first: (cd crates/hubris && rt run)"; exit 1; }
mkdir -p out
gcc -O2 -Wall -o out/measure measure.c
cat >out/one.toml <<'TOML'
[board]
flash = 1048576
ram = 16384
[supervisor]
fault = "fault"
[[task]]
name = "one"
source = "out/source.s"
priority = 0
flash = 262144
ram = 256
stack = 64
notifications = ["fault"]
TOML
for lines in 1000 10000 100000; do
    python3 - "$lines" >out/source.s <<'PY'
import sys
for k in range(int(sys.argv[1]) // 10):
    print(f"l{k}: movs r0, #{k % 256}\n adds r1, r0, #3\n lsls r2, r1, #{k % 31 + 1}\n cmp r2, r0\n bne l{max(0, k - 1)}")
    print(f" ldr r3, [sp, #{k % 200 * 4}] ; a comment\n push {{r4-r7, lr}}\n pop {{r4-r7, pc}}\n str r3, [r0, #4]\n mov r8, r3")
PY
    "$program" build out/one.toml out/one.img
    read -r took peak < <(out/measure "$program" build out/one.toml out/one.img)
    awk -v n="$lines" -v t="$took" -v peak="$peak" 'BEGIN { printf "%7d lines  %8.4f s  %10.0f lines/s  peak %d KiB\n", n, t, n / t, peak }'
done
