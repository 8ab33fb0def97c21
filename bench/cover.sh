#!/usr/bin/env bash
# What `cover` and `picture` of a million turns of crc32 cost, as gcc compiled it, beside `run --all` of as many, whose lines the first
# counts. It ends with status 1 where `cover` takes half a second or more, or `picture` a second.
# It needs gcc and the built program (crates/hubris/out/hubris, made by `rt ci` or `rt run`).
# usage: bench/cover.sh [PROGRAM]
set -eu
export LC_ALL=C
program=${1:+$(realpath "$1")}
cd "$(dirname "$0")"
program=${program:-$(realpath -m ../crates/hubris/out/hubris)}
[ -x "$program" ] || { echo "build the program first: (cd crates/hubris && rt run)"; exit 1; }
mkdir -p out
gcc -O2 -Wall -o out/measure measure.c
: > out/empty.txt
./endless.sh crc32 > out/crc32.img
seconds() { out/measure "$program" "$@"; }
read -r cover peak < <(seconds cover out/crc32.img out/empty.txt --steps 1000000)
read -r picture drawn < <(seconds picture out/crc32.img out/empty.txt out/crc32.svg --steps 1000000)
read -r all _ < <(seconds run out/crc32.img out/empty.txt --steps 1000000 --all)
awk -v cover="$cover" -v all="$all" -v peak="$peak" -v picture="$picture" -v drawn="$drawn" 'BEGIN {
    printf "cover of 1000000 turns: %.3f s, below 0.5, peak %d KiB; --all of them %.3f s\n", cover, peak, all
    printf "picture of as many: %.3f s, below 1, peak %d KiB\n", picture, drawn
    exit cover >= 0.5 || picture >= 1
}'
