#!/usr/bin/env bash
# An image compiled by gcc, crc32 or bytecode, that begins its work anew where it ended in `b .`: its last instruction becomes a branch to its second one, and its
# start and its end no longer take stack, of which each round would take more.
# usage: bench/endless.sh NAME > IMAGE
set -eu
cd "$(dirname "$0")"
code=56
made=$(mktemp)
trap 'rm "$made"' EXIT
patch() { printf "%b" "$1" | dd of="$made" bs=1 seek="$2" conv=notrunc status=none; }
cp "../crates/stored_runs/data/$1.img" "$made"
patch '\0000\0277' $((code + 6))
patch '\0000\0277' $((code + 96))
patch '\0314\0347' $((code + 102))
cat "$made"
