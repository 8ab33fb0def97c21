#!/usr/bin/env bash
# Makes the images of this folder from their sources: `arm-none-eabi-gcc` for Cortex-M0, without a library. The images are
# kept beside the sources, so that the bench needs no such compiler.
set -eu
cd "$(dirname "$0")"
mkdir -p ../out
for name in sha256 quicksort softfloat; do
    elf=../out/$name.elf code=../out/$name.bin
    arm-none-eabi-gcc -mcpu=cortex-m0 -mthumb -O2 -ffreestanding -fno-tree-loop-distribute-patterns -Wall -nostdlib \
        -Wl,-T,program.ld -Wl,-e,start -Wl,--build-id=none -o "$elf" start.c "$name.c"
    arm-none-eabi-objcopy -O binary -j .text "$elf" "$code"
    size=256
    while [ "$size" -lt "$(stat -c %s "$code")" ]; do size=$((size * 2)); done
    truncate -s "$size" "$code"
    # a word, the lowest byte first
    word() { printf "$(printf '\\x%02x\\x%02x\\x%02x\\x%02x' $(($1 & 255)) $(($1 >> 8 & 255)) $(($1 >> 16 & 255)) $(($1 >> 24 & 255)))"; }
    {
        printf 'HBI1\x01\x00\x02\x00' # one task, no line, two regions (docs/FORMATS.md, Image)
        word "$size"; word 4096; word 1
        printf '\x00\x01\x02\x00'; word 0x08000001; word 0x20000200
        word 0x08000000; word "$size"; word 5
        word 0x20000000; word 4096; word 3
        cat "$code"
    } > "$name.img"
done
