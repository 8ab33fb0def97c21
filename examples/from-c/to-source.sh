#!/usr/bin/env bash
# Makes the source of a task from C: NAME.c, in which a function is called `task`, becomes NAME.s, which `build` and `go` take as it is.
# NAME.o and NAME.a are taken too. What stands behind it is linked with it: further C, objects and archives of the same task.
# It needs arm-none-eabi-gcc (any that compiles for Cortex-M0), its binutils, and awk. What it makes stands beside the C, so that
# nothing else needs them. Another gcc makes other instructions; the first line of NAME.s says which it was.
# usage: to-source.sh NAME.c [MORE ..]
set -eu
export LC_ALL=C
[ $# -ge 1 ] || { echo "usage: to-source.sh NAME.c [MORE ..]" >&2; exit 2; }
case $1 in *.c | *.o | *.a) ;; *) echo "to-source: $1 is no NAME.c, NAME.o or NAME.a" >&2; exit 1 ;; esac
command -v arm-none-eabi-gcc > /dev/null || { echo "to-source: there is no arm-none-eabi-gcc" >&2; exit 1; }
here=$(cd "$(dirname "$0")" && pwd)
made=$(mktemp -d)
trap 'rm -r "$made"' EXIT
# -q keeps which words hold an address (flags.txt); the names that the builder hands in stay open
arm-none-eabi-gcc @"$here/flags.txt" -ffile-prefix-map="$PWD=." -I "$here" -Wl,-T,"$here/task.ld" -Wl,--unresolved-symbols=ignore-all -o "$made/elf" \
    "$here/start.c" "$@" "$here/mem.c" -lgcc
arm-none-eabi-objcopy -O binary -j .text -j .data "$made/elf" "$made/code"
of="$(basename -a "$@" | tr '\n' ' ')by to-source.sh, gcc $(arm-none-eabi-gcc -dumpfullversion)"
{
    arm-none-eabi-objdump -h "$made/elf" | awk '$2 ~ /^\.(data|bss)$/ { print "section", $2, substr($7, 4) }'
    arm-none-eabi-nm -n "$made/elf" | awk '{ print "symbol", $0 }'
    arm-none-eabi-readelf -rW "$made/elf" | awk '/^Relocation section/ { on = /\.rel\.(text|data)/ } on && /^[0-9a-f]+ / { print "address", $0 }'
    arm-none-eabi-objdump -dl --inlines --no-show-raw-insn "$made/elf" | awk '{ print "code", $0 }'
    od -An -v -tx2 -w2 --endian=little "$made/code" | awk '{ print "half", $1 }'
} | awk -v of="$of" -f "$here/to-source.awk" > "$made/source"
cp "$made/source" "${1%.*}.s"
# what lines and variables the C has, for tools/gdb; the paths in it are from where this is called
cp "$made/elf" "${1%.*}.elf"
