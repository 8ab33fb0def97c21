#!/usr/bin/env bash
# Links both tasks again, at the places that the builder gave them, and compares all bytes with those of the image. It is run by hand: it
# needs what to-source.sh needs, and the built program.
# usage: same-bytes.sh
set -eu
cd "$(dirname "$0")/../.."
at=examples/from-c
program=${HUBRIS:-crates/hubris/out/hubris}
made=$(mktemp -d)
trap 'rm -r "$made"' EXIT
"$program" build $at/app.toml "$made/image" > "$made/built"
"$program" list "$made/image" > "$made/listing"
flash=$(grep -o '^{"flash":[0-9]*' "$made/listing" | grep -o '[0-9]*$')
tail -c "$flash" "$made/image" > "$made/flash"
for task in upper client; do
    start=$(tools/labels $at/app.toml | awk -v label="$task.start" '$2 == label { print $1 }')
    variables=$(grep -o '"sp":[0-9]*' "$made/listing" | sed -n "$([ $task = upper ] && echo 2 || echo 3)s/.*://p")
    sed -e "s/ \. = 0;/ . = 0x$start;/" -e "s/AT(/AT(0x$start + /" -e "s/0x20000000/$variables/" $at/task.ld > "$made/task.ld"
    arm-none-eabi-gcc @$at/flags.txt -I $at -Wl,-T,"$made/task.ld" -Wl,--defsym=task_upper=1,--defsym=region_out=0x40000000 \
        -o "$made/elf" $at/start.c $at/$task.c $at/mem.c -lgcc
    arm-none-eabi-objcopy -O binary -j .text -j .data "$made/elf" "$made/code"
    bytes=$(wc -c < "$made/code")
    tail -c +$((0x$start - 0x08000000 + 1)) "$made/flash" | head -c "$bytes" | cmp - "$made/code"
    echo "$task: all $bytes bytes are the same"
done
