#!/usr/bin/env bash
# Speed of `hubris audit` against a plain C program that makes the same checks (audit.c), on traces of 16 MiB: of clients and servers, of
# the large sample, of instructions (--all), and of lines of which each is a call of another client. Both have to say the same.
# It needs gcc and the built program (crates/hubris/out/hubris, made by `rt ci` or `rt run`).
# usage: bench/audit.sh [PROGRAM]
set -eu
program=${1:+$(realpath "$1")}
cd "$(dirname "$0")"
program=${program:-$(realpath -m ../crates/hubris/out/hubris)}
[ -x "$program" ] || { echo "build the program first: (cd crates/hubris && rt run)"; exit 1; }
mkdir -p out
gcc -O2 -Wall -o out/audit audit.c
gcc -O2 -Wall -o out/measure measure.c
: > out/empty.txt
most=16777216
# at most so many bytes of whole lines, and the end of the run
cut() { head -c $((most - 200)) | sed '$d'; echo "end bound 0 0"; }
for k in 1 2 3 4; do sed "s/task_server/&$k/" messages/client.s > "out/client$k.s"; done
awk -f messages/application.awk > out/messages.toml
(cd .. && "$program" build bench/out/messages.toml bench/out/messages.img) > /dev/null
"$program" run out/messages.img out/empty.txt --steps 5000000 | grep '^[0-9]* [a-z]' | cut > out/messages.trace || true
"$program" run sample/sample.img sample/script.txt --steps 5000000 | grep '^[0-9]* [a-z]' | cut > out/sample.trace || true
"$program" run out/messages.img out/empty.txt --steps 200000 --all | grep '^[0-9]* [a-z]' | cut > out/instructions.trace || true
awk 'BEGIN { for (k = 1; k <= 600000; k++) printf "%d offer %d %d 1\n", k, k, k * 7 % 4294967296 }' | cut > out/offers.trace
for kind in messages sample instructions offers; do
    trace=out/$kind.trace
    ours=$("$program" audit "$trace") || true
    plain=$(out/audit "$trace") || true
    [ "$ours" = "$plain" ] || { echo "$kind: $ours, in plain C $plain"; exit 1; }
    read -r took peak < <(out/measure "$program" audit "$trace")
    read -r c _ < <(out/measure out/audit "$trace")
    awk -v what="$kind" -v size="$(wc -c < "$trace")" -v took="$took" -v peak="$peak" -v c="$c" -v said="$ours" 'BEGIN { printf "%-13s %8d bytes %7.3f s  peak %6d KiB  %.2f of the time of plain C  %s\n", what, size, took, peak, took / c, said }'
done
