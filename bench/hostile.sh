#!/usr/bin/env bash
# What the largest files cost that a stranger may hand in (hostile.py): applications of names without end, a source of labels
# that name each other, an image of the most regions, scripts of the most events. Each is made at a quarter, a half and the
# whole of the largest length; its time and its memory at the peak are to grow in line with the length. The last column is how
# many times as much the double length takes: above 3 in time or memory it ends with status 1. Times below 20 ms count as 20 ms.
# A script of repeats is put in order event by event, so its time may grow as the square, up to a second for the most events.
# It needs gcc, python3 and the built program (crates/hubris/out/hubris, made by `rt ci` or `rt run`).
# usage: bench/hostile.sh [PROGRAM [LENGTH]]    LENGTH in bytes in the place of 2097152
set -eu
export LC_ALL=C
program=${1:+$(realpath "$1")}
length=${2:-2097152}
cd "$(dirname "$0")"
program=${program:-$(realpath ../crates/hubris/out/hubris)}
[ -x "$program" ] || { echo "build the program first: (cd crates/hubris && rt run)"; exit 1; }
mkdir -p out/hostile
gcc -O2 -Wall -o out/measure measure.c
measure=$(realpath out/measure)
bad=0
for kind in regions devices notifications uses interrupts tasks shared keys labels image script repeats; do
    last_took=; last_peak=
    for size in $((length / 4)) $((length / 2)) "$length"; do
        rm -f out/hostile/*
        words=$(python3 hostile.py "$kind" "$size" out/hostile)
        cd out/hostile
        # shellcheck disable=SC2086
        said=$("$program" $words | head -c 60 | head -n 1)
        # shellcheck disable=SC2086
        read -r took peak < <("$measure" "$program" $words)
        cd ../..
        awk -v kind="$kind" -v size="$size" -v took="$took" -v peak="$peak" -v lt="$last_took" -v lp="$last_peak" -v said="$said" '
            function least(t) { return t < 0.02 ? 0.02 : t }
            BEGIN {
                printf "%-13s %8d bytes %9.4f s %8d KiB", kind, size, took, peak
                if (lt != "") printf "  time x %4.2f  memory x %4.2f", took / lt, peak / lp
                else printf "%30s", ""
                print "  " said
                slow = kind == "repeats" ? took > 1 : lt != "" && least(took) / least(lt) > 3
                exit slow || lt != "" && peak / lp > 3
            }' || bad=1
        last_took=$took; last_peak=$peak
    done
done
rm -rf out/hostile
[ $bad = 0 ] || { echo "out of line with the length"; exit 1; }
