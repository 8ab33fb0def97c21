#!/usr/bin/env bash
# Speed of `hubris run` against plain C in the same run: turns per second on the two-instruction image at 10^6, 10^7 and
# 10^8 steps with peak memory, against loop.c; and against interpreter.c, which writes the same lines: turns per second of
# images compiled by gcc, of the 32 and the 512 tasks of timers/, of the clients and servers of messages/, 21 and 512
# tasks, and leases/, of shared/, a task a third of whose accesses lie in a region that it uses, of regions/, one half of
# whose accesses lie in two regions, of polls/, a driver that asks a port every third turn, and of the large sample of
# seed 1 (sample/: its image and its script; idle.img is a task that waits), and bytes per second of two of those images
# and of messages/ with --all. crc32 and bytecode end in `b .` after their work; here they begin it anew instead. The
# others (programs/) work for ever.
# Where valgrind is there, the host's instructions a turn are counted too: they do not depend on the clock, and the script
# ends with status 1 where one is above its limit, since an inlining that is lost is silent otherwise. The time of a run that
# waits for one event in 10^9 turns is told too.
# It needs gcc and the built program (crates/hubris/out/hubris, made by `rt ci` or `rt run`).
# usage: bench/run.sh [PROGRAM]
set -eu
program=${1:+$(realpath "$1")}
cd "$(dirname "$0")"
program=${program:-$(realpath -m ../crates/hubris/out/hubris)}
[ -x "$program" ] || { echo "build the program first: (cd crates/hubris && rt run)"; exit 1; }
mkdir -p out
gcc -O2 -Wall -o out/loop loop.c
gcc -O2 -Wall -o out/interpreter interpreter.c kernel.c processor.c text.c devices.c
gcc -O2 -Wall -o out/measure measure.c
data=../crates/hubris/data
: > out/empty.txt
# each client of messages/ has a server of its own number
for k in 1 2 3 4; do sed "s/task_server/&$k/" messages/client.s > "out/client$k.s"; done
made=
cp shared/app.toml out/shared.toml
cp regions/app.toml out/regions.toml
cp polls/app.toml out/polls.toml
awk -f polls/driver.awk > out/driver.s
awk -f polls/script.awk > out/polls.txt
for application in timers messages leases; do
    awk -f "$application/application.awk" > "out/$application.toml"
    made="$made $application"
done
for regions in 0 1 2; do awk -v regions=$regions -f calls/application.awk > "out/calls$regions.toml"; done
awk -v tasks=512 -f timers/application.awk > out/timers512.toml
awk -v clients=507 -f messages/application.awk > out/messages512.toml
for application in $made shared regions polls calls0 calls1 calls2 timers512 messages512; do
    said=$(cd .. && "$program" build "bench/out/$application.toml" "bench/out/$application.img") || { echo "$application not built: $said"; exit 1; }
done
for image in crc32 bytecode; do ./endless.sh "$image" > "out/$image.img"; done
for image in sha256 quicksort softfloat; do cp "programs/$image.img" out/; done
compiled="crc32 sha256 quicksort bytecode softfloat"
# seconds and peak KiB of a command, the best of three
measure() { out/measure "$@"; }
line() { awk -v n="$1" -v what="$2" -v a="$3" -v peak="$4" -v b="$5" -v amount="$6" -v unit="$7" 'BEGIN { printf "%-28s %11d steps %9.1f %s  peak %6d KiB  %.2f of plain C\n", what, n, amount / a / 1e6, unit, peak, b / a }'; }
# stops where the program and the interpreter write different lines
same() {
    local image=$1 script=$2 steps=$3
    shift 3
    "$program" run "$image" "$script" --steps "$steps" "$@" > out/ours.txt || { cat out/ours.txt; exit 1; }
    out/interpreter "$image" "$script" "$steps" "$@" > out/plain.txt
    cmp out/ours.txt out/plain.txt || { echo "different lines: $image $*"; exit 1; }
}
# the line of a run; with --all it counts the bytes that are written
play() {
    local what=$1 image=$2 script=$3 steps=$4 amount=$4 unit=million/s
    shift 4
    read -r took peak < <(measure "$program" run "$image" "$script" --steps "$steps" "$@")
    read -r plain _ < <(measure out/interpreter "$image" "$script" "$steps" "$@")
    if [ $# -gt 0 ]; then
        amount=$(out/interpreter "$image" "$script" "$steps" "$@" | wc -c)
        unit="MB/s"
    fi
    line "$steps" "$what" "$took" "$peak" "$plain" "$amount" "$unit"
}
same out/timers.img timers/script.txt 20000
same out/timers.img timers/script.txt 20000 --all
same out/messages.img out/empty.txt 100000
same out/messages.img out/empty.txt 20000 --all
same out/leases.img out/empty.txt 100000
same out/leases.img out/empty.txt 20000 --all
same out/shared.img out/empty.txt 100000
same out/shared.img out/empty.txt 20000 --all
same out/regions.img out/empty.txt 100000
same out/regions.img out/empty.txt 20000 --all
for regions in 0 1 2; do same "out/calls$regions.img" out/empty.txt 20000 --all; done
same out/polls.img out/polls.txt 300000
same out/polls.img out/polls.txt 20000 --all
same out/polls.img out/empty.txt 100000 --all
same out/timers512.img timers/script.txt 100000
same out/messages512.img out/empty.txt 100000
same sample/sample.img sample/script.txt 200000
same sample/sample.img sample/script.txt 20000 --all
for image in $compiled; do same "out/$image.img" out/empty.txt 1000000 --all; done
for steps in 1000000 10000000 100000000; do
    read -r took peak < <(measure "$program" run "$data/a.img" out/empty.txt --steps "$steps")
    read -r plain _ < <(measure out/loop "$steps")
    line "$steps" "two instructions" "$took" "$peak" "$plain" "$steps" million/s
done
for image in $compiled; do
    for steps in 10000000 100000000; do play "$image (gcc, Cortex-M0)" "out/$image.img" out/empty.txt "$steps"; done
done
read -r once _ < <(measure "$program" run out/crc32.img out/empty.txt --steps 20000000)
read -r fourfold _ < <(measure "$program" run out/crc32.img out/empty.txt --steps 80000000)
awk -v a="$once" -v b="$fourfold" 'BEGIN { printf "%-28s %11d steps take %.2f times as long as a fourth of them\n", "crc32 (gcc, Cortex-M0)", 80000000, b / a }'
for steps in 1000000 10000000; do play "32 tasks with timers" out/timers.img timers/script.txt "$steps"; done
for steps in 1000000 10000000; do play "16 clients, 4 servers" out/messages.img out/empty.txt "$steps"; done
play "16 clients, 4 servers, --all" out/messages.img out/empty.txt 1000000 --all
for steps in 1000000 10000000; do play "8 lenders, 1 server" out/leases.img out/empty.txt "$steps"; done
for steps in 10000000 100000000; do play "shared memory" out/shared.img out/empty.txt "$steps"; done
play "two shared regions" out/regions.img out/empty.txt 10000000
for steps in 10000000 100000000; do play "a driver that polls" out/polls.img out/empty.txt "$steps"; done
play "512 tasks with timers" out/timers512.img timers/script.txt 10000000
play "507 clients, 4 servers" out/messages512.img out/empty.txt 10000000
for steps in 1000000 10000000; do play "large sample" sample/sample.img sample/script.txt "$steps"; done
for steps in 1000000 10000000; do
    read -r took peak < <(measure "$program" sample 1 "$steps")
    read -r plain _ < <(measure out/interpreter sample/sample.img sample/script.txt "$steps")
    line "$steps" "large sample, counted" "$took" "$peak" "$plain" "$steps" million/s
done
echo "at 999999998 tick" > out/late.txt
read -r took peak < <(measure "$program" run sample/idle.img out/late.txt --steps 1000000000)
awk -v a="$took" 'BEGIN { printf "%-28s %11d steps %9.1f ms\n", "a late event", 1000000000, a * 1000 }'
for image in crc32 bytecode; do play "$image, --all" "out/$image.img" out/empty.txt 1000000 --all; done
command -v valgrind > out/valgrind.txt || { echo "host instructions a turn: not counted, there is no valgrind"; exit 0; }
# the host's instructions of a run
host() {
    valgrind --tool=callgrind --callgrind-out-file=out/callgrind.txt "$program" run "$@" 2>&1 > out/ours.txt | awk '/Collected/ { print $4 }'
}
# those of so many turns more, and the most that they may be for one turn
short=0
turns=1000000
instructions() {
    local what=$1 most=$2 few many
    shift 2
    few=$(host "$@" --steps $((turns / 5)))
    many=$(host "$@" --steps $((turns / 5 + turns)))
    awk -v what="$what" -v n=$((many - few)) -v turns="$turns" -v most="$most" 'BEGIN { printf "%-28s %7.1f host instructions a turn, at most %d\n", what, n / turns, most; exit n / turns > most }' || short=1
}
for image in $compiled; do instructions "$image" 50 "out/$image.img" out/empty.txt; done
instructions "two instructions" 24 "$data/a.img" out/empty.txt
instructions "shared memory" 50 out/shared.img out/empty.txt
instructions "two shared regions" 55 out/regions.img out/empty.txt
instructions "a call in each fifth turn" 203 out/calls0.img out/empty.txt
instructions "such a call, one region" 232 out/calls1.img out/empty.txt
instructions "such a call, two regions" 248 out/calls2.img out/empty.txt
instructions "a driver that polls" 107 out/polls.img out/empty.txt
instructions "32 tasks with timers" 288 out/timers.img timers/script.txt
instructions "16 clients, 4 servers" 203 out/messages.img out/empty.txt
instructions "8 lenders, 1 server" 205 out/leases.img out/empty.txt
instructions "large sample" 128 sample/sample.img sample/script.txt
instructions "512 tasks with timers" 309 out/timers512.img timers/script.txt
start=$(host out/timers512.img timers/script.txt --steps 0)
awk -v n="$start" 'BEGIN { printf "%-28s %7.1f million host instructions before the first turn, at most 10\n", "512 tasks with timers", n / 1e6; exit n / 1e6 > 10 }' || short=1
instructions "507 clients, 4 servers" 213 out/messages512.img out/empty.txt
# each of these turns writes some 200 bytes
turns=100000
instructions "crc32, --all" 1150 out/crc32.img out/empty.txt --all
instructions "16 clients, --all" 1250 out/messages.img out/empty.txt --all
exit $short
