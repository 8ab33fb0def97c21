#!/usr/bin/env bash
# Builds each example and compares what is built, listed and run, and what the programs of tools/ say of it, with what stands beside it.
# It needs the built program (crates/hubris/out/hubris, made by `rt ci` or `rt run`; or HUBRIS names another), bash and any awk.
# Where there is no python3 of 3.8 or later, it leaves out what needs one, and says so.
set -eu
program=${HUBRIS:+$(realpath "$HUBRIS")}
cd "$(dirname "$0")/.."
program=${program:-$PWD/crates/hubris/out/hubris}
export HUBRIS=$program
[ -x "$program" ] || { echo "build the program first: (cd crates/hubris && rt run)"; exit 1; }
made=$(mktemp -d)
trap 'rm -r "$made"' EXIT
python=$(command -v python3 || true)
if [ -n "$python" ] && ! "$python" -c 'import sys; sys.exit(sys.version_info < (3, 8))'; then python=; fi
[ -n "$python" ] || echo "left out, there is no python3 of 3.8 or later: whether timelines and pictures have gaps, and tools/gdb"
with_python() { [ -z "$python" ] || "$python" "$@"; }
same() { cmp -s "$1" "$2" || { echo "$3: differs from $2"; exit 1; }; echo "$3: as expected"; }
for example in one-task client-server blinker driver restart timers watch uart driven debugger lost-byte from-c gdb; do
    "$program" build "examples/$example/app.toml" "$made/$example.img"
    "$program" list "$made/$example.img" > "$made/listing.txt"
    same "$made/listing.txt" "examples/$example/listing.txt" "$example, listing"
done
task=examples/one-task
"$program" go "$task/app.toml" "$task/empty.txt" --steps 100 > "$made/go.txt" && status=0 || status=$?
[ "$status" = 6 ] || { echo "one-task: status $status"; exit 1; }
same "$made/go.txt" "$task/expected.txt" "one-task, go"
"$program" go "$task/app.toml" "$task/empty.txt" --steps 100 --mem > "$made/mem.txt" || true
same "$made/mem.txt" "$task/expected-mem.txt" "one-task, go with its memory"
"$program" run "$made/one-task.img" "$task/empty.txt" --steps 100 --mem > "$made/run.txt" || true
same "$made/run.txt" "$task/expected-mem.txt" "one-task, build and then run"
# the greatest numbers that sample takes: such a run goes on until it is stopped
timeout 1 "$program" sample 4294967295 1000000000 > "$made/sample.txt" && status=0 || status=$?
[ "$status" = 124 ] || { echo "a sample of the greatest numbers: status $status"; exit 1; }
loan=examples/client-server
"$program" go "$loan/app.toml" "$loan/empty.txt" --steps 1000 > "$made/go.txt"
same "$made/go.txt" "$loan/expected.txt" "client-server, go"
"$program" go "$loan/app.toml" "$loan/empty.txt" --steps 1000 --mem > "$made/mem.txt"
same "$made/mem.txt" "$loan/expected-mem.txt" "client-server, go with its memory"
light=examples/blinker
"$program" go "$light/app.toml" "$light/script.txt" --steps 600 > "$made/go.txt"
same "$made/go.txt" "$light/expected.txt" "blinker, go"
"$program" go "$light/app.toml" "$light/script.txt" --steps 600 --mem > "$made/mem.txt"
same "$made/mem.txt" "$light/expected-mem.txt" "blinker, go with its memory"
"$program" go "$light/app.toml" "$light/script.txt" --steps 600 --all > "$made/all.txt"
grep -v -e ' insn ' -e ' low ' -e ' high ' -e ' idle$' "$made/all.txt" > "$made/calls.txt"
same "$made/calls.txt" "$light/expected.txt" "blinker, go without what --all tells besides"
# the folder, its script and how many turns
for run in "driver script.txt 500" "restart empty.txt 300" "timers script.txt 500" "watch script.txt 500" "uart script.txt 500" "driven script.txt 4000" "debugger script.txt 450" "lost-byte script.txt 500" "from-c empty.txt 1000" "gdb script.txt 800"; do
    read -r example script steps <<< "$run"
    at=examples/$example
    "$program" go "$at/app.toml" "$at/$script" --steps "$steps" > "$made/go.txt"
    same "$made/go.txt" "$at/expected.txt" "$example, go"
    "$program" go "$at/app.toml" "$at/$script" --steps "$steps" --mem > "$made/mem.txt"
    same "$made/mem.txt" "$at/expected-mem.txt" "$example, go with its memory"
done
# the same driver in C: each byte goes out once and in its order, as from the one in assembly
at=examples/driven
"$program" go "$at/c.toml" "$at/script.txt" --steps 8000 > "$made/go.txt"
same "$made/go.txt" "$at/c-expected.txt" "driven, go of the driver in C"
sent() { awk '$2 == "out" { print $4 }' "$1"; }
[ "$(sent "$made/go.txt")" = "$(sent "$at/expected.txt")" ] || { echo "driven: the driver in C sends other bytes"; exit 1; }
at=examples/debugger
"$program" debug "$made/debugger.img" "$at/script.txt" "$at/commands.txt" > "$made/answers.txt"
same "$made/answers.txt" "$at/answers.txt" "debugger, back from its fault"
# every arrival time of a further byte, at once and in two ranges that are put together; and of the mended driver
at=examples/lost-byte
"$program" build "$at/mended.toml" "$made/mended.img"
"$program" go "$at/mended.toml" "$at/script.txt" --steps 500 > "$made/go.txt"
same "$made/go.txt" "$at/mended-expected.txt" "lost-byte, go of the mended driver"
sweep() { "$program" sweep "$made/$1.img" "$at/script.txt" "$at/arrival.txt" "$2" "$3" --steps 500 > "$made/$4"; }
sweep lost-byte 0 290 sweep.txt && status=0 || status=$?
[ "$status" = 8 ] || { echo "lost-byte, sweep: status $status"; exit 1; }
same "$made/sweep.txt" "$at/sweep.txt" "lost-byte, sweep"
sweep mended 0 290 sweep.txt
same "$made/sweep.txt" "$at/mended-sweep.txt" "lost-byte, sweep of the mended driver"
sweep lost-byte 0 120 range.0 || [ $? = 8 ]
sweep lost-byte 120 290 range.1 || [ $? = 8 ]
{ grep -h without "$made/range.0"; cat "$made"/range.? | grep -v without | sort -n | awk '
    { words = $0; sub(/^[^ ]+ [^ ]+ /, "", words) }
    words != last { if (NR > 1) print first, end, last; first = $1; last = words }
    { end = $2 }
    END { print first, end, last }'; } > "$made/sweep.txt"
same "$made/sweep.txt" "$at/sweep.txt" "lost-byte, a sweep in two ranges"
tools/lay "$at/script.txt" "$at/arrival.txt" 114 > "$made/laid.txt"
"$program" run "$made/lost-byte.img" "$made/laid.txt" --steps 500 > "$made/go.txt"
[ "$(grep -c ' out ' "$made/go.txt")" = 1 ] || { echo "lost-byte, a byte in turn 114 is not lost"; exit 1; }
"$program" cover "$made/restart.img" examples/restart/empty.txt --steps 300 > "$made/cover.txt"
same "$made/cover.txt" examples/restart/cover.txt "restart, cover"
"$program" cover examples/restart/app.toml examples/restart/empty.txt --steps 300 --labels > "$made/labels.txt"
same "$made/labels.txt" examples/restart/labels.txt "restart, cover with labels"
# what it counts is what --all tells
"$program" run "$made/restart.img" examples/restart/empty.txt --steps 300 --all | awk '$2 == "insn" { n[$4]++ } END { for (a in n) print a, n[a] }' | sort > "$made/counts.txt"
awk '$1 ~ /^[0-9]/ { print $2, $1 }' "$made/cover.txt" | sort > "$made/covered.txt"
same "$made/covered.txt" "$made/counts.txt" "restart, cover against --all"
"$program" timeline "$made/restart.img" examples/restart/empty.txt --steps 300 > "$made/timeline.json"
same "$made/timeline.json" examples/restart/timeline.json "restart, timeline"
# it is JSON, and the stretches of each task are one behind the other, from turn 0 to the end, with another word each
for example in one-task client-server blinker driver restart timers watch uart driven debugger lost-byte; do
    script=$example/script.txt
    [ -e "examples/$script" ] || script=$example/empty.txt
    "$program" timeline "$made/$example.img" "examples/$script" --steps 500 > "$made/timeline.json" || [ $? = 6 ]
    with_python -c '
import json, sys
lanes = {}
for event in json.load(open(sys.argv[1]))["traceEvents"]:
    if event["ph"] == "X": lanes.setdefault(event["tid"], []).append((event["ts"], event["dur"], event["name"]))
ends = set()
for stretches in lanes.values():
    at, last = 0, ""
    for turn, turns, word in stretches:
        assert turn == at and turns > 0 and word != last, (turn, turns, word)
        at, last = turn + turns, word
    ends.add(at)
assert len(ends) == 1, ends' "$made/timeline.json" || { echo "$example: its timeline has gaps"; exit 1; }
done
# pictures are XML, each lane's boxes fill its columns, and those of two examples stand beside them
for example in one-task client-server blinker driver restart timers watch uart driven debugger lost-byte; do
    script=$example/script.txt
    [ -e "examples/$script" ] || script=$example/empty.txt
    "$program" picture "$made/$example.img" "examples/$script" "$made/picture.svg" --steps 500 --names "examples/$example/app.toml" > "$made/drawn.txt"
    [ "$(cat "$made/drawn.txt")" = "drawn $(wc -c < "$made/picture.svg") bytes" ] || { echo "$example, picture: $(cat "$made/drawn.txt")"; exit 1; }
    with_python -c '
import re, sys, xml.etree.ElementTree as tree
lanes = []
for part in tree.parse(sys.argv[1]).getroot().iter():
    word = re.fullmatch("a([0-6])", part.get("class", ""))
    if word and part.get("d") is not None:
        if word[1] == "0": lanes.append(0)
        lanes[-1] += sum(int(w) * int(h) for w, h in re.findall(r"h(\d+)v(\d+)h-", part.get("d")))
assert lanes and all(area == 1200 * 18 for area in lanes), lanes' "$made/picture.svg" || { echo "$example: its picture has gaps"; exit 1; }
done
at=$PWD/examples
(cd "$made" && "$program" picture restart.img "$at/restart/empty.txt" picture.svg --steps 300 --names "$at/restart/app.toml" > drawn.txt)
same "$made/picture.svg" examples/restart/picture.svg "restart, picture"
(cd "$made" && "$program" picture uart.img "$at/uart/script.txt" picture.svg --steps 4000 --names "$at/uart/app.toml" > drawn.txt)
same "$made/picture.svg" examples/uart/picture.svg "uart, picture"
# how often each line was executed: all of them together as often as an instruction was, where no source writes its
# instructions as data, as those of from-c do
"$program" lcov examples/restart/app.toml examples/restart/empty.txt "$made/lcov.info" --steps 300 > "$made/traced.txt"
same "$made/lcov.info" examples/restart/lcov.info "restart, lcov"
for example in one-task client-server blinker driver restart timers watch uart driven debugger lost-byte; do
    script=$example/script.txt
    [ -e "examples/$script" ] || script=$example/empty.txt
    "$program" lcov "examples/$example/app.toml" "examples/$script" "$made/lcov.info" --steps 500 > "$made/traced.txt"
    "$program" run "$made/$example.img" "examples/$script" --steps 500 --all > "$made/all.txt" || [ $? = 6 ]
    counted=$(awk -F '[:,]' '$1 == "DA" { n += $3 } END { print n }' "$made/lcov.info")
    [ "$counted" = "$(grep -c '^[0-9]* insn ' "$made/all.txt")" ] || { echo "$example: lcov counts $counted"; exit 1; }
    "$program" cover "examples/$example/app.toml" "examples/$script" --steps 500 --labels > "$made/cover.txt" || [ $? = 6 ]
    tools/c-lines "examples/$example/app.toml" "$made/cover.txt" > "$made/c-lines.info"
    cmp -s "$made/c-lines.info" "$made/lcov.info" || { echo "$example: tools/c-lines says otherwise than lcov"; exit 1; }
done
# each run holds together, its memory behind it too; a borrow of a call that nobody took does not
for example in one-task client-server blinker driver restart timers watch uart driven debugger lost-byte from-c gdb; do
    for text in expected expected-mem; do
        "$program" audit "examples/$example/$text.txt" > "$made/audit.txt"
        grep -q '^yes ' "$made/audit.txt" || { echo "$example, audit of $text: $(cat "$made/audit.txt")"; exit 1; }
    done
    echo "$example, audit: yes"
done
grep -v ' take 1 ' "$loan/expected.txt" > "$made/untaken.txt"
"$program" audit "$made/untaken.txt" > "$made/audit.txt" && status=0 || status=$?
[ "$status $(cat "$made/audit.txt")" = "7 no 9" ] || { echo "an audit of a call that was not taken: $status $(cat "$made/audit.txt")"; exit 1; }
# six tasks in C and three in Rust: what is built, listed and run, and the answers to their cases
for run in "node script.txt 60000 node.cases" "from-rust script.txt 20000 rust.cases"; do
    read -r example script steps cases <<< "$run"
    at=examples/$example
    "$program" build "$at/app.toml" "$made/$example.img"
    "$program" list "$made/$example.img" > "$made/listing.txt"
    same "$made/listing.txt" "$at/listing.txt" "$example, listing"
    "$program" go "$at/app.toml" "$at/$script" --steps "$steps" > "$made/go.txt"
    same "$made/go.txt" "$at/expected.txt" "$example, go"
    "$program" audit "$at/expected.txt" > "$made/audit.txt"
    grep -q '^yes ' "$made/audit.txt" || { echo "$example, audit: $(cat "$made/audit.txt")"; exit 1; }
    "$program" go "$at/app.toml" "$at/$script" --steps "$steps" --all > "$made/$example-all.txt"
    "$program" cover "$at/app.toml" "$at/$script" --steps "$steps" --labels > "$made/$example-cover.txt"
    tools/check --junit "$made/$example.xml" --info "$made/$example.info" "$at/$cases" > "$made/told.txt"
    same "$made/told.txt" "$at/check.txt" "$example, its cases"
done
"$program" go examples/from-rust/app.toml examples/from-rust/script.txt --steps 20000 --mem > "$made/mem.txt"
same "$made/mem.txt" examples/from-rust/expected-mem.txt "from-rust, go with its memory"
same "$made/node.info" examples/node/node.info "node, the lines of C that its cases reached"
sed 's/time="[0-9.]*"/time="0"/' "$made/node.xml" > "$made/junit.xml"
same "$made/junit.xml" examples/node/junit.xml "node, the answers for a build server"
# the driver that has the race: the case fails, and its answer for a build server says why
tools/check --junit "$made/race.xml" examples/node/race.cases > "$made/told.txt" && { echo "node, the race is not found"; exit 1; }
same "$made/told.txt" examples/node/race.txt "node, the race that a sweep finds"
python3 -c '
import sys, xml.etree.ElementTree as tree
for report, answers in zip(sys.argv[1::2], sys.argv[2::2]):
    suites = tree.parse(report).getroot()
    cases = suites.findall("testsuite/testcase")
    whys = [why.text for why in suites.findall("testsuite/testcase/failure")]
    for head in suites, suites[0]:
        assert int(head.get("tests")) == len(cases) and int(head.get("failures")) == len(whys), report
        assert abs(float(head.get("time")) - sum(float(case.get("time")) for case in cases)) < 0.01, report
    told = [line.rstrip("\n") for line in open(answers)]
    assert [case.get("name") for case in cases] == [line.split(" - ", 1)[1] for line in told if " - " in line], report
    assert "\n".join(whys).split("\n") == [line[2:] for line in told if line.startswith("# ")] or not whys, report
' "$made/node.xml" examples/node/check.txt "$made/race.xml" examples/node/race.txt || { echo "node, the answers for a build server are not those of the cases"; exit 1; }
# each way in which a case may not hold, and what is told of it
printf '%s\n' 'app examples/node/race.toml' 'script examples/node/script.txt' 'steps 60000' 'case many lines' 'faults 2' 'ends still' \
    'calls 600' 'out 0 "01 up\n02 TEMP"' 'tells restart {client}' 'within 9 tick' 'never restart {client}' 'times 2 fault {client} 3' \
    'within 90 fault' 'tells fault' 'covers 74 50' 'together 75 49' 'case arrivals' 'faults 1' 'sweep examples/node/irq.txt 7000 7532' \
    'unharmed examples/node/irq.txt 7000 7531' 'unharmed examples/node/irq.txt 7000 7532' 'case events' 'at 9 tick' 'repeat 1 1 6 irq 5' \
    'repeat 1 1 6 irq 4' 'feed 5 1 0 01 02 03 04 05 06 07' 'case what comes after what' 'steps 9000' 'after 5 out 0 30 | irq 5' \
    'after 1 out 0 zz | irq 5 | tick' 'case a text # with \ signs' 'every 7 tick' > "$made/fails.cases"
tools/check "$made/fails.cases" > "$made/told.txt" && { echo "tools/check: all cases hold"; exit 1; }
sed "s#$made/##g" "$made/told.txt" > "$made/fails.txt"
cmp - "$made/fails.txt" <<'END' || { cat "$made/fails.txt"; exit 1; }
not ok 1 - many lines
# fails.cases:5: 1 fault, not 2, the first: 25584 fault 5 3 00000000 00000001
# fails.cases:6: it ends as bound in turn 60000, not as still
# fails.cases:7: call 3 of client to sensor is open from turn 3051 on, until turn 6469: 3418 turns, more than 600
# fails.cases:8: device 0 gave out "01 up\n02 temp 21.5\n03 text hello\n04 bad sum\n05 up\n06 temp 9...", which differs from byte 10 on
# fails.cases:10: it took 79 turns, more than 9, from turn 25921 to turn 26000: tick
# fails.cases:11: 1 line, not 0, the first: 25921 restart 5 1
# fails.cases:12: 1 line, not 2, the first: 25584 fault 5 3 00000000 00000001
# fails.cases:13: nothing tells this behind turn 26000: fault
# fails.cases:15: reached are 1412 of 1900 instructions, 140 of 284 ways, less than 74 and 50 of a hundred
# fails.cases:16: reached are 1412 of 1900 instructions, 140 of 284 ways, less than 75 and 49 of a hundred
not ok 2 - arrivals
# fails.cases:19: the time of examples/node/irq.txt makes a difference
#     without bound 1 5:3:00000000:00000001 1 62 e6508797 wwwwwT
#     7531 7531 bound 2 4:9:00000000:00000000 2 14 1baf78b5 wwwwOT
# fails.cases:21: the time of examples/node/irq.txt makes a difference
#     without bound 1 5:3:00000000:00000001 1 62 e6508797 wwwwwT
#     7531 7531 bound 2 4:9:00000000:00000000 2 14 1baf78b5 wwwwOT
not ok 3 - events
# fails.cases:26: more than 65,536 events, or nine of one turn
not ok 4 - what comes after what
# fails.cases:30: nothing tells out 0 zz from turn 2691 on, up to 9000
not ok 5 - a text \# with \\ signs
# fails.cases:32: a first turn below that of an earlier line, or an `every` behind
1..5
END
echo "tools/check, cases that do not hold: as expected"
# one arrival time of the race, walked back to the turn that loses the interrupt
tools/lay examples/node/script.txt examples/node/irq.txt 8176 > "$made/laid.txt"
# stored traces are renewed where the case holds else, and only there
folder="$made/a folder"
mkdir "$folder"
sed 's/^57 out 0 48/57 out 0 49/' examples/uart/expected.txt > "$folder/old.txt"
cp "$folder/old.txt" "$folder/kept.txt"
cp examples/uart/app.toml "$folder/no trace.txt"
printf '%s\n' 'app examples/uart/app.toml' 'script examples/uart/script.txt' 'steps 500' 'case a new trace' "same $folder/new.txt" \
    'case another trace' "like $folder/old.txt" 'case the same trace' 'same examples/uart/expected.txt' \
    'case another fault' 'faults 1' "same $folder/kept.txt" 'case no trace' "like $folder/no trace.txt" \
    'case another run' 'steps 400' "same $folder/new.txt" > "$folder/some.cases"
tools/check --bless "$folder/some.cases" > "$made/told.txt" && { echo "tools/check --bless: all cases hold"; exit 1; }
sed "s#$folder/##g" "$made/told.txt" > "$made/blessed.txt"
cmp - "$made/blessed.txt" <<'END' || { cat "$made/blessed.txt"; exit 1; }
ok 1 - a new trace
# new.txt: renewed, since there is none
ok 2 - another trace
# old.txt: renewed, since device 0: the first 0 are the same first line 17: out 49 second line 17: out 48
ok 3 - the same trace
not ok 4 - another fault
# some.cases:11: 0 faults, not 1
# some.cases:12: kept.txt: line 17 is "57 out 0 49", and the run tells "57 out 0 48"
not ok 5 - no trace
# some.cases:14: no trace.txt is no trace, so it is not renewed
not ok 6 - another run
# some.cases:17: new.txt is right for case 1, so it is not renewed
1..6
END
same "$folder/new.txt" examples/uart/expected.txt "tools/check --bless, a new trace"
same "$folder/old.txt" examples/uart/expected.txt "tools/check --bless, another trace"
same "$folder/no trace.txt" examples/uart/app.toml "tools/check --bless, no trace"
[ "$(grep -c '^57 out 0 49' "$folder/kept.txt")" = 1 ] || { echo "tools/check --bless renews the trace of a case that does not hold"; exit 1; }
touch -d '2001-01-01' "$folder/new.txt" "$folder/old.txt"
tools/check --bless "$folder/some.cases" > "$made/told.txt" || true
[ -z "$(find "$folder" -name '???.txt' -newermt '2001-01-02')" ] || { echo "tools/check --bless writes what is right already"; exit 1; }
# each program of tools/: its status, its words, and the text beside the example that it writes. $made has what is made here
at=examples/from-c
"$program" go "$at/app.toml" "$at/empty.txt" --steps 1000 --all > "$made/all.txt"
sed 's/^689 out 0 20/689 out 0 21/' "$at/expected.txt" > "$made/other.txt"
"$program" save "$made/driver.img" examples/driver/script.txt "$made/state" --steps 150 > "$made/saved.txt"
while IFS='|' read -r status words expected; do
    eval "tools/$words" > "$made/told.txt" 2>&1 && told=0 || told=$?
    [ "$told" = "$status" ] || { echo "tools/$words: status $told"; cat "$made/told.txt"; exit 1; }
    same "$made/told.txt" "$expected" "tools/${words%% *}"
done <<'END'
0|readable examples/restart/app.toml examples/restart/expected.txt|examples/restart/readable.txt
0|names $at/app.toml $at/expected.txt|examples/from-c/places.txt
0|lines $at/app.toml "$made/all.txt"|examples/from-c/cover.txt
0|labels $at/app.toml|examples/from-c/labels.txt
1|compare $at/expected.txt "$made/other.txt"|examples/from-c/compare.txt
0|calls examples/restart/app.toml examples/restart/expected.txt|examples/restart/calls.txt
0|stack examples/node/app.toml "$made/node-all.txt"|examples/node/stack.txt
0|profile examples/node/app.toml "$made/node-cover.txt"|examples/node/profile.txt
0|c-lines examples/from-rust/app.toml "$made/from-rust-cover.txt"|examples/from-rust/lines.info
0|session examples/node/race.toml "$made/laid.txt" 60000 < examples/node/session.txt|examples/node/session-answers.txt
0|waves examples/driver/app.toml examples/driver/expected.txt|examples/driver/timeline.vcd
0|state examples/driver/app.toml "$made/state"|examples/driver/state.txt
0|expect examples/uart/app.toml examples/uart/dialogue.txt 500|examples/uart/dialogue-script.txt
0|since examples/debugger/app.toml examples/debugger/script.txt 220 20000148 1|examples/debugger/since.txt
0|session examples/debugger/app.toml examples/debugger/script.txt 450 < examples/debugger/session.txt|examples/debugger/session-answers.txt
1|refusal < examples/uart/refusals.txt|examples/uart/refusals-in-words.txt
END
# where everything lies is where it does: each instruction of a run is at a line of its source, and none behind its end
light=examples/blinker
"$program" go "$light/app.toml" "$light/script.txt" --steps 600 --all > "$made/light.txt"
tools/names "$light/app.toml" "$made/light.txt" | grep ' insn ' > "$made/named.txt"
grep -v -e ' (line [0-9]*)$' "$made/named.txt" && { echo "blinker, an instruction without its line"; exit 1; }
tools/compare "$at/expected.txt" "$at/expected-mem.txt" > "$made/told.txt" || { echo "from-c differs from itself"; cat "$made/told.txt"; exit 1; }
# what they refuse: the words, and what is said
newline=$'\n'
printf 'hello\n' > "$made/hello.txt"
sed 's/upper\.s/nowhere.s/' "$at/app.toml" > "$made/missing.toml"
sed '/^ram = 256/d' "$at/app.toml" > "$made/keyless.toml"
printf 'every 50 tick\nafter 3 listen 1 | in 1 300\nafter 1 out | in 1 3\n' > "$made/dialogue.txt"
# files of cases with one thing wrong each; the first line is the application, and `|` stands for the end of a line
mkdir "$made/cases"
while read -r name lines; do tr '|' '\n' <<< "app examples/uart/app.toml|steps 500|$lines" > "$made/cases/$name"; done <<'END'
none script examples/uart/script.txt
twice case one|case two|case one
word case one|fualts 1
form case one|within listen 1
kind case one|never fualt
text case one|out 0 HELLO
repeat repeat 0 0 500 tick|case one
feed case one|feed 10 1 1 7e 7
name case one|tells fault {nobody}
script case one|script nowhere.txt
arrival case one|sweep no where.txt 0 9
nowhere case one|app nowhere.toml
folder case one|app examples|tells fault {uart}
END
printf 'app examples/uart/app.toml\ncase one\n' > "$made/cases/steps"
printf 'steps 5\ncase one\n' > "$made/cases/app"
printf 'steps 5\ncase one\001\n' > "$made/cases/byte"
printf 'app %s/bad.toml\nsteps 5\ncase one\n' "$made" > "$made/cases/refused"
sed "s#examples/uart/uart.s#$made/bad.s#" examples/uart/app.toml > "$made/bad.toml"
echo 'movq r1' > "$made/bad.s"
: > "$made/cases/empty"
while IFS='|' read -r status words said; do
    eval "tools/$words" > "$made/told.txt" 2> "$made/said.txt" && told=0 || told=$?
    eval "said=\"$said\""
    [ "$told $(cat "$made/said.txt")" = "$status $said" ] && [ ! -s "$made/told.txt" ] ||
        { echo "tools/$words: status $told"; cat "$made/said.txt" "$made/told.txt"; exit 1; }
done <<'END'
2|readable|usage: readable APP TRACE
1|readable $at/app.toml nowhere.txt|readable: cannot read nowhere.txt
1|readable $at/expected.txt $at/expected.txt|readable: $at/expected.txt is no description: no line is [[task]]
1|readable $at/app.toml $made/hello.txt|readable: $made/hello.txt: line 1 is no line of a trace
1|readable examples/one-task/app.toml $at/expected.txt|readable: $at/expected.txt has 3 tasks, and examples/one-task/app.toml 1
2|names $at/app.toml|usage: names APP TRACE
1|names $made/missing.toml $at/expected.txt|names: cannot read $at/nowhere.s, the source of upper: sources are named from where go was called
1|names $made/keyless.toml $at/expected.txt|names: $made/keyless.toml: task[0].ram is not on a line of its own
2|lines $at/app.toml $at/expected.txt --all|usage: lines APP TRACE
1|lines $at/app.toml $at/expected.txt|lines: $at/expected.txt has no instructions: it is to be of a run with --all
2|labels|usage: labels APP
2|lay $at/empty.txt|usage: lay SCRIPT ARRIVAL TURN
2|lay examples/lost-byte/script.txt examples/lost-byte/arrival.txt x|usage: lay SCRIPT ARRIVAL TURN
1|lay examples/lost-byte/script.txt examples/blinker/script.txt 7|lay: examples/blinker/script.txt: line 2 has an every, which no arrival may have
1|lay $made/hello.txt $at/empty.txt 7|lay: $made/hello.txt: line 1 is no line of a script
1|labels $at/empty.txt|labels: $at/empty.txt is no description: no line is [[task]]
2|compare $at/expected.txt|usage: compare TRACE TRACE
1|compare $at/expected.txt $at/empty.txt|compare: $at/empty.txt is no trace: it is empty
2|calls $at/app.toml|usage: calls APP TRACE
1|calls $at $at/expected.txt|calls: cannot read $at
2|stack $at/app.toml|usage: stack APP TRACE
1|stack $at/app.toml $at/expected.txt|stack: $at/expected.txt has no instructions: it is to be of a run with --all
2|profile|usage: profile APP COVER
1|profile $at/app.toml $at/expected.txt|profile: $at/expected.txt: line 1 is no line of what cover wrote
2|c-lines $at/app.toml|usage: c-lines APP COVER
1|c-lines $at/app.toml $at/empty.txt|c-lines: $at/empty.txt is not what cover wrote: it is empty
1|c-lines $at/app.toml $made/node-cover.txt|c-lines: $made/node-cover.txt is of another application: no task of $at/app.toml has its code at 08000800
2|check|usage: check [--bless] [--junit FILE] [--info FILE] CASES
2|check --junit|usage: check [--bless] [--junit FILE] [--info FILE] CASES
2|check --blessed $made/cases/none|usage: check [--bless] [--junit FILE] [--info FILE] CASES
1|check nowhere.cases|check: cannot read nowhere.cases
1|check --junit $made/nowhere/x.xml $made/cases/none|check: cannot write $made/nowhere/x.xml
1|check --info $made/cases/none $made/cases/none|check: $made/cases/none would be written over the cases
1|check $made/cases/empty|check: $made/cases/empty has no case
1|check $made/cases/none|check: $made/cases/none has no case
1|check $made/cases/twice|check: $made/cases/twice:5: the case in line 3 has this name
1|check $made/cases/word|check: $made/cases/word:4: no line of a case begins with fualts
1|check $made/cases/form|check: $made/cases/form:4: it is to be: within N WORDS, WORDS as a trace without --all tells them
1|check $made/cases/kind|check: $made/cases/kind:4: it is to be: never WORDS, WORDS as a trace without --all tells them
1|check $made/cases/text|check: $made/cases/text:4: it is to be: out D \"TEXT\"
1|check $made/cases/repeat|check: $made/cases/repeat:3: it is to be: repeat FROM STEP TO EVENT
1|check $made/cases/feed|check: $made/cases/feed:4: it is to be: feed T D GAP HEX ..
1|check $made/cases/name|check: $made/cases/name:4: examples/uart/app.toml has no task nobody
1|check $made/cases/script|check: $made/cases/script:4: cannot read nowhere.txt
1|check $made/cases/arrival|check: $made/cases/arrival:4: cannot read no where.txt
1|check $made/cases/nowhere|check: $made/cases/nowhere:4: cannot read nowhere.toml
1|check $made/cases/folder|check: $made/cases/folder:4: cannot read examples
1|check $made/cases/steps|check: $made/cases/steps:2: this case has no steps
1|check $made/cases/app|check: $made/cases/app:2: this case has no app
1|check $made/cases/byte|check: $made/cases/byte:2: a byte that is not allowed
1|check $made/cases/refused|check: $made/bad.s:1: unknown mnemonic$newline$(cat $made/bad.s)
2|waves $at/expected.txt|usage: waves APP TRACE
1|waves $at/app.toml $at/app.toml|waves: $at/app.toml: line 1 is no line of a trace
2|state $made/state|usage: state APP STATE
1|state $at/app.toml $made/driver.img|state: $made/driver.img is no saved state: it does not begin with HBS1
1|state examples/one-task/app.toml $made/state|state: $made/state has 3 tasks, and examples/one-task/app.toml 1
2|expect examples/uart/app.toml examples/uart/dialogue.txt many|usage: expect APP DIALOGUE STEPS
1|expect examples/uart/app.toml $made/dialogue.txt 500|expect: $made/dialogue.txt:2: no number or text, or one out of range
2|since $at/app.toml $at/empty.txt 5 text 1|usage: since APP SCRIPT TURN ADDRESS LENGTH
1|since $at/app.toml $at/empty.txt 5 client.nothing 1|since: no label or variable is client.nothing
1|since $at/app.toml $at/empty.txt 5 30000000 1|since: no 1 bytes of flash or RAM at 30000000
2|session $at/app.toml|usage: session APP SCRIPT [STEPS]
1|session $made/missing.toml $at/empty.txt|session: cannot read $at/nowhere.s
2|refusal $at/app.toml|usage: refusal < WHAT HUBRIS WROTE
END
echo "what the tools refuse: as expected"
# tools/gdb: its parts by themselves, what it answers to packets, and what it refuses. They need no gdb
check_gdb() {
    local words said status at=examples/from-c
    "$python" -B -m unittest discover -s tools/lib/tests -t tools/lib > "$made/told.txt" 2>&1 || { cat "$made/told.txt"; exit 1; }
    echo "tools/gdb, tests of its parts: as expected"
    "$python" examples/gdb/packets.py examples/restart/app.toml examples/restart/empty.txt < examples/gdb/packets.txt > "$made/told.txt"
    same "$made/told.txt" examples/gdb/answers.txt "tools/gdb, packets"
    # an ELF that is not of its source, and a port that another has
    cp examples/gdb/echo.s "$made/echo.s"
    cp examples/from-c/upper.elf "$made/echo.elf"
    sed "s#examples/gdb/echo.s#$made/echo.s#" examples/gdb/app.toml > "$made/stale.toml"
    coproc holder { exec "$python" -c 'import socket, sys
listening = socket.create_server(("127.0.0.1", 0))
print(listening.getsockname()[1], flush=True)
sys.stdin.read()'; }
    local holding=$holder_PID port
    read -r port <&"${holder[0]}"
    while IFS='|' read -r status words said; do
        eval "env $words" > "$made/told.txt" 2> "$made/said.txt" < /dev/null && told=0 || told=$?
        eval "said=\"$said\""
        [ "$told $(cat "$made/said.txt")" = "$status $said" ] && [ ! -s "$made/told.txt" ] ||
            { echo "$words: status $told"; cat "$made/said.txt" "$made/told.txt"; exit 1; }
    done <<'END'
2|tools/gdb $at/app.toml|usage: gdb [--pipe or --port N] APP SCRIPT [GDB WORDS ..]
2|tools/gdb --port x $at/app.toml $at/empty.txt|usage: gdb [--pipe or --port N] APP SCRIPT [GDB WORDS ..]
2|tools/gdb --pipe $at/app.toml $at/empty.txt -tui|usage: gdb [--pipe or --port N] APP SCRIPT [GDB WORDS ..]
1|tools/gdb --pipe $at/app.toml nowhere.txt|gdb: cannot read nowhere.txt
1|tools/gdb --pipe $made/missing.toml $at/empty.txt|gdb: cannot read $at/nowhere.s, the source of upper: sources are named from where go was called
1|tools/gdb --pipe $made/stale.toml $at/empty.txt|gdb: $made/echo.elf is not of $made/echo.s: make both anew by to-source.sh
1|tools/gdb --port $port $at/app.toml $at/empty.txt|gdb: cannot listen at port $port: Address already in use
1|HUBRIS=nowhere tools/gdb $at/app.toml $at/empty.txt|gdb: no program at nowhere: build it first, or set HUBRIS
1|GDB=nowhere tools/gdb $at/app.toml $at/empty.txt|gdb: there is no nowhere: install it, or set GDB
1|GDB=false tools/gdb $at/app.toml $at/empty.txt|gdb: false is no gdb that knows Arm: install gdb-multiarch, or set GDB
END
    eval "exec ${holder[1]}>&-"
    wait "$holding"
    echo "tools/gdb, what it refuses: as expected"
}
# whole sessions, where there is the gdb that they were recorded with
check_sessions() {
    local session example script at debugger=${GDB:-gdb-multiarch}
    for session in "gdb script.txt" "from-c empty.txt"; do
        read -r example script <<< "$session"
        at=examples/$example
        if [ "$("$debugger" --version 2> "$made/said.txt" | sed -n 's/^GNU gdb .* \([0-9]*\)\..*/\1/p')" != 13 ]; then
            echo "$example, in gdb: left out, there is no $debugger of version 13"
            continue
        fi
        tools/gdb "$at/app.toml" "$at/$script" -nx -batch -ex "set width 0" -ex "set trace-commands on" -x "$at/session.gdb" 2>&1 | sed 's#/[^ ]*/\([a-z]*\.elf\)#\1#' > "$made/told.txt"
        same "$made/told.txt" "$at/session.txt" "$example, in gdb"
    done
}
[ -z "$python" ] || { check_gdb; check_sessions; }
# a file may be a pipe, and need not be one that can be sought
at=examples/timers
cat "$made/timers.img" | "$program" run /dev/stdin "$at/script.txt" --steps 500 > "$made/run.txt"
same "$made/run.txt" "$at/expected.txt" "timers, its image from a pipe"
mkfifo "$made/fifo"
cat "$made/timers.img" > "$made/fifo" &
"$program" run "$made/fifo" "$at/script.txt" --steps 500 > "$made/run.txt"
same "$made/run.txt" "$at/expected.txt" "timers, its image from a fifo"
"$program" run <(cat "$made/timers.img") <(cat "$at/script.txt") --steps 500 > "$made/run.txt"
same "$made/run.txt" "$at/expected.txt" "timers, its image and its script substituted"
"$program" audit "$at/expected-mem.txt" > "$made/audit.txt"
cat "$at/expected-mem.txt" | "$program" audit /dev/stdin > "$made/piped.txt"
same "$made/piped.txt" "$made/audit.txt" "timers, audit of a trace from a pipe"
at=examples/debugger
cat "$at/commands.txt" | "$program" debug "$made/debugger.img" "$at/script.txt" /dev/stdin > "$made/answers.txt"
same "$made/answers.txt" "$at/answers.txt" "debugger, its commands from a pipe"
cat "$at/commands.txt" | "$program" live "$made/debugger.img" "$at/script.txt" /dev/stdin > "$made/answers.txt"
same "$made/answers.txt" "$at/answers.txt" "debugger, its commands as they come"
# each command is asked for only once the answer to the one before was read
coproc session { exec "$program" live "$made/debugger.img" "$at/script.txt" /dev/stdin; }
going=$session_PID said=
for command in "step 5" "stpe 5" "back 2" "go 1000 fault"; do
    echo "$command" >&"${session[1]}"
    read -r -t 60 line <&"${session[0]}" || line="no answer"
    said="$said$line, "
done
eval "exec ${session[1]}>&-"
wait "$going"
[ "$said" = "at 5 0 -, refused 2, at 3 0 -, 220 fault 1 3 676e696e 00000001, " ] || { echo "debugger, one command after the other: $said"; exit 1; }
echo "debugger, one command after the other: as expected"
# what a run or a session has told is read while it goes on: this one makes a call, and then 10^9 turns that tell nothing
printf '%s\n' '[board]' 'flash = 4096' 'ram = 1024' '[supervisor]' 'fault = "fault"' '[[task]]' 'name = "busy"' \
    "source = \"$made/busy.s\"" 'priority = 0' 'flash = 256' 'ram = 256' 'stack = 64' 'notifications = ["fault"]' > "$made/busy.toml"
printf '%s\n' 'movs r0, #9' 'mov r11, r0' 'svc #0' 'busy: b busy' > "$made/busy.s"
"$program" build "$made/busy.toml" "$made/busy.img" > "$made/built.txt"
# what it is, its first line, and the program's words: the program is stopped as soon as that line is there
goes_on() {
    "$program" "${@:3}" > "$made/fifo" & going=$!
    read -r line < "$made/fifo" || true
    kill "$going" && wait "$going" 2> /dev/null && status=0 || status=$?
    [ "$status $line" = "143 $2" ] || { echo "$1: status $status, told '$line'"; exit 1; }
    echo "$1: as expected"
}
goes_on "a run that goes on" "2 call 0 9$(printf ' %08d' 0 0 0 0 0 0 0)" run "$made/busy.img" "$task/empty.txt" --steps 1000000000
printf '%s\n' 'step 1' 'go 1000000000' > "$made/commands.txt"
goes_on "a session that goes on" "at 1 0 -" debug "$made/busy.img" "$task/empty.txt" "$made/commands.txt"
bash examples/out.sh
