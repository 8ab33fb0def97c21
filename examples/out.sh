#!/usr/bin/env bash
# Whether OUT is whole or as it was after each way for a put to fail, whether a link and a pipe are written to, and whether a
# pipe is read once. It needs the built program (crates/hubris/out/hubris; or HUBRIS names another). What needs a user who may
# not write everywhere is left out for root.
set -eu
program=$(realpath "${HUBRIS:-$(dirname "$0")/../crates/hubris/out/hubris}")
cd "$(dirname "$0")/.."
made=$(mktemp -d)
trap 'chmod -R u+w "$made"; rm -r "$made"' EXIT
out=$made/out.img
fail() { echo "OUT: $1"; exit 1; }
# the image of an example is put; the status, and what was told, are kept
build() { "$program" build "examples/$1/app.toml" "$2" > "$made/text" 2>&1 && status=0 || status=$?; }
is_old() { cmp -s "$made/old" "$out" || fail "$1: it is not as it was"; }
refuses() {
    build blinker "$out"
    [ "$status" = 4 ] && [ ! -s "$made/text" ] || fail "$1: status $status, told '$(cat "$made/text")'"
    is_old "$1"
    [ -z "$(find "$made" -name '.hubris-*')" ] || fail "$1: a file is left"
}
build one-task "$made/old"
build blinker "$made/new"
build one-task "$out"
chmod 640 "$out"
build blinker "$out"
cmp -s "$made/new" "$out" || fail "it is not the new image"
[ "$(stat -c %a "$out")" = 640 ] || fail "its permissions are not kept"
build one-task "$out"
if [ "$(id -u)" != 0 ]; then
    chmod 555 "$made"
    refuses "a directory that allows no new file"
    chmod 755 "$made"
    chmod 444 "$out"
    refuses "a file that may not be written"
    chmod 644 "$out"
fi
mkdir "$made/folder"
for name in "$made/folder" "$made/none/out" /dev/full; do
    build blinker "$name"
    [ "$status" = 4 ] || fail "$name: status $status"
done
# a write beyond a limit on the size of files ends the program by a signal
{ (ulimit -c 0; ulimit -f 0; "$program" build examples/blinker/app.toml "$out" > "$made/text"); } 2> /dev/null && fail "a limit on the size of files: status 0"
is_old "a limit on the size of files"
# killed at any moment of a put
for k in $(seq 1 60); do
    build one-task "$out"
    { "$program" build examples/blinker/app.toml "$out" > "$made/text" & sleep "0.00$((k % 10))"; kill -9 $! && wait $!; } 2> /dev/null || true
    cmp -s "$made/old" "$out" || cmp -s "$made/new" "$out" || fail "killed: it is neither the old image nor the new one"
done
ln -s out.img "$made/link"
build one-task "$made/link"
[ -L "$made/link" ] || fail "a link is replaced"
is_old "a link"
"$program" build examples/blinker/app.toml /dev/stdout | cat > "$made/text"
cmp -s -n "$(stat -c %s "$made/new")" "$made/new" "$made/text" || fail "a pipe has something else than the image"
echo "OUT: whole or as it was"
# a pipe under two names, with a file between
: > "$made/empty"
cat "$made/new" | "$program" sweep /dev/stdin "$made/empty" /dev/stdin 0 1 --steps 1 > "$made/text" && status=0 || status=$?
[ "$status $(cat "$made/text")" = "3 cannot read /dev/stdin" ] || fail "a pipe under two names: status $status, told '$(cat "$made/text")'"
echo "a pipe: read once"
