# What the programs of tools/ have in common; each of them reads this file first. `words` is what a program is called with.
set -eu
export LC_ALL=C
name=${0##*/}
case ${1:-} in -h | --help) sed -n '2,/^[^#]/s/^# \{0,1\}//p' "$0"; exit ;; esac

usage() { echo "usage: $name $words" >&2; exit 2; }
refuse() { echo "$name: $1" >&2; exit 1; }

# AWK names another awk than the one at hand, `busybox awk` for example.
awk() { command ${AWK:-awk} "$@"; }

# A folder for what is made on the way.
scratch() { [ -n "${made:-}" ] || { made=$(mktemp -d); trap 'rm -r "$made"' EXIT; }; }

file() { [ -r "$1" ] && [ ! -d "$1" ] || refuse "cannot read $1"; }
number() { [[ $1 =~ ^(0|[1-9][0-9]{0,9})$ && $1 -le 1000000000 ]] || usage; }

# over FILE PROGRAM ..: these programs in awk over FILE, one behind the other. APP is the description, where there is one.
over() {
    local on=$1 parts=(-f "$lib/common.awk") part
    shift
    for part; do parts+=(-f "$lib/$part.awk"); done
    NAME=$name APP=${app:-} FILE=${told:-$on} awk "${parts[@]}" < "$on"
}

description() { app=$1; file "$app"; }

# trace FILE [insn | high]: FILE is a trace (docs/FORMATS.md, Trace), of this application where there is one, and has such lines.
# It may be a pipe; `trace` is where its text is then.
trace() {
    told=$1 trace=$1
    file "$1"
    if [ ! -f "$1" ]; then scratch; trace=$(mktemp "$made/trace.XXXXXX"); cat "$1" > "$trace"; fi
    NEEDS=${2:-} over "$trace" ${app:+app} trace
}

# The emulator, and where it is.
program() {
    program=${HUBRIS:-$lib/../../crates/hubris/out/hubris}
    [ -x "$program" ] && [ ! -d "$program" ] || refuse "no program at $program: build it first, or set HUBRIS"
    scratch
}

# hubris FILE WORDS ..: the emulator with these words, what it writes in FILE; what it refuses is told in words.
hubris() {
    local into=$1 status=0
    shift
    "$program" "$@" > "$into" || status=$?
    case $status in
    0 | 6) ;;
    4 | 5) refuse "${program##*/} ended with status $status" ;;
    *) { over "$into" refusal || true; } | sed "1s/^/$name: /" >&2; exit 1 ;;
    esac
}

# `image` is the image of an application; or what is given, if it is an image.
image() {
    file "$1"
    image=$1
    if [ "$(head -c 3 "$1" | tr -d '\0')" != HBI ]; then
        app=$1 image=$made/image
        hubris "$made/built" build "$1" "$image"
    fi
}

# Where each label and each variable of C lies, in $made/labels.
labels() { over /dev/null app places labels > "$made/labels"; }

# The address of one of these, or nothing.
address() { awk -v label="$1" '$2 == label { print $1; exit }' "$made/labels"; }
