#!/usr/bin/env bash
# Makes the source of a task from Rust: NAME.rs, a crate without std with a function `task`, becomes NAME.s. It goes through
# examples/from-c/to-source.sh, which links it with the entry and the one `svc`; so it needs what that needs, and rustc with `core` for
# thumbv6m-none-eabi. Where that target is not installed, `core` is built of its sources once (a distribution has them as rust-src), into
# CORE, or a folder of its own that is thrown away.
# usage: to-source.sh NAME.rs ..
set -eu
export LC_ALL=C
[ $# -ge 1 ] || { echo "usage: to-source.sh NAME.rs .." >&2; exit 2; }
here=$(cd "$(dirname "$0")" && pwd)
rustc=${RUSTC:-rustc}
command -v "$rustc" > /dev/null || { echo "to-source: there is no $rustc" >&2; exit 1; }
made=$(mktemp -d)
trap 'rm -r "$made"' EXIT
sources=$("$rustc" --print sysroot)/lib/rustlib/src/rust/library
flags=(--remap-path-prefix "$sources=library" --edition 2021 --target thumbv6m-none-eabi -C opt-level=s -C panic=abort -C codegen-units=1 -g)
if [ ! -d "$("$rustc" --print sysroot)/lib/rustlib/thumbv6m-none-eabi" ]; then
    core=${CORE:-$made/core}
    mkdir -p "$core"
    if [ ! -e "$core/libcore.rlib" ]; then
        [ -e "$sources/core/src/lib.rs" ] || { echo "to-source: no core for thumbv6m-none-eabi, and no sources of it in $sources" >&2; exit 1; }
        # RUSTC_BOOTSTRAP lets a stable compiler take the features that core is written with
        RUSTC_BOOTSTRAP=1 "$rustc" "${flags[@]}" --cap-lints allow --crate-name core --crate-type rlib --out-dir "$core" "$sources/core/src/lib.rs"
        # what core expects beside it; libgcc and mem.c have these functions
        printf '#![feature(compiler_builtins)]\n#![compiler_builtins]\n#![no_builtins]\n#![no_std]\n' > "$core/compiler_builtins.rs"
        RUSTC_BOOTSTRAP=1 "$rustc" "${flags[@]}" -L "$core" --cap-lints allow --crate-type rlib --out-dir "$core" "$core/compiler_builtins.rs"
    fi
    flags+=(-L "$core")
fi
"$rustc" "${flags[@]}" --crate-type rlib --out-dir "$made" "$here/userlib.rs"
for source; do
    case $source in *.rs) ;; *) echo "to-source: $source is no NAME.rs" >&2; exit 1 ;; esac
    name=$(basename "$source" .rs)
    "$rustc" "${flags[@]}" --crate-type staticlib -C lto --extern "userlib=$made/libuserlib.rlib" -o "$made/$name.a" "$source"
    # the linker's words about a missing note are none of ours
    "$here/../from-c/to-source.sh" "$made/$name.a" 2> "$made/said" || { cat "$made/said" >&2; exit 1; }
    sed "1s/.*/; Made of $name.rs by to-source.sh, $("$rustc" --version | cut -d' ' -f1-2), and from-c: not to be changed by hand./" \
        "$made/$name.s" > "${source%.rs}.s"
    # its lines and variables, for tools/gdb
    cp "$made/$name.elf" "${source%.rs}.elf"
done
