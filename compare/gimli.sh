#!/usr/bin/env bash
# Compares what linetool reads with what gimli reads: gimli.sh [CASES [SEED]]. Outside the gate. The gimli is the one that
# Rust's standard library is built with, so nothing is fetched; it needs a nightly rustc, and what run.sh needs to build
# the programs of sources/. Each unit of each program is compared as it is, and then CASES (10,000 if none is given) units
# of which some bytes are changed, cut off or put in, so that faults are compared too.
set -eu
here=$(cd "$(dirname "$0")" && pwd)
top=$(dirname "$here")
program=$top/crates/linetool/out/linetool
if [ ! -x "$program" ]; then
    (cd "$top/crates/linetool" && rt run -- demo >/dev/null)
fi
work=$(mktemp -d)
trap 'rm -rf "$work"' EXIT
if ! rustc +nightly -O --edition 2021 "$here/gimli_rows.rs" -o "$work/gimli_rows" 2>"$work/errors"; then
    echo "gimli.sh: no nightly rustc with gimli in its libraries; nothing was compared"
    exit 0
fi
strings -a "$(rustc +nightly --print sysroot)"/lib/rustlib/*/lib/libgimli-*.rlib | grep -om1 'gimli-[0-9.]*[0-9]' || true

cd "$here/sources"
for version in 2 3 4 5; do
    for format in 32 64; do
        for compiler in gcc clang; do
            command -v $compiler >/dev/null || continue
            $compiler -g -gdwarf-$version -gdwarf$format -O1 -o "$work/it" main.c sums.c 2>"$work/errors" || continue
            objcopy --dump-section ".debug_line=$work/$compiler-$version-$format.line" "$work/it" "$work/copy"
        done
    done
done
python3 "$here/gimli.py" "$program" "$work/gimli_rows" "$work" "${1:-10000}" "${2:-1}"
