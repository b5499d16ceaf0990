#!/usr/bin/env bash
# Compares the rows that linetool prints with those of llvm-dwarfdump and readelf, over small C and C++ programs built by
# each compiler at hand, in each version from 2 to 5, both formats, with and without optimisation, and with a section for
# each function; and what lines says of addresses and units with addr2line, llvm-symbolizer and llvm-dwarfdump, where these are
# there. The gate runs it, by `.ci/test compare`. It needs python3, objcopy, readelf, llvm-dwarfdump and at least one of gcc and clang;
# on Debian: apt-get install binutils llvm gcc g++ clang python3.
#
# A command that a compiler can't do (clang has no 64-bit format in version 2) is passed over, and counted.
set -eu
here=$(cd "$(dirname "$0")" && pwd)
top=$(dirname "$here")
for tool in python3 objcopy readelf llvm-dwarfdump; do
    command -v "$tool" >/dev/null || { echo "compare: $tool is missing"; exit 1; }
done
program=$top/crates/linetool/out/linetool
if [ ! -x "$program" ]; then
    (cd "$top/crates/linetool" && rt run -- demo >/dev/null)
fi
lines=$top/crates/lines/out/lines
if [ ! -x "$lines" ]; then
    (cd "$top/crates/lines" && rt run -- --version >/dev/null)
fi
work=$(mktemp -d)
trap 'rm -rf "$work"' EXIT

passed_over=0
built=0
# build NAME COMPILER SOURCES FLAGS..: an executable of two units.
build() {
    local name=$1 compiler=$2 sources=$3
    shift 3
    if (cd "$here/sources" && $compiler "$@" -o "$work/$name" $sources 2>"$work/errors"); then
        objcopy --dump-section ".debug_line=$work/$name.line" "$work/$name" "$work/copy"
        built=$((built + 1))
    else
        passed_over=$((passed_over + 1))
        rm -f "$work/$name"
    fi
}

for version in 2 3 4 5; do
    for format in 32 64; do
        for level in -O0 -O2; do
            for sections in "" -ffunction-sections; do
                flags="-g -gdwarf-$version -gdwarf$format $level $sections"
                label="dwarf$version-$format$level$sections"
                for compiler in gcc clang; do
                    command -v $compiler >/dev/null || continue
                    # shellcheck disable=SC2086
                    build "$compiler-c-$label" $compiler "main.c sums.c" $flags
                done
                for compiler in g++ clang++; do
                    command -v $compiler >/dev/null || continue
                    # shellcheck disable=SC2086
                    build "$compiler-$label" $compiler "main.cpp lists.cpp" $flags
                done
            done
        done
    done
done
echo "$built programs built, $passed_over passed over"
python3 "$here/compare.py" "$program" "$work"
python3 "$here/compare_lines.py" "$lines" "$work"
