#!/usr/bin/env bash
# Builds the target fuzz.c with libFuzzer of clang and the address sanitiser, and runs it for some seconds over the lines of compiled
# programs of versions 2 to 5, changed at random: fuzz.sh [SECONDS] [FOLDER], 60 seconds if none is said. FOLDER keeps what it finds
# between runs. What a machine lacks is said, and passed over. It is run by hand; the gate doesn't.
set -eu
here=$(cd "$(dirname "$0")" && pwd)
crate=$(cd "$here/../.." && pwd)
top=$(cd "$crate/../.." && pwd)
seconds=${1:-60}
have() { command -v "$1" >/dev/null || { echo "gimli_c: $1 is missing: the fuzzer isn't tried"; exit 0; }; }
have clang
have cc
have objcopy
library="$crate/make/calls.c $crate/out/libgimli_c.a $(dirname "$(rt doc)")/c/liblibc_c.a"
work=$(mktemp -d)
trap 'rm -rf "$work"' EXIT
found=${2:-$work/found}
mkdir -p "$found" "$work/seeds"

# shellcheck disable=SC2086
clang -g -O1 -Wall -Wextra -fsanitize=fuzzer,address -I "$crate/include" -I "$crate/examples/c" "$here/fuzz.c" $library -o "$work/fuzz" 2>"$work/errors" || {
    cat "$work/errors"
    echo "gimli_c: clang has no libFuzzer: it isn't tried"
    exit 0
}
# A seed is a byte for the order of bytes and the address size, one for how many of the last bytes are .debug_line_str, and both.
for version in 2 3 4 5; do
    (cd "$top/compare" && cc -g "-gdwarf-$version" -O1 sources/main.c sources/sums.c -o "$work/built")
    : >"$work/line_str"
    objcopy --dump-section ".debug_line=$work/line" "$work/built" "$work/copy"
    objcopy --dump-section ".debug_line_str=$work/line_str" "$work/built" "$work/copy" 2>/dev/null || true
    head -c 255 "$work/line_str" >"$work/strings"
    # shellcheck disable=SC2059
    { printf '\020'; printf "\\$(printf %o "$(wc -c <"$work/strings")")"; cat "$work/line" "$work/strings"; } >"$work/seeds/$version"
    # Another has .debug_info, and .debug_abbrev as its last bytes.
    for name in info abbrev; do
        objcopy --dump-section ".debug_$name=$work/$name" "$work/built" "$work/copy"
    done
    head -c 255 "$work/abbrev" >"$work/strings"
    # shellcheck disable=SC2059
    {
        printf '\020'
        printf "\\$(printf %o "$(wc -c <"$work/strings")")"
        cat "$work/info" "$work/strings"
    } >"$work/seeds/info$version"
done
# An index, and an object file.
# shellcheck disable=SC2086
cc -std=c11 -O1 -I "$crate/include" -I "$crate/examples/c" "$here/indexes.c" $library -lpthread -o "$work/indexes"
"$work/indexes" "$work/small.index"
{ printf '\020\000'; cat "$work/small.index"; } >"$work/seeds/index"
echo 'int f(void) { return 1; }' | cc -g -c -x c - -o "$work/f.o"
{ printf '\020\000'; cat "$work/f.o"; } >"$work/seeds/object"
"$work/fuzz" "-dict=$here/line.dict" -max_len=4096 "-max_total_time=$seconds" -print_final_stats=1 "$found" "$work/seeds" 2>&1 |
    grep -E 'stat::number_of_executed_units|stat::peak_rss_mb|ERROR|SUMMARY|Test unit|artifact|DONE' | tee "$work/said"
if grep -qE 'ERROR|SUMMARY' "$work/said"; then exit 1; fi
