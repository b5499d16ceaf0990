#!/usr/bin/env bash
# Looks for misused memory: the example where_is under valgrind; all examples built with the address sanitiser; each call over buffers
# that end at a page that can't be read (guarded.c); many threads over the same sections (directories.c), also under helgrind of valgrind;
# and indexes (indexes.c): many threads and a signal handler over one, with a malloc that ends the program where a question asks for memory, and
# indexes with bytes that were changed or cut. Over compiled programs of versions 2 to 5. What a machine lacks is said, and passed over. The
# archive is that of .ci/proof/library, and make/calls.c is built with each.
set -eu
here=$(cd "$(dirname "$0")" && pwd)
crate=$(dirname "$here")
top=$(cd "$crate/../.." && pwd)
have() { command -v "$1" >/dev/null || { echo "gimli_c: $1 is missing: $2 isn't tried"; false; }; }
have cc "memory" && have objcopy "memory" || exit 0
library="$crate/make/calls.c $crate/out/libgimli_c.a $(dirname "$(rt doc)")/c/liblibc_c.a"
work=$(mktemp -d)
trap 'rm -rf "$work"' EXIT

# Builds an example into the name that is given, with further words for the compiler.
build() {
    local name=$1 source=$2
    shift 2
    # shellcheck disable=SC2086
    cc -std=c11 -g -O1 -Wall -Wextra -Werror -I "$crate/include" -I "$here/c" "$@" "$here"/*/"$source.c" $library -lpthread -o "$work/$name"
}

for version in 2 3 4 5; do
    (cd "$top/compare" && cc -g "-gdwarf-$version" -O1 sources/main.c sources/sums.c -o "$work/built$version")
    for name in line line_str info abbrev str; do
        : >"$work/$name$version"
        objcopy --dump-section ".debug_$name=$work/$name$version" "$work/built$version" \
            "$work/copy" 2>/dev/null || true
    done
    [ -s "$work/line$version" ] && [ -s "$work/info$version" ]
done
addresses="0 ffffffffffffffff $(nm "$work/built5" | awk '$2 == "T" {print $1}')"

build guarded guarded
calls=0
for version in 2 3 4 5; do
    sections=()
    for name in line line_str info abbrev str; do sections+=("$work/$name$version"); done
    calls=$((calls + $("$work/guarded" "${sections[@]}")))
done
echo "gimli_c: $calls answers over buffers that end at a page that can't be read"

build directories directories
echo "gimli_c: $("$work/directories") answers over sections made by hand, and the same in 8 threads at once"

build indexes indexes
echo "gimli_c: indexes: $("$work/indexes"), without memory"
if build raced indexes -fsanitize=thread -DSANITISED 2>/dev/null && "$work/raced" >"$work/said" 2>&1; then
    echo "gimli_c: the thread sanitiser finds nothing in the questions to one index"
else
    # It needs addresses that some machines don't give.
    ! grep -q 'WARNING: ThreadSanitizer' "$work/said" || { cat "$work/said"; exit 1; }
    echo "gimli_c: the thread sanitiser doesn't run here: it isn't tried"
fi

# Some machines have the compiler's word, and no library for it.
if build sanitised_where_is where_is -fsanitize=address,undefined 2>/dev/null; then
    for example in addr2line directories ask_index make_index compiler; do
        build "sanitised_$example" "$example" -fsanitize=address,undefined
    done
    build sanitised_indexes indexes -fsanitize=address,undefined -DSANITISED
    "$work/sanitised_directories" >/dev/null
    "$work/sanitised_indexes" >/dev/null
    "$work/indexes" "$work/small.index"
    "$work/sanitised_ask_index" "$work/small.index" 400000 400015 400020 0.c:1 0.c:2 >/dev/null
    for version in 2 3 4 5; do
        # shellcheck disable=SC2086
        "$work/sanitised_where_is" "$work/built$version" $addresses >/dev/null
        "$work/sanitised_addr2line" "$work/built$version" >/dev/null
        # shellcheck disable=SC2086
        "$work/sanitised_addr2line" "$work/built$version" $addresses >/dev/null
        "$work/sanitised_make_index" "$work/built$version" "$work/made.index" >/dev/null
        # shellcheck disable=SC2086
        "$work/sanitised_ask_index" "$work/made.index" $addresses main.c:1 sums.c:1 >/dev/null
        "$work/sanitised_compiler" "$version" >/dev/null
        "$work/sanitised_compiler" "$version" in-place >/dev/null
    done
    echo "gimli_c: the address sanitiser finds nothing in the examples"
else
    echo "gimli_c: the compiler has no address sanitiser: it isn't tried"
fi

if have valgrind "memory by it"; then
    checked() { valgrind -q --error-exitcode=9 --leak-check=full --errors-for-leak-kinds=all "$@" >/dev/null; }
    for example in where_is addr2line make_index compiler; do build "$example" "$example"; done
    for version in 2 5; do
        # shellcheck disable=SC2086
        checked "$work/where_is" "$work/built$version" $addresses
        checked "$work/addr2line" "$work/built$version"
        checked "$work/make_index" "$work/built$version" "$work/made.index"
        checked "$work/compiler" "$version"
    done
    valgrind -q --error-exitcode=9 --tool=helgrind "$work/directories" >/dev/null
    echo "gimli_c: valgrind finds no memory that is misused or lost, and no thread that meets another"
fi

# What is asked of a whole unit or program at once costs in proportion: from 1,000 to 2,000 and to 4,000 files, directories or rows the
# instructions that are added at most double, and a fifth.
if have valgrind "growth by it"; then
    build growth growth
    counted() { valgrind --tool=callgrind --callgrind-out-file=/dev/null "$work/growth" "$1" "$2" 2>&1 >/dev/null | sed -nE 's/.*Collected : ([0-9]+)$/\1/p'; }
    for all in files directories comp_dirs rows; do
        few=$(counted $all 1000) many=$(counted $all 2000) most=$(counted $all 4000)
        [ $((10 * (most - many))) -le $((24 * (many - few))) ] || { echo "gimli_c: growth $all: $few, $many, $most instructions"; exit 1; }
    done
    echo "gimli_c: files, directories, those of compilations and rows that are read at once cost in proportion to their number"
fi
