#!/usr/bin/env bash
# The addresses of every line of C++ programs by an index, compared with those that compare/breakpoints.py works out from the rows of
# llvm-dwarfdump, and with the breakpoints that gdb sets. The programs share inline functions and have functions with the same code, so
# that a linker drops copies of one and folds the others: built by g++ and clang++ at -O0, -O1 and -O2, and linked by GNU ld, gold and
# lld, with and without --icf.
#
#     compare/breakpoints.sh
#
# ASK=COMMAND answers in place of breakpoints/ask.c over the library for C, LINES_PROGRAM=FILE is asked in place of crates/lines, and
# FILES are programs that are compared beside the built ones. What this machine lacks is said, and passed over. The last line is
# 'breakpoints: N as wanted, M not'; the status is 1 where one isn't.
set -u
here=$(cd "$(dirname "$0")" && pwd)
top=$(dirname "$here")
for tool in llvm-dwarfdump readelf; do
    command -v "$tool" >/dev/null || { echo "breakpoints: passed over: without $tool"; exit 0; }
done
lines=${LINES_PROGRAM-$top/crates/lines/out/lines}
crate=$top/crates/gimli_c
work=$(mktemp -d)
trap 'rm -rf "$work"' EXIT
ask=${ASK-$work/ask}
if [ -z "${ASK-}" ]; then
    command -v cc >/dev/null || { echo "breakpoints: passed over: without cc"; exit 0; }
    [ -f "$crate/out/libgimli_c.a" ] || "$top/.ci/proof/library" >/dev/null
    kit=$(dirname "$(rt doc)")/c
    cc -std=c11 -Wall -Wextra -Werror -O2 -I "$crate/include" -I "$crate/examples/c" "$here/breakpoints/ask.c" "$crate/make/calls.c" \
        "$crate/out/libgimli_c.a" "$kit/liblibc_c.a" -o "$ask" || exit 1
fi

good=0
bad=0
passed_over() { echo "breakpoints: passed over: $*"; }
# Counts whether a command ends well, and shows what it prints.
counts() {
    if "$@"; then good=$((good + 1)); else bad=$((bad + 1)); fi
}

# Every line of every file of a program, by the index and by the rows.
hold() {
    "$here/breakpoints.py" asked "$1" >"$work/asked" && $ask "$1" <"$work/asked" >"$work/answers" &&
        "$here/breakpoints.py" check "$1" "$work/asked" "$work/answers"
}

cp "$here"/breakpoints/*.cc "$here"/breakpoints/*.h "$work"
cd "$work" || exit 1
for compiler in g++ clang++; do
    command -v "$compiler" >/dev/null || { passed_over "$compiler"; continue; }
    for level in 0 1 2; do
        for linker in bfd gold gold:safe gold:all lld lld:safe lld:all; do
            fold=${linker#*:}
            [ "$fold" = "$linker" ] && flags="" || flags=-Wl,--icf=$fold
            name=$compiler-O$level-$linker
            # shellcheck disable=SC2086
            if ! "$compiler" -g -O"$level" -ffunction-sections -fuse-ld="${linker%:*}" $flags one.cc two.cc -o "$name" 2>log; then
                passed_over "$name: $(head -n 1 log)"
                continue
            fi
            counts hold "$name"
        done
    done
done
for file in ${FILES-}; do
    counts hold "$file"
done

if command -v gdb >/dev/null && command -v g++ >/dev/null; then
    # At -O0 the functions of a class in an unnamed namespace may stand side by side and be all of one line: one run (docs/reference/INDEX.md).
    g++ -g -O1 one.cc two.cc -o shared && g++ -g -O1 words.cc -o words || exit 1
    counts "$here/breakpoints.py" gdb shared "$lines" "$ask shared" one.cc:7 two.cc:19 shared.h:23
    counts "$here/breakpoints.py" gdb words "$lines" "$ask words" words.cc:"$(wc -l <words.cc)"
else
    passed_over "gdb: it or g++ is missing"
fi
echo "breakpoints: $good as wanted, $bad not"
[ "$bad" = 0 ]
