#!/usr/bin/env bash
# Writes the rows of g++ programs anew by `uses_conversion rewrite`, puts the new .debug_line in the place of the old one, and
# compares: what llvm-dwarfdump prints of all rows, directories and files, and of .debug_info with the name of each DW_AT_decl_file;
# what readelf prints of the rows; and what addr2line says of each function. All of it has to be as before, and the bytes others.
#
#     compare/rewriter.sh
#
# USES_CONVERSION_PROGRAM=FILE is asked in place of crates/uses_conversion. The last line is 'rewriter: N as before, M not'; the status
# is 1 where one isn't.
set -u
here=$(cd "$(dirname "$0")" && pwd)
top=$(dirname "$here")
for tool in g++ objcopy llvm-dwarfdump readelf addr2line nm python3 timeout; do
    command -v "$tool" >/dev/null || { echo "rewriter: passed over: without $tool"; exit 0; }
done
rewriter=${USES_CONVERSION_PROGRAM-$top/crates/uses_conversion/out/uses_conversion}
[ -x "$rewriter" ] || { echo "rewriter: passed over: without $rewriter"; exit 0; }
work=$(mktemp -d)
trap 'rm -rf "$work"' EXIT
cd "$work" || exit 1

good=0
bad=0
# same WHAT COMMAND..: what a command prints of both programs. Their names stand in it.
same() {
    local what=$1
    shift
    "$@" old 2>&1 | sed "s/^\(Verifying \)\?old:/of:/" >wanted
    "$@" new 2>&1 | sed "s/^\(Verifying \)\?new:/of:/" >found
    if [ -s wanted ] && cmp -s wanted found; then
        good=$((good + 1))
    else
        bad=$((bad + 1))
        echo "rewriter: $label: $what differs:"
        diff wanted found | head -5
    fi
}
places() { nm -C "$1" | awk '$2 ~ /[tTwW]/ { print $1 }' | sort -u | addr2line -e "$1"; }

for version in 4 5; do
    for flags in -O0 -O2 "-O2 -ffunction-sections"; do
        label="g++ version $version $flags"
        # shellcheck disable=SC2086
        g++ -g -gdwarf-$version $flags "$here/sources/main.cpp" "$here/sources/lists.cpp" -o old || exit 1
        objcopy --dump-section .debug_line=lines old copy
        "$rewriter" rewrite lines | python3 -c 'import sys; sys.stdout.buffer.write(bytes.fromhex(sys.stdin.read().strip()))' >new_lines
        objcopy --update-section .debug_line=new_lines old new
        if [ ! -s new_lines ] || cmp -s lines new_lines; then
            bad=$((bad + 1))
            echo "rewriter: $label: no bytes are new"
            continue
        fi
        same "the line programs" timeout 60 llvm-dwarfdump --debug-line
        same "the verdict on lines" timeout 60 llvm-dwarfdump --verify --debug-line
        same "the entries, with names of files" timeout 60 llvm-dwarfdump --debug-info
        grep -q DW_AT_decl_file found || { bad=$((bad + 1)); echo "rewriter: $label: no entry names a file"; }
        same "readelf's rows" timeout 60 readelf -wL
        same "addr2line's places" places
    done
done
echo "rewriter: $good as before, $bad not"
[ "$bad" = 0 ]
