#!/usr/bin/env bash
# Links the object file that `uses make_object` builds with a C program that has lines too, by ld and by lld, which may not warn, and
# asks addr2line, gdb, llvm-symbolizer and `lines where` for the lines of its two functions, which are of two files and in sections of
# their own, and llvm-dwarfdump for the digests, flags and discriminators. All have to answer what the object was built with; the linkers
# merge the texts of both objects.
#
#     compare/object.sh
#
# USES_PROGRAM=FILE and LINES_PROGRAM=FILE are asked in place of crates/uses and crates/lines. The last line is
# 'object: N as wanted, M not'; the status is 1 where one isn't.
set -u
here=$(cd "$(dirname "$0")" && pwd)
top=$(dirname "$here")
for tool in gcc addr2line llvm-symbolizer llvm-dwarfdump nm python3; do
    command -v "$tool" >/dev/null || { echo "object: passed over: without $tool"; exit 0; }
done
uses=${USES_PROGRAM-$top/crates/uses/out/uses}
lines=${LINES_PROGRAM-$top/crates/lines/out/lines}
for program in "$uses" "$lines"; do
    [ -x "$program" ] || { echo "object: passed over: without $program"; exit 0; }
done
work=$(mktemp -d)
trap 'rm -rf "$work"' EXIT
cd "$work" || exit 1

"$uses" make_object | python3 -c 'import sys; sys.stdout.buffer.write(bytes.fromhex(sys.stdin.read().split()[1]))' >two.o
cat >main.c <<'C'
int first(void);
int second(void);
int main(void) { return first() * 10 + second() == 12 ? 0 : 1; }
C

good=0
bad=0
wants() {
    if [ "$2" = "$3" ]; then
        good=$((good + 1))
    else
        bad=$((bad + 1))
        echo "object: $1 says '$2', wanted '$3'"
    fi
}
# The columns of an address without it: line, column, file, isa, discriminator, flags.
rows='3 0 0 0 0 is_stmt
4 0 0 0 0 is_stmt prologue_end
4 0 0 0 2
4 0 0 0 0 end_sequence
8 0 1 0 0 is_stmt
9 0 1 0 0 is_stmt prologue_end
9 0 1 0 2
9 0 1 0 0 end_sequence'
digests='900150983cd24fb0d6963f7d28e17f72
d41d8cd98f00b204e9800998ecf8427e'
linkers=(bfd)
command -v ld.lld >/dev/null && linkers+=(lld) || echo "object: passed over: without ld.lld"
command -v gdb >/dev/null || echo "object: passed over: without gdb"
# The address of a symbol, and an offset.
place() { printf '%x' $((0x$(nm program | awk -v name="$1" '$3 == name { print $1 }') + $2)); }
for linker in "${linkers[@]}"; do
    if ! gcc -g -gdwarf-5 -fuse-ld="$linker" -Wl,--fatal-warnings -o program main.c two.o || ! ./program; then
        bad=$((bad + 1))
        echo "object: the program isn't linked by $linker, or fails"
        continue
    fi
    told=$(llvm-dwarfdump --debug-line program)
    wants "llvm-dwarfdump of the rows" "$(sed -nE 's/^0x[0-9a-f]+ +//p' <<<"$told" | tr -s ' ' | sed 's/ $//' | tail -8)" "$rows"
    wants "llvm-dwarfdump of the digests" "$(sed -n 's/.*md5_checksum: //p' <<<"$told")" "$digests"
    llvm-dwarfdump --verify program >verified || wants "llvm-dwarfdump --verify" "$(cat verified)" "no error"
    for row in "first 3" "second 8"; do
        read -r symbol line <<<"$row"
        command -v gdb >/dev/null || continue
        found=$(timeout 60 gdb -nx -batch -ex "info line $symbol" program 2>/dev/null | sed -n 's/^Line \([0-9]*\) .*<\(.*\)> and.*<\(.*\)>\.$/\1 \2 \3/p')
        wants "gdb of $symbol" "$found" "$line $symbol $symbol+4"
    done
    for row in "first 0 a.c:3" "first 3 a.c:3" "first 4 a.c:4" "first 9 a.c:4" "second 0 inc/a.h:8" "second 4 inc/a.h:9"; do
        read -r symbol offset source <<<"$row"
        address=$(place "$symbol" "$offset")
        wanted=/w/$source
        # addr2line (GNU Binutils 2.40) numbers the files of version 5 from 1, so it is asked for lines alone.
        wants "addr2line of $symbol + $offset" "$(addr2line -e program "$address" | sed 's/ .*//; s/.*://')" "${source##*:}"
        found=$(llvm-symbolizer --obj=program --no-inlines --functions=none "0x$address" | head -1)
        wants "llvm-symbolizer of $symbol + $offset" "${found%:*}" "$wanted"
        if command -v gdb >/dev/null; then
            found=$(timeout 60 gdb -nx -batch -ex "info line *0x$address" program 2>/dev/null | grep '^Line' | sed 's/^Line \([0-9]*\) of "\([^"]*\)".*/\2:\1/')
            wants "gdb of $symbol + $offset" "$found" "$source"
        fi
        found=$("$lines" where program "$address")
        wants "lines of $symbol + $offset" "${found%:*}" "$wanted"
    done
done
echo "object: $good as wanted, $bad not"
[ "$bad" = 0 ]
