#!/usr/bin/env bash
# Asks `lines` for programs that gcc and objcopy make here: stripped ones, whose debug file lies in each of the places where it
# is looked for; compressed ones; object files; split DWARF; and files that have to be refused. What `where` answers is compared with
# addr2line's answers for the program before it was stripped, and what the other commands print with what they print for it.
#
#     compare/debug_files.sh
#
# LINES_PROGRAM=FILE is asked in place of crates/lines; LINES_MEMORY=unlimited is for one with checks of its memory, which needs
# more than the 500,000 KB that it is held to. What can't be tried on this machine is said, and passed over. The last
# line is 'debug_files: N as wanted, M not'; the status is 1 where one isn't.
set -u
here=$(cd "$(dirname "$0")" && pwd)
top=$(dirname "$here")
for tool in gcc objcopy strip readelf addr2line nm mkfifo timeout; do
    command -v "$tool" >/dev/null || { echo "debug_files: passed over: without $tool"; exit 0; }
done
lines=${LINES_PROGRAM-$top/crates/lines/out/lines}
if [ ! -x "$lines" ]; then
    (cd "$top/crates/lines" && rt run -- --version >/dev/null)
fi

# An absolute path without links, as the program's folder is looked for below /usr/lib/debug.
work=$(realpath "$(mktemp -d)")
system=/usr/lib/debug
beside_system=$system$work
id=$(head -c 20 /dev/urandom | od -An -tx1 | tr -d ' \n')
shelf=$system/.build-id/${id:0:2}
by_id=$shelf/${id:2}.debug
clean() {
    rm -rf "$work" "$by_id"
    rmdir "$shelf" "$system/.build-id" 2>/dev/null
    # The folders that this script made below /usr/lib/debug, up to the first that holds something else.
    [ -d "$beside_system" ] && rm -rf "$beside_system"
    local folder=${beside_system%/*}
    while [ "$folder" != "$system" ] && rmdir "$folder" 2>/dev/null; do folder=${folder%/*}; done
    rmdir "$system" 2>/dev/null
}
trap clean EXIT

memory=${LINES_MEMORY-500000}
good=0
bad=0
passed_over() { echo "debug_files: passed over: $*"; }
right() { good=$((good + 1)); }
wrong() {
    bad=$((bad + 1))
    echo "debug_files: $*"
}
ask() { timeout 20 "$lines" "$@"; }

# ---- the program: two units, with functions that the linker drops

cd "$work" || exit 1
cat >main.c <<'C'
int twice(int n);
int dropped(int n) { return n + 3; }
int main(int count, char **words)
{
    (void)words;
    int sum = 0;
    for (int i = 0; i < count; i++)
        sum += twice(i);
    return sum;
}
C
cat >twice.c <<'C'
int unused(int n)
{
    return n - 1;
}
int twice(int n)
{
    if (n < 0)
        return 0;
    return 2 * n;
}
C
gcc -g -O1 -ffunction-sections -Wl,--gc-sections "-Wl,--build-id=0x$id" "$work/main.c" "$work/twice.c" -o whole || exit 1
objcopy --only-keep-debug whole whole.debug

# Each address of the two functions, one outside of all code, and 0, where a dropped function's rows begin.
addresses() {
    nm -S whole | while read -r start size _ name; do
        case $name in
        main | twice) for ((at = 0x$start; at < 0x$start + 0x$size; at++)); do printf '0x%x\n' "$at"; done ;;
        esac
    done
    printf '0x0\n0x2\n0xffffffffffff0000\n'
}
addresses >asked
# addr2line's answers, without what it says beside paths and lines. `?` is its line where it knows none.
addr2line -e whole <asked | sed 's/ (discriminator .*//; s/^??:.*/??:0/; s/:?$/:0/' >wanted
grep -q 'main.c:8' wanted || { echo "debug_files: addr2line finds no line 8 of main.c"; exit 1; }

# places NAME PROGRAM: the places of all addresses are addr2line's.
places() {
    if ask where "$2" <asked 2>told | sed 's/:[0-9]*$//; s/^??$/??:0/' >found && cmp -s found wanted && [ ! -s told ]; then
        right
    else
        wrong "$1: the places differ from addr2line's"
        diff found wanted | head -4
        head -3 told
    fi
}

# alike NAME PROGRAM: each other command prints what it prints for the whole program.
alike() {
    local words
    for words in units files rows "rows --whole-paths" "rows --json" check "at twice.c:7"; do
        # shellcheck disable=SC2086
        set -- "$1" "$2" $words
        # shellcheck disable=SC2086
        if [ "$3" = at ]; then
            ask at whole "$4" >wanted_text 2>/dev/null
            ask at "$2" "$4" >found_text 2>/dev/null
        else
            ask $words whole >wanted_text 2>/dev/null
            ask $words "$2" >found_text 2>/dev/null
        fi
        if [ -s wanted_text ] && cmp -s found_text wanted_text; then
            right
        else
            wrong "$1: '$words' differs"
            diff found_text wanted_text | head -4
        fi
    done
}

# refused NAME PROGRAM PHRASE..: refused with status 1, with nothing on standard output, and with each of these on standard error.
refused() {
    local name=$1 program=$2 status=0 phrase
    shift 2
    (ulimit -v "$memory" && ask where "$program" 0x1000 >found 2>told </dev/null) || status=$?
    if [ "$status" != 1 ] || [ -s found ]; then
        wrong "$name: status $status, and printed: $(head -2 found)"
        head -3 told
        return
    fi
    for phrase in "$@"; do
        if ! grep -qF -- "$phrase" told; then
            wrong "$name: says nothing of '$phrase':"
            head -5 told
            return
        fi
    done
    right
}

# stripped FOLDER [DEBUG]: a stripped program FOLDER/program, that names DEBUG as its debug file.
stripped() {
    mkdir -p "$1"
    objcopy --strip-debug whole "$1/program"
    [ $# = 1 ] || objcopy --add-gnu-debuglink="$2" "$1/program"
}

# put NUMBER FILE OFFSET: the number takes the place of eight bytes of a file.
put() {
    local number=$1 octal='' at
    for at in 0 1 2 3 4 5 6 7; do octal+=$(printf '\\%03o' $((number >> (8 * at) & 0xff))); done
    # shellcheck disable=SC2059
    printf "$octal" | dd of="$2" bs=1 seek="$3" conv=notrunc status=none
}

# header_of FILE SECTION: the offset in the file of a section's header.
header_of() {
    local start index
    start=$(readelf -hW "$1" 2>/dev/null | sed -n 's/.*Start of section headers: *\([0-9]*\).*/\1/p')
    index=$(readelf -SW "$1" 2>/dev/null | sed -n "s/^ *\[ *\([0-9]*\)\] $2 .*/\1/p")
    echo $((start + 64 * index))
}

# offset_of FILE SECTION: the offset in the file of a section's bytes.
offset_of() {
    echo $((0x$(readelf -SW "$1" | sed -n "s/^ *\[ *[0-9]*\] $2  *[A-Z]*  *[0-9a-f]*  *\([0-9a-f]*\) .*/\1/p")))
}

# ---- the program itself, and compressed

places "the whole program" whole
places "the debug file itself" whole.debug
for way in zlib zlib-gnu; do
    if objcopy --compress-debug-sections=$way whole packed_$way 2>/dev/null; then
        places "compressed by $way" packed_$way
        alike "compressed by $way" packed_$way
    else
        passed_over "objcopy doesn't compress by $way"
    fi
done
if objcopy --compress-debug-sections=zstd whole packed_zstd 2>/dev/null; then
    refused "compressed by Zstandard" packed_zstd "compressed by Zstandard" "objcopy --decompress-debug-sections"
else
    passed_over "objcopy doesn't compress by Zstandard"
fi

# ---- a debug file beside the program, and in .debug there

stripped beside whole.debug
refused "no debug file" beside/program "there is no section .debug_line, nor a file with it at:" \
    "$by_id: " "$work/beside/whole.debug: " "$work/beside/.debug/whole.debug: " "$beside_system/beside/whole.debug: "
cp whole.debug beside/
places "a debug file beside the program" beside/program
alike "a debug file beside the program" beside/program
if (cd beside && ask where program <../asked 2>../told) | sed 's/:[0-9]*$//; s/^??$/??:0/' >found && cmp -s found wanted && [ ! -s told ]; then
    right
else
    wrong "named without a folder: $(head -1 told)"
fi
mkdir other
ln -s ../beside/program other/program
places "through a link in another folder" other/program

stripped hidden whole.debug
mkdir hidden/.debug
cp whole.debug hidden/.debug/
places "a debug file in .debug" hidden/program
alike "a debug file in .debug" hidden/program

for way in zlib zlib-gnu; do
    objcopy --compress-debug-sections=$way whole.debug packed.debug 2>/dev/null || continue
    stripped packed_$way.d packed.debug
    mv packed.debug packed_$way.d/
    places "a debug file compressed by $way" packed_$way.d/program
done

# A directory of debug files, by the build id and by the name of the link; gdb finds these by debug-file-directory.
# elsewhere NAME PROGRAM: its places are addr2line's with --debug-dir elsewhere.
elsewhere() {
    if ask where "$2" --debug-dir elsewhere/ <asked 2>told | sed 's/:[0-9]*$//; s/^??$/??:0/' >found && cmp -s found wanted && [ ! -s told ]; then
        right
    else
        wrong "$1: the places differ from addr2line's: $(head -1 told)"
    fi
}
stripped far whole.debug
mkdir -p "elsewhere/.build-id/${id:0:2}"
cp whole.debug "elsewhere/.build-id/${id:0:2}/${id:2}.debug"
elsewhere "another directory, by build id" far/program
rm -r elsewhere
mkdir -p "elsewhere$work/far"
cp whole.debug "elsewhere$work/far/"
elsewhere "another directory, by the link" far/program

# The debug sections alone: the lowest address of code is the program's.
objcopy -R .text -R .init -R .fini -R .plt -R .plt.got -R .plt.sec whole.debug sections.debug 2>/dev/null
if readelf -SW sections.debug 2>/dev/null | grep -q ' AX '; then
    passed_over "objcopy doesn't take the code out of a debug file"
else
    stripped no_code sections.debug
    cp sections.debug no_code/
    places "a debug file without sections of code" no_code/program
    alike "a debug file without sections of code" no_code/program
fi

# ---- files at these places that aren't the program's

stripped changed whole.debug
cp whole.debug changed/
printf 'x' >>changed/whole.debug
refused "another checksum" changed/program "$work/changed/whole.debug: its checksum is not the one that the program has"
mkdir changed/.debug
cp whole.debug changed/.debug/
places "another checksum, and the right one in .debug" changed/program

stripped pipe whole.debug
mkfifo pipe/whole.debug
mkdir -p pipe/.debug/whole.debug
refused "a pipe and a folder for debug files" pipe/program "$work/pipe/whole.debug: not a regular file" \
    "$work/pipe/.debug/whole.debug: not a regular file"

# A name that is the program's own, and two files that name each other: neither has line programs.
mkdir itself
cp whole.debug itself/program
stripped itself itself/program
refused "a program that names itself" itself/program "$work/itself/program: its checksum is not"
mkdir round
objcopy --strip-debug whole round/second
objcopy --add-gnu-debuglink=whole.debug round/second
stripped round round/second
refused "a debug file that names a debug file" round/program "$work/round/second: there is no section .debug_line"

stripped object whole.debug
gcc -g -c "$work/twice.c" -o object/object.debug
objcopy --remove-section=.gnu_debuglink object/program
objcopy --add-gnu-debuglink=object/object.debug object/program
refused "an object file for a debug file" object/program "$work/object/object.debug: an object file, which is not linked"

# A name with a control character doesn't reach a terminal.
stripped named
cp whole.debug $'named/a\033[31m.debug'
objcopy --add-gnu-debuglink=$'named/a\033[31m.debug' named/program
rm $'named/a\033[31m.debug'
refused "a name with a control character" named/program "$work/named/a\\u{1b}[31m.debug: "

# ---- below /usr/lib/debug

if mkdir -p "$shelf" "$beside_system/below" 2>/dev/null; then
    cp whole.debug "$by_id"
    stripped by_id
    places "by the build id" by_id/program
    alike "by the build id" by_id/program
    # Another program's debug file there is passed over, and the link is followed.
    gcc -g "-Wl,--build-id=0x00${id:2}" "$work/main.c" "$work/twice.c" -o unlike
    objcopy --only-keep-debug unlike "$by_id"
    refused "another build id" by_id/program "$by_id: its build id is not the program's"
    places "another build id, and the right file beside it" beside/program
    mkdir -p "$beside_system/below"
    stripped below whole.debug
    cp whole.debug "$beside_system/below/"
    places "below /usr/lib/debug" below/program
    alike "below /usr/lib/debug" below/program
    rm -f "$by_id"
    mkfifo "$by_id"
    places "a pipe by the build id, and the right file below /usr/lib/debug" below/program
else
    passed_over "/usr/lib/debug can't be written to"
fi

# ---- object files, as they were

for way in none zlib; do
    gcc -g -O1 -gz=$way -ffunction-sections -c "$work/twice.c" -o "$way.o" 2>/dev/null || { passed_over "gcc has no -gz=$way"; continue; }
    for at in 0 4 8; do
        found=$(ask where "$way.o" ".text.twice+0x$at" 2>&1 | sed 's/:[0-9]*$//')
        told=$(addr2line -e "$way.o" -j .text.twice "$at" | sed 's/ (discriminator .*//')
        if [ "$found" = "$told" ]; then right; else wrong "$way.o: .text.twice+0x$at is $found, and addr2line says $told"; fi
    done
done

# ---- split DWARF, by itself and packed: it names the files that readelf prints, and has no rows

printf '#include "pair.h"\nint sum(struct pair p) { return p.one + p.other; }\n' >split.c
printf 'struct pair { int one, other; };\n' >pair.h
for way in 4 5 packed; do
    if [ "$way" = packed ]; then
        dwp split.dwo -o packed.dwo 2>/dev/null || { passed_over "no dwp"; continue; }
        mv packed.dwo split.dwo
    else
        gcc -g "-gdwarf-$way" -gsplit-dwarf -fdebug-types-section -c "$work/split.c" -o split.o
    fi
    found=$(ask files split.dwo | sed -n 's/^file [0-9]*  //p' | sed 's|.*/||')
    told=$(readelf --debug-dump=rawline split.dwo 2>/dev/null | sed -n '/File Name Table/,$p' | awk '$1 ~ /^[0-9]+$/ { print $NF }' | sed 's|.*/||')
    if [ -n "$told" ] && [ "$found" = "$told" ]; then right; else wrong "split DWARF, $way: files are $found, and readelf says $told"; fi
    if ask check split.dwo >/dev/null; then right; else wrong "split DWARF, $way: the check has status $?"; fi
    refused "split DWARF, $way" split.dwo "a file of split DWARF (.dwo, .dwp), which has no rows of code; name the program"
done

# ---- what isn't read, and what isn't there

mkfifo pipe.program
refused "a pipe" pipe.program "not a regular file; for a raw section say --raw"
refused "a device without an end" /dev/urandom "not a regular file"
refused "a folder" "$work" "not a regular file"
refused "no file" "$work/nothing" "nothing"
: >empty
refused "an empty file" empty "not an ELF file"
head -c 100000 /dev/urandom >random
refused "random bytes" random "not an ELF file"
for ((turn = 0; turn < 40; turn++)); do
    { printf '\177ELF\002\001\001'; head -c 4000 /dev/urandom; } >random
    refused "a random ELF file" random
done
size=$(stat -c %s whole)
for ((part = 0; part < 60; part++)); do
    head -c $((size * part / 60)) whole >beginning
    refused "the first $((size * part / 60)) bytes of $size" beginning
done

# A size or an offset that the file hasn't.
huge() {
    cp "$2" changed.program
    put $((1 << 60)) changed.program "$3"
    refused "$1" changed.program "$4"
}
table=$(header_of whole .debug_line)
huge "a section of 2^60 bytes" whole $((table + 32)) "the file ends before the section does"
huge "a section at 2^60" whole $((table + 24)) "the file ends before the section does"
huge "a section table at 2^60" whole 40 "the file ends before its section table does"
huge "names of 2^60 bytes" whole $(($(header_of whole .shstrtab) + 32)) "the file does not hold the names of its sections"
if [ -e packed_zlib ]; then
    huge "2^60 bytes, compressed" packed_zlib $(($(offset_of packed_zlib .debug_line) + 8)) "which is more than the limit"
fi
if [ -e packed_zlib ]; then
    cp packed_zlib changed.program
    put $((1 << 26)) changed.program $(($(offset_of packed_zlib .debug_line) + 8))
    refused "2^26 bytes, compressed" changed.program "holds fewer bytes than stated"
fi
# The sections of line programs and of texts are the same bytes: the faults are those of its units.
cp whole changed.program
put "$(offset_of whole .debug_info)" changed.program $((table + 24))
status=0
ask where changed.program 0x1000 >found 2>told || status=$?
if [ "$status" = 1 ] && [ "$(cat found)" = "??:0:0" ] && grep -q 'unit at 0x' told; then right; else wrong "overlapping sections: status $status"; fi

# What a word, a line or a name is told that only the program itself sees: on standard input, and in a call.
says() {
    local name=$1 wanted=$2 phrase=$3 status=0
    shift 3
    ask "$@" >found 2>told || status=$?
    if [ "$status" = 1 ] && [ "$(cat found)" = "$wanted" ] && grep -qF -- "$phrase" told; then right; else wrong "$name: status $status, $(head -3 found told)"; fi
}
says "a word that is no address" "??:0:0" "no function has the name zz" where whole <<<zz
says "a line that names standard input" "??:0:0" "standard input has the lines; write ./- for a file of this name" where --files <<<"- 1000"
says "a name that isn't UTF-8" "" "a name that isn't UTF-8 can't be opened; use - and redirect the file with <" units $'no\xfftext'

# `units` prints no paths, and doesn't ask for the sections that they need.
cp whole changed.program
put $((1 << 60)) changed.program $(($(header_of whole .debug_str) + 32))
if ask units changed.program >found 2>told && ask units whole >wanted_text && cmp -s found wanted_text; then right; else wrong "units asks for .debug_str"; fi
# The line programs of version 5 have their directories, and their texts in .debug_line_str: what isn't needed is no reason to refuse.
is_version_5=
if readelf --debug-dump=rawline whole 2>/dev/null | grep -q 'DWARF Version: *5'; then is_version_5=yes; fi
if [ "$is_version_5" ]; then
    places "texts of 2^60 bytes" changed.program
    cp whole changed.program
    put $((1 << 60)) changed.program $(($(header_of whole .debug_info) + 32))
    places "units of 2^60 bytes" changed.program
    cp whole changed.program
    put $((1 << 60)) changed.program $(($(header_of whole .debug_line_str) + 32))
    refused "texts of line programs of 2^60 bytes" changed.program "the file ends before the section does"
else
    refused "texts of 2^60 bytes" changed.program "the file ends before the section does"
fi

# A gigabyte after the program isn't read.
cp whole changed.program
truncate -s +1G changed.program
if (ulimit -v "$memory" && ask where changed.program <asked 2>told | sed 's/:[0-9]*$//; s/^??$/??:0/' >found) && cmp -s found wanted; then
    right
else
    wrong "a program of a gigabyte takes as much memory"
    head -3 told
fi

# A raw section is read from a pipe, as before.
if objcopy --dump-section .debug_line=section whole copy 2>/dev/null; then
    if ask units --raw little <(cat section) >found 2>told && ask units whole >wanted_text && cmp -s found wanted_text; then
        right
    else
        wrong "a raw section from a pipe"
    fi
fi

# A name of bytes that aren't UTF-8 isn't opened; it is printed by their numbers, and read as standard input.
name=$(printf 'a\xff\033b')
cp whole "$name"
refused "a name of bytes" "$name" 'lines: a\xff\x1bb: ' "use - and redirect the file with <"
if LC_ALL=C grep -q "$(printf '\033')" told; then wrong "the message on a name of bytes"; else right; fi
if ask units - <"$name" >found 2>told && ask units whole >wanted_text && cmp -s found wanted_text; then right; else wrong "a name of bytes, as standard input"; fi
if ask where whole --relative-to "$name" <asked 2>told | sed 's/:[0-9]*$//; s/^??$/??:0/' | cmp -s - wanted; then right; else wrong "a directory of bytes"; fi

# The program on standard input.
if ask units - <whole >found 2>told && ask units whole >wanted_text && cmp -s found wanted_text; then right; else wrong "standard input"; fi
if ask where - 0x0 <whole >found 2>told && [ "$(cat found)" = "??:0:0" ]; then right; else wrong "an address, and the program on standard input"; fi

# A core file: e_type is 4.
cp whole changed.program
printf '\4' | dd of=changed.program bs=1 seek=16 conv=notrunc status=none
refused "a core file" changed.program "a core file, which has no line programs; name the program that it is of"

# The names of functions, of the program and of its debug file.
for program in whole whole.debug; do
    nm whole | while read -r start _ name; do
        case $name in main | twice) echo "0x$start $name" ;; esac
    done >functions
    cut -d' ' -f1 functions | ask where -f "$program" 2>told | sed 's/ at .*//' >found
    if [ -s functions ] && cut -d' ' -f2 functions | cmp -s - found && [ ! -s told ]; then right; else wrong "the functions of $program"; fi
done

# A program has no difference with itself, its debug file and a stripped one with its link.
for program in whole whole.debug; do
    if ask diff whole "$program" >found 2>told && grep -q 'differences: 0$' found && [ ! -s told ]; then right; else wrong "diff with $program"; fi
done
sed 's/return 0;/return 7 * n;/' twice.c >changed.c
gcc -g -O1 -ffunction-sections -Wl,--gc-sections "$work/main.c" "$work/changed.c" -o changed_program 2>told
status=0
ask diff whole changed_program >found 2>told || status=$?
if [ "$status" = 1 ] && grep -q '/changed.c:[0-9]*  no code, now ' found && grep -q '/twice.c:[0-9]*  .* bytes, now no code' found; then right; else wrong "diff with another program: status $status"; head -5 found told; fi

echo "debug_files: $good as wanted, $bad not"
[ "$bad" = 0 ]
