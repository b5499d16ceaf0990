#!/usr/bin/env bash
# Asks `lines where`, addr2line, eu-addr2line and llvm-symbolizer for every address of code of many
# programs. Prints on how many addresses each two agree, and each difference of `lines`. Outside the
# gate.
#
#     compare/places.sh [--columns] [--each] [PROGRAM..]
#
# It builds programs of compare/sources by each compiler at hand, and asks these and the programs
# that are named. --columns compares columns too, --each prints each difference, PLACES=N asks N
# addresses of each program in place of a million, and LINES_PROGRAM=FILE is asked in place of
# crates/lines. It needs python3, gcc or clang, and on Debian: apt-get install binutils elfutils
# llvm. Of llvm-symbolizer the newest version that is there is asked (llvm-symbolizer-19). A build that
# a compiler can't do is passed over, and counted. Whole paths are compared, without `.` and `..`.
#
# The rows that llvm-dwarfdump prints decide. A row covers the addresses from its own up to the next
# row's, in its sequence; a sequence below the lowest section of code was dropped. Where `lines`
# says what the rows say and a peer does not, the peer's fault has to be one of these, which are
# counted:
#   addr2line, a file without a line where no row is: no row covers the address, and it says `?` for
#     the line of a symbol's file.
#   addr2line, `?` for a row of line 0: such a row covers the address, and it says `?` for the line.
#   addr2line, no line where the ranges stand in .zdebug_rnglists: the file has this section, and it
#     says no line.
#   addr2line, file 0 for file 1 of version 5: the row and all before it in its sequence name file
#     1, with which the register begins, and it says the row's line and the path of file 0.
#   eu-addr2line, no place outside .debug_aranges: no range there has the address, and it says `??`.
#     clang and Go write none.
#   eu-addr2line, a row at the end of its sequence covers the gap after it: no row covers the
#     address, and it says a row that has the address of the end of the sequence before.
#   llvm-symbolizer, no place by .zdebug_line: the file has this section, which LLVM reads up to
#     version 15, and it says `??`.
#   llvm-symbolizer, no place outside the units' ranges: no unit's ranges in .debug_info have the
#     address, and it says `??`.
#   directory of version 5 joined to DW_AT_comp_dir: directory 0 is relative, and the path begins with
#     DW_AT_comp_dir, as addr2line 2.40, eu-addr2line 0.188 and llvm-symbolizer 14 have it.
#   another of the rows that cover the address: two sequences do, and it says a row of the other
#     one.
# Where `lines` does not say what the rows say, the difference is printed with its cause, if that is
# known:
#   no answer: it refuses the file, by this message.
#   code merged with dropped code is lost: it says `??`, and the sequence before, in the unit, was
#     dropped and has addresses that go down.
#   a relative path stays relative: the line is the row's, and the row's path ends with its path.
# The status is 1 where there is such a difference, or one that no rule explains.
set -eu
here=$(cd "$(dirname "$0")" && pwd)
top=$(dirname "$here")
for tool in python3 readelf objcopy llvm-dwarfdump addr2line eu-addr2line llvm-symbolizer; do
    command -v "$tool" >/dev/null || { echo "places: $tool is missing"; exit 1; }
done
lines=${LINES_PROGRAM-$top/crates/lines/out/lines}
if [ ! -x "$lines" ]; then
    (cd "$top/crates/lines" && rt run -- --version >/dev/null)
fi
options=()
while [ "${1-}" = --columns ] || [ "${1-}" = --each ]; do
    options+=("$1")
    shift
done
. "$here/programs.sh"
echo "${#programs[@]} programs built, $passed_over passed over"
python3 "$here/places.py" "${options[@]}" "$lines" "${programs[@]}" "$@"
