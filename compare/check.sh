#!/usr/bin/env bash
# Asks `lines check` of healthy programs, which have to give the status 0, and prints beside it what
# llvm-dwarfdump --verify says of their line programs, where it is there. Outside the gate.
#
#     compare/check.sh [PROGRAM..]
#
# The programs are those of compare/places.sh, and those that are named; of a stripped one its debug
# file is asked. LINES_PROGRAM=FILE is asked in place of crates/lines. A line of the table counts
# programs: those with a finding of a kind, and those of which llvm-dwarfdump says an error. The status is 1 where a program doesn't give 0.
set -eu
here=$(cd "$(dirname "$0")" && pwd)
top=$(dirname "$here")
lines=${LINES_PROGRAM-$top/crates/lines/out/lines}
if [ ! -x "$lines" ]; then
    (cd "$top/crates/lines" && rt run -- --version >/dev/null)
fi
. "$here/programs.sh"
echo "${#programs[@]} programs built, $passed_over passed over"
unhealthy=0
for program in "${programs[@]}" "$@"; do
    [ -e "$program.debug" ] && program=$program.debug
    if ! "$lines" check "$program" >"$work/found" 2>&1; then
        unhealthy=$((unhealthy + 1))
        echo "$(basename "$program"): not healthy"
        head -5 "$work/found"
    fi
    sed -n 's/^\([a-z0-9-]* ([a-z]*)\): [0-9]*$/lines: \1/p' "$work/found" >>"$work/kinds"
    if command -v llvm-dwarfdump >/dev/null; then
        timeout 60 llvm-dwarfdump --verify --debug-line "$program" 2>&1 |
            sed -n 's/^\(error\|warning\): \.debug_line\[[^]]*\]/llvm-dwarfdump, \1:/p' |
            sed 's/[0-9]\+/N/g' | sort -u >>"$work/kinds"
    fi
done
echo "programs with each kind of finding:"
sort "$work/kinds" | uniq -c
echo "$unhealthy programs are not healthy"
[ "$unhealthy" = 0 ]
