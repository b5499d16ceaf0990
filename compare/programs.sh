# Builds programs of compare/sources by each compiler at hand, for the scripts that source this one:
# their paths are in `programs`, and `passed_over` counts those that a compiler can't do. `here` is
# this folder.
work=$(mktemp -d)
trap 'rm -rf "$work"' EXIT
passed_over=0
programs=()

# tried NAME COMMAND..: the command makes the program NAME.
tried() {
    local name=$1
    shift
    if (cd "$here/sources" && "$@") >"$work/told" 2>&1; then
        programs+=("$work/$name")
    else
        passed_over=$((passed_over + 1))
    fi
}

# A program of C, one of C++, and one whose units differ in their flags: the linker keeps the
# templates of the first and drops those of the second.
c_program() {
    tried "$1" "$2" "${@:3}" -o "$work/$1" main.c sums.c
}
lists_program() {
    tried "$1" "$2" "${@:3}" -o "$work/$1" main.cpp lists.cpp
}
faults() {
    local out=$1 compiler=$2
    shift 2
    "$compiler" "$@" -c faults_first.cpp -o "$out.1.o" && "$compiler" "$@" -c faults_main.cpp -o "$out.3.o" &&
        "$compiler" "$@" -fPIC -fstack-protector-strong -c faults_second.cpp -o "$out.2.o" &&
        "$compiler" "$@" "$out".[123].o -o "$out"
}
faults_program() {
    tried "$1" faults "$work/$1" "${@:2}"
}
stripped() {
    objcopy --only-keep-debug "$1" "$2.debug" && objcopy --strip-debug --add-gnu-debuglink="$2.debug" "$1" "$2"
}

for compiler in gcc clang; do
    command -v $compiler >/dev/null || continue
    plus=${compiler/gcc/g}++
    for version in 2 3 4 5; do
        for level in -O0 -O2; do
            flags=(-g "-gdwarf-$version" "$level")
            c_program "$compiler-$version$level" $compiler "${flags[@]}"
            lists_program "$plus-$version$level-lists" "$plus" "${flags[@]}"
            faults_program "$plus-$version$level-faults" "$plus" "${flags[@]}"
        done
    done
    for version in 4 5; do
        flags=(-g "-gdwarf-$version" -O2)
        c_program "$compiler-$version-no-pie" $compiler "${flags[@]}" -no-pie
        c_program "$compiler-$version-shared" $compiler "${flags[@]}" -fPIC -shared
        lists_program "$plus-$version-static" "$plus" "${flags[@]}" -static
        faults_program "$plus-$version-gc" "$plus" "${flags[@]}" -ffunction-sections -Wl,--gc-sections
        faults_program "$plus-$version-lld-gc" "$plus" "${flags[@]}" -ffunction-sections -Wl,--gc-sections -fuse-ld=lld
        lists_program "$plus-$version-zlib" "$plus" "${flags[@]}" -gz=zlib
        tried "$plus-$version-zlib-gnu" objcopy --compress-debug-sections=zlib-gnu \
            "$work/$plus-$version-O2-lists" "$work/$plus-$version-zlib-gnu"
        tried "$plus-$version-stripped" stripped "$work/$plus-$version-O2-lists" "$work/$plus-$version-stripped"
        tried "$compiler-$version.o" $compiler "${flags[@]}" -c sums.c -o "$work/$compiler-$version.o"
    done
done
if command -v rustc >/dev/null; then
    for version in 2 4 5; do
        tried "rustc-$version" rustc -g -C opt-level=2 -C "dwarf-version=$version" -o "$work/rustc-$version" counts.rs
    done
    tried rustc-5-debug rustc -g -o "$work/rustc-5-debug" counts.rs
fi
