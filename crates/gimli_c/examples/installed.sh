#!/usr/bin/env bash
# Installs the library into an empty folder, builds the example by what pkg-config says of it, shared and static, and runs both;
# reads the header by each standard of C and C++ that the compilers know; looks at the symbols of both libraries; and unpacks what
# `make dist` makes where there is no `rt`. `make check`
# calls it after `make`. Where a tool is missing it says so, and passes over what needs it.
set -eu
here=$(cd "$(dirname "$0")" && pwd)
crate=$(dirname "$here")
work=$(mktemp -d)
trap 'rm -rf "$work"' EXIT
have() { command -v "$1" >/dev/null || { echo "gimli_c: $1 is missing: $2 isn't tried"; false; }; }

make -C "$crate" -s install DESTDIR="$work/root" PREFIX=/opt/gimli
installed=$work/root/opt/gimli

# The shared library has the calls of the header; the static one also the proved ones that these hand on to, and the crate for Cargo calls.
declared() { grep -ohE '^(gimli_line_status |uint32_t |void |const char \*)gimli_line_[a-z_]+' "$@" | grep -oE '[a-z_]+$' | sort -u; }
header=$crate/include/gimli_line.h
nm -D --defined-only "$installed/lib/libgimli_line.so" | awk '$2 == "T" {print $3}' | sort -u >"$work/versions"
# Each has the version of its symbols.
if grep -vE '@@GIMLI_LINE_0\.1$' "$work/versions"; then exit 1; fi
sed 's/@.*//' "$work/versions" >"$work/shared"
nm --defined-only -g "$installed/lib/libgimli_line.a" | awk '$2 == "T" {print $3}' | sort -u >"$work/static"
declared "$header" | cmp - "$work/shared"
declared "$header" "$crate/make/proved.h" | cmp - "$work/static"
# The page of man names each call of the header, and the pages and examples that the header names are there.
for call in $(cat "$work/shared"); do grep -qw "$call" "$installed/share/man/man3/gimli_line.3" || { echo "man: no $call"; exit 1; }; done
for page in INDEX.md CALLING.md signal-handler.md look-up-from-c.md CHANGELOG.md $(grep -oE 'examples/[a-z]+/[a-z_0-9]+\.c' "$installed/include/gimli_line.h" | sort -u); do
    [ -s "$installed/share/doc/gimli_line/$page" ] || { echo "share/doc/gimli_line: no $page"; exit 1; }
done

# The header, and each macro of it that makes a value, without a warning.
printf '%s\n' '#include <gimli_line.h>' 'const char *name(const void *index, const gimli_line_place *place, unsigned version);' \
    'const char *name(const void *index, const gimli_line_place *place, unsigned version) {' '    gimli_line_sections in = GIMLI_LINE_SECTIONS;' \
    '    gimli_line_encoding by = GIMLI_LINE_ENCODING(version);' '    const char *path = gimli_line_place_path(index, place);' \
    '    return in.line_size == by.version ? path : gimli_line_status_sentence(GIMLI_LINE_OK);' '}' >"$work/header.c"
cp "$work/header.c" "$work/header.cc"
[ -z "$(awk 'length > 100' "$header")" ] || { echo "gimli_line.h: a line of more than 100 columns"; exit 1; }
read_header() {
    local compiler=$1 file=$2
    shift 2
    have "$compiler" "the header by it" || return 0
    for standard in "$@"; do
        "$compiler" "-std=$standard" -Wall -Wextra -Wconversion $casts -pedantic -Werror -I "$installed/include" -c "$work/$file" -o "$work/header.o"
    done
}
casts=
for compiler in gcc clang; do read_header $compiler header.c c99 c11 c17 c2x; done
if command -v clang >/dev/null; then clang -std=c11 -Weverything -Wno-padded -Werror -I "$installed/include" -c "$work/header.c" -o "$work/header.o"; fi
casts=-Wold-style-cast
for compiler in g++ clang++; do read_header $compiler header.cc c++11 c++14 c++17 c++20 c++2b; done

# A program over what was installed.
if have pkg-config "a program built by it"; then
    export PKG_CONFIG_PATH=$installed/lib/pkgconfig PKG_CONFIG_SYSROOT_DIR=$work/root
    flags=$(pkg-config --cflags --libs gimli_line)
    # shellcheck disable=SC2086
    cc -std=c11 -g -O1 "$here/c/where_is.c" $flags -o "$work/by_shared"
    # shellcheck disable=SC2086
    cc -std=c11 -g -O1 "$here/c/where_is.c" $(pkg-config --cflags gimli_line) "$installed/lib/libgimli_line.a" -o "$work/by_static"
    main=$(nm "$work/by_static" | awk '$3 == "main" {print $1}')
    place=$("$work/by_static" "$work/by_static" "$main")
    [ "${place%:*}" = "$here/c/where_is.c:$(grep -n '^int main' "$here/c/where_is.c" | cut -d: -f1)" ] ||
        { echo "gimli_c: main is said to be at $place" && exit 1; }
    [ "$(LD_LIBRARY_PATH=$installed/lib "$work/by_shared" "$work/by_static" "$main")" = "$place" ]
fi

# The same by CMake, static and shared, and with the libraries in a folder of another name.
if have cmake "a program built by it"; then
    make -C "$crate" -s install DESTDIR="$work/far" PREFIX=/opt/gimli LIBDIR=/opt/gimli/libraries/here
    mkdir -p "$work/cmake"
    printf '%s\n' 'cmake_minimum_required(VERSION 3.10)' 'project(where_is C)' 'find_package(gimli_line 0.1 REQUIRED)' \
        "add_executable(where_is \"$here/c/where_is.c\")" 'target_link_libraries(where_is gimli_line::gimli_line_static)' \
        "add_executable(where_is_shared \"$here/c/where_is.c\")" 'target_link_libraries(where_is_shared gimli_line::gimli_line)' >"$work/cmake/CMakeLists.txt"
    for words in "-DCMAKE_PREFIX_PATH=$installed" "-Dgimli_line_DIR=$work/far/opt/gimli/libraries/here/cmake/gimli_line"; do
        rm -rf "$work/cmake/build"
        cmake -S "$work/cmake" -B "$work/cmake/build" "$words" >"$work/said" && cmake --build "$work/cmake/build" >>"$work/said" ||
            { cat "$work/said"; exit 1; }
        for name in where_is where_is_shared; do
            [ ! -x "$work/by_static" ] || [ "$("$work/cmake/build/$name" "$work/by_static" "$main")" = "$place" ]
        done
    done
fi

# What `make dist` makes, unpacked into an empty folder on a machine without the kit: it is installed, and each example is built.
make -C "$crate" -s dist
mkdir "$work/unpacked" "$work/words"
tar -C "$work/unpacked" -xzf "$crate"/build/gimli_line-*.tar.gz
for word in make cc gcc c++ g++ as ld ar objcopy sed install ln rm mkdir cp tar gzip sh bash env dirname find cat; do
    path=$(command -v "$word" || true)
    [ -z "$path" ] || ln -s "$path" "$work/words/$word"
done
(
    cd "$work"/unpacked/gimli_line-*
    export PATH=$work/words
    if command -v rt; then exit 1; fi
    make -s install DESTDIR="$work/other" PREFIX=/opt/gimli
    for file in examples/c/*.c; do
        cc -std=c11 -O1 -Wall -Wextra -Werror -I "$work/other/opt/gimli/include" "$file" "$work/other/opt/gimli/lib/libgimli_line.a" -lpthread \
            -o "$work/other_$(sed 's,.*/,,; s,\.c$,,' <<<"$file")"
    done
    [ -z "$(command -v c++)" ] || c++ -std=c++11 -O1 -I "$work/other/opt/gimli/include" examples/cpp/where_is.cc \
        "$work/other/opt/gimli/lib/libgimli_line.a" -o "$work/other_where_is_cpp"
)
cmp "$installed/lib/libgimli_line.a" "$work/other/opt/gimli/lib/libgimli_line.a"
cc -std=c11 -O1 -I "$work/other/opt/gimli/include" -I "$here/c" "$here/tests/directories.c" "$work/other/opt/gimli/lib/libgimli_line.a" \
    -lpthread -o "$work/other_directories"
[ "$("$work/other_directories")" -gt 0 ]

# No memory is lost or misused.
if have valgrind "memory by it" && [ -x "$work/by_static" ]; then
    valgrind -q --error-exitcode=9 --leak-check=full --errors-for-leak-kinds=all "$work/by_static" "$work/by_static" "$main" 0 >/dev/null
fi
echo "gimli_c: installed, $(wc -l <"$work/shared") calls and no other symbol, built by pkg-config and CMake, and from the tar without rt"
