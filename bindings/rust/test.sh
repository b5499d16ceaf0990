#!/usr/bin/env bash
# The tests of the crate for Cargo, over the archive of `make` in crates/gimli_c: its own, those of its documentation, of which some are
# programs that the compiler refuses; the object file of the example compiler.rs, linked; what clippy says of it; and the package that
# `cargo package` makes. Where cargo is missing it says so, and ends well.
set -eu
cd "$(dirname "$0")"
command -v cargo >/dev/null || { echo "gimli_line_proved: cargo is missing: the crate for Cargo isn't tried"; exit 0; }
make -s -C ../../crates/gimli_c
cargo test --offline --quiet
cargo build --offline --quiet --examples
linked=0
if [ "$(uname -m)" = x86_64 ]; then
    for version in 2 3 4 5; do
        for form in listed in-place; do
            source=$(cargo run --offline --quiet --example compiler -- $version $form)
            linked=$((linked + $(../../crates/gimli_c/examples/linked.sh $version <<<"$source")))
        done
    done
fi
if cargo clippy --version >/dev/null 2>&1; then
    cargo clippy --offline --quiet --all-targets -- -D warnings
else
    echo "gimli_line_proved: clippy is missing: it isn't asked"
fi
# The package is unpacked and built apart from this tree, by the folder of the archive.
GIMLI_LINE_DIR=$(cd ../../crates/gimli_c/build && pwd) cargo package --offline --quiet --allow-dirty --no-metadata
echo "gimli_line_proved: tests, documentation, clippy and the package; $linked answers of readelf, addr2line and gdb on a linked object"
