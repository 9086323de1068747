#!/usr/bin/env bash
# Times the library of this tree beside another build of it, whose libcapi.a is in the folder that the first argument names, in one run
# (docs/SPEED.md). The others are the benchmark's: milliseconds for each measure, and the front of the names of the only grids to take.
# Wants target/staticlib/libcapi.a and libhost.a (`scripts/libraries.sh capi host`).
set -euo pipefail
cd "$(dirname "$0")/.."

shared() {
    cc -shared -Wl,-Bsymbolic -Wl,--whole-archive "$1/libcapi.a" -Wl,--no-whole-archive -o "$2"
}
mkdir -p target/beside
shared "$1" target/beside/old.so
shared target/staticlib target/beside/new.so
cargo run --quiet --release --jobs 1 --manifest-path reference/compare/Cargo.toml --bin beside -- target/beside/old.so target/beside/new.so "${@:2}"
