#!/usr/bin/env bash
# Builds the proved calls as static libraries and the program meshlist, calls the libraries from C, and compares all with the second implementation in
# reference/.
# CITTERNBLAZE_SEED sets the seed of random input, CITTERNBLAZE_GRIDS the number of random grids; RT names the kit's command, else rt; with
# RT=true nothing is built, and what stands in target/ is taken.
set -euo pipefail
cd "$(dirname "$0")/.."

scripts/libraries.sh capi meshlist
scripts/c_test.sh
scripts/examples.sh
tests/c/run_host.sh

# an endless loop ends here, and not with the machine's memory
ulimit -v 8000000
within() { timeout --kill-after=10 "$@"; }
within 600 cargo test --quiet --release --jobs 1 --manifest-path reference/Cargo.toml
within 600 cargo test --quiet --release --jobs 1 --manifest-path reference/compare/Cargo.toml -- --nocapture --test-threads 1
echo "compare: all calls and meshlist as the second implementation has them"
