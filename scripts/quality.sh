#!/usr/bin/env bash
# Makes docs/QUALITY.md and its pictures anew, or with --check compares them with what they must be. Wants target/staticlib/libcapi.a
# (`scripts/libraries.sh capi`).
set -euo pipefail
cd "$(dirname "$0")/.."

within() { timeout --kill-after=10 "$@"; }
within 900 cargo build --quiet --release --jobs 1 --manifest-path tools/Cargo.toml --bins --example quality
within 300 /usr/bin/python3 scripts/quality.py "$@"
