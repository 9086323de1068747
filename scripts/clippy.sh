#!/usr/bin/env bash
# Clippy over the Rust sources, a warning being an error, where the toolchain has it. Wants libcapi.a and libhost.a in target/staticlib
# (scripts/compare.sh builds them), or in the folder that CITTERNBLAZE_LIB names.
set -euo pipefail
cd "$(dirname "$0")/.."

if ! cargo clippy --version >/dev/null 2>&1; then
  echo "clippy: not there, so nothing is looked at"
  exit 0
fi
for manifest in reference/Cargo.toml tools/Cargo.toml; do
  cargo clippy --quiet --jobs 1 --manifest-path "$manifest" --workspace --all-targets -- -D warnings
done
echo "clippy: no warning"
