#!/usr/bin/env bash
# What can be checked of the texts in seconds, before anything is proved: documents, declarations for C and Rust, contracts, and the form of shell
# and Rust sources, the last where the toolchain has a formatter.
set -euo pipefail
cd "$(dirname "$0")/.."

for check in scripts/documents.py scripts/headers.py scripts/proof/contracts.py; do
  "$check" --test
  "$check"
done
for check in scripts/reading.py scripts/rooms.py; do
  "$check" --test
done
scripts/reading.py --check
scripts/rooms.py

mapfile -t shells < <(grep -lE '^#!/(usr/bin/env bash|bin/(ba)?sh)' .ci/run scripts/* tests/c/* 2>/dev/null || true)
if command -v shellcheck >/dev/null 2>&1; then
  shellcheck "${shells[@]}"
  echo "texts: shellcheck finds nothing in ${#shells[@]} scripts"
fi

if cargo fmt --version >/dev/null 2>&1; then
  for manifest in bindings/Cargo.toml reference/Cargo.toml reference/compare/Cargo.toml tools/Cargo.toml; do
    cargo fmt --check --manifest-path "$manifest"
  done
  echo "texts: Rust sources are formatted"
fi
