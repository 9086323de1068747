#!/usr/bin/env bash
# Runs the program meshlist, and that of the second implementation, on every bundle of samples/, and compares what each prints with the bundle's
# listing, byte for byte. Fails where a bundle has no listing or a listing no bundle. Wants target/bin/meshlist (`scripts/libraries.sh meshlist`).
set -euo pipefail
cd "$(dirname "$0")/.."

cargo build --quiet --release --jobs 1 --manifest-path reference/Cargo.toml --bin meshlist_ref
programs=(target/bin/meshlist reference/target/release/meshlist_ref)

names() { find samples -name "*.$1" -exec basename {} ".$1" \; | sort; }
diff <(names bundle) <(names listing) || { echo "samples: a bundle without a listing, or a listing without a bundle" >&2; exit 1; }

printed=$(mktemp)
trap 'rm -f "$printed"' EXIT
count=0
for name in $(names bundle); do
  for program in "${programs[@]}"; do
    timeout 60 "$program" <"samples/$name.bundle" >"$printed"
    cmp "$printed" "samples/$name.listing" || { echo "samples: $program prints another listing for $name" >&2; exit 1; }
  done
  count=$((count + 1))
done
[ "$count" -gt 0 ] || { echo "samples: none found" >&2; exit 1; }

# what the gate runs the program on is one of them
cmp crates/meshlist/stdin samples/two-on-01.bundle
cmp crates/meshlist/stdout samples/two-on-01.listing

echo "samples: $count bundles, listed as they must be by both programs"
