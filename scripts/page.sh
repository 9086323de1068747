#!/usr/bin/env bash
# Scans shapes, makes pages of the scans, and tries them in a browser: scripts/page_test.py says what is tried. Wants
# tools/target/release/citternblaze (scripts/tools.sh builds it). A folder that is named gets screenshots.
set -euo pipefail
cd "$(dirname "$0")/.."
tool=tools/target/release/citternblaze

work=$(mktemp -d)
trap 'rm -rf "$work"' EXIT

# a scan with thin slabs, a ball, and a ring that stands out of the grid; a cell that is split; and many slabs, for a large mesh
printf 'citternblaze shapes\n%s\n%s\n%s\n%s\n' 'slab 0.1 0.05 1 18 19' 'slab -0.3 0.2 1 30 30.6' 'ball 41 22 46 9' \
  'torus 12 40 45 0.2 0.3 1 11 2.5' >"$work/scan.shapes"
"$tool" scan --box 6 6 6 --size 10 "$work/scan.shapes" --output "$work/scan.txt"
cp samples/texts/split-cell.txt "$work/split.txt"
awk 'BEGIN { print "citternblaze shapes"; for (k = 0; k < 52; k++) print "slab 0.02 0.01 1", 1 + 1.1 * k, 1.4 + 1.1 * k }' >"$work/many.shapes"
"$tool" scan --box 7 7 6 --size 10 "$work/many.shapes" --output "$work/many.txt" 2>/dev/null

for name in scan split many; do
  "$tool" export --form html "$work/$name.txt" --output "$work/$name.html" 2>/dev/null
  "$tool" export "$work/$name.txt" --output "$work/$name.ply" 2>/dev/null
  "$tool" list --any-size "$work/$name.txt" --output "$work/$name.listing"
  "$tool" surfaces --json "$work/$name.txt" --output "$work/$name.json" 2>/dev/null
done

timeout --kill-after=10 600 /usr/bin/python3 scripts/page_test.py "$work" "$@"
