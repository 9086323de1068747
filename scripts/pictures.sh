#!/usr/bin/env bash
# The pictures of docs/pictures, from the texts of samples/texts and the shapes of docs/GUIDE.md: SVG by the program citternblaze, and PNG of it by rsvg-convert.
#   pictures.sh            make them anew
#   pictures.sh --check    make nothing; fail where an SVG is not as the program draws it, is not well-formed or cannot be turned into a picture
# Wants tools/target/release/citternblaze (scripts/tools.sh builds it).
set -euo pipefail
cd "$(dirname "$0")/.."
tool=tools/target/release/citternblaze

pictures=docs/pictures
if [ "${1:-}" = --check ]; then
  pictures=$(mktemp -d)
  trap 'rm -rf "$pictures"' EXIT
fi

# picture NAME TEXT OPTION..
drawn=()
picture() {
  "$tool" draw "${@:3}" "$2" --output "$pictures/$1.svg"
  drawn+=("$1")
}

picture rule-1-face samples/texts/rule-1-face.txt --face 0,1,2
picture rule-2-face samples/texts/rule-2-face.txt --face 0,1,2
picture folded-face samples/texts/folded-face.txt --face 3
picture octagon samples/texts/octagon.txt --cell 0
picture three-cells samples/texts/three-cells.txt --mesh
picture loop-types samples/texts/loop-types.txt --mesh --colour type --view -78,36
picture split-cell samples/texts/split-cell.txt --mesh
picture scan-section samples/texts/scan.txt --section y=18.7 --scale 1:5
picture scan-mesh samples/texts/scan.txt --mesh
picture scan-clip samples/texts/scan.txt --mesh --clip y=18.7 --view=-60,20
# the scan of docs/GUIDE.md; the sheet has the text's name in it
scan=$(mktemp -d)
trap 'rm -rf "$scan"; [ "$pictures" = docs/pictures ] || rm -rf "$pictures"' EXIT
"$tool" scan --box 6 6 6 --size 10 samples/shapes/guide.txt --output "$scan/guide.txt"
picture guide-section "$scan/guide.txt" --section y=31 --scale 1:5

for picture in "${drawn[@]}"; do
  xmllint --noout "$pictures/$picture.svg"
  rsvg-convert "$pictures/$picture.svg" --output "$pictures/$picture.png"
  if [ "$pictures" != docs/pictures ]; then
    diff "docs/pictures/$picture.svg" "$pictures/$picture.svg" >"$pictures/diff" || { echo "pictures: $picture is not as the program draws it" >&2; head -4 "$pictures/diff" >&2; exit 1; }
    [ -s "docs/pictures/$picture.png" ] || { echo "pictures: docs/pictures/$picture.png is missing" >&2; exit 1; }
  fi
done
