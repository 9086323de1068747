#!/usr/bin/env bash
# Tests the calls for Rust of bindings/, builds and tests the program citternblaze of tools/, runs it on all samples and on random grids, and takes what it writes to readers that are not
# ours: meshio and assimp for meshes, xmllint and rsvg-convert for pictures. Wants libcapi.a and libhost.a in target/staticlib (`scripts/libraries.sh capi
# host`), or in the folder that CITTERNBLAZE_LIB names.
set -euo pipefail
cd "$(dirname "$0")/.."
manifest=tools/Cargo.toml
tool=tools/target/release/citternblaze

within() { timeout --kill-after=10 "$@"; }
within 900 cargo build --quiet --release --jobs 1 --manifest-path "$manifest"
within 900 cargo test --quiet --release --jobs 1 --manifest-path "$manifest" --workspace

work=$(mktemp -d)
trap 'rm -rf "$work"' EXIT
fail() { echo "tools: $*" >&2; exit 1; }

# bundles: to text and back, twice; one that the reader refuses is refused with exit status 1, and nothing is written
bundles=0 refused=0
for bundle in samples/*.bundle; do
  rm -f "$work"/*
  status=0
  "$tool" unpack "$bundle" --output "$work/first" 2>"$work/told" || status=$?
  if [ "$status" -eq 0 ]; then
    "$tool" pack "$work/first" --output "$work/again"
    cmp "$bundle" "$work/again"
    "$tool" unpack "$work/again" >"$work/second"
    cmp "$work/first" "$work/second"
    bundles=$((bundles + 1))
  else
    [ "$status" -eq 1 ] && [ ! -e "$work/first" ] && [ "$(wc -l <"$work/told")" -eq 1 ] || fail "unpack $bundle ends with $status"
    refused=$((refused + 1))
  fi
done
[ "$bundles" -gt 20 ] && [ "$refused" -gt 10 ] || fail "$bundles bundles and $refused refused are too few"

# texts: to a bundle with its places beside it, and back
texts=(samples/texts/*.txt tools/target/tmp/random-*.txt)
[ "${#texts[@]}" -ge 20 ] || fail "random grids are missing"
for text in "${texts[@]}"; do
  rm -f "$work"/*
  "$tool" unpack "$text" --output "$work/first"
  "$tool" pack "$work/first" --places "$work/places" --output "$work/bundle"
  "$tool" unpack "$work/bundle" --places "$work/places" >"$work/second"
  cmp "$work/first" "$work/second"
done

# what assimp reads of a file: meshes, materials, vertices and faces, one after the other
assimp_says() {
  within 60 assimp info "$@" | awk '/^(Meshes|Materials|Vertices|Faces):/ && $2 ~ /^[0-9]+$/ { has[$1] = $2 } END { print has["Meshes:"], has["Materials:"], has["Vertices:"], has["Faces:"] }'
}

# meshes, read back by others. Of PLY assimp keeps every vertex, of OBJ and glTF those of each surface that a triangle has, of STL each corner. meshio
# reads the cell data of all VTU files in one run, and compares them with the faces of the PLY.
meshes=0
for text in "${texts[@]}"; do
  rm -f "$work"/mesh.*
  for form in ply obj stl gltf; do "$tool" export --form "$form" "$text" --output "$work/mesh.$form" 2>"$work/told"; done
  faces=$(grep -c '^f ' "$work/mesh.obj" || true)
  vertices=$(grep -c '^v ' "$work/mesh.obj" || true)
  # assimp takes no mesh without a triangle
  [ "$faces" -gt 0 ] || continue
  meshes=$((meshes + 1))
  "$tool" export --form vtu "$text" --output "$work/$meshes.vtu" 2>"$work/told"
  cp "$work/mesh.ply" "$work/$meshes.ply"
  xmllint --noout "$work/$meshes.vtu"
  used=$(awk '/^v / { at[++n] = $0 } /^g / { group = $2 } /^f / { for (k = 2; k <= 4; k++) print group, at[$k] }' "$work/mesh.obj" | sort -u | wc -l)
  points=$(awk '/^g / { group = $2 } /^f / { for (k = 2; k <= 4; k++) print group, $k }' "$work/mesh.obj" | sort -u | wc -l)
  groups=$(grep -c '^g ' "$work/mesh.obj")
  reads() {
    local found
    found=$(assimp_says "$work/mesh.$1" "${@:3}")
    [ "$found" = "$2" ] || fail "assimp reads $found meshes, materials, vertices and faces from the $1 file of $text, and not $2"
  }
  # with --raw there is a material of assimp's own
  reads ply "1 1 $vertices $faces" --raw
  reads obj "$groups 1 $used $faces"
  reads stl "1 1 $((3 * faces)) $faces" --raw
  reads gltf "$groups $((groups + 1)) $points $faces" --raw
done
[ "$meshes" -ge 12 ] || fail "$meshes meshes are too few"
within 120 /usr/bin/python3 scripts/read_vtu.py "$work"/*.vtu

# a mesh that was received, with its points, gives the same files as its grid, but for what only the grid tells
for text in samples/texts/*.txt; do
  "$tool" list --any-size "$text" >"$work/words"
  "$tool" export --form points "$text" --output "$work/points" 2>"$work/told"
  "$tool" export --form obj --as-is "$text" --output "$work/sent" 2>"$work/told"
  "$tool" export --form obj --as-is --points "$work/points" "$work/words" >"$work/arrived"
  cmp "$work/sent" "$work/arrived"
  "$tool" check-mesh --grid "$text" "$work/words" >"$work/told" || fail "$text does not have the mesh that it sent"
  grep -q '^open sides that are losses 0$' "$work/told"
done

# what list prints, check-mesh reads
for text in "${texts[@]}"; do
  "$tool" list --any-size "$text" | "$tool" check-mesh >/dev/null || fail "check-mesh finds a fault in the mesh of $text"
done

# the other commands, on every text: each tells something, and a refusal is one line
for text in "${texts[@]}"; do
  for command in check book runs "nearest 1 2 3" shading surfaces; do
    status=0
    read -ra words <<<"$command"
    "$tool" "${words[@]}" "$text" >"$work/out" 2>"$work/told" || status=$?
    [ "$status" -le 1 ] && [ "$(grep -vc ' note: ' "$work/told")" -eq "$status" ] || fail "$command $text ends with $status"
  done
done

# the lines of README and of the guide do what they say; the guide's grid is packed as it stands, and its shapes are those of the sample
citternblaze() { "$tool" "$@"; }
mkdir -p target
sed -n '/^citternblaze grid$/,/^```$/p' docs/GUIDE.md | sed '$d' >target/one.txt
diff <(sed -n '/^    citternblaze shapes$/,/^$/s/^    //p' docs/GUIDE.md) samples/shapes/guide.txt || fail "the guide's shapes are not those of samples/shapes/guide.txt"
for document in README.md docs/GUIDE.md; do
  lines=$(sed -n '/^    citternblaze shapes$/d; s/^    \(citternblaze .*\)/\1/p' "$document")
  [ "$(wc -l <<<"$lines")" -ge 4 ] || fail "$document has no lines to try"
  while read -r line; do eval "$line" >"$work/out" 2>"$work/told" || fail "a line of $document ends with a fault: $line"; done <<<"$lines"
done

# the guide's figures
"$tool" check target/guide.txt | grep -q 'accepted, crossings 764$' || fail "the guide's scan has other crossings"
"$tool" surfaces target/guide.txt >"$work/out" 2>"$work/told"
grep -q '^5 surfaces ' "$work/out" && grep -q 'volume 5882.65' "$work/out" || fail "the guide's scan has other surfaces"
"$tool" surfaces target/guide-classic.txt >"$work/out" 2>"$work/told"
grep -q '^2 surfaces ' "$work/out" && grep -q '^surface 1: 20 triangles, open' "$work/out" || fail "the guide's other scan has other surfaces"

# pictures
for text in "${texts[@]}"; do
  rm -f "$work"/*
  "$tool" draw --face 3 "$text" --output "$work/face.svg"
  "$tool" draw --cell 0 "$text" --output "$work/cell.svg"
  "$tool" draw --mesh "$text" --output "$work/mesh.svg"
  # a plane through a node misses no grid
  "$tool" draw --section "z=$(awk '/^node/ { print $5; exit }' "$text")" --crossings "$text" --output "$work/section.svg"
  "$tool" surfaces "$text" >"$work/told"
  "$tool" surfaces --json "$text" | python3 -m json.tool >"$work/told"
  xmllint --noout "$work"/*.svg
  for picture in "$work"/*.svg; do rsvg-convert "$picture" --output "$work/picture.png"; done
done
for sheet in samples/texts/*.sheet; do
  "$tool" chains "$sheet" >"$work/told"
  "$tool" chains --picture --crossings "$sheet" --output "$work/sheet.svg"
  xmllint --noout "$work/sheet.svg"
  rsvg-convert "$work/sheet.svg" --output "$work/picture.png"
done
scripts/pictures.sh --check

# the scan: made as it was, and its sheets on paper; a sheet has the size that it says
scan=samples/texts/scan.txt
rm -f "$work"/*
scripts/make_scan.py | cmp - "$scan" || fail "scripts/make_scan.py makes another scan"
"$tool" draw --section y=0:60:20 --section 30,30,30/1,1,0.5 --scale 1:6 "$scan" --output "$work/film.svg" 2>"$work/told"
sheets=("$work"/film-[1-5].svg)
[ "${#sheets[@]}" -eq 5 ] || fail "${#sheets[@]} sheets are not 5"
for sheet in "${sheets[@]}"; do
  grep -q 'width="210mm" height="297mm"' "$sheet" || fail "$sheet is no sheet in millimetres"
done
rsvg-convert --format=pdf --output "$work/films.pdf" "${sheets[@]}"
[ "$(head -c 5 "$work/films.pdf")" = %PDF- ] || fail "the sheets make no PDF"
for looks in "--colour side" "--colour type" "--only 0-99,300" "--clip y=18.7" "--grid none"; do
  # shellcheck disable=SC2086
  "$tool" draw --mesh $looks "$scan" --output "$work/mesh.svg"
  xmllint --noout "$work/mesh.svg"
done
"$tool" draw --face 0,1,8 "$scan" --output "$work/face.svg"
"$tool" draw --cell-at 20,18,14 "$scan" --output "$work/cell.svg"
[ "$("$tool" surfaces "$scan" | grep -c '^surface')" -eq 5 ] || fail "the scan has not five surfaces"

echo "tools: $bundles bundles and ${#texts[@]} texts both ways, $refused bundles refused, $meshes meshes as meshio and assimp read them, pictures up to date"
