#!/usr/bin/env bash
# Times every call of the library in one run, and prints the tables of docs/SPEED.md in Markdown. Takes about five minutes on an idle machine.
# Wants target/staticlib/libcapi.a and libhost.a (`scripts/libraries.sh capi host`), or the folder of both in CITTERNBLAZE_LIB.
#
#     scripts/speed.sh [--write] [--instructions] [MILLISECONDS]
#
# --write puts the tables between the two marks in docs/SPEED.md; --instructions counts instructions alone. MILLISECONDS are for each measure, else
# 200. VTK's filters are timed beside the calls where libvtk9-dev is installed, instructions are counted where valgrind is; nothing else differs.
set -euo pipefail
cd "$(dirname "$0")/.."

write=no
only=all
milliseconds=200
for word in "$@"; do
  case $word in
    --write) write=yes ;;
    --instructions) only=instructions ;;
    [0-9]*) milliseconds=$word ;;
    *) echo "speed.sh [--write] [--instructions] [MILLISECONDS]" >&2; exit 2 ;;
  esac
done

out=target/speed
library=${CITTERNBLAZE_LIB:-target/staticlib}
bench=reference/target/release/bench
mkdir -p "$out/grids"

build() {
  CITTERNBLAZE_LIB=$(realpath "$library") cargo build --quiet --release --jobs 1 --manifest-path reference/compare/Cargo.toml --bin bench
}

# the machine, what ran beside, and what was measured
heading() {
  local model load commit
  model=$(lscpu | sed -n 's/^Model name: *//p')
  load=$(cut -d ' ' -f 1 /proc/loadavg)
  commit=$(git describe --always --dirty 2>/dev/null || echo "no repository")
  echo "Commit $commit${CITTERNBLAZE_LIB:+, the library in $CITTERNBLAZE_LIB}, $(date -u +%F); $(nproc) cores of an $model; load before the run $load; $milliseconds ms a measure; $(rustc --version | cut -d ' ' -f 1,2) for the second implementation."
}

# VTK's filters on the same cells, where its headers and libraries are
vtk() {
  local headers version
  headers=$(find /usr/include -maxdepth 1 -name 'vtk-9*' | sort | tail -n 1)
  [ -n "$headers" ] || { echo "speed: no VTK here, so it is not beside" >&2; return 0; }
  version=${headers##*/vtk-}
  c++ -O2 -w -std=c++17 -isystem "$headers" -I include reference/compare/peers/vtk.cpp "$library/libcapi.a" \
    -lvtkFiltersCore-"$version" -lvtkCommonExecutionModel-"$version" -lvtkCommonDataModel-"$version" -lvtkCommonMisc-"$version" \
    -lvtkCommonCore-"$version" -o "$out/vtk" || { echo "speed: VTK $version does not build, so it is not beside" >&2; return 0; }
  "$bench" grids "$out/grids"
  printf '\n**Beside VTK %s, one thread: the mesh call and the places call together, and these over its filters**\n\n' "$version"
  "$out/vtk" "$milliseconds" "$out"/grids/{"one surface",gyroid,slabs,"9 levels","36 levels","102 levels"}.txt
}

# one grid: instructions of each call, over its cells or triangles
counted() {
  local name=$1 sizes
  sizes=$(valgrind --quiet --tool=callgrind --callgrind-out-file="$out/callgrind.out" "$bench" count "$name" 2>"$out/valgrind.log" </dev/null) ||
    { echo "speed: callgrind fails on $name ($out/valgrind.log)" >&2; return 0; }
  callgrind_annotate --inclusive=yes --threshold=100 "$out/callgrind.out" |
    awk -v name="$name" -v sizes="$sizes" '
      match($0, /:counted_[a-z_]+/) { call = substr($0, RSTART + 9, RLENGTH - 9); number = $1; gsub(",", "", number); total[call] = number }
      END { split(sizes, of, " ")
        printf "| %s | %.0f | %.0f | %.0f | %.0f |\n", name, total["check"] / of[1], (total["mesh_any"] - total["check"]) / of[2],
          (total["mesh_exact"] - total["check"]) / of[2], (total["places"] - total["check"]) / of[1] }'
}

instructions() {
  local name
  command -v valgrind >/dev/null || { echo "speed: no valgrind here, so no instructions" >&2; return 0; }
  printf '\n**Instructions, by callgrind: the check a cell; beyond it the mesh a triangle, the places a cell**\n\n'
  printf '| grid | check | mesh, any room | mesh, exact room | places |\n|---|---|---|---|---|\n'
  "$bench" count | while read -r name; do counted "$name"; done
}

everything() {
  heading
  "$bench" "$milliseconds" 2>"$out/measures.txt"
  vtk
  instructions
}

# puts the tables where they stand
put() {
  awk -v tables="$out/tables.md" '
    /^<!-- speed.sh: / { print; while ((getline line < tables) > 0) print line; kept = 1; next }
    /^<!-- end of speed.sh -->$/ { kept = 0 }
    !kept' docs/SPEED.md >"$out/SPEED.md"
  cp "$out/SPEED.md" docs/SPEED.md
}

build
if [ "$only" = instructions ]; then
  instructions
  exit 0
fi
everything | tee "$out/tables.md"
if [ "$write" = yes ]; then
  put
  echo "speed: docs/SPEED.md has the tables of this run" >&2
fi
