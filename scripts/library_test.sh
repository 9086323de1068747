#!/usr/bin/env bash
# Installs the library into an empty prefix, and builds and runs from there what a user would: examples/ in C and C++, static and shared, by gcc and
# clang; the package of python/ from the checkout, installed by pip, and once under valgrind. Wants target/staticlib/libcapi.a and libhost.a
# (scripts/libraries.sh) and reference/target/release/meshlist_ref (scripts/samples.sh).
set -euo pipefail
cd "$(dirname "$0")/.."
python=/usr/bin/python3
fail() { echo "library: $*" >&2; exit 1; }

work=$(mktemp -d)
trap 'rm -rf "$work"' EXIT
prefix=$work/prefix
make --silent install PREFIX="$prefix" STATICLIBS=target/staticlib

# the functions of the two headers are exported, and nothing else
exported() { nm -D --defined-only "$prefix/lib/libcitternblaze.so" | awk '{ print $3 }' | sort; }
declared() { scripts/declared.sh include/citternblaze.h include/citternblaze_host.h; }
diff <(exported) <(declared) || fail "what the shared library exports is not what the headers declare"
[ "$(exported | wc -l)" -eq 23 ] || fail "$(exported | wc -l) functions are exported"
readelf -d "$prefix/lib/libcitternblaze.so" | grep -q 'soname: \[libcitternblaze.so.0\]' || fail "another soname"
# no instruction beyond the level x86-64-v2: those of AVX start with v, the others are of BMI, LZCNT and MOVBE (tzcnt is how objdump shows `rep bsf`,
# which an older processor takes for bsf)
if objdump -d --no-show-raw-insn "$prefix/lib/libcitternblaze.so" |
  grep -E '^ +[0-9a-f]+:[[:space:]]+(v[a-z0-9]+|andn|bextr|bls(i|r|msk)|bzhi|mulx|pdep|pext|rorx|sarx|shlx|shrx|lzcnt|movbe)[lqw]?[[:space:]]'; then
  fail "the library needs more than x86-64-v2"
fi

# examples, as pkg-config says
export PKG_CONFIG_PATH=$prefix/lib/pkgconfig LD_LIBRARY_PATH=$prefix/lib
read -ra flags <<<"$(pkg-config --cflags citternblaze)"
read -ra shared <<<"$(pkg-config --libs citternblaze)"
warnings=(-Wall -Wextra -pedantic -Werror -O2)
[ "$(pkg-config --modversion citternblaze)" = "$(cat VERSION)" ] || fail "pkg-config tells another version"
built=0
for compiler in cc clang c++ clang++; do
  command -v "$compiler" >/dev/null 2>&1 || continue
  case $compiler in *++) standard=(-std=c++11 -x c++) ;; *) standard=(-std=c99 -x c) ;; esac
  "$compiler" "${standard[@]}" "${warnings[@]}" "${flags[@]}" -o "$work/shared-$compiler" examples/triangles.c -x none "${shared[@]}"
  "$compiler" "${standard[@]}" "${warnings[@]}" "${flags[@]}" -o "$work/static-$compiler" examples/triangles.c -x none "$prefix/lib/libcitternblaze.a"
  built=$((built + 2))
done
for program in "$work"/shared-* "$work"/static-*; do
  for expected in examples/*.out; do
    status=0
    timeout 60 "$program" "samples/$(basename "$expected" .out).bundle" >"$work/out" || status=$?
    [ "$status" -le 1 ] || fail "$program ends with $status"
    diff "$expected" "$work/out"
  done
done

# the package: from the checkout with the library of the prefix, and installed beside it
tests() { "$python" -m pytest -q -p no:cacheprovider "$@"; }
export PYTHONDONTWRITEBYTECODE=1 CITTERNBLAZE_LIBRARY=$prefix/lib/libcitternblaze.so
PYTHONPATH=python tests --doctest-modules python/citternblaze python/tests
PYTHONMALLOC=malloc PYTHONPATH=python timeout 600 valgrind -q --error-exitcode=9 --undef-value-errors=no \
  "$python" -m pytest -q -p no:cacheprovider python/tests/test_hostile.py -k "not huge" >"$work/out" || { cat "$work/out"; fail "valgrind found a fault"; }
cp -r python "$work/package"
cp "$prefix/lib/libcitternblaze.so.0" "$work/package/citternblaze"
"$python" -m pip install -q --no-build-isolation --no-deps --no-index --disable-pip-version-check --root-user-action=ignore \
  --target "$work/site" "$work/package"
(
  # nothing but what pip installed
  cd "$work"
  unset CITTERNBLAZE_LIBRARY LD_LIBRARY_PATH
  PYTHONPATH=$work/site "$python" - <<'END'
import citternblaze
grid = citternblaze.Grid.from_text(citternblaze.ONE_CELL)
assert len(grid.mesh()) == 2, grid
END
)
PYTHONPATH=$work/site "$python" examples/scan.py samples/texts/split-cell.txt "$work/scan.vtu"
[ -s "$work/scan.vtu" ] || fail "examples/scan.py writes nothing"

make --silent uninstall PREFIX="$prefix"
left=$(find "$prefix" ! -type d)
[ -z "$left" ] || fail "uninstall leaves $left"
echo "library: installed, $(declared | wc -l) functions, $built builds of the example, Python from the checkout and installed"
