#!/usr/bin/env bash
# Builds examples/triangles.c as C and as C++, runs both on samples, and compares what they print with examples/*.out. Wants
# target/staticlib/libcapi.a (`scripts/libraries.sh capi`).
set -euo pipefail
cd "$(dirname "$0")/.."
library=target/staticlib/libcapi.a
flags=(-Wall -Wextra -Wpedantic -Werror -O2 -Iinclude)

mkdir -p target/c
cc -std=c99 "${flags[@]}" -o target/c/triangles examples/triangles.c "$library"
c++ -std=c++11 "${flags[@]}" -x c++ -o target/c/triangles_cpp examples/triangles.c -x none "$library"

count=0
for expected in examples/*.out; do
  sample=samples/$(basename "$expected" .out).bundle
  for program in target/c/triangles target/c/triangles_cpp; do
    # it ends with 1 where a call refuses
    status=0
    timeout 60 "$program" "$sample" >target/c/triangles.out || status=$?
    [ "$status" -le 1 ] || { echo "examples: $program ends with $status on $sample" >&2; exit 1; }
    diff "$expected" target/c/triangles.out
  done
  count=$((count + 1))
done
[ "$count" -gt 0 ] || { echo "examples: nothing to compare with" >&2; exit 1; }
echo "examples: $count bundles, triangles as they must be, in C and in C++"
