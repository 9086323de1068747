#!/usr/bin/env bash
# Builds the C program that calls every function of include/citternblaze.h, and compares what it prints with what it must. Wants
# target/staticlib/libcapi.a (`scripts/libraries.sh capi`).
set -euo pipefail
cd "$(dirname "$0")/.."
library=target/staticlib/libcapi.a

mkdir -p target/c
cc -std=c99 -Wall -Wextra -Wpedantic -Werror -O2 -pthread -Iinclude -o target/c/capi_test tests/c/capi_test.c "$library"
timeout 60 target/c/capi_test >target/c/capi_test.out
diff tests/c/capi_test.out target/c/capi_test.out

# the library's functions, those declared and those called are the same, so that none is left untested
declared() { scripts/declared.sh include/citternblaze.h; }
called() { grep -oE 'citternblaze_[a-z_]+\(' tests/c/capi_test.c | tr -d '(' | sort -u; }
diff <(nm -g --defined-only "$library" | awk '$2 == "T" { print $3 }' | sort) <(declared)
diff <(declared) <(called | grep -Fxf <(declared))
# and so are those that the header defines over them, as C and as C++; the words of the refusals are those of Python
cc -std=c99 -Wall -Wextra -Wpedantic -Werror -O2 -Iinclude -o target/c/grid_test tests/c/grid_test.c "$library"
timeout 60 target/c/grid_test >target/c/grid_test.out
defined() { grep -oE '^(static inline.* )?\*?citternblaze_[a-z_0-9]+\(' include/citternblaze.h | sed -E 's/.*(citternblaze_[a-z_0-9]+)\($/\1/' | sort -u; }
diff <(defined) <(grep -oE 'citternblaze_[a-z_0-9]+\(' tests/c/grid_test.c | tr -d '(' | sort -u | grep -Fxf <(defined))

# what the header says that they need: no function of C but two, and no memory of their own that is written
if nm -u "$library" | awk '$1 == "U" { print $2 }' | grep -vxE 'memcpy|memset'; then
  echo "c_test: the library links to more" >&2
  exit 1
fi
if nm "$library" | grep -E ' [BbDdCSs] '; then
  echo "c_test: the library has memory of its own" >&2
  exit 1
fi

# every refusal of the header has an example
diff <(grep -oE '#define CITTERNBLAZE_REFUSED_[A-Z_]+' include/citternblaze.h | sed 's/.*REFUSED_/REFUSED_/' | sort -u) \
  <(grep -oE '^  REFUSAL\([A-Z_]+' tests/c/capi_test.c | sed 's/.*(/REFUSED_/' | sort -u)

echo "C program: as expected, $(declared | wc -l) functions called"
