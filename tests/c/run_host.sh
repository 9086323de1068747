#!/usr/bin/env bash
# Builds the C program against the static library of the crate host, runs it and compares what it prints.
# Needs the kit (RT names its command, else rt) and a C compiler (CC, else gcc or cc).
set -euo pipefail
cd "$(dirname "$0")/../.."
cc=${CC:-$(command -v gcc || command -v cc || true)}
if [ -z "$cc" ]; then
    echo "run_host: no C compiler found" >&2
    exit 1
fi
scripts/libraries.sh host
library=target/staticlib/libhost.a
if [ ! -s "$library" ]; then
    echo "run_host: $library is missing" >&2
    exit 1
fi
# as the header says, of C's functions memset is needed, at most
if nm -u "$library" | awk '$1 == "U" { print $2 }' | grep -vx memset; then
    echo "run_host: the library needs a function" >&2
    exit 1
fi
work=$(mktemp -d)
trap 'rm -rf "$work"' EXIT
"$cc" -std=c11 -Wall -Wextra -Werror -O2 -I include -o "$work/host_test" tests/c/host_test.c "$library"
"$work/host_test" > "$work/lines"
if ! diff -u tests/c/host_test.expected "$work/lines"; then
    echo "run_host: the output differs from tests/c/host_test.expected" >&2
    exit 1
fi
echo "run_host: ok, $(wc -l < "$work/lines") lines"
