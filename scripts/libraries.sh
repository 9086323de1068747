#!/usr/bin/env bash
# Proves and builds what the other scripts use: the two static libraries, target/staticlib/libcapi.a and libhost.a, and the program
# target/bin/meshlist. What `rt` has kept of these crates and of those below them is not proved again.
#   libraries.sh [capi | host | meshlist]..    with no word all three
# RT names the kit's command, else rt; with RT=true nothing is built, and what stands there must do.
set -euo pipefail
cd "$(dirname "$0")/.."
rt=${RT:-rt}
fail() { echo "libraries: $*" >&2; exit 1; }

# in a crate's folder
library() {
  (cd "crates/$1" && "$rt" lib) || fail "$1 is not proved or not built"
  mkdir -p target/staticlib
  cp "crates/$1/out/lib$1.a" target/staticlib
}

# `rt run` proves and builds a program, and runs it
program() {
  mkdir -p target/bin
  (cd "crates/$1" && "$rt" run <stdin) >"target/bin/$1.out" || fail "$1 is not proved or not built"
  cmp "target/bin/$1.out" "crates/$1/stdout" || fail "$1 prints something else than its stdout"
  cp "crates/$1/out/$1" target/bin
}

[ "$#" -gt 0 ] || set -- capi host meshlist
for name in "$@"; do
  case $name in
    capi | host) built=target/staticlib/lib$name.a make=library ;;
    meshlist) built=target/bin/meshlist make=program ;;
    *) fail "$name is none of capi, host and meshlist" ;;
  esac
  [ "$rt" = true ] || "$make" "$name"
  [ -s "$built" ] || fail "$built is missing"
done
