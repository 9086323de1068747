#!/usr/bin/env bash
# Makes libcitternblaze.a and libcitternblaze.so of the calls and the host's three functions, in a folder.
#   library.sh DIR
# STATICLIBS names a folder that has libcapi.a and libhost.a, else scripts/libraries.sh proves and builds them. CC names the compiler that links.
set -euo pipefail
cd "$(dirname "$0")/.."
folder=${1:?library.sh wants a folder}
version=$(cat VERSION)
major=${version%%.*}

built=${STATICLIBS:-}
if [ -z "$built" ]; then
  scripts/libraries.sh capi host
  built=target/staticlib
fi

mkdir -p "$folder"
work=$(mktemp -d "$folder/.new.XXXXXX")
trap 'rm -rf "$work"' EXIT
for library in capi host; do
  ar x --output "$work" "$built/lib$library.a"
done
ar crsD "$work/libcitternblaze.a" "$work/capi.o" "$work/host.o"

# the functions of the headers are exported, and nothing else
{
  echo "{"
  echo "  global:"
  nm -g --defined-only "$work/capi.o" "$work/host.o" | awk '$2 == "T" { print "    " $3 ";" }' | sort
  echo "  local: *;"
  echo "};"
} >"$work/exports"
"${CC:-cc}" -shared -Wl,-soname,"libcitternblaze.so.$major" -Wl,--version-script,"$work/exports" -Wl,-z,defs -Wl,-z,noexecstack \
  -o "$work/libcitternblaze.so.$version" "$work/capi.o" "$work/host.o"
chmod 644 "$work/libcitternblaze.so.$version"

mv "$work/libcitternblaze.a" "$work/libcitternblaze.so.$version" "$folder"
# no symbolic links: `rt ci` refuses any in the checkout
ln -f "$folder/libcitternblaze.so.$version" "$folder/libcitternblaze.so.$major"
ln -f "$folder/libcitternblaze.so.$version" "$folder/libcitternblaze.so"
