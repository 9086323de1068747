#!/usr/bin/env bash
# Installs what the gate needs beyond the Rattle kit, where it is missing: compilers for C and C++, Rust, Python and some of its modules, shellcheck,
# and for the tools' files readers that are not ours, from Debian's packages.
set -euo pipefail

missing=()
command -v cc >/dev/null 2>&1 || missing+=(gcc libc6-dev)
command -v c++ >/dev/null 2>&1 || missing+=(g++)
command -v cargo >/dev/null 2>&1 || missing+=(cargo rustc)
[ -x /usr/bin/python3 ] || missing+=(python3)
command -v shellcheck >/dev/null 2>&1 || missing+=(shellcheck)
command -v assimp >/dev/null 2>&1 || missing+=(assimp-utils)
command -v xmllint >/dev/null 2>&1 || missing+=(libxml2-utils)
# the page is tried in a browser
command -v chromium >/dev/null 2>&1 || missing+=(chromium)
command -v chromedriver >/dev/null 2>&1 || missing+=(chromium-driver)
/usr/bin/python3 -c 'import selenium' >/dev/null 2>&1 || missing+=(python3-selenium)
# pictures have text: a font comes with it
command -v rsvg-convert >/dev/null 2>&1 || missing+=(librsvg2-bin fonts-dejavu-core)
command -v make >/dev/null 2>&1 || missing+=(make)
command -v pkg-config >/dev/null 2>&1 || missing+=(pkg-config)
command -v valgrind >/dev/null 2>&1 || missing+=(valgrind)
# for the package of python/, run by Debian's own Python
has_module() { [ -x /usr/bin/python3 ] && /usr/bin/python3 -c "import $1" >/dev/null 2>&1; }
for module in numpy pytest meshio pip setuptools wheel; do
  has_module "$module" || missing+=("python3-$module")
done
[ "${#missing[@]}" -eq 0 ] && exit 0

as_root=()
[ "$(id -u)" -eq 0 ] || as_root=(sudo)
"${as_root[@]}" apt-get update -q
"${as_root[@]}" apt-get install -y -q --no-install-recommends "${missing[@]}"
