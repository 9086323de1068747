#!/usr/bin/env bash
# Runs README's commands as they stand, and compares what they print with what README says: the program proved and unproved, the programs in C and
# Python, and the tool's installation, the last into a folder of its own. The tool's other lines are run by scripts/tools.sh. Wants the libraries
# and the program built (scripts/libraries.sh), so that nothing is proved again, and tools/target/release/citternblaze.
set -euo pipefail
cd "$(dirname "$0")/.."
work=$(mktemp -d)
trap 'rm -rf "$work"' EXIT
fail() { echo "readme: $*" >&2; exit 1; }

# the one command that starts so
command_of() {
  sed -n 's/^    //p' README.md | grep -F "$1" | sed 's/  *#.*//' >"$work/lines" || true
  [ "$(wc -l <"$work/lines")" -eq 1 ] || fail "README has not one line with $1"
  cat "$work/lines"
}

mkdir -p target
sed -n '/^    cells /,/^$/s/^    //p' README.md >"$work/listing"
[ "$(wc -l <"$work/listing")" -eq 3 ] || fail "README has no listing"
for start in "rt try" "scripts/libraries.sh meshlist"; do
  line=$(command_of "$start")
  bash -c "$line" >"$work/printed" || fail "ends with a fault: $line"
  tail -n 3 "$work/printed" | diff "$work/listing" - || fail "prints another listing: $line"
done

# the libraries are taken as they are built
export RT=true

sed -n '/^```c$/,/^```$/p' README.md | sed '1d;$d' >target/ten.c
sed -n '/^```python$/,/^```$/p' README.md | sed '1d;$d' >target/ten.py
for start in "citternblaze scan" "make install" "export PKG_CONFIG_PATH" "cc -o" "PYTHONPATH="; do command_of "$start"; done >"$work/script"
PATH=$PWD/tools/target/release:/usr/bin:$PATH bash -e "$work/script" >"$work/told" 2>&1 || { cat "$work/told" >&2; fail "the programs in C and Python are not built or end with a fault"; }
sed -n 's/.*they print `\([^`]*\)` and `\([^`]*\)`.*/\1\n\2/p' README.md >"$work/expected"
[ "$(wc -l <"$work/expected")" -eq 2 ] || fail "README does not say what the programs in C and Python print"
tail -n 2 "$work/told" | diff "$work/expected" - || fail "the programs in C and Python print other lines"

# of what is installed some are links, which `rt ci` refuses in the checkout
make --silent uninstall PREFIX="$PWD/target/installed"

line=$(command_of "cargo install")
bash -c "$line --quiet --root $work" 2>"$work/told" || { cat "$work/told" >&2; fail "ends with a fault: $line"; }
"$work/bin/citternblaze" --help >/dev/null

echo "readme: its commands do what it says"
