#!/usr/bin/python3
"""Compares the declarations in include/ with the functions that they declare.

Each `extern "C"` function of crates/capi and crates/host stands in the Rattle source. Its name, the names, order, constness and width of its
parameters and its result are compared with include/citternblaze.h, include/citternblaze_host.h and the same for Rust. Inline functions,
structs and constants of a header, which no source has, are passed over.

    headers.py           compare; exit status 1 and a line for each difference
    headers.py --test    show that differences are found, on changed copies
"""
import pathlib
import re
import sys

ROOT = pathlib.Path(__file__).resolve().parent.parent
FILES = {
    "capi": "crates/capi/src/lib.rt",
    "host": "crates/host/src/lib.rt",
    "header": "include/citternblaze.h",
    "host header": "include/citternblaze_host.h",
    "rust": "include/citternblaze.rs",
    "rust host": "include/citternblaze_host.rs",
}
C_NAMES = {"uint8_t": "u8", "uint16_t": "u16", "uint32_t": "u32", "uint64_t": "u64", "size_t": "usize", "double": "f64"}
WIDTHS = set(C_NAMES.values())


class Unread(Exception):
    """A declaration that this script cannot read."""


def no_comments(text):
    return re.sub(r"/\*.*?\*/|//[^\n]*", " ", text, flags=re.S)


def parts(text):
    """The parameters between the brackets, split at commas."""
    return [" ".join(part.split()) for part in text.split(",") if part.strip()]


def width(name, where):
    if name not in WIDTHS:
        raise Unread(f"{where}: the type {name} is not known here")
    return name


# ---- Rattle source: a slice is a pointer and a length


def of_source(text):
    """The functions of a Rattle source, each as its parameters and its result, in the words of Rust."""
    found = {}
    head = r'extern\s+"C"\s+fn\s+(\w+)\s*\(([^)]*)\)\s*->\s*(\w+)'
    for name, parameters, result in re.findall(head, no_comments(text)):
        listed = [slot for part in parts(parameters) for slot in source_slots(part, name)]
        found[name] = (listed, width(result, name))
    count = len(re.findall(r'\bextern\s+"C"\s+fn\b', no_comments(text)))
    if count != len(found):
        raise Unread(f'{count} functions are extern "C" and {len(found)} were read')
    return found


def source_slots(part, where):
    name, kind = (word.strip() for word in part.split(":", 1))
    lent = re.fullmatch(r"&\s*(mut\s)?\s*\[\s*(\w+)\s*\]", kind)
    if not lent:
        return [(name, width(kind, where))]
    pointer = ("*mut " if lent.group(1) else "*const ") + width(lent.group(2), where)
    return [(name, pointer), (name + "_len", "usize")]


# ---- C headers


def top_level(text):
    """The declarations of a header outside of any braces; those with a body, and those of types and tables, are left out."""
    text = re.sub(r"^[ \t]*#(?:[^\n]*\\\n)*[^\n]*$", "", no_comments(text), flags=re.M)
    text = re.sub(r'extern\s+"C"\s*\{', "", text)
    found, chunk, depth = [], "", 0
    for sign in text:
        if sign == "{":
            chunk += "{" if depth == 0 else ""
            depth += 1
        elif sign == "}":
            depth = max(depth - 1, 0)
            if depth == 0 and re.search(r"\)\s*\{$", chunk):
                chunk = ""    # the end of an inline function, which has no semicolon
        elif depth == 0 and sign == ";":
            found.append(" ".join(chunk.split()))
            chunk = ""
        elif depth == 0:
            chunk += sign
    return [one for one in found if "{" not in one and not re.match(r"(static|inline|typedef|struct|enum|extern\s+const|_Static_assert|static_assert)\b", one)]


def of_header(text):
    found = {}
    for one in top_level(text):
        read = re.fullmatch(r"(?:[A-Z_]+\s+)*(\w+)\s+(citternblaze_\w+)\s*\((.*)\)", one)
        if not read:
            raise Unread(f"a declaration that cannot be read: {one[:80]}")
        result, name, parameters = read.groups()
        found[name] = ([c_slot(part, name) for part in parts(parameters)], c_width(result, name))
    return found


def c_width(name, where):
    if name not in C_NAMES:
        raise Unread(f"{where}: the type {name} is not known here")
    return C_NAMES[name]


def c_slot(part, where):
    read = re.fullmatch(r"(const )?\s*(\w+)\s*(\*?)\s*(\w+)", part)
    if not read:
        raise Unread(f"{where}: a parameter that cannot be read: {part}")
    const, kind, star, name = read.groups()
    pointer = ("*const " if const else "*mut ") if star else ""
    return name, pointer + c_width(kind, where)


# ---- Rust


def of_rust(text):
    found = {}
    for block in re.findall(r'(?:extern\s+"C"|functions!)\s*\{(.*?)\n\}', no_comments(text), flags=re.S):
        for name, parameters, result in re.findall(r"\bfn\s+(\w+)\s*\(([^)]*)\)\s*->\s*(\w+)\s*;", block):
            listed = [tuple(word.strip() for word in part.split(":", 1)) for part in parts(parameters)]
            found[name] = (listed, width(result, name))
    return found


# ---- comparison


def one_name(declared, source):
    """The length of a function's only list may be called `length` in a header."""
    listed, result = declared
    lengths = [name for name, _ in source[0] if name.endswith("_len")]
    if len(lengths) == 1:
        listed = [(lengths[0], kind) if name == "length" else (name, kind) for name, kind in listed]
    return listed, result


def compare(source, declared, file):
    told = [f"{file}: {name} is not declared" for name in source if name not in declared]
    told += [f"{file}: {name} is declared, and no source has it" for name in declared if name not in source]
    for name in source:
        if name not in declared:
            continue
        ours, theirs = source[name], one_name(declared[name], source[name])
        if ours[1] != theirs[1]:
            told.append(f"{file}: {name} has the result {theirs[1]}, in the source {ours[1]}")
        if len(ours[0]) != len(theirs[0]):
            told.append(f"{file}: {name} has {len(theirs[0])} parameters, from the source {len(ours[0])}")
            continue
        for k, (here, there) in enumerate(zip(ours[0], theirs[0])):
            if here != there:
                told.append(f"{file}: {name}, parameter {k}: {there[0]} of type {there[1]}, in the source {here[0]} of type {here[1]}")
    return told


def differences(texts):
    """A line for each difference between the texts."""
    try:
        calls, host = of_source(texts["capi"]), of_source(texts["host"])
        told = compare(calls, of_header(texts["header"]), FILES["header"])
        told += compare(host, of_header(texts["host header"]), FILES["host header"])
        told += compare(calls, of_rust(texts["rust"]), FILES["rust"])
        told += compare(host, of_rust(texts["rust host"]), FILES["rust host"])
    except Unread as fault:
        return [str(fault)]
    if len(calls) < 20 or len(host) < 3:
        told.append(f"only {len(calls)} and {len(host)} functions were read in the source")
    return told


# ---- self-test

# file, what stands there, what is put in its place: each must be found
CHANGES = [
    ("header", "uint32_t edge, uint32_t index", "uint32_t edge, uint16_t index"),
    ("header", "const uint32_t *starts", "uint32_t *starts"),
    ("header", "uint32_t edge, uint32_t index", "uint32_t index, uint32_t edge"),
    ("header", "size_t citternblaze_mesh(", "uint32_t citternblaze_mesh("),
    ("header", "size_t citternblaze_nearest(", "size_t citternblaze_nearby("),
    ("header", "double x, double y", "double x, uint64_t y"),
    ("host header", "uint64_t citternblaze_bundle_cells(", "uint32_t citternblaze_bundle_cells("),
    ("host header", "const uint8_t *bytes", "uint8_t *bytes"),
    ("rust", "index: u32,", "index: u64,"),
    ("rust", "cells: *const u16,", "cells: *mut u16,"),
    ("rust", "ab: u16,\n        ac: u16,", "ac: u16,\n        ab: u16,"),
    ("rust host", "length: usize) -> u64", "length: u32) -> u64"),
    ("capi", "starts: &mut [u32],", "starts: &[u32],"),
    ("host", "-> u32", "-> u64"),
]

# what a header may have besides, without a difference
BESIDES = """
#define CITTERNBLAZE_ANSWER_COUNT 1
#define CITTERNBLAZE_TWICE(x) \\
  (2 * (x))
typedef struct citternblaze_grid {
  const uint16_t *cells; size_t cells_len;
} citternblaze_grid;
struct citternblaze_more { size_t n; };
enum { CITTERNBLAZE_FIRST, CITTERNBLAZE_SECOND };
_Static_assert(sizeof(size_t) == 8, "64 bits");
static const char *const citternblaze_words[] = {"none", "one; two"};
CITTERNBLAZE_INLINE size_t citternblaze_twice(size_t n) { return 2 * n; }
/* A function ( of its own; */
static inline size_t citternblaze_check_grid(const citternblaze_grid *grid, uint64_t *answer) {
  if (grid == NULL) { return 0; }
  return citternblaze_check(grid->cells, grid->cells_len, NULL, 0, NULL, 0, NULL, 0, answer, 6);
}
"""


def self_test(texts):
    told = differences(texts)
    if told:
        return ["the files as they are differ: " + told[0]]
    failures = []
    for file, old, new in CHANGES:
        if old not in texts[file]:
            failures.append(f"nothing to change in {FILES[file]}: {old}")
        elif not differences({**texts, file: texts[file].replace(old, new, 1)}):
            failures.append(f"not found in {FILES[file]}: {new} for {old}")
    for place in ("#include <stdint.h>\n", "size_t citternblaze_check("):
        more = texts["header"].replace(place, place + BESIDES if place.startswith("#") else BESIDES + place, 1)
        if told := differences({**texts, "header": more}):
            failures.append("what a header may have besides is taken for a difference: " + told[0])
    return failures


def main(words):
    texts = {key: (ROOT / file).read_text(encoding="utf-8") for key, file in FILES.items()}
    told = self_test(texts) if "--test" in words else differences(texts)
    for line in told:
        print("headers: " + line, file=sys.stderr)
    if told:
        return 1
    if "--test" in words:
        print(f"headers: {len(CHANGES)} changed declarations found")
    else:
        count = len(of_source(texts["capi"])) + len(of_source(texts["host"]))
        print(f"headers: {count} functions declared as the source has them")
    return 0


if __name__ == "__main__":
    sys.exit(main(sys.argv[1:]))
