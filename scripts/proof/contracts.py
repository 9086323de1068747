#!/usr/bin/python3
"""A quick look at the contracts of all functions under crates/, before anything is proved.

Found are a public function with a `requires`, a function that gives or writes something and has no `ensures`, and a public one that may write to lent
memory of which its `ensures` does not say what it becomes (`x.new`), or in which of its result's references it is from then on (`x.entry.ghost_name`); a
private one may leave open what a lent work array holds. A method of a public trait is public. `main` is left out: no contract can say what a program
reads and writes.

    contracts.py [ROOT]    a line for each; exit status 1 where there is one. ROOT holds crates/, else it is this repository
    contracts.py --test    show that each kind is found
"""
import pathlib
import re
import sys

def head_of(rest):
    """The head of the function that `rest` starts with, up to its body."""
    square, i = 0, 0
    while i < len(rest):
        square += {"[": 1, "]": -1}.get(rest[i], 0)
        if rest[i] == ";" and not square:    # not the one of an array's type
            return rest[:i]
        if rest[i] == "{":
            if not re.search(r"(requires|ensures)\*?(\s+\w+)?$", rest[:i].rstrip()):
                return rest[:i]
            depth, i = 1, i + 1
            while depth and i < len(rest):
                depth += {"{": 1, "}": -1}.get(rest[i], 0)
                i += 1
            continue
        i += 1
    return rest


def faults(head, name, public):
    """What the contract of a function lacks, in words."""
    signature = re.split(r"\b(?:requires|ensures)\b", head)[0]
    promises = "".join(re.findall(r"\bensures\b.*", head, flags=re.S))
    told = []
    if public and re.search(r"\brequires\b", head):
        told.append(f"pub fn {name} has a `requires`")
    lent = re.findall(r"(\w+)\s*:\s*&\s*(?:'\w+\s+)?mut\b", signature)
    if ("->" in signature or lent) and not promises:
        told.append(f"fn {name} has no `ensures`")
    elif public:
        told += [
            f"fn {name} says nothing of `{one}`, which it may write"
            for one in lent
            if not re.search(rf"\b{one}\.(new|entry\.ghost_name)\b", promises)
        ]
    return told


def of_traits(text):
    """Where the blocks stand that implement a trait for a type."""
    return [
        (m.start(), text.find("\n}", m.start()))
        for m in re.finditer(r"^impl\b[^{;]*\bfor\b[^{;]*\{", text, flags=re.M)
    ]


def public_traits(text):
    """Where the blocks of public traits stand."""
    return [(m.start(), text.find("\n}", m.start())) for m in re.finditer(r"^pub trait\b[^{;]*\{", text, flags=re.M)]


def look(text):
    text = re.sub(r"//[^\n]*", "", text)
    told, kept, shown = [], of_traits(text), public_traits(text)
    for m in re.finditer(r"\b(pub )?(?:extern \"C\" )?fn (\w+)", text):
        if m.group(2) != "main" and not any(start < m.start() < end for start, end in kept):
            public = bool(m.group(1)) or any(start < m.start() < end for start, end in shown)
            told += faults(head_of(text[m.start():]), m.group(2), public)
    return told


GOOD = 'pub fn a(x: &mut [u8; 4]) -> u8\n    ensures { get_or x.new 0 0 ≡ result }\n{\n    1\n}\n'
OF_TRAIT = "impl Keys for List {\n    fn key(&self) -> usize {\n        1\n    }\n}\n"
TRAIT = "pub trait Keys {\n    fn key(&self, i: usize) -> usize\n        ensures { result ≡ i };\n}\n"
HELD = "pub fn a<'k>(x: &'k mut [u8]) -> Held<'k>\n    ensures { result.x.ghost_name ≡ x.entry.ghost_name }\n{\n    Held { x }\n}\n"
BAD = {
    "a public requires": GOOD.replace("    ensures", "    requires { length x.old ≡ 4 }\n    ensures"),
    "no ensures": "fn a(x: u8) -> u8 {\n    x\n}\n",
    "lent memory left open": GOOD.replace("get_or x.new 0 0 ≡ ", "0 ≡ "),
    "of lent memory only what it was": GOOD.replace("x.new", "x.old"),
    "lent memory without a contract": "fn a(x: &mut [u8]) {\n}\n",
    "lent memory with a lifetime left open": HELD.replace("x.entry.ghost_name", "result.x.ghost_name"),
    "a method without a contract": OF_TRAIT.replace("Keys for ", ""),
    "a requires of a public trait's method": TRAIT.replace("        ensures", "        requires { i < 4 }\n        ensures"),
}


def self_test():
    told = ["a whole contract is taken for one that lacks"] if any(look(text) for text in (GOOD, OF_TRAIT, TRAIT, HELD)) else []
    return told + [f"not found: {name}" for name, text in BAD.items() if not look(text)]


def main(words):
    if words == ["--test"]:
        told = self_test()
    else:
        root = pathlib.Path(words[0]) if words else pathlib.Path(__file__).resolve().parents[2]
        files = sorted(root.glob("crates/*/src/**/*.rt"))
        told = [f"{path.relative_to(root)}: {one}" for path in files for one in look(path.read_text(encoding="utf-8"))]
        if not files:
            told = [f"no source below {root}/crates"]
    for one in told:
        print("contracts: " + one, file=sys.stderr)
    if not told:
        print("contracts: " + ("each kind is found" if words == ["--test"] else f"{len(files)} files looked through, nothing lacks"))
    return 1 if told else 0


if __name__ == "__main__":
    sys.exit(main(sys.argv[1:]))
