#!/usr/bin/python3
"""Makes docs/READING.md: for each call, the definitions that its contract rests on, in an order in which each stands after those that it uses.

    reading.py            write docs/READING.md
    reading.py --check    exit status 1 where it is not as this script makes it
    reading.py --test     show that a changed definition, and one more that is used, are found

A definition is an item of a file in crates/*/specs, or a struct or an enum of the code that a definition or a contract names. What the kit's own
libraries define is not among them.
"""
import heapq
import pathlib
import re
import sys
import tempfile
from collections import namedtuple

ROOT = pathlib.Path(__file__).resolve().parent.parent
WORD = re.compile(r"[^\s(){}\[\];,.\\λ⌜⌝«»:]+")
PATH = re.compile(r"Rattle\.(\w+)\.(specs\..+)$")
HEAD = re.compile(r"^(\s*)(?:unfoldable |abbrev )?(?:pub )?(abbrev |record |data |opaque )?([^\s(){}\[\];,.:=]+)(.*)$")
NO_NAMES = {"unfoldable", "module", "where", "unfolding", "use", "pub", "let", "in", "|", "record", "data", "abbrev", "--"}

# the calls, in the order of the documents: title, crate, function
CALLS = [
    ("Face call", "face", "face_join"),
    ("Grid check", "grid", "check"),
    ("Opening call", "grid", "open"),
    ("Setting call", "grid", "set_count"),
    ("Loops call", "mesh", "loops"),
    ("Mesh call", "mesh", "mesh"),
    ("Places call", "places", "places"),
    ("Record reader, kind and next start", "bundle", "record_at"),
    ("Record reader, body", "bundle", "body_at"),
    ("Bundle reader", "bundle", "read"),
    ("Bundle writer", "bundle", "write"),
    ("Host: refusal", "host", "citternblaze_bundle_refusal"),
    ("Host: cells", "host", "citternblaze_bundle_cells"),
    ("Host: edges", "host", "citternblaze_bundle_edges"),
    ("Listing", "listing", "list"),
    ("Shading call", "shading", "shade"),
    ("Table of common cells", "cases", "look_up"),
    ("Nearest call", "nearest", "nearest_point"),
    ("Booking", "booking", "book"),
    ("Check of a flat grid", "flat", "check"),
    ("Face call of a flat grid", "flat", "flat_join"),
    ("Chains call", "flat", "chains"),
    ("Run call", "layers", "mesh_run"),
    ("Joined call", "layers", "mesh_joined"),
]

# file: its path from the root; line: from 1; lines: those that are neither empty nor comment
Item = namedtuple("Item", "file name line lines uses")


def statements(lines):
    """The `use` statements of a file, each as one line, and the numbers of their lines."""
    found, taken, at = [], set(), 0
    while at < len(lines):
        if re.match(r"\s*(unfoldable )?(pub )?(ghost )?use ", lines[at]):
            text, end = lines[at].strip(), at
            while "{" in text and "}" not in text:
                end += 1
                text += " " + lines[end].strip()
            found.append(text)
            taken.update(range(at, end + 1))
            at = end
        at += 1
    return found, taken


def imports(lines):
    """What a file imports from crates: a name as it is used there to the crate, the module and the name in it; and modules by another name."""
    names, modules = {}, {}
    found, taken = statements(lines)
    for text in found:
        m = re.match(r"^(?:unfoldable )?(?:pub )?(?:ghost )?use ([^ ;{]+?)(?:\.\{(.*)\}|(?: as ([^ ;]+)))?;?$", text)
        path = PATH.match(m.group(1)) if m else None
        if not path:
            continue
        for entry in filter(None, (part.strip() for part in (m.group(2) or "").split(","))):
            name, _, other = entry.partition(" as ")
            names[(other or name).strip()] = (path.group(1), path.group(2), name.strip())
        if m.group(3):
            modules[m.group(3)] = (path.group(1), path.group(2))
    return names, modules, taken


def indent(line):
    return len(line) - len(line.lstrip())


def is_text(line):
    return bool(line.strip()) and not line.strip().startswith("--")


def end_of(lines, start, name):
    """The line behind the last of the definition that starts here."""
    end = start + 1
    for at in range(start + 1, len(lines)):
        line = lines[at]
        if not is_text(line):
            continue
        first = (WORD.findall(line) or [""])[0]
        more = line.strip().startswith((")", "]", "}", "|"))
        if indent(line) <= indent(lines[start]) and first not in (name, "unfolding") and not more:
            break
        end = at + 1
    return end


def definitions(lines, taken):
    """The definitions of a file of specs: name, first line, end; fields of a record are part of it."""
    found, behind = [], 0
    for at, line in enumerate(lines):
        if at in taken or at < behind or not is_text(line) or indent(line) > 4:
            continue
        m = HEAD.match(line)
        if not m or m.group(3) in NO_NAMES:
            continue
        typed = re.match(r"^\s*(?:[({].*[)}])?\s*:\s", m.group(4)) or re.match(r"^(\s+[({].*)?\s*:\s", m.group(4))
        if m.group(2) or typed:
            end = end_of(lines, at, m.group(3))
            found.append((m.group(3), at, end))
            behind = end
    return found


def constructors(lines, found):
    """For each constructor of a data type of these definitions the type's name."""
    made = {}
    for name, at, end in found:
        if re.match(r"\s*(pub )?data ", lines[at]):
            for line in lines[at + 1 : end]:
                m = re.match(r"\s+([^(){}:]+) : ", line)
                if m and indent(line) == indent(lines[at]) + 2:
                    made.update((one, name) for one in m.group(1).split())
    return made


class House:
    """All definitions of the crates under a root."""

    def __init__(self, root):
        self.root = root
        self.lines = {}
        self.imported = {}
        self.defined = {}
        self.made = {}
        for file in sorted(root.glob("crates/*/specs/**/*.antt")):
            self.read_specs(file)
        self.types = {}
        for file in sorted(root.glob("crates/*/src/**/*.rt")):
            self.read_types(file)

    def read_specs(self, file):
        key = str(file.relative_to(self.root))
        lines = file.read_text(encoding="utf8").split("\n")
        names, modules, taken = imports(lines)
        self.lines[key], self.imported[key] = lines, (names, modules)
        found = definitions(lines, taken)
        self.defined[key] = {name: (at, end) for name, at, end in found}
        self.made[key] = constructors(lines, found)

    def read_types(self, file):
        key, crate = str(file.relative_to(self.root)), file.relative_to(self.root).parts[1]
        lines = file.read_text(encoding="utf8").split("\n")
        self.lines[key], self.imported[key] = lines, imports(lines)[:2]
        self.defined.setdefault(key, {})
        for at, line in enumerate(lines):
            m = re.match(r"pub (?:struct|enum) (\w+)", line)
            if m:
                end = at + 1
                while "{" in "".join(lines[at:end]) and "}" not in "".join(lines[at:end]):
                    end += 1
                self.defined[key][m.group(1)] = (at, end)
                self.types[(crate, m.group(1))] = key

    def find(self, crate, module, name, depth=0):
        """The file and the name of what a module of a crate calls by this name."""
        declared = re.match(r"specs\.declared\.(?:[a-z_]\w*\.)*([A-Z]\w*)", module)
        if declared:
            key = self.types.get((crate, declared.group(1)))
            return (key, declared.group(1)) if key else None
        key = f"crates/{crate}/{module.replace('.', '/')}.antt"
        return self.known(key, name, depth) if key in self.defined else None

    def known(self, key, name, depth=0):
        """The file and the name of what a file calls by this name, if it is of a crate."""
        name = self.made.get(key, {}).get(name, name)
        if name in self.defined[key]:
            return key, name
        if name in self.imported[key][0] and depth < 9:
            return self.find(*self.imported[key][0][name], depth + 1)
        return None

    def named(self, key, lines):
        """What some lines of a file name."""
        found = set()
        for line in lines:
            if line.strip().startswith("--"):
                continue
            # a projection `x.field` names no definition but x
            for word in WORD.findall(re.sub(r"\.[^\s(){}\[\];,.]+", " ", line)):
                found.add(self.known(key, word))
            for other, (crate, module) in self.imported[key][1].items():
                for name in re.findall(r"(?<![\w.·-])" + re.escape(other) + r"\.([^\s(){}\[\];,.]+)", line):
                    found.add(self.find(crate, module, name))
        return {one for one in found if one}

    def item(self, one):
        key, name = one
        at, end = self.defined[key][name]
        lines = self.lines[key][at:end]
        used = self.named(key, lines) - {one}
        if key.endswith(".rt"):
            words = set(WORD.findall(" ".join(lines)))
            crate = key.split("/")[1]
            used |= {(self.types[(crate, word)], word) for word in words if (crate, word) in self.types} - {one}
        return Item(key, name, at + 1, sum(map(is_text, lines)), frozenset(used))

    def contract(self, crate, function):
        """Where a function stands, and what its contract names."""
        for key, lines in self.lines.items():
            if not key.startswith(f"crates/{crate}/src/"):
                continue
            for at, line in enumerate(lines):
                if re.match(rf'pub (extern "C" )?fn {function}\b', line):
                    end = next(e for e in range(at, len(lines)) if lines[e] == "{" or lines[e].endswith(" {"))
                    first = next((e for e in range(at, end) if re.match(r"\s*(requires|ensures)\b", lines[e])), end)
                    return key, at + 1, self.named(key, lines[first:end])
        raise SystemExit(f"reading: {crate} has no public function {function}")

    def functions(self, crate):
        """The public functions of a crate."""
        for key, lines in self.lines.items():
            if key.startswith(f"crates/{crate}/src/"):
                yield from (m.group(2) for m in (re.match(r'pub (extern "C" )?fn (\w+)', line) for line in lines) if m)

    def behind_calls(self):
        """All that a call or a C function rests on."""
        calls = [(crate, function) for _, crate, function in CALLS] + [("capi", function) for function in self.functions("capi")]
        return self.closure(set().union(*(self.contract(*call)[2] for call in calls)))

    def closure(self, roots):
        items, left = {}, list(roots)
        while left:
            one = left.pop()
            if one not in items:
                items[one] = self.item(one)
                left.extend(items[one].uses)
        return items


def in_order(items, crates):
    """Items such that each stands after those that it uses, as few changes of file between as a simple rule gives."""
    waits = {one: len(item.uses) for one, item in items.items()}
    users = {one: [] for one in items}
    for one, item in items.items():
        for used in item.uses:
            users[used].append(one)
    rank = {name: at for at, name in enumerate(crates)}

    def place(one):
        item = items[one]
        return rank.get(item.file.split("/")[1], len(rank)), item.file, item.line

    ready = [(place(one), one) for one, count in waits.items() if count == 0]
    heapq.heapify(ready)
    order, file = [], None
    while ready:
        same = [entry for entry in ready if entry[1][0] == file]
        entry = min(same or ready)
        ready.remove(entry)
        order.append(items[entry[1]])
        file = entry[1][0]
        for user in users[entry[1]]:
            waits[user] -= 1
            if waits[user] == 0:
                ready.append((place(user), user))
    # definitions that name each other
    rest = sorted((place(one), one) for one in items if waits[one] > 0)
    return order + [items[one] for _, one in rest]


def link(text, file, line):
    return f"[{text}](../{file}#L{line})"


def size(items):
    """How many definitions, lines and files."""
    return len(items), sum(item.lines for item in items), len({item.file for item in items})


def anchor(title):
    return re.sub(r"[^a-z0-9 -]", "", title.lower()).replace(" ", "-")


def overview(house):
    """A row for each call, and one for all with the C functions."""
    out = ["| call | definitions | lines | files |", "|---|---|---|---|"]
    for title, crate, function in CALLS:
        many = size(house.closure(house.contract(crate, function)[2]).values())
        out.append(f"| [{title}](#{anchor(title)}) | {many[0]} | {many[1]} | {many[2]} |")
    many = size(house.behind_calls().values())
    return out + [f"| all of them, with the C functions | {many[0]} | {many[1]} | {many[2]} |", ""]


def page(house, crates, title, crate, function):
    key, line, roots = house.contract(crate, function)
    order = in_order(house.closure(roots), crates)
    out = [f"## {title}", ""]
    out.append(f"Contract of {link(f'`{function}`', key, line)}: {{}} definitions of {{}} lines in {{}} files.".format(*size(order)))
    out.append("")
    file = None
    for item in order:
        if item.file != file:
            file = item.file
            out.append(f"- `{file[len('crates/'):]}`: " + link(f"`{item.name}`", item.file, item.line))
        else:
            out[-1] += ", " + link(f"`{item.name}`", item.file, item.line)
    return out + [""]


def made(root):
    house = House(root)
    crates = [re.split(r"[ :]", line)[0] for line in (root / "crates.txt").read_text().split("\n") if re.match(r"\w+( staticlib)?:", line)]
    out = [
        "# What a reader has to believe",
        "",
        "For each call: the contract, and the definitions that it rests on, in an order in which each stands after those that it uses. Who reads",
        "them down to the contract has read all that the proof is about, besides the kit's own logic and libraries; everything else in the crates is",
        "checked by machine. Lines are counted without comments and empty lines. `scripts/reading.py` makes this page, and the gate compares.",
        "",
    ]
    out += overview(house)
    for call in CALLS:
        out += page(house, crates, *call)
    return "\n".join(out).rstrip("\n") + "\n"


def test():
    """A definition that moves, and one that a contract comes to use, change the page."""
    with tempfile.TemporaryDirectory() as folder:
        root = pathlib.Path(folder)
        specs, src = root / "crates/face/specs", root / "crates/face/src"
        specs.mkdir(parents=True)
        src.mkdir()
        (root / "crates.txt").write_text("face:\n")
        face = specs / "Face.antt"
        face.write_text("abbrev pub two : ℕ\ntwo = 2\n\nabbrev pub answer : ℕ\nanswer = 3\n")
        (src / "lib.rt").write_text(
            "ghost use Rattle.face.specs.Face.{answer};\npub fn face_join() -> u32\n    ensures { result ≡ answer }\n{\n    3\n}\n"
        )
        house = House(root)
        pages = ["\n".join(page(house, ["face"], *CALLS[0]))]
        face.write_text(face.read_text().replace("answer = 3", "answer = two"))
        pages.append("\n".join(page(House(root), ["face"], *CALLS[0])))
        face.write_text("\n" + face.read_text())
        pages.append("\n".join(page(House(root), ["face"], *CALLS[0])))
    assert "1 definitions" in pages[0] and "2 definitions" in pages[1], pages
    assert pages[1].index("`two`") < pages[1].index("`answer`"), pages[1]
    assert len(set(pages)) == 3, pages
    print("reading: changes are found")


def main():
    if sys.argv[1:] == ["--test"]:
        return test()
    target = ROOT / "docs/READING.md"
    text = made(ROOT)
    if sys.argv[1:] == ["--check"]:
        if not target.is_file() or target.read_text(encoding="utf8") != text:
            raise SystemExit("reading: docs/READING.md is not as scripts/reading.py makes it; run it")
        print(f"reading: docs/READING.md is as it should be, {len(CALLS)} calls")
        return None
    target.write_text(text, encoding="utf8")
    return None


if __name__ == "__main__":
    main()
