#!/usr/bin/python3
"""Checks the documents against the repository: nothing is built and nothing is proved for it.

- Every path that a document names, in backquotes or as a link, exists.
- Every name of a statement, proof or function exists: in the file that is given with it, or else anywhere in the sources. A file is given with a name
  as a link, [`name`](file), as "`name` in `file`", "`name` (`file`)", or as "`file` (`name`, `name`)".
- The table of crates in docs/ARCHITECTURE.md agrees with crates.txt and with crates/.
- README.md has at most 9,000 bytes, and its commands name programs and files that are there.
- The version in VERSION is that of the header, bindings, the tools and CHANGELOG.md.
- Every closed statement of a crate's specs/ is linked in docs/CLAIMS.md, and every must-fail edit is named in docs/CONTRACTS.md.
- Entries of docs/DECISIONS.md are numbered in turn within their sections, as its contents say.

    documents.py           check; exit status 1 and a line for each fault
    documents.py --test    show that faults are found, on changed copies
    documents.py --number  number the entries of docs/DECISIONS.md, and write its contents
    documents.py --move    give each link with a name whose file has moved its new file, where only one has the name
"""
import os
import pathlib
import re
import sys

ROOT = pathlib.Path(__file__).resolve().parent.parent
# documents whose names are checked; in all others, and in whatever else stands in docs/, only paths are. Notes in docs/changes are of their day
NAMED = ["README.md", "docs/CLAIMS.md", "docs/ARCHITECTURE.md", "docs/CONTRACTS.md", "docs/DEMAND3.md", "docs/DECISIONS.md"]
OTHERS = ["CONTRIBUTING.md", "CHANGELOG.md", "docs/changes/README.md", "samples/README.md"]
# docs/PORT.md tells of files that were there too
OTHERS += sorted(f"docs/{path.name}" for path in (ROOT / "docs").glob("*.md") if f"docs/{path.name}" not in [*NAMED, "docs/PORT.md"])
TEXTS = ["crates.txt", "VERSION", "include/citternblaze.h", "bindings/Cargo.toml", "tools/Cargo.toml"]
# what has a version too, where it is there
MAYBE = ["python/citternblaze/_version.py"]
MOST_BYTES = 9000
# programs that README's commands may start with
PROGRAMS = {"rt", "cd", "cargo", "cc", "citternblaze", "make", "export"}
# what is built, and so is not in the repository
BUILT = ("target/", "tools/target/", "reference/target/")
SOURCES = ("*.rt", "*.antt", "*.edit", "*.rs", "*.h", "*.c", "*.sh", "*.py", "*.toml", "*.out", "*.expected")
FOLDERS = ("crates", "include", "bindings", "tools", "reference", "tests", "examples", "scripts", "samples", ".ci")
WORD = r"[^\s(){}\[\],;:.`\"\\|→λ⌜⌝∷]+"


class Repository:
    """What stands in the repository: files, folders, the words of the sources."""

    def __init__(self, root):
        self.root = root
        self.files = [path for folder in FOLDERS for path in self.below(root / folder)]
        self.names = {part for path in self.files for part in path.relative_to(root).parts}
        self.names |= {name.rsplit(".", 1)[0] for name in self.names}
        self.words = self.names | set(re.findall(r"\w+", (root / "crates.txt").read_text(encoding="utf-8")))
        self.read = {}
        for path in self.files:
            if any(path.match(kind) for kind in SOURCES):
                text = path.read_text(encoding="utf-8", errors="replace")
                self.read[path.relative_to(root).as_posix()] = text
                for word in re.findall(WORD, text):
                    self.words.update((word, word.strip("&*'=<>!+")))

    @staticmethod
    def below(folder):
        for place, folders, files in os.walk(folder):
            folders[:] = [name for name in folders if name != "target"]
            # this script has wrong names of its own, for its test
            yield from (pathlib.Path(place) / name for name in files if name != pathlib.Path(__file__).name)

    def exists(self, path):
        return (self.root / path).exists()

    def has(self, file, name):
        """Whether a file, or a folder, defines a name."""
        if (self.root / file).is_dir():
            return pathlib.PurePath(file).name == name or any(defines(self.read[one], one, name) for one in self.read if one.startswith(file.rstrip("/") + "/"))
        return file in self.read and defines(self.read[file], file, name)

    def homes(self, name, crate):
        """The files of a crate that define a name, statements and proofs apart from code."""
        return [one for one in self.read if one.startswith(f"crates/{crate}/") and defines(self.read[one], one, name)]


def defines(text, file, name):
    end = r"(?![\w′'·-])"
    if file.endswith(".antt"):
        return re.search(r"(?m)^\s*(?:(?:unfoldable|abbrev|opaque|pub|record|data|module)\s+)*" + re.escape(name) + end, text) is not None
    if file.endswith(".rt"):
        return re.search(r"\b(?:fn|struct|enum|const|mod)\s+" + re.escape(name) + end, text) is not None
    return re.search(r"(?<![\w-])" + re.escape(name) + end, text) is not None


# ---- paths and names of a document


def prose(text):
    """The lines of a document outside of code, with their numbers."""
    fenced = False
    for number, line in enumerate(text.split("\n"), 1):
        if line.startswith("```"):
            fenced = not fenced
        elif not fenced and not line.startswith("    "):
            yield number, line


def is_path(span):
    if re.search(r"[\s*{}<>…]|\.\.\.|\bNAME\b|\b[A-Z]+_[A-Z]+\b", span) or span.startswith(BUILT):
        return False
    return span.split("/")[0] in FOLDERS + ("docs",) and "/" in span or span in ("README.md", "CONTRIBUTING.md", "CHANGELOG.md", "VERSION", "crates.txt")


def is_file_name(span):
    return re.fullmatch(r"[\w-]+\.(?:antt|rt|rs|md|py|sh|c|h)", span) is not None


def links(document, line):
    """The links of a line: the text, and the path from the root."""
    for text, target in re.findall(r"\[([^\]]*)\]\(([^)\s]+)\)", line):
        if not re.match(r"[a-z]+:|#", target):
            yield text, os.path.normpath(os.path.join(os.path.dirname(document), target.split("#")[0]))


def given(line):
    """The pairs of file and name that a line gives together in words."""
    for name, file in re.findall(r"`([^`\s]+)` (?:in |\()`([^`\s]+\.(?:antt|rt|h|rs))`", line):
        yield file, name
    for file, names in re.findall(r"`(crates/[^`\s]+\.(?:antt|rt))` \(((?:`[^`\s]+`(?:, | and )?)+)\)", line):
        for name in re.findall(r"`([^`\s]+)`", names):
            if not is_path(name) and not is_file_name(name):
                yield file, name


def check_paths(document, text, repository):
    told = []
    for number, line in prose(text):
        where = f"{document}:{number}: "
        for label, path in links(document, line):
            if not repository.exists(path):
                told.append(where + f"no file {path}")
        folders = set()
        for span in re.findall(r"`([^`]+)`", line):
            if is_path(span):
                folders.add(os.path.dirname(span))
                if not repository.exists(span):
                    told.append(where + f"no file {span}")
            elif is_file_name(span) and span not in repository.names and not any(repository.exists(f"{one}/{span}") for one in folders | {"docs", ""}):
                told.append(where + f"no file of the name {span}")
    return told


def check_names(document, text, repository):
    told = []
    for number, line in prose(text):
        where = f"{document}:{number}: "
        for label, path in links(document, line):
            for name in re.findall(r"^`([^`\s]+)`$", label):
                if repository.exists(path) and path.startswith("crates/") and not repository.has(path, name):
                    told.append(where + f"{path} does not have {name}")
        for file, name in given(line):
            if repository.exists(file) and not repository.has(file, name):
                told.append(where + f"{file} does not have {name}")
        for name in plain_names(line):
            if name not in repository.words:
                told.append(where + f"nothing has the name {name}")
    return told


def plain_names(line):
    """The names in backquotes that stand alone and look like names of a source."""
    for span in re.findall(r"(?<!`)`([^`]+)`(?!`)", line):
        if re.fullmatch(r"(?:\w+::)*[A-Za-z][\w′'-]*", span) and not is_path(span):
            yield span.split("::")[-1]


# ---- crates, README, version


def dependencies(text):
    """What each crate rests on, by crates.txt."""
    lines = [line.split("#")[0].strip() for line in text.split("\n")]
    return {line.split(":")[0].split()[0]: line.split(":")[1].split() for line in lines if ":" in line}


def nearest(all_of):
    """Of what each crate rests on, what nothing else among it rests on."""
    def reach(name):
        found = set()
        for one in all_of.get(name, []):
            found |= {one} | reach(one)
        return found
    return {name: {one for one in ones if not any(one in reach(other) for other in ones if other != one)} for name, ones in all_of.items()}


def check_crates(texts, repository):
    listed = dependencies(texts["crates.txt"])
    told = [f"crates.txt: no folder crates/{name}" for name in listed if not repository.exists(f"crates/{name}")]
    there = {path.name for path in (repository.root / "crates").iterdir() if path.is_dir()}
    told += [f"crates.txt: crates/{name} is not listed" for name in sorted(there - set(listed))]
    table = {}
    for line in texts["docs/ARCHITECTURE.md"].split("\n"):
        row = re.match(r"\| `(\w+)` \|.*\|([^|]*)\|$", line)
        if row:
            table[row.group(1)] = set(re.findall(r"`(\w+)`", row.group(2)))
    for name, ones in nearest(listed).items():
        if name not in table:
            told.append(f"docs/ARCHITECTURE.md: the crate {name} is not in the table")
        elif table[name] != ones:
            told.append(f"docs/ARCHITECTURE.md: {name} rests on {' '.join(sorted(table[name]))}, by crates.txt on {' '.join(sorted(ones))}")
    return told + [f"docs/ARCHITECTURE.md: crates.txt has no crate {name}" for name in table if name not in listed]


def statements(file, text):
    """The closed statements of a file of specs/: types without a parameter, but for those of answers, and such records in files of claims."""
    yield from re.findall(r"(?m)^abbrev pub ([A-Z]\w*) : Type \d.*\n(?!\1 = Result )", text)
    if pathlib.PurePath(file).stem.endswith("Claims"):
        yield from re.findall(r"(?m)^pub record ([A-Z]\w*) : Type \d", text)


def check_claims(texts, repository):
    linked = set(re.findall(r"\[`([^`\s]+)`\]\(\.\./crates/(\w+)/", texts["docs/CLAIMS.md"]))
    told = []
    for file, text in repository.read.items():
        crate = file.split("/")[1]
        if re.match(r"crates/\w+/specs/.*\.antt", file):
            told += [f"docs/CLAIMS.md: {name} of {file} is not there" for name in statements(file, text) if (name, crate) not in linked]
        if re.match(r"crates/\w+/must-fail/", file) and f"`{pathlib.PurePath(file).stem}`" not in texts["docs/CONTRACTS.md"]:
            told.append(f"docs/CONTRACTS.md: the edit {file} is not there")
    return told


def check_readme(text, repository):
    told = []
    size = len(text.encode("utf-8"))
    if size > MOST_BYTES:
        told.append(f"README.md: {size} bytes, {MOST_BYTES} at most")
    fenced = False
    for number, line in enumerate(text.split("\n"), 1):
        fenced ^= line.startswith("```")
        command = line.strip().lstrip("(")
        if fenced or not line.startswith("    ") or not re.match(r"[a-z.]", command):
            continue
        if command.split()[0] not in PROGRAMS and not repository.exists(command.split()[0]) and not re.match(r"cells \d", command):
            told.append(f"README.md:{number}: no program {command.split()[0]}")
        for word in re.findall(r"(?:samples|examples|include|tools|scripts|crates|docs)/[\w./-]+", command.split("#")[0]):
            if not repository.exists(word) and not word.startswith(BUILT):
                told.append(f"README.md:{number}: no file {word}")
    return told


def check_version(texts):
    version = texts["VERSION"].strip()
    if not re.fullmatch(r"\d+\.\d+\.\d+", version):
        return [f"VERSION: {version} is no version"]
    asked = {
        "include/citternblaze.h": f'#define CITTERNBLAZE_VERSION "{version}"\n',
        "bindings/Cargo.toml": f'\nversion = "{version}"\n',
        "tools/Cargo.toml": f'\nversion = "{version}"\n',
        "CHANGELOG.md": f"\n## {version}\n",
        "README.md": version,
    }
    asked.update({file: f'VERSION = "{version}"' for file in MAYBE if file in texts})
    return [f"{file}: the version is not {version}" for file, words in asked.items() if words not in texts[file]]


def numbered(text):
    """The decisions with their entries numbered in turn, and the contents that follow from them."""
    head, *sections = re.split(r"(?m)^## (?:\d+ )?", text)
    head = re.split(r"(?m)^1\. \[", head)[0]
    contents, bodies = [], []
    for k, section in enumerate(sections, 1):
        title, body = section.split("\n", 1)
        entries = iter(range(1, len(body)))
        body = re.sub(r"(?m)^- (\*\*)?(?:\d+\.\d+(?:\*\*)? )?(.*)$", lambda m: one_entry(m, k, next(entries)), body)
        last = next(entries) - 1
        anchor = re.sub(r"[^a-z0-9 -]", "", f"{k} {title}".lower()).replace(" ", "-")
        contents.append(f"{k}. [{title}](#{anchor})" + (f": {k}.1 to {k}.{last}" if last else ""))
        bodies.append(f"## {k} {title}\n{body}")
    return head + "\n".join(contents) + "\n\n" + "".join(bodies)


def one_entry(match, section, number):
    words = match.group(2)
    titled = match.group(1) and not re.match(r"- \*\*(?:\d+\.\d+)\*\* ", match.group(0))
    return f"- **{section}.{number} {words}" if titled else f"- **{section}.{number}** {words}"


def check_decisions(text):
    if text == numbered(text):
        return []
    return ["docs/DECISIONS.md: its entries or its contents are not numbered in turn; scripts/documents.py --number does it"]


def check(texts, repository):
    told = []
    for document in NAMED + OTHERS:
        told += check_paths(document, texts[document], repository)
    for document in NAMED:
        told += check_names(document, texts[document], repository)
    told += check_crates(texts, repository) + check_claims(texts, repository) + check_readme(texts["README.md"], repository)
    return told + check_version(texts) + check_decisions(texts["docs/DECISIONS.md"])


# ---- self-test: document, what stands there, what is put in its place

CHANGES = [
    ("README.md", "crates/mesh/specs/Demand.antt", "crates/mesh/specs/Demands.antt"),
    ("README.md", "`Demand3`", "`Demand4x`"),
    ("README.md", "docs/pictures/", "docs/picture/"),
    ("README.md", "samples/two-on-01.bundle", "samples/three-on-01.bundle"),
    ("README.md", "# Citternblaze\n", "# Citternblaze\n" + "x" * MOST_BYTES + "\n"),
    ("docs/CLAIMS.md", "[`face_laws`](", "[`face_lawes`]("),
    ("docs/CLAIMS.md", "[`FaceLaws`](../crates/face/specs/claims/Claims.antt)", "[`FaceLaws`](../crates/face/specs/Face.antt)"),
    ("docs/CLAIMS.md", ", [`TableLength`](../crates/cases/specs/claims/Claims.antt)", ""),
    ("docs/CLAIMS.md", "crates/face/proofs/Claims.antt", "crates/face/proofs/Claim.antt"),
    ("docs/DEMAND3.md", "`Demand3` in `crates/mesh/specs/Demand.antt`", "`Demand3` in `crates/mesh/specs/Names.antt`"),
    ("docs/DEMAND3.md", "`RingsHappen`", "`RingsHappened`"),
    ("docs/CONTRACTS.md", "`face_join`", "`face_joined`"),
    ("docs/ARCHITECTURE.md", "| `host` |", "| `hosts` |"),
    ("crates.txt", "host staticlib: answer bundle", "host staticlib: answer bundle grid"),
    ("docs/DECISIONS.md", "- **2.2 ", "- **2.3 "),
    ("VERSION", ".", ".1"),
    ("tools/Cargo.toml", 'version = "', 'version = "1'),
    ("bindings/Cargo.toml", 'version = "', 'version = "1'),
]


def self_test(texts, repository):
    before = check(texts, repository)
    if before:
        return ["the documents as they are have faults: " + before[0]]
    failures = []
    for document, old, new in CHANGES:
        if old not in texts[document]:
            failures.append(f"nothing to change in {document}: {old}")
        elif not check({**texts, document: texts[document].replace(old, new, 1)}, repository):
            failures.append(f"not found in {document}: {new[:60]} for {old}")
    return failures


def move(repository):
    """Puts the new file into links whose name stands in one other file of the same part of the crate."""
    for document in NAMED:
        path = repository.root / document
        text = path.read_text(encoding="utf-8")

        def moved(match, document=document):
            name, target = match.group(1), match.group(2)
            file = os.path.normpath(os.path.join(os.path.dirname(document), target))
            parts = file.split("/")
            if parts[0] != "crates" or len(parts) < 3 or repository.exists(file) and repository.has(file, name):
                return match.group(0)
            homes = [one for one in repository.homes(name, parts[1]) if one.startswith("/".join(parts[:3]) + "/")]
            if len(homes) != 1:
                print(f"documents: {document}: {name} stands in {len(homes)} files of {'/'.join(parts[:3])}", file=sys.stderr)
                return match.group(0)
            return f"[`{name}`]({os.path.relpath(homes[0], os.path.dirname(document) or '.')})"

        path.write_text(re.sub(r"\[`([^`\s]+)`\]\(([^)\s]+)\)", moved, text), encoding="utf-8")


def main(words):
    repository = Repository(ROOT)
    if words == ["--move"]:
        move(repository)
        return 0
    if words == ["--number"]:
        decisions = ROOT / "docs/DECISIONS.md"
        decisions.write_text(numbered(decisions.read_text(encoding="utf-8")), encoding="utf-8")
        return 0
    files = NAMED + OTHERS + TEXTS + [file for file in MAYBE if repository.exists(file)]
    texts = {file: (ROOT / file).read_text(encoding="utf-8") for file in files}
    told = self_test(texts, repository) if words == ["--test"] else check(texts, repository)
    for line in told:
        print("documents: " + line, file=sys.stderr)
    if not told:
        print(f"documents: {len(CHANGES)} faults found" if words == ["--test"] else f"documents: paths of {len(NAMED + OTHERS)} and names of {len(NAMED)} as they should be")
    return 1 if told else 0


if __name__ == "__main__":
    sys.exit(main(sys.argv[1:]))
