#!/usr/bin/env python3
"""Turns the proofs of an older Rattle, Proof.antt that close a tie, into Invariants.antt and Answers.antt.

usage: tools/port_proofs.py NAMES CRATE..     at the top. NAMES/CRATE/names.json is what `rt check --generated NAMES/CRATE --old-names` writes

What it cannot turn it leaves as it is and says so, in a line that begins 'left:'. A line with 'look:' names a path that it could not follow.
"""

import json
import os
import re
import subprocess
import sys

LANDED = "90a7a4f46926ec290df66ccb8d3bae50b49644b6"
WORD = r"[^\s(){}.;,@\"«»]+"
TRIVIAL = re.compile(r"^\(λ c( κs)?\. search rules\)$")
SETTLED = ("search rules", "omega arith")


def plain(name):
    return re.sub(r"[-_]", "", name).lower()


def read(path):
    with open(path, encoding="utf-8") as f:
        return f.read()


def write(path, text):
    with open(path, "w", encoding="utf-8") as f:
        f.write(text)


def match(text, at):
    """Returns the place just past the bracket that opens at `at`."""
    ends, depth = {"(": ")", "[": "]", "{": "}"}, []
    i = at
    while i < len(text):
        ch = text[i]
        if ch in ends:
            depth.append(ends[ch])
        elif depth and ch == depth[-1]:
            depth.pop()
            if not depth:
                return i + 1
        i += 1
    raise ValueError("unclosed bracket")


def atoms(text):
    out, i = [], 0
    while i < len(text):
        if text[i].isspace():
            i += 1
        elif text[i] in "([{":
            j = match(text, i)
            out.append(text[i:j])
            i = j
        else:
            m = re.compile(r"[^\s(\[{]+").match(text, i)
            out.append(m[0])
            i = m.end()
    return out


def commas(text):
    parts, depth, at = [], 0, 0
    for i, ch in enumerate(text):
        if ch in "([{":
            depth += 1
        elif ch in ")]}":
            depth -= 1
        elif ch == "," and depth == 0:
            parts.append(text[at:i])
            at = i + 1
    parts.append(text[at:])
    return [it.strip() for it in parts if it.strip()]


def tail_of(body):
    """Returns the place of a body's tail, behind its lets."""
    at, depth = 0, 0
    for m in re.finditer(r"[(\[{]|[)\]}]|(?<![^\s])in(?![^\s])|λ [^.]*\.(?=\s)", body):
        if m[0] in "([{":
            depth += 1
        elif m[0] in ")]}":
            depth -= 1
        elif depth == 0 and m[0] == "in":
            at = m.end()
    return at


def free(body, to):
    """Writes for each word of `to` that no binder binds what stands there."""
    out, scopes, i = [], [set()], 0
    token = re.compile(rf"λ ([^.]*?)\.(?=\s)|\(((?:{WORD} )+): |[(\[{{]|[)\]}}]|{WORD}|.", re.S)
    while i < len(body):
        m = token.match(body, i)
        word = m[0]
        behind = body[i - 1] if i else " "
        if m[1] is not None:
            scopes[-1] |= set(re.findall(WORD, m[1]))
            out.append(word)
        elif m[2] is not None:
            # a binder's words are bound behind its bracket, and so in the scope around
            scopes[-1] |= set(m[2].split())
            scopes.append(set(scopes[-1]))
            out.append(word)
        elif word in "([{":
            scopes.append(set(scopes[-1]))
            out.append(word)
        elif word in ")]}":
            if len(scopes) > 1:
                scopes.pop()
            out.append(word)
        elif word in to and word not in scopes[-1] and behind != ".":
            out.append(to[word])
        else:
            out.append(word)
        i = m.end()
    return "".join(out)


def clause(parts, fields):
    """Returns the field of what clauses were pairs within pairs, and what is behind it; or None where it is a pair still."""
    at, k = 0, 0
    while k < len(fields) - 1:
        if at >= len(parts) or parts[at] not in ("0", "1"):
            return None
        at += 1
        if parts[at - 1] == "0":
            return [fields[k], *parts[at:]]
        k += 1
    return [fields[k], *parts[at:]]


def pairs(tail, n):
    """Returns n terms of a term that is pairs within pairs."""
    tail = tail.strip()
    if n == 1:
        return [tail]
    if tail.startswith("(") and match(tail, 0) == len(tail):
        parts = commas(tail[1:-1])
        if len(parts) == 2:
            return [parts[0], *pairs(parts[1], n - 1)]
    return [f"({tail}).0", *([f"({tail}).1"] if n == 2 else pairs(f"({tail}).1", n - 1))]


class Function:
    def __init__(self, key, of, crate):
        self.of, self.crate = of, crate
        self.path = key.split("proofs.", 1)[1].rsplit(".Lts", 1)[0]
        self.places = {it[0]: k for k, it in enumerate(of["places"])}
        self.looks = []

    def chain(self, place):
        out = []
        while place is not None:
            k = self.places[place]
            out.append(k)
            place = self.of["places"][k][1]
        return out

    def new_place(self, old):
        for name, k in self.places.items():
            if plain(name) == plain(old):
                return self.of["places_by_name"][k], name
        return None, None

    def field(self, k, step, rest):
        """Returns what `.step.rest` of the place k is behind c."""
        name, parent, (old, new), callee, renames = self.of["places"][k]
        arm, clauses = self.of["arms"][k], self.of["clauses"][k]
        parts = [it for it in rest.split(".") if it]
        if parent is None:
            if step == "requires" and self.of["pre"] and parts and parts[0].isdigit():
                parts = clause(parts, self.of["pre"]["fields"]) or parts
            if step == "args":
                parts = [next((n[7:] for o, n in self.of["args"] if o == f".args .{parts[0]}"), parts[0]), *parts[1:]] if parts else parts
            return ".".join([step.replace("-", "_"), *parts])
        if arm:
            best = None
            for field, of_step, path in arm[2]:
                if plain(of_step) == plain(step) and parts[: len(path)] == path:
                    if best is None or len(path) > len(best[1]):
                        best = (field, path)
            if best:
                return ".".join([arm[0], best[0], *parts[len(best[1]) :]])
        if plain(old) == plain(step):
            if parts:
                for o, n in renames:
                    if plain(parts[0]) == plain(o):
                        parts[0] = n
                        break
                parts = [it.replace("type-inv", "type_inv") for it in parts]
            if len(parts) > 1 and parts[0] == "auto" and callee in self.of["params"]:
                m = re.match(r"((?:1\.)*)0(?:\.|$)", ".".join(parts[1:]))
                names = self.of["params"][callee]
                if m and m[1].count("1") < len(names):
                    k = m[1].count("1")
                    parts = ["auto", names[k], *parts[k + 2 :]]
            if parts and parts[0] == "ensures" and clauses and len(parts) > 1 and parts[1].isdigit() and clauses.get("fields"):
                parts = ["ensures", *(clause(parts[1:], clauses["fields"]) or parts[1:])]
            return ".".join([new, *parts])
        return None

    def turn(self, text, place, need, var="c"):
        """Turns the paths from var, a record of this place, and from what is let equal to a part of it."""
        chain = self.chain(place)
        bases = {var: 0}
        for m in re.finditer(r"let (\w+) = " + re.escape(var) + r"((?:\.before)+) in", text):
            bases[m[1]] = m[2].count(".before")

        # a let of a whole contract: its clauses have names now
        for m in re.finditer(r"let ([\w-]+) = " + re.escape(var) + r"((?:\.before)*)\.([\w'-]+?)(\.ensures)? in", text):
            depth, fields = m[2].count(".before"), None
            if m[3] == "requires" and not m[4] and self.of["pre"]:
                fields = self.of["pre"]["fields"]
            elif m[4]:
                for k in sorted(range(len(chain)), key=lambda it: abs(it - depth)):
                    if plain(self.of["places"][chain[k]][2][0]) == plain(m[3]) and self.of["places"][chain[k]][1]:
                        fields = (self.of["clauses"][chain[k]] or {}).get("fields")
                        break
            if fields and len(fields) > 1:
                text = re.sub(
                    rf"(?<![\w.'-]){re.escape(m[1])}((?:\.\d+)+)(?![\w])",
                    lambda w: ".".join([m[1], *(clause(w[1][1:].split("."), fields) or [w[1][1:]])]),
                    text,
                )

        # a let of a step
        for m in re.finditer(r"let ([\w-]+) = " + re.escape(var) + r"((?:\.before)*)\.([\w'-]+) in", text):
            depth = m[2].count(".before")
            for k in sorted(range(len(chain)), key=lambda it: abs(it - depth)):
                if plain(self.of["places"][chain[k]][2][0]) == plain(m[3]) and self.of["places"][chain[k]][1]:

                    def behind(w, k=k):
                        found = self.field(chain[k], m[3], w[1][1:])
                        if found is None:
                            return w[0]
                        head, new = found.split(".", 1)[0], self.of["places"][chain[k]][2][1]
                        return f"{m[1]}.{found[len(new) + 1:]}" if head == new else f"{var}.{found}"

                    text = re.sub(rf"(?<![\w.'-]){re.escape(m[1])}((?:\.[\w'-]+)+)(?![\w'-])", behind, text)
                    break
        for m in re.finditer(r"let ([\w-]+) = " + re.escape(var) + r"(?:\.before)*\.args in", text):
            for o, n in self.of["args"]:
                if o.startswith(".args ."):
                    text = re.sub(rf"(?<![\w.'-]){re.escape(m[1])}\.{re.escape(o[7:])}(?![\w'-])", f"{m[1]}.{n[7:]}", text)

        def one(m):
            base, befores, rest = m[1], m[2].count(".before"), m[3]
            depth = bases[base] + befores
            parts = [it for it in rest.split(".") if it]
            if not parts:
                if depth >= len(chain):
                    self.looks.append(f"{m[0]}: no place so far back")
                    return m[0]
                if depth == 0 and base == var and not need:
                    return base
                if base != var and befores == 0:
                    return base
                new = self.of["places_by_name"][chain[depth]]
                if need:
                    return f"(goal.at.{need} {var}).{new}"
                self.looks.append(f"{m[0]}: a whole record {new}")
                return m[0]
            # where a step came or went, the nearest place that has the name
            found = None
            for k in sorted(range(len(chain)), key=lambda it: abs(it - depth)):
                if k == len(chain) - 1 and parts[0] not in ("args", "requires", "lifetimes", "ranges", "utf8", "well-formed"):
                    continue
                found = self.field(chain[k], parts[0], ".".join(parts[1:]))
                if found:
                    break
            if found is None:
                self.looks.append(f"{m[0]}: no place has {parts[0]}")
                return m[0]
            at = var if need or base == var else base
            return f"{at}.{found}"

        names = "|".join(re.escape(it) for it in bases)
        text = re.sub(rf"(?<![\w.'-])({names})((?:\.before)*)((?:\.[\w'-]+)*)(?![\w'-])", one, text)
        for name in bases:
            if name != var and not re.search(rf"(?<![\w.'-]){name}(?![\w'-])", re.sub(rf"let {name} = [^\n]*? in", "", text)):
                text = re.sub(rf"let {name} = \(goal\.at\.\S+ {var}\)\.\S+ in\s*", "", text)
        # a let that nothing names any more
        for m in list(re.finditer(r"let ([\w-]+) = " + re.escape(var) + r"\.[\w'.-]+ in\s*", text)):
            if len(re.findall(rf"(?<![\w.'-]){re.escape(m[1])}(?![\w'-])", text)) == 1:
                text = text.replace(m[0], "")
        return text


def blocks(text):
    """Yields the top-level declarations: the comment above, the signature, the definition."""
    lines, out, cur = text.split("\n"), [], []
    for line in lines:
        starts = line and not line[0].isspace() and not line.startswith(("unfolding", ")", "]", "}"))
        if starts and cur and not (cur[-1].startswith("--")):
            name = re.match(rf"(?:abbrev |unfoldable |pub |record |data )*({WORD})", line)[1]
            head = next((it for it in cur if not it.startswith("--")), "")
            its = re.match(rf"(?:abbrev |unfoldable |pub |record |data )*({WORD})", head)
            if not (its and its[1] == name and name != "module" and not re.match(rf"(?:abbrev |unfoldable |pub )*{re.escape(name)} *:", line)):
                out.append("\n".join(cur).rstrip())
                cur = []
        cur.append(line)
    if any(it.strip() for it in cur):
        out.append("\n".join(cur).rstrip())
    return [it for it in out if it.strip()]


def convert(folder, fn, crate):
    text = read(f"{folder}/Proof.antt")
    uses = [it for it in text.split("\n") if re.match(r"(pub )?use ", it)]
    # an import may go on over lines
    rest = "\n".join(it for it in text.split("\n") if not re.match(r"(pub )?use ", it))
    items = {}
    order = []
    for block in blocks(rest):
        bare = "\n".join(it for it in block.split("\n") if not it.startswith("--"))
        m = re.match(rf"(?:abbrev |unfoldable |pub |record |data )*({WORD})", bare.strip())
        if not m:
            continue
        name = f"module#{len(order)}" if m[1] == "module" else m[1]
        items[name] = block
        order.append(name)
    spec = next((it for it in order if "statement M" in items[it] and "tie.close" in items[it]), None)
    if spec is None:
        return "no tie"
    m = re.search(r"tie\.spec\b", items[spec])
    start = items[spec].rfind("(", 0, m.start())
    args = atoms(items[spec][m.end() : match(items[spec], start) - 1])
    loops, needs = fn.of["loops"], fn.of["needs"]
    if len(args) != 2 * len(loops) + len(needs):
        # goals came or went: those that have a name of their own go by it, as it was before any script
        if loops:
            return f"{len(args)} answers to {len(loops)} loops and {len(needs)} needs"
        old = subprocess.run(["git", "show", f"{LANDED}:{folder}/Proof.antt"], capture_output=True, text=True).stdout
        by_need = {}
        for lhs, need in re.findall(rf"(?m)^({WORD}) : tie\.Need-({WORD})", old):
            item = next((it for it in items if plain(it) == plain(lhs)), None)
            if item:
                by_need[plain(need)] = item
        for it in args:
            if it not in items and not TRIVIAL.match(it):
                fn.looks.append(f"an answer by its place is dropped: {it[:120]}")
        args = [by_need.get(plain(o), "(λ c. search rules)") for o, n in needs]
    used = set(a for a in args if a in items) | {spec}
    module = f"Rattle.{crate}.proofs.{fn.path}"
    keep = [it for it in uses if not it.endswith((f"{module}.Statement.{{statement}}", f"{module}.Tie as tie"))]

    # invariants
    given = []
    for k, ((old, new), variables) in enumerate(loops):
        changed = fn.of["changed"][k]
        for kind, arg in (("invariant", args[2 * k]), ("decreases", args[2 * k + 1])):
            if arg not in items:
                return f"a {kind} that is no name: {arg}"
            block = items[arg]
            m = re.search(rf"(?m)^{re.escape(arg)} ([^=\n]*?)=\s", block)
            if not m:
                return f"no definition of {arg}"
            names = m[1].split()
            wanted = len(variables) + sum(changed)
            if len(names) != wanted:
                return f"{arg} has {len(names)} variables and not {wanted}"
            to = {}
            for v, is_changed, name in zip(variables, changed, names):
                to[name] = f"l.initial.{v}" if is_changed else f"l.{v}"
            for v, name in zip([v for v, c in zip(variables, changed) if c], names[len(variables) :]):
                to[name] = f"l.{v}"
            to.pop("_", None)
            body = block[m.end() :]
            body = free(body, to)
            head = [it for it in block[: m.start()].split("\n") if it.startswith("--") or it.startswith("unfolding")]
            comments = [it for it in head if it.startswith("--")]
            unfolding = [it for it in head if it.startswith("unfolding")]
            name = f"{kind}-{new}"
            given.append("\n".join([*comments, f"abbrev pub {name} : goal.{name}", *unfolding, f"{name} l = {body.strip()}"]))

    helpers = [it for it in order if it not in used]
    # helpers that an invariant names stand with it
    lifted = []
    if given:
        whole = "\n".join(given)
        more = True
        while more:
            more = False
            for it in helpers:
                if it not in lifted and re.search(rf"(?<![^\s(){{}};,.]){re.escape(it)}(?![^\s(){{}};,.])", whole):
                    if "tie." in items[it]:
                        return f"an invariant cites {it}"
                    lifted.append(it)
                    whole += "\n" + items[it]
                    more = True
    lifted = [it for it in order if it in lifted]

    # helpers over a record of a place
    answers = []
    records = {}
    imported = set()
    for it in helpers:
        if it in lifted:
            continue
        block = items[it]
        alias = re.search(rf"(?m)^{re.escape(it)} = tie\.([\w-]+)((?: (?:invariant|decreases)-\S+)*)$", block)
        if alias:
            new, old = fn.new_place(alias[1])
            if not new:
                return f"no place {alias[1]}"
            records[it] = (old, new)
            imported.add(new)
            block = block.replace(alias[0], f"{it} = {new}")
            answers.append(block)
            continue
        place = None
        m = re.search(r"\((\w+) : tie\.([\w-]+)((?: (?:invariant|decreases)-?\S*)*)\)", block)
        if m:
            new, old = fn.new_place(m[2])
            if not new:
                return f"no place {m[2]}"
            block = block.replace(m[0], f"({m[1]} : {new})")
            imported.add(new)
            place, var = old, m[1]
        else:
            for alias, (old, new) in records.items():
                m = re.search(rf"\((\w+) : {alias}\)", block) or re.search(rf"(?m)^(?:abbrev )?{re.escape(it)} : {alias} →", block)
                if m:
                    place = old
                    var = m[1] if m.lastindex else re.search(rf"(?m)^{re.escape(it)} (\w+)", block)[1]
                    break
        if "tie." in block:
            fn.looks.append(f"{it} cites tie")
        if place:
            block = fn.turn(block, place, None, var)
        answers.append(block)

    for k, need in enumerate(needs):
        arg = args[2 * len(loops) + k]
        old, new = need
        place = fn.of["asked_at"][k][0]
        if TRIVIAL.match(arg):
            continue
        comments, unfolding = [], []
        if arg in items:
            block = items[arg]
            m = re.search(rf"(?m)^{re.escape(arg)} ([^=\n]*?)=\s", block)
            if not m:
                return f"no definition of {arg}"
            params, body = m[1].split(), block[m.end() :].strip()
            comments = [it for it in block.split("\n") if it.startswith("--")]
            unfolding = [it for it in block[: m.start()].split("\n") if it.startswith("unfolding")]
        else:
            m = re.match(r"(?s)^\(λ ([^.]*)\. (.*)\)$", arg)
            if not m:
                return f"an answer that is neither a name nor a function: {arg[:40]}"
            params, body = m[1].split(), m[2].strip()
        if body in SETTLED and not unfolding:
            continue
        var = params[0]
        body = re.sub(r"(?<![\w.'-])κs(?![\w'-])", "_", body) if "κs" in params[1:] and re.search(r"(?<![\w.'-])κs(?![\w'-])", body) else body
        fields = fn.of["asked"].get(old)
        body = fn.turn(body, place, new, var)
        if fields and len(fields) > 1:
            at = tail_of(body)
            tail = body[at:].strip()
            lead = body[:at]
            if tail.startswith("record {"):
                pass
            elif tail in SETTLED:
                continue
            else:
                tail = "record { " + "; ".join(f"{f} = {p}" for f, p in zip(fields, pairs(tail, len(fields)))) + " }"
            body = lead + ("\n    " if "\n" in lead else " " if lead else "") + tail
        sep = "\n    " if "\n" in body and not body.startswith(("record", "elim", "let", "(")) else " "
        answers.append("\n".join([*comments, f"pub {new} : goal.{new}", *unfolding, f"{' '.join([new, var, *[it for it in params[1:] if it != 'κs']])} ={sep}{body}"]))

    out = {}
    if given:
        blocks_of = []
        for it in lifted:
            b = items[it]
            b = re.sub(rf"(?m)^(abbrev |unfoldable )?(pub )?(?={re.escape(it)} *:)", lambda m: (m[1] or "") + "pub ", b, count=1)
            if re.search(rf"(?m)^record {re.escape(it)}", b):
                b = re.sub(rf"(?m)^record (?={re.escape(it)})", "pub record ", b)
                b = re.sub(rf"(?m)^(  )(?=[^\s(){{}}:-]+ : )", r"\1pub ", b)
            blocks_of.append(b)
        out["Invariants.antt"] = "\n".join([*keep, f"use {module}.Given as goal"]) + "\n\n" + "\n\n".join([*blocks_of, *given]) + "\n"
    if answers:
        lines = list(keep)
        if lifted:
            lines.append(f"use {module}.Invariants.{{{', '.join(lifted)}}}")
        lines.append(f"use {module}.Goals as goal")
        if imported:
            lines.append(f"use {module}.Goals.{{{', '.join(sorted(imported))}}}")
        out["Answers.antt"] = "\n".join(lines) + "\n\n" + "\n\n".join(answers) + "\n"
    for name, text in out.items():
        write(f"{folder}/{name}", text)
    os.remove(f"{folder}/Proof.antt")
    if not os.listdir(folder):
        os.rmdir(folder)
    return None


def main(argv):
    names, crates = argv[0], argv[1:]
    done = left = 0
    for crate in crates:
        with open(f"{names}/{crate}/names.json", encoding="utf-8") as f:
            given = json.load(f)
        for key, of in given.items():
            if ".Lts" not in key or not key.endswith(".Lts"):
                continue
            fn = Function(key, of, crate)
            folder = f"crates/{crate}/proofs/{fn.path.replace('.', '/')}"
            if not os.path.exists(f"{folder}/Proof.antt"):
                continue
            try:
                why = convert(folder, fn, crate)
            except (ValueError, KeyError, AttributeError, IndexError, TypeError) as e:
                why = f"{type(e).__name__}: {e}"
            if why:
                left += 1
                print(f"left: {folder}: {why}")
            else:
                done += 1
            for it in fn.looks:
                print(f"look: {folder}: {it}")
    print(f"port_proofs: {done} turned, {left} left")
    return 0


if __name__ == "__main__":
    raise SystemExit(main(sys.argv[1:]))
