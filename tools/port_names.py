#!/usr/bin/env python3
"""Brings the names of this repository's own definitions, lemmas and fields to the spelling of today's Rattle, after its port.py has run.

usage: tools/port_names.py [--table FILE]      at the top; once, with everything of port.py in place. FILE gets the table of names, old, tab, new

A word in camel case or with dashes becomes snake case: mostCells, third-is -> most_cells, third_is. A dash stays where the word without it is
another name already: slot-edge is a lemma, slot_edge the definition that it is about. What Rattle makes of the source keeps its dashes: names of
goals and steps. Types, modules, functions of src/, exported names, strings and files keep their names. A second run changes nothing.

`result` means what a function returns, and nothing else: the definition of that name is result_of. The clauses that kept a λ for its sake are plain.
A line with 'look:' tells of a name that fell together with another, or that a parameter has too.
"""

import glob
import os
import re
import sys

from port_proofs import read, write

WORD = re.compile(r'[^\s(){}.;,@"«»]+')
CHAIN = re.compile(WORD.pattern + r"(?:\." + WORD.pattern + r")*")
DECLARED = re.compile(
    r"(?m)^ *(abbrev |unfoldable )?(?:pub )?(?:pub )?(record |data )?"
    r'([^\s(){}.;,@"«»]+)((?: *[({][^\n]*?[)}])*) *: '
)
# The kit's script took ownAt of `layers` for a word of the library, and getD in the names of lemmas for none.
TAKEN = {"result": "result_of", "field_own": "own_at"}
PROOFS = ("Proof.antt", "Invariants.antt", "Answers.antt")
# what a proof knows: behind these a name is one of a step or a goal
KNOWN = ("c", "w", "l", "goal", "tie")
SPELLED = re.compile(r"^[a-z0-9][A-Za-z0-9'_-]*$")


def below(pattern):
    return sorted(p for p in glob.glob(pattern, recursive=True) if "/out/" not in p)


def snake(word):
    word = re.sub(r"([a-z0-9'])([A-Z])", r"\1_\2", word)
    return re.sub(r"([A-Z])([A-Z][a-z])", r"\1_\2", word).lower()


def main(argv):
    crates = {os.path.basename(p) for p in glob.glob("crates/*")}
    antt = below("crates/*/specs/**/*.antt") + below("crates/*/proofs/**/*.antt")
    of_functions = {p for p in antt if os.path.basename(p) in PROOFS and os.path.basename(os.path.dirname(p)) != "proofs"}
    texts = {p: read(p) for p in antt}
    sources = {p: read(p) for p in below("crates/*/src/**/*.rt")}

    own, made = set(), set()
    for p in antt:
        for _, _, name, _ in DECLARED.findall(texts[p]):
            if p in of_functions and re.search(rf"(?m)^(?:abbrev )?(?:pub )?{re.escape(name)} : (?:goal|tie)\.|^(?:pub )?{re.escape(name)} : .*statement M", texts[p]):
                made.add(name)
                continue
            own.add(name)
        for group in re.findall(r"(?m)^ *(?:pub )?data [^\n]* where\n((?: +[^\n]*\n)+)", texts[p]):
            for line in group.splitlines():
                own.add(line.split()[0])
    own -= made

    imported = set()
    for text in [*texts.values(), *sources.values()]:
        for module, names in re.findall(r"use ([^\s{]+)\.\{([^}]*)\}", text):
            parts = module.split(".")
            if parts[0] != "Rattle" or parts[1] not in crates:
                imported.update(it.strip().split(" as ")[0] for it in names.split(","))

    # every word that stands anywhere but as a field or in a path, so that no new name falls together with one; a definition may be called as the
    # function of src/ whose result it is
    words = set(own)
    for text in texts.values():
        words.update(re.findall(r"(?<![^\s(){};,])" + WORD.pattern + r"(?!\.[\w{])", re.sub(r"--[^\n]*", "", text)))
    params = {it for text in sources.values() for it in re.findall(r"(?<![\w.])([a-z_]\w*) ?: ", text)}
    in_clauses = {it.strip() for text in sources.values() for names in re.findall(r"ghost use Rattle\.[^{]*\{([^}]*)\}", text) for it in names.split(",")}

    functions = {it for text in sources.values() for it in re.findall(r"\bfn (\w+)", text)}
    new_of, held, told, back = {}, {}, [], {}
    for name in sorted(own):
        if name in TAKEN:
            new_of[name] = TAKEN[name]
            continue
        if name in imported or not SPELLED.match(name):
            continue
        # the library's getD is get_or
        out = "_".join(snake(it) for it in re.sub(r"^(getD(?=-)|get_d(?=_))", "get_or", name).split("-"))
        if out == name:
            continue
        held[name] = out
    # a name in camel case, a definition mostly, goes before one with dashes
    for name in sorted(held, key=lambda it: ("-" in it, it)):
        out, parts = held[name], name.split("-")
        # a lemma that port.py left no dash gets it back where a definition has its word
        if "-" not in name and out in own and out not in new_of.values():
            back[out] = out.replace("_", "-")
            new_of[name] = out
            continue
        if out in words or out in new_of.values():
            out = "-".join(snake(it) for it in parts)
        if out in words or out in new_of.values():
            if out != name:
                told.append(f"{name}: {out} is taken")
            continue
        if name in in_clauses and out in params:
            told.append(f"{name}: a parameter is called {out}")
        new_of[name] = out
    for it in told:
        print("look: " + it)

    for word in sorted(back):
        print(f"look: the lemma {word} is {back[word]}")

    def turn(text, of_function):
        def one(m):
            parts = m[0].split(".")
            keep = 0
            if of_function and parts[0] in KNOWN:
                keep = 1
                while keep < len(parts) and parts[keep] == "before":
                    keep += 1
                keep += 1
            for k in range(keep, len(parts)):
                word = parts[k]
                if word == "result" and k:
                    continue
                # behind a dot the word may be what a call of the function gave, and in a path it is the function's folder
                of_function_of_ours = word in functions and (k or len(parts) > 1)
                parts[k] = back[word] if word in back and not of_function_of_ours else new_of.get(word, word)
            return ".".join(parts)

        return CHAIN.sub(one, text)

    camel = {o: n for o, n in new_of.items() if re.search(r"[a-z][A-Z]", o) and "-" not in o}

    def in_prose(text):
        return re.sub(r"(?<![\w-])([a-z]\w*[A-Z]\w*)(?![\w-])", lambda m: camel.get(m[1], m[1]), text)

    changed = 0
    for p in antt:
        out = []
        for line in texts[p].split("\n"):
            code, comment = line, ""
            at = re.search(r"(?:^|\s)--\s", line + " ")
            if at:
                code, comment = line[: at.start()], line[at.start() :]
            out.append(turn(code, p in of_functions) + in_prose(comment))
        text = "\n".join(out)
        if text != texts[p]:
            write(p, text)
            changed += 1
    rust_words = {o: n for o, n in new_of.items() if o != "result"}
    for p, text in sources.items():
        lines, inside = [], False
        for line in text.split("\n"):
            bare = line.strip()
            if bare.startswith("//"):
                lines.append(in_prose(line))
                continue
            if re.match(r"(requires|ensures|ghost)\b", bare):
                inside = True
            if inside:
                lambdas = re.search(r"ensures\* (\w+ )?\{ λ (\w+)\. ⌜ (.*) ⌝ \}", line)
                line = re.sub(r"(?<=[({≡∙∷] )result(?= \()|(?<=[({])result(?= \()", "result_of", line) if not lambdas else line
                if lambdas:
                    fact = lambdas[3]
                    # as the definition it stands first in its term, as an argument behind a word
                    fact = re.sub(r"(?<=[({≡∙∷] )result(?= [(\[])|(?<=[({])result(?= [(\[])|^result(?= [(\[])", "result_of", fact)
                    if lambdas[2] != "_":
                        fact = re.sub(r"(?<![\w.-])" + lambdas[2] + r"(?![\w-])", "result", fact)
                    line = line[: lambdas.start()] + f"ensures {lambdas[1] or ''}{{ {fact} }}" + line[lambdas.end() :]
                if bare.startswith("ghost use"):
                    line = re.sub(r"(?<=[{ ])result(?=[,}])", "result_of", line)
                line = WORD.sub(lambda m: rust_words.get(m[0], m[0]), line)
                if bare.endswith(("}", ";")):
                    inside = False
            lines.append(line)
        turned = "\n".join(lines)
        root = os.path.basename(p) in ("lib.rt", "main.rt") and p.count("/") == 3
        if root and "#![tactic(" not in turned:
            # the line that each crate has near its head
            turned = re.sub(r"(?m)^(?!//)", "#![tactic(auto)]\n\n", turned, count=1)
        if turned != text:
            write(p, turned)
            changed += 1
    for p in below("crates/*/must-fail/*.edit"):
        text = read(p)
        turned = "\n".join(turn(it, False) if it.startswith(("old: ", "new: ")) else it for it in text.split("\n"))
        if turned != text:
            write(p, turned)
            changed += 1
    if "--table" in argv:
        write(argv[argv.index("--table") + 1], "".join(f"{o}\t{n}\n" for o, n in sorted([*new_of.items(), *back.items()])))
    print(f"port_names: {len(new_of) + len(back)} names, {changed} files")
    return 0


if __name__ == "__main__":
    raise SystemExit(main(sys.argv[1:]))
