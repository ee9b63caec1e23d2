#!/usr/bin/env python3
"""Brings the repository's own definitions and lemmas to snake case.

usage: python3 tools/respell.py [--report]      at the top of the repository, once, after the toolchain's port.py

A name that a file of specs/ or proofs/ declares and that is written in camel case or with dashes gets underscores: `ifEq` becomes `if_eq`, `eq-or-ne`
becomes `eq_or_ne`, `◌answeredBy◌` becomes `◌answered_by◌`. Types, modules, functions of src/ and the names that the toolchain makes keep their
spelling. A name that a file imports from another library under the same spelling stays as it is in that file.
--report changes nothing and prints what would fall together.
"""
import os
import re
import sys

TOKEN = re.compile(r"[^\s(){}\[\].,;:\"`'/|×→←≡≢≤<>=]+'*")
DECLARED = re.compile(r"^(?P<indent> *)(?P<words>(?:(?:pub|abbrev|unfoldable|private|rec|inductive) )*)(?P<names>[^\s(){}.,;:]+(?: [^\s(){}.,;:]+)*) :(?: |$)")
# Two records have a field of this name: a test in the one, a proof in the other.
FIELDS = {"is-list"}
FOREIGN = re.compile(r"(?:^|[\s(])(?:native|lib|mathlib|borrow|Prim)\.(?:[A-Z]\w*\.)+$")
WORDS = {"pub", "abbrev", "unfoldable", "private"}
IMPORT = re.compile(r"^\s*(?:ghost )?(?:pub )?use (?P<module>[^{;]+?)(?:\.\{(?P<names>[^}]*)\})?(?: as (?P<alias>\S+?))?;?\s*$")


def files(root):
    for top in ("crates", "docs", "tests", "tools", "bench"):
        for folder, dirs, names in os.walk(os.path.join(root, top)):
            dirs[:] = sorted(d for d in dirs if d not in ("out", "target"))
            for n in sorted(names):
                yield os.path.relpath(os.path.join(folder, n), root)
    yield "README.md"


def snake(name):
    """The spelling in snake case; a part that begins with a capital is a type's name and stays."""
    parts = []
    for part in re.split(r"-", name):
        if re.match(r"[A-Z]", part) and not parts and part != name and re.search(r"[a-z]", part):
            return name
        part = re.sub(r"(?<=[a-z0-9])(?=[A-Z])", "_", part)
        parts.append(part if re.match(r"^[A-Z]$", part) else part.lower() if re.search(r"_[A-Z]", part) else part)
    return "_".join(parts)


def wants(name):
    return not re.match(r"[A-Z]", name) and re.search(r"[a-z0-9][A-Z]|[^-]-[^-]", name) and not name.startswith("returns-")


def declared(root):
    found, plain = {}, {}
    for path in files(root):
        if not path.endswith(".antt") or not path.startswith("crates/"):
            continue
        if os.path.basename(path) in ("Proof.antt", "Invariants.antt", "Answers.antt"):
            continue
        for line in open(os.path.join(root, path), encoding="utf-8"):
            m = DECLARED.match(line)
            if not m or line.lstrip().startswith(("--", "module ", "record ", "pub record", "data ", "pub data", "use ", "λ", "let ", "|", "where")):
                continue
            names = [w for w in m["names"].split() if w not in WORDS]
            if len(names) > 1 and not m["indent"]:
                continue
            for n in names:
                if re.match(r"^[\w◌≢≡∷⊕⊗≐≈>=-]+'*$", n):
                    (found if wants(n.replace("◌", "")) else plain).setdefault(n, set()).add(path)
    return found, plain


def turned(names, plain, source):
    """The new spelling of each name. Where a lemma's name falls together with that of a function, the lemma gets `_lem`."""
    turn = {n: snake(n) for n in names}
    functions = {b.replace("◌", "") for a, b in turn.items() if "-" not in a}
    for a in names:
        if "-" in a and turn[a] in functions and a not in FIELDS:
            turn[a] += "_lem"
    for a in plain:
        if a in functions and a not in source:
            turn[a] = a + "_lem"
    for a in [a for a in turn if "◌" in a]:
        turn[a.replace("◌", "")] = turn[a].replace("◌", "")
    return {a: b for a, b in turn.items() if a != b}


def main(argv):
    root = "."
    names, plain = declared(root)
    source = set()
    for path in files(root):
        if path.endswith(".rt"):
            source |= set(TOKEN.findall(open(os.path.join(root, path), encoding="utf-8").read()))
    turn = turned(names, plain, source)
    # what falls together
    by = {}
    for a, b in turn.items():
        by.setdefault(b, set()).add(a)
    texts = {}
    tokens = {}
    for path in files(root):
        try:
            texts[path] = open(os.path.join(root, path), encoding="utf-8").read()
        except (UnicodeDecodeError, FileNotFoundError):
            continue
        if path.startswith("crates/") and path.endswith((".antt", ".rt")):
            for t in set(TOKEN.findall(texts[path])):
                tokens.setdefault(t, set()).add(path)
    for b, olds in sorted(by.items()):
        if len(olds) > 1:
            print("together:", b, sorted((o, sorted(names.get(o, []))) for o in olds))
        if b in tokens:
            here = tokens[b]
            both = sorted(p for p in here if any(o in TOKEN.findall(texts[p]) for o in olds))
            print("stands already:", b, "of", sorted(olds), "in", sorted(here)[:4], "BOTH IN" if both else "", both[:6])
    foreign = {}
    for path, text in texts.items():
        if path.endswith((".antt", ".rt")):
            for line in text.split("\n"):
                m = IMPORT.match(line)
                if m and m["names"] and not own(m["module"]):
                    for n in re.split(r",\s*", m["names"]):
                        n = n.split(" as ")[0].strip()
                        if n in turn:
                            foreign.setdefault(path, set()).add(n)
    for path, kept in sorted(foreign.items()):
        print("keeps:", path, sorted(kept))
    if "--report" in argv:
        print(len(turn), "names")
        return 0
    changed = 0
    for path, text in texts.items():
        kept = foreign.get(path, set())
        new = respelt(path, text, turn, kept)
        if new != text:
            with open(os.path.join(root, path), "w", encoding="utf-8") as f:
                f.write(new)
            changed += 1
    print(len(turn), "names,", changed, "files")
    return 0


def own(module):
    m = re.match(r"Rattle\.(\w+)", module.strip())
    return bool(m) and os.path.isdir(os.path.join("crates", m.group(1)))


def respelt(path, text, turn, kept):
    def one(m):
        t = m.group(0)
        # a name of another library by its whole path stays
        if t in kept or FOREIGN.search(m.string[max(0, m.start() - 80) : m.start()]):
            return t
        return turn.get(t, t)

    if path.endswith((".antt", ".rt", ".edit")) and path.startswith("crates/") or path.startswith("tests/controls/"):
        return TOKEN.sub(one, text)
    if path.endswith(".md"):
        # in a page only what stands in backticks is a name
        return re.sub(r"`[^`\n]+`", lambda m: TOKEN.sub(one, m.group(0)), text)
    return text


if __name__ == "__main__":
    raise SystemExit(main(sys.argv[1:]))
