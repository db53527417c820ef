#!/usr/bin/env python3
"""Spells the repository's own definitions and lemmas as today's library does: words in snake case, types in camel case.

usage: tools/spell.py            at the top of the repository, once, right after the kit's port.py
       tools/spell.py --list     only prints what would be renamed

A dash stays where it joins two words that are themselves names of definitions, as in `length-drop`; another becomes `_`.
Goals keep the names that Rattle makes: what only a proof of a function declares is left alone. Functions, types and
fields of src/, strings, inputs and outputs are no definitions, and keep their names. In prose (comments, *.md) only
names with a capital inside are turned, since words that a dash joins are English there too, and in *.md what stands
between backquotes.
"""

import os
import re
import sys

WORD = re.compile(r"[^\s(){}\[\],;.:\"«»`|@#←λ]+")
DECLARED = re.compile(r"^ *(?:(?:abbrev|unfoldable|irreducible|pub|open|instance) )*((?:[^\s(){}:]+ )+)(?:\{[^{}]*\} ?)*(?:\([^()]*\) ?)*: ")
TYPE = re.compile(r"^ *(?:(?:abbrev|unfoldable|pub) )*(?:record|data) (?:pub )?([^\s(){}:]+)")
# Words of std that names of lemmas are joined from.
OF_STD = set("length get_or set drop take map append replicate sum mem add mul sub div mod pow suc eqb leb ltb shl shr".split())


def files(*ends):
    for folder, dirs, names in os.walk("crates"):
        dirs[:] = sorted(d for d in dirs if d != "out")
        for n in sorted(names):
            if n.endswith(ends):
                yield os.path.join(folder, n)


def is_proof(path):
    return os.path.basename(path) == "Proof.antt"


def declared():
    names, types, local = {}, set(), set()
    for p in files(".antt"):
        for line in open(p, encoding="utf-8"):
            if line.lstrip().startswith("--"):
                continue
            t = TYPE.match(line)
            if t:
                types.add(t[1])
                names.setdefault(t[1], set()).add(p)
                continue
            d = DECLARED.match(line)
            if not d:
                continue
            for n in d[1].split():
                (local.add(n) if is_proof(p) else names.setdefault(n, set()).add(p))
    return names, types, local


def snake(name):
    return re.sub(r"(?<=[a-z0-9'])[A-Z]", lambda m: "_" + m[0].lower(), name)


def spelled(name, types, words):
    if name[0].isupper() and name in types:
        return "".join(w[:1].upper() + w[1:] for w in name.split("-"))
    parts = [w if w[:1].isupper() else snake(w) for w in name.split("-")]
    out = parts[0]
    for i in range(1, len(parts)):
        joint = "-" if parts[i - 1] in words and parts[i] in words else "_"
        out += joint + parts[i]
    return out


def table():
    names, types, local = declared()
    specs = {n for n, ps in names.items() if any("/specs/" in p for p in ps)}
    words = OF_STD | {snake(n) for n in specs if "-" not in n} | {t for t in types}
    out = {}
    for n in sorted(names):
        if not re.match(r"^[A-Za-z][\w'-]*$", n):
            continue
        to = spelled(n, types, words)
        if to != n:
            out[n] = to
    # What no declaration shows, as operators and names of imports.
    for p in files(".antt"):
        for line in open(p, encoding="utf-8"):
            if not line.lstrip().startswith("--"):
                for w in WORD.findall(line):
                    if re.match(r"^◌?[a-z][a-z]*[A-Z]\w*◌?$", w) and w not in out:
                        out[w] = snake(w)
    # Of names that would fall together a definition of specs/ has the name, and a lemma gets `_lem`.
    first = {}
    for n in sorted(names, key=lambda n: (n not in specs, "-" in n, n)):
        to = out.get(n, n)
        if first.setdefault(to, n) != n and n in out:
            out[n] = to + "_lem"
    return out


def clashes(text, names):
    """The names of this text that a turned one would meet in it: they get `_lem` there."""
    words = set(WORD.findall(text))
    return {v: v + "_lem" for k, v in names.items() if k in words and v in words and re.search(rf"(?m)^ *(?:pub )?(?:\S+ )*{re.escape(v)}(?: \S+)* :", text)}


def turn(text, names, prose):
    pick = {k: v for k, v in names.items() if not prose or re.search(r"[a-z][A-Z]", k)}
    return WORD.sub(lambda m: pick.get(m[0], m[0]), text)


def antt(line, names):
    return turn(line, names, line.lstrip().startswith("--"))


def rt(line, names):
    return turn(line, names, line.lstrip().startswith("//"))


def edit(line, names):
    return turn(line, names, not line.startswith(("old:", "new:")))


def main():
    names = table()
    if "--list" in sys.argv:
        for k, v in sorted(names.items()):
            print(k, v, sep="\t")
        for p in files(".antt"):
            with open(p, encoding="utf-8") as f:
                for k, v in clashes(f.read(), names).items():
                    print(p, k, v, sep="\t")
        return
    for ends, one in ((".antt", antt), (".rt", rt), (".edit", edit)):
        for p in files(ends):
            with open(p, encoding="utf-8", newline="") as f:
                old = f.read()
            here = {**names, **clashes(old, names)} if ends == ".antt" else names
            new = "".join(one(line, here) for line in old.splitlines(keepends=True))
            if new != old:
                with open(p, "w", encoding="utf-8", newline="") as f:
                    f.write(new)
    pages = ["README.md"] + [os.path.join(d, n) for d, _, ns in os.walk("docs") for n in sorted(ns) if n.endswith(".md")]
    for p in pages:
        with open(p, encoding="utf-8", newline="") as f:
            old = f.read()
        new = turn(re.sub(r"`[^`\n]+`", lambda m: turn(m[0], names, False), old), names, True)
        if new != old:
            with open(p, "w", encoding="utf-8", newline="") as f:
                f.write(new)


main()
