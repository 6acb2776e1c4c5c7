#!/usr/bin/env python3
"""Spells the repository's own definitions and lemmas in snake case, as `octetAt` to `octet_at` and `paste-next` to `paste_next`.

usage: tools/respell.py [--check]     at the top, once, after port.py. --check writes nothing and prints the table.

A name turns if a file of specs/ or proofs/ declares it and it has a hump behind a small letter, or a dash between words.
A name of which another becomes the spelling gets `_lem`: the definition keeps the plain one, the lemma is told apart (CONTRACT_STYLE.md, "Names").
Names that Rattle makes of a function's code, which only Proof.antt files declare with a type `tie.X`, stay.
"""

import collections
import os
import re
import sys

WORD = re.compile(r"[^\s(){}\[\].;,@\"«»]+")
RUST = re.compile(r"[A-Za-z_][\w'₀-₉]*(?:-[\w'₀-₉]+)*")
DECLARED = re.compile(
    r"(?m)^ *((?:(?:abbrev|unfoldable|pub|record|data|opaque) )*)([^\s(){}.;,@\"«»]+)((?: \{[^{}\n]*\})*) : *(.*)"
)
HUMP = re.compile(r"(?<=[a-z0-9])([A-Z])")


def files(*ends):
    for folder, dirs, names in os.walk("crates"):
        dirs[:] = sorted(d for d in dirs if d != "out")
        for name in sorted(names):
            if name.endswith(ends):
                yield os.path.join(folder, name)


def read(path):
    with open(path, encoding="utf-8") as f:
        return f.read()


def turns(name):
    if not re.match(r"[A-Za-z]", name):
        return False
    hump = name[0].islower() and HUMP.search(name)
    return bool(hump or re.search(r"\w-[A-Za-z0-9]", name))


def snake(name):
    if name[0].islower():
        parts = name.split("-")
        # a fact keeps its capital where it begins a part of the name
        parts = [p if p[:1].isupper() else HUMP.sub(lambda m: "_" + m[1].lower(), p) for p in parts]
        name = "-".join(parts)
    return name.replace("-", "_")


def declared():
    """The names that specs/ and proofs/ declare, but for the answers of a Proof.antt; and every word of the antt texts."""
    names, words = set(), set()
    for path in files(".antt"):
        text = read(path)
        for m in DECLARED.finditer(text):
            if path.endswith("/Proof.antt") and (m[4].startswith("tie.") or "statement" in m[4]):
                continue
            names.add(m[2])
        words.update(WORD.findall(re.sub(r"--.*", "", text)))
    return names, words


# Lemmas that port.py gave the spelling that their definition gets here.
LEMMAS = {"kept_of": "keptOf", "found_of": "foundOf"}


def table():
    names, words = declared()
    own = {n for n in names if turns(n)}
    lemmas = {n for n, of in LEMMAS.items() if n in names and of in names}
    taken = names - own - lemmas
    to = collections.defaultdict(list)
    for n in own:
        to[snake(n)].append(n)
    rows = {n: n + "_lem" for n in lemmas}
    for new, olds in to.items():
        humped = [n for n in olds if "-" not in n]
        dashed = [n for n in olds if "-" in n]
        if len(humped) > 1 or len(dashed) > 1:
            sys.exit(f"respell: {olds} would fall together")
        for n in humped:
            if new in taken:
                sys.exit(f"respell: {n} would fall on {new}")
            rows[n] = new
        for n in dashed:
            rows[n] = new + "_lem" if humped or new in taken else new
    for n, new in rows.items():
        if new.endswith("_lem") and (new in taken or new in to):
            sys.exit(f"respell: {n} would fall on {new}")
    return rows


def main(argv):
    rows = table()
    if argv == ["--check"]:
        for n in sorted(rows):
            print(f"{n}\t{rows[n]}")
        return 0
    changed = 0
    for path in files(".antt", ".rt", ".edit"):
        word = WORD if path.endswith(".antt") else RUST
        old = read(path)
        new = word.sub(lambda m: rows.get(m[0], m[0]), old)
        if new != old:
            with open(path, "w", encoding="utf-8") as f:
                f.write(new)
            changed += 1
    print(f"respell: {len(rows)} names, {changed} files")
    return 0


if __name__ == "__main__":
    raise SystemExit(main(sys.argv[1:]))
