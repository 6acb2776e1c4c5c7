"""The repository as it is read here: its crates, their files, and the types that keep an edit's shape."""
import collections
import glob
import os
import re

SKIPPED = ("specs/Example.antt",)  # computed examples: a table of octets, guarded by the fact that it is computed
NAME = r"[^\s(){};,.]+"  # a name of antt's may hold signs such as - and ◌


def text_of(*path):
    with open(os.path.join(*path), encoding="utf-8") as file:
        return file.read()


def rows_of(root):
    """The rows of crates.txt: the name and the words behind it, such as staticlib, and the crates that it names."""
    rows = [line.partition("#")[0].partition(":") for line in text_of(root, "crates.txt").splitlines()]
    return [(head.split(), deps.split()) for head, colon, deps in rows if colon]


def crates_of(root):
    """NAME -> the crates that it names, in the order of crates.txt."""
    return {head[0]: deps for head, deps in rows_of(root)}


def static_libraries(root):
    return {head[0] for head, _ in rows_of(root) if "staticlib" in head}


def above(crates, name):
    """The crates that depend on `name`, directly or through others, in the order of crates.txt."""
    reached = {name}
    found = []
    for crate, deps in crates.items():
        if crate != name and reached & set(deps):
            reached.add(crate)
            found.append(crate)
    return found


def files_of(root, crate):
    """The files of a crate that edits are looked for in, definitions first, as paths inside the crate."""
    folder = os.path.join(root, "crates", crate)
    paths = sorted(glob.glob(os.path.join(folder, "specs", "*.antt"))) + sorted(glob.glob(os.path.join(folder, "src", "**", "*.rt"), recursive=True))
    return [file for file in (os.path.relpath(path, folder) for path in paths) if file not in SKIPPED]


class Types:
    """What the sources say of types, by their text alone: enough to exchange like with like."""

    def __init__(self, root, crates):
        self.signatures = {"leb": ["ℕ", "ℕ"], "ltb": ["ℕ", "ℕ"], "le_z": ["ℤ", "ℤ"], "lt_z": ["ℤ", "ℤ"]}
        self.results = {}  # a name of antt's -> its whole type
        self.functions = {}  # a function -> the types of its parameters and of its answer
        self.constants = {}  # a constant of the code -> its type
        self.siblings = collections.defaultdict(set)  # a field -> the fields of the same type beside it
        for crate in crates:
            for path in files_of(root, crate):
                text = text_of(root, "crates", crate, path)
                self._definitions(text) if path.endswith(".antt") else self._code(text)

    def _definitions(self, text):
        for name, lines in re.findall(r"^(?:abbrev |unfoldable )?pub (%s) : (.+(?:\n +.+)*)$" % NAME, text, re.M):
            kind = " ".join(lines.split())
            # a name that two crates give to different types says nothing
            self.results[name] = kind if self.results.get(name, kind) == kind else None
            self.signatures.setdefault(name, parameters(kind))
        for block in re.findall(r"^pub record [^\n]* where\n((?:  .*\n?)+)", text, re.M):
            self._siblings(re.findall(r"^  pub (%s) : (\S+)$" % NAME, block, re.M))

    def _code(self, text):
        for name, parameters, answer in re.findall(r"\bfn (\w+)(?:<[^>]*>)?\(([^)]*)\)(?: -> ([^\n{]+))?", text):
            kinds = [part.split(":", 1)[-1].strip() for part in parameters.split(",") if part.strip()]
            self.functions[name] = (kinds, answer.strip())
        self.constants.update(re.findall(r"\bconst (\w+): (\w+) =", text))
        for block in re.findall(r"\bstruct \w+ \{\n((?:    .*\n)+)\}", text):
            self._siblings(re.findall(r"^    pub (\w+): (.+),$", block, re.M))

    def _siblings(self, fields):
        for name, kind in fields:
            self.siblings[name] |= {other for other, same in fields if same == kind and other != name}


def parameters(kind):
    """The types of a definition's arguments, without those in braces, which are not written out."""
    parts = [part.strip() for part in split_at(kind, "→")][:-1]
    return [part for part in parts if not part.startswith("{")]


def split_at(text, sign):
    """Splits at a sign that stands in no brackets."""
    parts, depth, start = [], 0, 0
    for at, char in enumerate(text):
        depth += (char in "({[") - (char in ")}]")
        if char == sign and depth == 0:
            parts.append(text[start:at])
            start = at + 1
    return parts + [text[start:]]
