"""An edit: some lines of a file and what stands there instead."""
import dataclasses
import hashlib
import os
import re


@dataclasses.dataclass(frozen=True)
class Edit:
    crate: str
    file: str  # inside the crate
    line: int  # the first line that is replaced, from 1
    rule: str
    old: str  # the whole lines
    new: str
    imports: tuple = ()  # (module, name): what the new text of a definition needs beside what the file has
    function: str = ""  # the function whose code is edited, by its path

    @property
    def key(self):
        words = "\n".join((self.crate, self.file, str(self.line), self.old, self.new))
        return hashlib.sha256(words.encode()).hexdigest()[:12]

    def change(self, around=24):
        """The old and the new text around what differs, on one line each."""
        old, new = self.old, self.new
        front = len(os.path.commonprefix([old, new]))
        back = len(os.path.commonprefix([old[front:][::-1], new[front:][::-1]]))
        start = max(0, front - around)
        cut = lambda text: " ".join(text[start:len(text) - max(0, back - around)].split())
        return cut(old), cut(new)

    def apply(self, text):
        lines = text.splitlines(keepends=True)
        count = self.old.count("\n") + 1
        there = "".join(lines[self.line - 1:self.line - 1 + count]).rstrip("\n")
        if there != self.old:
            raise ValueError(f"{self.crate}/{self.file}:{self.line} has changed")
        lines[self.line - 1:self.line - 1 + count] = [self.new + "\n"]
        text = "".join(lines)
        for module, name in self.imports:
            text = with_import(text, module, name)
        return text


def with_import(text, module, name):
    """Adds a name to the `use` line of its module, or a line for it before the first."""
    for line in re.findall(r"^use %s\.\{[^}]*\}$" % re.escape(module), text, re.M):
        names = [part.strip() for part in line[line.index("{") + 1:-1].split(",")]
        if name in names:
            return text
        return text.replace(line, line[:-1] + ", " + name + "}", 1)
    first = re.search(r"^use ", text, re.M)
    at = first.start() if first else 0
    return text[:at] + f"use {module}.{{{name}}}\n" + text[at:]
