"""One edit: its crate, then the crates above it."""
import os
import shutil
import time

from . import checking
from .checking import ILL_FORMED, PROVED, REFUSED, UNDECIDED
from .sources import above, text_of

SURVIVOR = "survivor"


class Judge:
    """Tries edits one after the other in a folder of its own."""

    def __init__(self, copy, number, limit):
        self.copy, self.limit = copy, limit
        self.room = os.path.join(copy.work, f"job-{number}")
        self.overlay = os.path.join(self.room, "rlib")

    def judge(self, edit):
        """The record of an edit for the report."""
        self.prepare([edit])
        self.copy.incremental(edit.crate)  # made beforehand: it is no part of the edit's time
        began = time.monotonic()
        result, by, words = self.decide(edit, began)
        error = checking.first_error(words) if result != SURVIVOR else ""
        return self.record(edit, result, by, error, checking.unproved(words), time.monotonic() - began)

    def judge_together(self, edits):
        """The records of edits of different functions of a crate, from one check; and the edits that it leaves open.

        A function's proof reads its own code and the contracts of those that it calls, and no contract is edited: an error in it is its edit's own."""
        self.prepare(edits)
        crate = edits[0].crate
        self.copy.incremental(crate)
        began = time.monotonic()
        result, words = self.check(crate, self.folder(crate), began)
        spent = (time.monotonic() - began) / len(edits)
        records, left = [], []
        for edit in edits:
            error = checking.own_fact(words, crate, edit.function) if result == REFUSED else ""
            rejection = checking.rejection(words, edit.file, range(edit.line, edit.line + edit.old.count("\n") + 1)) if result == ILL_FORMED else ""
            if error:
                records.append(self.record(edit, REFUSED, crate, error, [f"{crate}::{edit.function}"], spent))
            elif rejection:
                records.append(self.record(edit, ILL_FORMED, crate, rejection, [], spent))
            else:
                left.append(edit)
        return records, left

    def record(self, edit, result, by, error, unproved, seconds):
        old, new = edit.change()
        return {"id": edit.key, "crate": edit.crate, "file": edit.file, "line": edit.line, "rule": edit.rule, "old": old, "new": new, "result": result, "by": by,
                "error": self.plain(error)[:600], "unproved": unproved[:8], "seconds": round(seconds, 1), "limit": self.limit}

    def decide(self, edit, began):
        """What came of it, the crate that refused, and what was said of it."""
        result, words = self.check(edit.crate, self.folder(edit.crate), began)
        if result != PROVED:
            return result, edit.crate, words
        result, words = self.from_nothing(edit.crate, began)
        if result != PROVED:
            return result, edit.crate, words
        if edit.function:
            return SURVIVOR, "", ""  # crates above read a function's contract, which is proved as it was, and never its code
        for crate in above(self.copy.crates, edit.crate):
            spent = time.monotonic()
            self.copy.incremental(crate)
            began += time.monotonic() - spent
            result, words = self.check_above(crate, began)
            if result != PROVED:
                # a crate above is not edited: whatever it says, something of its own no longer holds
                return (UNDECIDED if result == UNDECIDED else REFUSED), crate, words
        return SURVIVOR, "", ""

    def folder(self, crate):
        return os.path.join(self.room, "crates", crate)

    def prepare(self, edits):
        shutil.rmtree(self.room, ignore_errors=True)
        os.makedirs(self.overlay)
        crate = edits[0].crate
        shutil.copytree(self.copy.folder(crate), self.folder(crate), ignore=shutil.ignore_patterns("out"))
        for edit in edits:
            path = os.path.join(self.folder(crate), edit.file)
            text = edit.apply(text_of(path))
            with open(path, "w", encoding="utf-8") as file:
                file.write(text)

    def left(self, began):
        return max(1.0, self.limit - (time.monotonic() - began))

    def check(self, crate, folder, began, command=("check",)):
        """Over a copy of the unedited crate's folder, so that nothing of this edit is left for the next."""
        known = os.path.join(self.room, "known")
        checking.copied(self.copy.incremental(crate), known)
        words = self.copy.words(crate, self.overlay)
        try:
            return checking.run([self.copy.kit.rattle, *command, *words, "--incremental", known], self.left(began), folder)
        finally:
            shutil.rmtree(known)

    def check_above(self, crate, began):
        """A crate above the edited one, over the libraries that the edit changes; it makes its own for those above it."""
        command = ("build", *self.output(crate)) if self.copy.makes_library(crate) else ("check",)
        return self.check(crate, self.copy.folder(crate), began, command)

    def from_nothing(self, crate, began):
        """The verdict on the edited crate, from nothing, and the library that it makes."""
        command = ("build", *self.output(crate)) if self.copy.makes_library(crate) else ("check",)
        return checking.run([self.copy.kit.rattle, *command, *self.copy.words(crate)], self.left(began), self.folder(crate))

    def output(self, crate):
        return "-o", os.path.join(self.overlay, crate + ".rlib")

    def plain(self, text):
        """Paths as they are in the repository."""
        return text.replace(self.room + "/", "").replace(self.copy.work + "/", "")
