"""The checker: what is run for a crate, and what its words mean.

`rattle check --incremental` over a folder that holds what an unedited check found takes only what an edit touches, and depends on no path; its
words are all printed at the end, so a check cannot be stopped at the first error. It is what `rt check` runs. A crate that passes so is proved once
more from nothing (`rattle build`), which also writes the library that the crates above are checked against."""
import os
import re
import shutil
import signal
import subprocess
import threading

from .sources import crates_of, static_libraries

PARTS = ("src", "specs", "proofs")
REFUSED, ILL_FORMED, MISFIT, PROVED, UNDECIDED = "refused", "ill-formed", "other shape", "proved", "not decided"
ERROR = re.compile(r"^\S[^\n]*: error[^\n]*(?:\n[ \t]+[^\n]*)*", re.M)  # a message goes on in lines that are indented
# A proof that names what the edited function no longer has (a need, a field, a step) says nothing about the fact itself.
SHAPE = re.compile(r"that can be named from here|\bhas no (?:field\b|`)|is not in scope|this pattern needs a|which is not a data type|is in a cycle of calls|this file exports no `")
WAITS = re.compile(r"w(?:as|ere) not (?:admitted|checked)")  # for another proof, which fails
UNFOUND = re.compile(r"^fn \S+: no proof: expected answers in (\S+)/Answers\.antt; `search` did not prove .*$", re.M)
RUNNING = set()  # the provers that this run has started


class Interrupted(Exception):
    """A prover was ended from outside: what it was asked is still open."""


class Kit:
    """Where the prover and its libraries are: around the page that `rt doc` names."""

    def __init__(self):
        page = subprocess.run(["rt", "doc"], check=True, capture_output=True, text=True).stdout.strip()
        self.home = os.path.dirname(page)
        self.rattle = os.path.join(self.home, "bin", "rattle")
        self.rlibs = os.path.join(self.home, "rlibs")


class Copy:
    """A copy of the repository, in which no file is edited; edited crates stand beside it."""

    def __init__(self, root, work):
        self.root, self.work = root, work
        self.kit = Kit()
        self.crates = crates_of(root)
        self.static = static_libraries(root)
        self.proved = set()
        self.making = threading.Lock()

    def make(self):
        """Copies the sources; what `rt check` left in an earlier run stays, and it takes it up where it fits."""
        for crate in self.crates:
            os.makedirs(self.folder(crate), exist_ok=True)
            for part in PARTS:
                replace(os.path.join(self.root, "crates", crate, part), os.path.join(self.folder(crate), part))
        shutil.copy(os.path.join(self.root, "crates.txt"), self.work)

    def folder(self, crate):
        return os.path.join(self.work, "crates", crate)

    def is_program(self, crate):
        return os.path.isfile(os.path.join(self.root, "crates", crate, "src", "main.rt"))

    def makes_library(self, crate):
        return not self.is_program(crate) and crate not in self.static

    def words(self, crate, overlay=None):
        """What every command on a crate takes in its folder; a library that the overlay has is taken from there."""
        words = ["--crate-name", crate, "src/main.rt" if self.is_program(crate) else "src/lib.rt"]
        libraries, places = {"std": self.kit.rlibs}, [self.kit.rlibs]
        for dep in self.crates[crate]:
            own = os.path.join(self.folder(dep), "out", "rlib") if dep in self.crates else self.kit.rlibs
            edited = overlay and os.path.isdir(os.path.join(overlay, dep + ".rlib"))
            libraries[dep] = overlay if edited else own
            places.append(libraries[dep])
        for dep, place in libraries.items():
            words += ["--extern", f"{dep}={place}/{dep}.rlib"]
        for place in dict.fromkeys(places):
            words += ["-L", f"dependency={place}"]
        words += ["--antt-project", f"{self.kit.home}/rattle/logic/antt-project.json", "--logic-built", f"{self.kit.home}/logic_built"]
        words += ["--jobs", "1", "--links", f"{crate}="]
        return words + (["--crate-type", "staticlib"] if crate in self.static else [])

    def incremental(self, crate):
        """The folder of the unedited crate's check, which `rt check` makes once in a run, with the libraries below it."""
        with self.making:
            if crate not in self.proved:
                result, words = run(["rt", "check", "--jobs", "1"], None, self.folder(crate))
                if result != PROVED:
                    raise SystemExit(f"{crate} is not proved unedited: {first_error(words)}")
                self.proved.add(crate)
        return os.path.join(self.folder(crate), "out", "incremental")


def replace(source, target):
    shutil.rmtree(target, ignore_errors=True)
    if os.path.isdir(source):
        shutil.copytree(source, target)


def copied(source, target):
    """Copies the folder of a check; of the large files, which a check replaces and never writes into, each gets a second name."""

    def copy(one, other):
        try:
            if one.endswith(".oantt"):
                return os.link(one, other)
        except OSError:
            pass
        return shutil.copy2(one, other)

    shutil.copytree(source, target, copy_function=copy)


def run(command, seconds, folder):
    """Runs the prover in a crate's folder for at most so many seconds; what came of it, and all it said."""
    child = subprocess.Popen(command, cwd=folder, stdin=subprocess.DEVNULL, stdout=subprocess.PIPE, stderr=subprocess.STDOUT, text=True, errors="replace", start_new_session=True)
    RUNNING.add(child)
    try:
        words = child.communicate(timeout=seconds)[0]
    except subprocess.TimeoutExpired:
        return UNDECIDED, f"stopped after {seconds:.0f} s"
    finally:
        end(child)
    if child.returncode < 0:
        raise Interrupted
    return outcome(child.returncode, words), words


def end(child):
    """Ends a prover that still runs, with what it has started: nothing else knows of it."""
    if child.poll() is None:
        os.killpg(child.pid, signal.SIGKILL)
        child.wait()
    RUNNING.discard(child)


def outcome(status, words):
    """Refused: a fact fails. Ill-formed: a definition or the code itself is not accepted. Other shape: all that fails is that a proof names what is no more."""
    if status == 0 and re.search(r"^logic=proved", words, re.M):
        return PROVED
    if status == 1 and re.search(r"^logic=not-proved", words, re.M):
        if re.search(r"/(specs/[^:\s]*\.antt|src/[^:\s]*\.rt):\d+:\d+: error", words):
            return ILL_FORMED
        return REFUSED if facts(words) else MISFIT
    return ILL_FORMED if status == 1 else UNDECIDED


def facts(words):
    """The messages that say that a fact fails, and not only that a proof waits for another or has another shape."""
    messages = [message for message in ERROR.findall(words) if not WAITS.search(message)]
    misfits = [message for message in messages if SHAPE.search(message)]
    failed = [message for message in messages if message not in misfits]
    # a goal without an answer: where the function's answers name what is no more, it may be another's goal
    unfound = [found for found in UNFOUND.finditer(words) if not any(message.startswith(found.group(1) + "/") for message in misfits)]
    return failed + [found.group() for found in unfound]


def first_error(words):
    """The first message that says what is wrong: a fact that fails, else any error."""
    for message in facts(words) + ERROR.findall(words):
        return message.splitlines()[0]
    match = re.search(r"^(?:error|fn .*(?:not proved|could not tell)|rattle: ).*$", words, re.M)
    return match.group() if match else words.strip().splitlines()[-1] if words.strip() else ""


def unproved(words):
    """The functions whose contracts the check does not prove."""
    return re.findall(r"^fn (\S+): (?:not proved|no proof)", words, re.M)


def own_fact(words, crate, function):
    """What says that a fact of this function's own proof fails, and not only that one which it calls is not proved; nothing if the words leave that open."""
    *modules, name = function.split("::")
    own = r"[^\n]*/proofs/%s\+?%s/|fn %s::%s: " % ("".join(module + "/" for module in modules), name, crate, re.escape(function))  # + for one that calls itself
    return next((message.splitlines()[0] for message in facts(words) if re.match(own, message)), "")


def rejection(words, file, lines):
    """What the front end says of some lines of a source file."""
    found = re.findall(r"^(.*/%s:(\d+):\d+: error.*)$" % re.escape(file), words, re.M)
    return next((words for words, line in found if int(line) in lines), "")
