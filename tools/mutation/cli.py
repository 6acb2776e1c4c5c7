"""The command: arguments, the edits in their order, a line for each."""
import argparse
import concurrent.futures
import math
import os
import queue
import signal
import sys
import tempfile
import threading
import time

from . import report
from .checking import RUNNING, Copy, Interrupted, end
from .choosing import CRATES, choose, together
from .judging import Judge
from .sources import Types, crates_of

ROOT = os.path.dirname(os.path.dirname(os.path.dirname(os.path.abspath(__file__))))


def arguments():
    parser = argparse.ArgumentParser(prog="tools/mutate", description="Applies small wrong edits to definitions and code, one after the other, in a copy of the repository, and "
                                     "reports those that the checker does not refuse. docs/MUTATIONS.md explains it.")
    parser.add_argument("--crate", action="append", metavar="NAME", help="only edits of this crate (repeatable)")
    parser.add_argument("--only", choices=("specs", "src"), help="only edits of definitions, or only of code")
    parser.add_argument("--count", type=int, default=280, metavar="N", help="how many edits, evenly over the crates (default 280)")
    parser.add_argument("--seed", default="1", metavar="S", help="which edits (default 1)")
    parser.add_argument("--jobs", type=int, default=1, metavar="J", help="how many at a time; a check takes one core and up to 1 GB (default 1)")
    parser.add_argument("--list", action="store_true", help="print the edits and try none")
    parser.add_argument("--report", metavar="FILE", help="a JSON line for each edit; edits that it has are not tried again")
    parser.add_argument("--table", action="store_true", help="print the table of the report and try none")
    parser.add_argument("--limit", type=float, default=360, metavar="SECONDS", help="the most for one edit, else it is not decided (default 360)")
    parser.add_argument("--together", type=int, default=8, metavar="K", help="code edits of up to K functions of a crate in one check (default 8; 1: each by itself)")
    parser.add_argument("--minutes", type=float, metavar="M", help="start no edit after so many minutes")
    parser.add_argument("--work", default=os.path.join(tempfile.gettempdir(), "nattveldi-mutate"), metavar="DIR", help="the copy; what it keeps makes the next run start sooner")
    return parser.parse_args()


def say(words):
    print(words, flush=True)


def shown(number, record):
    by = f" by {record['by']}" if record["result"] == "refused" and record["by"] != record["crate"] else ""
    place = f"{record['crate']} {record['file']}:{record['line']}"
    return f"{number:4} {place}  {record['old']}  ->  {record['new']}  {record['result']}{by}  {record['seconds']:.0f} s"


def listed(edits):
    for number, edit in enumerate(edits, 1):
        old, new = edit.change()
        say(f"{number:4} {edit.crate} {edit.file}:{edit.line}  [{edit.rule}]  {old}  ->  {new}")


class Run:
    """The edits that are left, and when to start no more."""

    def __init__(self, todo, options):
        self.options = options
        self.copy = Copy(ROOT, os.path.abspath(options.work))
        self.waiting = queue.Queue()
        for part in together(todo, options.together):
            self.waiting.put(part)
        self.end = time.monotonic() + 60 * options.minutes if options.minutes else math.inf
        self.lock = threading.Lock()

    def work(self, job):
        """Tries one part after the other; an edit that is interrupted is left for the next run."""
        judge = Judge(self.copy, job, self.options.limit)
        while time.monotonic() < self.end:
            try:
                self.part(judge, self.waiting.get_nowait())
            except (queue.Empty, Interrupted):
                return

    def part(self, judge, part):
        """One edit, or several at once; of those what is left is tried again, several at once only while that decides some."""
        numbers = {edit.key: number for number, edit in part}
        edits = [edit for _, edit in part]
        while len(edits) > 1:
            records, left = judge.judge_together(edits)
            self.write(records, numbers)
            if not records:
                break
            edits = left
        for edit in edits:
            self.write([judge.judge(edit)], numbers)

    def write(self, records, numbers):
        with self.lock:
            for record in records:
                report.add(self.options.report, record)
                say(shown(numbers[record["id"]], record))

    def stop(self):
        self.end = -math.inf
        for child in list(RUNNING):
            end(child)

    def all(self):
        self.copy.make()
        with concurrent.futures.ThreadPoolExecutor(self.options.jobs) as pool:
            try:
                for ended in [pool.submit(self.work, job) for job in range(self.options.jobs)]:
                    ended.result()
            except BaseException:
                self.stop()
                raise


def main():
    options = arguments()
    records = report.read(options.report)
    if options.table:
        say(report.table(records))
        return
    known = crates_of(ROOT)
    unknown = [name for name in options.crate or () if name not in known]
    if unknown:
        sys.exit("crates.txt has no " + ", ".join(unknown))
    edits = choose(ROOT, options.crate or CRATES, Types(ROOT, known), options.seed, options.count, (options.only,) if options.only else ("specs", "src"))
    if options.list:
        listed(edits)
        return
    done = report.finished(records, options.limit)
    todo = [(number, edit) for number, edit in enumerate(edits, 1) if edit.key not in done]
    say(f"{len(edits)} edits, {len(edits) - len(todo)} of them in the report already")
    signal.signal(signal.SIGTERM, signal.default_int_handler)
    try:
        Run(todo, options).all()
    except KeyboardInterrupt:
        say("interrupted: the report has what was tried; the same command goes on from there")
    say(report.table(report.read(options.report)))
