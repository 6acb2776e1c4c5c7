"""The report: a JSON line for each edit that was tried, and the table that is made of it."""
import collections
import json
import os

COLUMNS = ("judged", "refused in its crate", "refused above", "survivors", "not decided", "other shape", "ill-formed")


def read(path):
    if not path or not os.path.isfile(path):
        return []
    with open(path, encoding="utf-8") as file:
        return [json.loads(line) for line in file if line.endswith("\n")]


def finished(records, limit):
    """The ids that need not be tried again: all but those that a longer time may decide."""
    return {r["id"] for r in records if r["result"] != "not decided" or r["limit"] >= limit}


def add(path, record):
    if path:
        with open(path, "a", encoding="utf-8") as file:
            file.write(json.dumps(record, ensure_ascii=False) + "\n")


def column(record):
    if record["result"] == "refused":
        return COLUMNS[1] if record["by"] == record["crate"] else COLUMNS[2]
    return "survivors" if record["result"] == "survivor" else record["result"]


def table(records):
    """A row for each crate, and their sum. An edit that was tried twice counts as it came out last."""
    latest = {r["id"]: r for r in records}
    counts = collections.defaultdict(collections.Counter)
    for record in latest.values():
        for name in (record["crate"], "all"):
            counts[name][column(record)] += 1
            counts[name]["judged"] += record["result"] in ("refused", "survivor")
    lines = ["| crate | " + " | ".join(COLUMNS) + " |", "|---|" + "---:|" * len(COLUMNS)]
    names = [name for name in counts if name != "all"] + (["all"] if counts else [])
    return "\n".join(lines + [f"| {name} | " + " | ".join(str(counts[name][c]) for c in COLUMNS) + " |" for name in names])
