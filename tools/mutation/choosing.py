"""Which edits are tried: evenly over the crates, and in a crate over files and rules, by a seed."""
import collections
import random

from . import antt_rules, rattle_rules
from .edits import Edit
from .sources import files_of, text_of

# The crates, the definitions of public operations first. Programs, benchmark archives and computed tables are left out.
CRATES = ("certificate attributes restrictions headers message octets geo scope records store validity chain withdrawal page_text text entries "
          "admission signing verification field_words answer_words nattveldi_c order bitfields sha256 layout message_layout writing").split()


def edits_of(root, crate, types):
    """Every edit that the rules find in a crate."""
    found = {}
    for file in files_of(root, crate):
        code = file.endswith(".rt")
        text = text_of(root, "crates", crate, file)
        for line, rule, old, new, imports in (rattle_rules if code else antt_rules).edits_in(text, types):
            if old != new:
                function = rattle_rules.function_at(file, text.splitlines(), line - 1) if code else ""
                edit = Edit(crate, file, line, rule, old, new, tuple(imports), function)
                found.setdefault(edit.key, edit)
    return list(found.values())


def order_of(edits, seed):
    """One crate's edits: two of definitions, then one of code; each time another file and rule, and a line only once until all were used."""
    chance = random.Random(seed)
    queues = {}
    for kind in ("specs", "src"):
        groups = collections.defaultdict(list)
        for edit in edits:
            if edit.file.startswith(kind):
                groups[edit.file, edit.rule].append(edit)
        queues[kind] = in_turn(groups, chance)
    order = []
    while queues["specs"] or queues["src"]:
        for kind in ("specs", "specs", "src"):
            if queues[kind]:
                order.append(queues[kind].pop(0))
    return order


def in_turn(groups, chance):
    """One of each group after the other; edits of a line that was used already go last."""
    keys = sorted(groups)
    chance.shuffle(keys)
    for key in keys:
        chance.shuffle(groups[key])
    first, later, used = [], [], set()
    while any(groups.values()):
        for key in keys:
            if groups[key]:
                edit = groups[key].pop()
                place = (edit.file, edit.line)
                (later if place in used else first).append(edit)
                used.add(place)
    return first + later


def choose(root, crates, types, seed, count, only=("specs", "src")):
    """`count` edits: one of each crate after the other, so that a part of the list is as even as the whole."""
    queues = []
    for crate in crates:
        edits = [edit for edit in edits_of(root, crate, types) if edit.file.split("/")[0] in only]
        queues.append(order_of(edits, f"{seed}/{crate}"))
    chosen = []
    while any(queues) and len(chosen) < count:
        for queue in queues:
            if queue and len(chosen) < count:
                chosen.append(queue.pop(0))
    return chosen


def together(numbered, most):
    """The edits in the parts that are tried at once: one edit, or edits of the code of up to so many functions of a crate."""
    parts, open_parts = [], {}
    for number, edit in numbered:
        part = open_parts.get(edit.crate)
        if not edit.function:
            parts.append([(number, edit)])
        elif part and len(part) < most and edit.function not in {other.function for _, other in part}:
            part.append((number, edit))
        else:
            open_parts[edit.crate] = [(number, edit)]
            parts.append(open_parts[edit.crate])
    return parts
