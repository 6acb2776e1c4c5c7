"""Where a definition can be edited, and how. A rule gets a piece of text and yields (rule, start, end, new text, imports)."""
import re

from .sources import NAME, split_at

PRELUDE, SIGNED = "Rattle.std.specs.Prelude", "Rattle.std.specs.Int.Signed"
WORD = r"(?<![^\s(){};,])%s(?![^\s(){};,])"  # a name by itself, not a part of a longer one
FIELD = r"(?<=[^\s({};,.])\.(%s)" % NAME  # a field is written tight
DECLARED = re.compile(r"(?:(?:abbrev|unfoldable|opaque|pub) )*(%s)(?: \{[^{}]*\})* : " % NAME)

SWAPS = {
    "comparison": [("leb", "ltb", PRELUDE, "ltb"), ("ltb", "leb", PRELUDE, "leb"), ("eqb", "leb", PRELUDE, "leb"), ("le_z", "lt_z", SIGNED, "lt_z"), ("lt_z", "le_z", SIGNED, "le_z"),
                   ("≤", "<", PRELUDE, "◌<◌"), ("<", "≤", PRELUDE, "◌≤◌"), ("≤ℤ", "<ℤ", PRELUDE, "◌<ℤ◌"), ("<ℤ", "≤ℤ", PRELUDE, "◌≤ℤ◌")],
    "arithmetic": [("+", "-", PRELUDE, "◌-◌"), ("-", "+", PRELUDE, "◌+◌"), ("*", "+", PRELUDE, "◌+◌"), ("/", "*", PRELUDE, "◌*◌"), ("%", "/", PRELUDE, "◌/◌")],
    "connective": [("&&", "||", PRELUDE, "◌||◌"), ("||", "&&", PRELUDE, "◌&&◌")],
    "truth": [("true", "false", PRELUDE, "false"), ("false", "true", PRELUDE, "true")],
}


def atom(text, at):
    """The end of the argument that starts at `at`: a name, a number, or what stands in brackets, each with its fields; None if there is none."""
    if at >= len(text) or text[at] in " )};,=":
        return None
    if text[at] not in "({":
        return re.compile(r"[^\s(){};,]+").match(text, at).end()
    depth = 0
    for end in range(at, len(text)):
        depth += (text[end] in "({") - (text[end] in ")}")
        if depth == 0:
            return re.compile(r"(\.[^\s(){};,]+)?").match(text, end + 1).end()
    return None


def arguments(text, at):
    """The places of the arguments that follow a name, without those in braces, which the types pass over as well."""
    found = []
    while at < len(text) and text[at] == " ":
        end = atom(text, at + 1)
        if end is None or re.fullmatch(r"[^\w(\[{]+", text[at + 1:end]) or text[at + 1:end] in ("→", "λ"):
            break
        if text[at + 1] != "{":
            found.append((at + 1, end))
        at = end
    return found


def swaps(text, types, names):
    for rule, table in SWAPS.items():
        for old, new, module, name in table:
            for match in re.finditer(WORD % re.escape(old), text):
                yield rule, match.start(), match.end(), new, ((module, name),)


def constants(text, types, names):
    for match in re.finditer(WORD % r"\d+", text):
        if re.search(r"(Type|Unit|⊥) \{?$", text[:match.start()]):
            continue
        value = int(match.group())
        yield "constant", match.start(), match.end(), str(value + 1), ()
        if value:
            yield "constant", match.start(), match.end(), str(value - 1), ()


def tests(text, types, names):
    """A test that always passes, or that never does."""
    for match in re.finditer(WORD % "(need|row|pick|fork|not)", text):
        places = arguments(text, match.end())
        which = 1 if match.group() in ("need", "row") else 0
        if len(places) <= which:
            continue
        start, end = places[which]
        if match.group() == "not":
            yield "test", match.start(), end, text[start:end], ()
        elif text[start:end] not in ("true", "false"):
            yield "test", start, end, "true", ((PRELUDE, "true"),)
            if match.group() in ("pick", "fork"):
                yield "test", start, end, "false", ((PRELUDE, "false"),)


def exchanges(text, types, names):
    """Two arguments of the same type, one in the other's place."""
    for match in re.finditer(WORD % NAME, text):
        kinds = types.signatures.get(match.group(), [])
        places = arguments(text, match.end())
        if match.group() in ("pick", "fork") and len(places) >= 3:
            pairs = [(1, 2)]
        else:
            pairs = [(k, k + 1) for k in range(min(len(kinds), len(places)) - 1) if kinds[k] == kinds[k + 1]]
        for k, l in pairs:
            (a, b), (c, d) = places[k], places[l]
            if text[a:b] != text[c:d]:
                yield "arguments", a, d, text[c:d] + text[b:c] + text[a:b], ()


def values(text, types, names):
    """Two values of a record, one in the other's field."""
    for match in re.finditer(r"record \{ ([^{}]*) \}", text):
        parts = split_at(match.group(1), ";")
        cells = [re.fullmatch(r"(\s*(\S+) = )(.*)", part) for part in parts]
        for k in range(len(cells) - 1):
            one, two = cells[k], cells[k + 1]
            if not one or not two or one.group(3) == two.group(3) or two.group(2) not in types.siblings[one.group(2)]:
                continue
            new = parts[:k] + [one.group(1) + two.group(3), two.group(1) + one.group(3)] + parts[k + 2:]
            yield "fields", match.start(1), match.end(1), ";".join(new), ()


def projections(text, types, names):
    for match in re.finditer(FIELD, text):
        for other in sorted(types.siblings.get(match.group(1), set()) & names):
            yield "field", match.start(1), match.end(1), other, ()


def others(text, types, names):
    """Another definition of the same type, among those that the file has or brings in."""
    for match in re.finditer(r"(?<![^\s(){};,])%s(?![^\s(){};,.])" % NAME, text):  # a field may follow
        kind = types.results.get(match.group())
        if kind is None or match.group() not in names:
            continue
        for other in sorted(names):
            if other != match.group() and types.results.get(other) == kind:
                yield "name", match.start(), match.end(), other, ()


RULES = (swaps, constants, tests, exchanges, values, projections, others)
ROW = re.compile(r"^(\s*(?:∷ |&& )?\(?(?:need|row) )(.*)$")


def row_of(line):
    """A row of an order of checks: what stands before its number, number and test, and what stands behind."""
    match = ROW.match(line)
    if not match:
        return None
    head, rest = match.groups()
    places = arguments(" " + rest, 0)
    if len(places) < 2:
        return None
    end = places[1][1] - 1
    return head, rest[:end], rest[end:]


def exchanged_rows(lines, at):
    """Two rows of an order of checks that follow each other, in the other order."""
    one, two = row_of(lines[at]), row_of(lines[at + 1]) if at + 1 < len(lines) else None
    if one and two and one[1] != two[1]:
        yield "rows", lines[at] + "\n" + lines[at + 1], one[0] + two[1] + one[2] + "\n" + two[0] + one[1] + two[2]


def names_in(lines):
    """The names that a file brings in or defines itself, and the fields that it names: others of a type are seldom of the same record."""
    names = set(re.findall(FIELD, "\n".join(lines)))
    for line in lines:
        match = re.match(r"use [^{]*\{(.*)\}$", line)
        if match:
            names |= {part.strip() for part in match.group(1).split(",") if " as " not in part}
        match = DECLARED.match(line)
        if match:
            names.add(match.group(1))
    return names


def editable(lines):
    """Yields (line, column, name): from there on the line is the right side of this definition or a statement. Signatures, imports and comments are not."""
    within, name = None, ""  # "equation", "statements" of a record or data type, or None
    modules = []  # how far the modules are indented in which a line stands
    for at, line in enumerate(lines):
        code = line.lstrip()
        indent = len(line) - len(code)
        if not code or code.startswith("--"):
            continue
        while modules and indent <= modules[-1]:
            modules.pop()
        if re.match(r"module .* where$", code):
            modules.append(indent)
            within = None
        elif indent > (modules[-1] + 2 if modules else 0):
            statement = re.match(r"(?:pub )?%s : " % NAME, code)
            if within == "equation":
                yield at, indent, name
            elif within == "statements":
                yield at, indent + (statement.end() if statement else 0), name
        elif DECLARED.match(code) or re.match(r"(?:pub )?(record|data|use|mod|infix\w*) ", code):
            within = "statements" if line.endswith(" where") else None
        elif " = " in line or line.endswith(" ="):
            within, name = "equation", re.match(NAME, code).group()
            yield at, line.index(" =") + 2, name


def edits_in(text, types):
    """Yields (line from 1, rule, old lines, new lines, imports)."""
    lines = text.splitlines()
    names = names_in(lines)
    for at, column, own in editable(lines):
        part = lines[at][column:]
        for rule in RULES:
            for name, start, end, new, imports in rule(part, types, names - {own}):  # a definition that names itself anew would only not end
                yield at + 1, name, lines[at], lines[at][:column] + part[:start] + new + part[end:], imports
        for name, old, new in exchanged_rows(lines, at):
            yield at + 1, name, old, new, ()
