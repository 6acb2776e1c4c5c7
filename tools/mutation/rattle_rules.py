"""Where the code of a function can be edited, and how. A rule gets a line and yields (rule, start, end, new text)."""
import re

from .sources import split_at

SWAPS = {
    "comparison": [(" < ", " <= "), (" <= ", " < "), (" > ", " >= "), (" >= ", " > "), (" == ", " != "), (" != ", " == ")],
    "arithmetic": [(" + ", " - "), (" - ", " + "), (" * ", " + "), (" / ", " * "), (" % ", " / "), (" << ", " >> "), (" >> ", " << "), (" += ", " -= "), (" ^ ", " | ")],
    "connective": [(" & ", " | "), (" | ", " & "), (" && ", " || "), (" || ", " && ")],
}
NUMBER = re.compile(r"(?<![\w.'])(0x[0-9a-fA-F_]+|\d[\d_]*)(u8|u16|u32|u64|usize|i32|i64)?(?!\w)")


def swaps(line, types, names):
    for rule, table in SWAPS.items():
        for old, new in table:
            start = line.find(old)
            while start >= 0:
                yield rule, start, start + len(old), new
                start = line.find(old, start + 1)
    for match in re.finditer(r"\b(true|false)\b", line):
        yield "truth", match.start(), match.end(), "false" if match.group() == "true" else "true"


def constants(line, types, names):
    for match in NUMBER.finditer(line):
        digits, suffix = match.group(1), match.group(2) or ""
        value = int(digits.replace("_", ""), 0)
        write = hex if digits.startswith("0x") else str
        yield "constant", match.start(), match.end(), write(value + 1) + suffix
        if value:
            yield "constant", match.start(), match.end(), write(value - 1) + suffix


def tests(line, types, names):
    """A branch that is always taken, or never, with the test still made, so that the function keeps its shape; a test without its negation."""
    match = re.search(r"\bif (?!let\b)(.+?) \{", line)
    if match:
        yield "test", match.start(1), match.end(1), f"({match.group(1)}) | true"
        yield "test", match.start(1), match.end(1), f"({match.group(1)}) & false"
        if match.group(1).startswith("!"):
            yield "test", match.start(1), match.start(1) + 1, ""


def closing(line, at):
    """The place of the bracket that closes the one at `at`, or None."""
    depth = 0
    for end in range(at, len(line)):
        depth += (line[end] in "([{") - (line[end] in ")]}")
        if depth == 0:
            return end
    return None


def exchanges(line, types, names):
    """Two arguments of the same type, one in the other's place."""
    for match in re.finditer(r"\b(\w+)\(", line):
        kinds = types.functions.get(match.group(1), ([], ""))[0]
        end = closing(line, match.end() - 1)
        if end is None or not kinds:
            continue
        parts = split_at(line[match.end():end], ",")
        for k in range(min(len(parts), len(kinds)) - 1):
            one, two = parts[k].strip(), parts[k + 1].strip()
            if kinds[k] == kinds[k + 1] and one != two:
                new = [part.strip() for part in parts[:k]] + [two, one] + [part.strip() for part in parts[k + 2:]]
                yield "arguments", match.end(), end, ", ".join(new)


def fields(line, types, names):
    for match in re.finditer(r"(?<=[\w\])])\.(\w+)\b(?!\()", line):
        for other in sorted(types.siblings.get(match.group(1), set()) & names):
            yield "field", match.start(1), match.end(1), other


def others(line, types, names):
    """Another constant or function of the same type, among those that the file has or brings in."""
    for match in re.finditer(r"(?<![\w.:])(\w+)\b(?!::)", line):
        name = match.group(1)
        for table in (types.constants, types.functions):
            for other in sorted(names):
                if name in names and other != name and name in table and table[name] == table.get(other):
                    yield "name", match.start(), match.end(), other


RULES = (swaps, constants, tests, exchanges, fields, others)
CELL = re.compile(r"^(\s+(\w+): )(.+),$")
REFUSAL = re.compile(r"^    if (.+) \{\n        return (.+);\n    \}$")


def exchanged_values(lines, at, types):
    """Two fields of a struct's value, one with the other's value."""
    one, two = CELL.match(lines[at]), CELL.match(lines[at + 1]) if at + 1 < len(lines) else None
    if one and two and one.group(3) != two.group(3) and two.group(2) in types.siblings[one.group(2)]:
        new = one.group(1) + two.group(3) + ",\n" + two.group(1) + one.group(3) + ","
        yield "fields", lines[at] + "\n" + lines[at + 1], new


def exchanged_rows(lines, at):
    """Two tests that follow each other and refuse, each with the other's number: the tests themselves exchanged would ask for another proof."""
    rows = lines[at:at + 6]
    if all(REFUSAL.match("\n".join(rows[k:k + 3])) for k in (0, 3)) and rows[1] != rows[4]:
        yield "rows", "\n".join(rows), "\n".join([rows[0], rows[4], *rows[2:4], rows[1], rows[5]])


def names_in(lines):
    """The functions and constants that a file brings in or declares itself, and the fields that it names."""
    names = set(re.findall(r"(?<=[\w\])])\.(\w+)\b(?!\()|^\s+(\w+): ", "\n".join(lines), re.M))
    names = {name for pair in names for name in pair if name}
    for paths in re.findall(r"^use ([^;]+);", "\n".join(lines), re.M):
        names |= set(re.findall(r"(\w+)\s*(?=[,}]|$)", paths))
    for line in lines:
        match = re.match(r"\s*(?:pub )?(?:const|fn) (\w+)", line)
        if match:
            names.add(match.group(1))
    return names


HEAD = re.compile(r"\s*(pub )?(extern \"C\" )?fn ")
STATED = re.compile(r"(pub )?(use|struct|enum) ")


def editable(lines):
    """The lines of bodies and of constants. Imports, comments, declarations of types, signatures and contracts are not."""
    last = None  # the line with which a declaration or what stands before a body ends, while it lasts
    for at, line in enumerate(lines):
        word = line.strip()
        if last:
            last = None if re.fullmatch(last, line) else last
        elif HEAD.match(line):
            indent = line[:len(line) - len(line.lstrip())]
            last = None if line.endswith(("{", "}")) else indent + r"(\{|\).* \{)"
        elif STATED.match(line):
            last = None if line.endswith((";", "}")) else r"\};?"
        elif not re.match(r"(//|ghost |mod |pub mod |#|requires|ensures|decreases|impl )", word) and word not in ("", "{", "}"):
            yield at


def function_at(file, lines, at):
    """The path of the function that a line belongs to, inside its crate; nothing for a constant."""
    module = [part for part in file[len("src/"):-len(".rt")].split("/") if part not in ("lib", "main")]
    name = None
    for line in reversed(lines[:at + 1]):
        match = re.match(r"\s*(?:pub )?(?:extern \"C\" )?fn (\w+)", line)
        if name is None and line == "}":
            return ""
        if name is None and match:
            name = match.group(1)
            if not line.startswith(" "):
                return "::".join(module + [name])
        elif name and re.match(r"impl (\w+)", line):
            return "::".join(module + [line.split()[1], name])
    return ""


def edits_in(text, types):
    """Yields (line from 1, rule, old lines, new lines, imports)."""
    lines = text.splitlines()
    names = names_in(lines)
    for at in editable(lines):
        code = lines[at].split(" //")[0]
        const = re.match(r"\s*(?:pub )?const (\w+)", code)
        # a function that calls itself instead would only not end, and a constant with another name is another's twin
        own = const.group(1) if const else function_at("src/.rt", lines, at).split("::")[-1]
        for rule in RULES:
            for name, start, end, new in rule(code, types, names - {own}):
                yield at + 1, name, lines[at], lines[at][:start] + new + lines[at][end:], ()
        for name, old, new in (*exchanged_values(lines, at, types), *exchanged_rows(lines, at)):
            yield at + 1, name, old, new, ()
