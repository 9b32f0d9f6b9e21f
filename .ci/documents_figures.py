"""Checks figures that documents give: constants against the sources; speed, memory and counts of tests against bench/RESULTS.md.

- bench/RESULTS.md, README.md and docs/ASSESSMENT.md say which version they are of: that of crates/rbc_dispatch/src/command_line.rt. README.md
  and the constants RULES of the sources have its rules number.
- The numbers with a unit of UNITS that a document of WITH_FIGURES gives are those that the table of RESULTS.md whose first column is
  GIVEN has for it, word for word. Where a table has a row of RESULTS.md, by its first cell, all its rows are such, with its numbers.
- `NAME` (value), `NAME = value`, a value before (`NAME`, file), and a row of a table with constants, their values and their files say
  what the sources say.
- Each --option in a document of WITH_OPTIONS is an option of the program or of a script.
- docs/ASSESSMENT.md names the kit that built release/; no document is longer than MOST_BYTES says; no decision of docs/DECISIONS.md takes
  more than DECISION_LINES.
"""
import re

GIVEN = "figure that a document gives"
WITH_FIGURES = {"README.md", "docs/GUIDE.md", "docs/INTEGRATION.md"}
WITH_OPTIONS = WITH_FIGURES | {"docs/FORMATS.md", "docs/RULES.md", "docs/ASSESSMENT.md", "docs/DECISIONS.md"}
UNITS = r"(?:(?:s|ms|us|ns|minutes?|hours?|KB|KiB|MB|GB|(?:million )?instructions|passed|times(?! NID_C))\b|%)"
NUMBER = r"\d[\d,]*(?:\.\d+)?"
FIGURE = re.compile(rf"(?<![\w.,/:-]){NUMBER}(?:\s+(?:to|and)\s+{NUMBER})?\s+{UNITS}")
CONSTANT = re.compile(r"^\s*(?:pub(?:\(crate\))? )?const ([A-Z][A-Z0-9_]*): \w+ = ([\d_]+);", re.M)
NAMED = r"`([A-Z][A-Z0-9_]*)`"
WIDTHS = "crates/ertms_codec/src/variable.rt"  # its constants have the names of variables, and say how wide these are
SCRIPTS = ("dispatch", "selftest", "bench/*.sh", "bench/*.py", ".ci/*", "docs/*.py", "release/*.sh", "examples/**/*.sh")
MOST_BYTES = {"docs/ASSESSMENT.md": 40_960, "docs/ARCHITECTURE.md": 20_480, "docs/PROVING.md": 20_480}
DECISION_LINES = 3


def tables(text):
    """All tables: of each the heads of its columns, and of its rows the place and the cells."""
    for table in re.finditer(r"^(\|.*\|)\n\|[-| ]+\|\n((?:\|.*\|(?:\n|$))+)", text, flags=re.M):
        rows = re.finditer(r"^\|.*\|$", table.group(2), flags=re.M)
        yield cells_of(table.group(1)), [(table.start(2) + row.start(), cells_of(row.group())) for row in rows]


def cells_of(line):
    return [cell.strip().replace("**", "") for cell in line.strip("|").split("|")]


def numbers(text):
    return [int(value.replace(",", "")) for value in re.findall(r"(?<![\w.])\d[\d,]*(?<!,)(?!\w|\.\d)", text)]


# ---- speed, memory, tests

COMMAND_LINE = "crates/rbc_dispatch/src/command_line.rt"
VERSIONS = {
    "bench/RESULTS.md": r"^Version (\d[\d.]*\d)",
    "README.md": r"says `dispatch (\d[\d.]*\d), rules",
    "docs/ASSESSMENT.md": r"^The program `dispatch`, version (\d[\d.]*\d)",
}


def version_faults(root, name, text):
    """The documents of VERSIONS are of the version that the program prints, and all sources and README.md have its rules number."""
    version, rules = re.search(r'\.version\("([\d.]+), rules (\d+)"\)', (root / COMMAND_LINE).read_text()).groups()
    said = re.search(VERSIONS[name], text, flags=re.M) if name in VERSIONS else None
    if name in VERSIONS and (said is None or said.group(1) != version):
        yield said and said.start(), f"is not of version {version}, which {COMMAND_LINE} says"
    if name == "README.md":
        numbers = [(name, number) for number in re.findall(r", rules (\d+)", text)]
        for source in root.glob("crates/*/src/*.rt"):
            numbers += [(source.relative_to(root), number) for number in re.findall(r"\bconst RULES: \w+ = (\d+);", source.read_text())]
        for place, number in numbers:
            if number != rules:
                yield None, f"is of rules {rules}, as {COMMAND_LINE} says, and {place} has {number}"


def figure_faults(results, name, text):
    """Figures of a document that bench/RESULTS.md does not have for it, and those that it has and the document does not give."""
    given, measured = set(), {}
    for heads, rows in tables(results):
        for _, cells in rows:
            row = dict(zip(heads, cells))
            if heads[0] == GIVEN and name in row["documents"].split(", "):
                given.add(cells[0])
            elif heads[0] != GIVEN and re.search("[a-z]", cells[0]):
                measured.setdefault(cells[0], []).append(row)
    missing = set(given)
    for match in FIGURE.finditer(text):
        if re.search(r"units of\s+$", text[: match.start()]):
            continue
        figure = " ".join(match.group().split())
        missing.discard(figure)
        if figure not in given:
            yield match.start(), f"gives '{figure}', which bench/RESULTS.md does not have for it"
    for figure in sorted(missing):
        yield None, f"does not give '{figure}', which bench/RESULTS.md has for it"
    for heads, rows in tables(text):
        if any(cells[0] in measured for _, cells in rows):
            for place, cells in rows:
                yield from row_faults(place, heads, cells, measured.get(cells[0]))


def row_faults(place, heads, cells, measured):
    """A row of a table of figures, beside those of bench/RESULTS.md with the same first cell."""
    if measured is None:
        yield place, f"has a row '{cells[0]}', which no table of bench/RESULTS.md has"
        return
    for head, cell in list(zip(heads, cells))[1:]:
        there = [row[head] for row in measured if head in row] or [found for row in measured for found in row.values()]
        if re.match(r"\d", cell) and cell not in there:
            yield place, f"gives '{cell}' for '{cells[0]}', where bench/RESULTS.md has {there[0]}"


# ---- constants, options, lengths

def constants_of(root):
    """The values of each constant that is a number, by the files that have them."""
    found = {}
    for path in sorted(set(root.glob("crates/*/src/**/*.rt")) - {root / WIDTHS}):
        for name, value in CONSTANT.findall(path.read_text()):
            found.setdefault(name, {}).setdefault(path.relative_to(root).as_posix(), int(value.replace("_", "")))
    return found


def constant_faults(constants, text):
    for match in re.finditer(rf"`([A-Z][A-Z0-9_]*)`?(?: \(({NUMBER})\)| = ({NUMBER}))", text):
        yield from value_faults(match, numbers(match.group(2) or match.group(3)), constants)
    for match in re.finditer(rf"\({NAMED}(?:\)|,\s+(?!`))", text):
        sentence = re.split(r"\n\n|\n- |\n\||\. |: |\)", text[: match.start()])[-1]
        yield from value_faults(match, numbers(sentence), constants)
    for heads, rows in tables(text):
        for place, cells in rows if "value" in heads else ():
            yield from limit_faults(constants, place, dict(zip(heads, cells)))


def value_faults(match, values, constants):
    there = sorted(set(constants.get(match.group(1), {}).values()))
    if values and there and not set(values) & set(there):
        yield match.start(), f"gives {values} for {match.group(1)}, and the source {there}"


def limit_faults(constants, place, row):
    """A row of a table with values, constants, and files as crates/CRATE/src/FILE.rt or (CRATE, FILE.rt)."""
    line = " ".join(row.values())
    names = [name for name in re.findall(NAMED, line) if name in constants]
    files = set(re.findall(r"crates/[\w./]+\.rt", line))
    files |= {f"crates/{crate}/src/{file}" for crate, file in re.findall(r"\((\w+), ([\w/]+\.rt)\)", line)}
    values = numbers(row["value"])
    for value, name in zip(values * len(names) if len(values) == 1 else values, names):
        there = {found for file, found in constants[name].items() if file in files}
        if len(values) in (1, len(names)) and there and value not in there:
            yield place, f"says that {name} is {value:,}, and the source {sorted(there)}"


def options_of(root):
    """The options of the program and of the scripts."""
    words = (root / "crates/rbc_dispatch/src/command_line.rt").read_text()
    texts = [f"--{name}" for name in re.findall(r'(?:\.long\(|name: )"([a-z-]+)"', words)]
    texts += [path.read_text() for pattern in SCRIPTS for path in root.glob(pattern) if path.is_file()]
    return set(re.findall(r"--[a-z][a-z-]*", " ".join(texts))) | {"--help", "--version", "--track", "--allow-holes"}


def option_faults(options, text):
    for match in re.finditer(r"(?<![\w-])--[a-z][a-z-]*", text):
        if match.group() not in options:
            yield match.start(), f"names {match.group()}, which is no option of the program or of a script"


def length_faults(name, text):
    length = len(text.encode())
    if length > MOST_BYTES.get(name, length):
        yield None, f"has {length:,} bytes, and may have {MOST_BYTES[name]:,}"
    for match in re.finditer(r"^- .*(?:\n  .*)*", text, flags=re.M) if name == "docs/DECISIONS.md" else ():
        if match.group().count("\n") >= DECISION_LINES:
            yield match.start(), f"has a decision of more than {DECISION_LINES} lines"


def kit_faults(root, name, text):
    kit = (root / "release/SOURCES").read_text().strip().split("\n")[-1]
    if name == "docs/ASSESSMENT.md" and f"`rt version`: {kit}" not in text:
        yield None, f"does not name the kit of release/SOURCES: {kit}"


def faults(root, documents):
    """The faults of all documents: of each the document, its text, the place and what is wrong."""
    constants, options = constants_of(root), options_of(root)
    results = (root / "bench/RESULTS.md").read_text()
    for document in documents:
        name, text = document.relative_to(root).as_posix(), document.read_text()
        found = [*version_faults(root, name, text), *length_faults(name, text), *kit_faults(root, name, text), *constant_faults(constants, text)]
        if name in WITH_OPTIONS:
            found += option_faults(options, text)
        if name in WITH_FIGURES:
            found += figure_faults(results, name, text)
        for place, fault in found:
            yield document, text, place, fault
