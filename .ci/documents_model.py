"""docs/MODEL.md and docs/TEXTS.md against the crates: each definition that has to be believed, and each that a law uses, stands in its
place there; every other one has a sentence in specs/; and both documents say how many lines have to be believed."""
import re

import documents_reach as reach
import documents_words as words

# where a class stands: its document, the part in it, and how the headings of its sections begin (nothing: any heading)
BELIEVED, LAWS = "To be believed", "Laws: proved, need not be believed"
PLACES = {
    "rules": ("MODEL.md", BELIEVED, "Rules"),
    "formats": ("MODEL.md", BELIEVED, "Formats"),
    "messages": ("MODEL.md", BELIEVED, "Messages"),
    "run": ("MODEL.md", BELIEVED, "Run"),
    "books": ("MODEL.md", BELIEVED, "Books"),
    "alarms": ("MODEL.md", BELIEVED, "Alarms"),
    "codec": ("MODEL.md", BELIEVED, "Codec"),
    "objects": ("MODEL.md", BELIEVED, "Objects"),
    "law": ("MODEL.md", LAWS, ""),
    "text": ("TEXTS.md", BELIEVED, ""),
}
DOCUMENTS = {document for document, _, _ in PLACES.values()}
MOST_LINES = {"MODEL.md": 900, "TEXTS.md": 330}

# the kinds of sections of what has to be believed, in the order of a reader, with the sentence where that of `dispatch run` may stop
STOP = "A reader of `dispatch run` may stop here"
ORDER = {"Rules": 0, "Formats": 0, "Messages": 1, STOP: 2, "Run": 3, "Books": 4, "Alarms": 5, "Codec": 6, "Objects": 7}

# the numbers of lines that the documents tell, and the classes whose lines each one counts
FOR_RUN = ("rules", "formats", "messages")
FOR_HEADLINE = (*FOR_RUN, "run", "books")
FOR_ALL = (*FOR_HEADLINE, "alarms", "codec", "text", "objects")
NUMBER = r"(\d[\d,]*)"
NUMBERS = (
    ("MODEL.md", rf"^\| Rules \| {NUMBER} \|", ("rules",)),
    ("MODEL.md", rf"^\| Formats \| {NUMBER} \|", ("formats",)),
    ("MODEL.md", rf"^\| Messages \| {NUMBER} \|", ("messages",)),
    ("MODEL.md", rf"^\| \*\*`dispatch run`: all of these\*\* \| \*\*{NUMBER}\*\* \|", FOR_RUN),
    ("MODEL.md", rf"^\| Run \| {NUMBER} \|", ("run",)),
    ("MODEL.md", rf"^\| Books \| {NUMBER} \|", ("books",)),
    ("MODEL.md", rf"^\| \*\*The headline: all of these\*\* \| \*\*{NUMBER}\*\* \|", FOR_HEADLINE),
    ("MODEL.md", rf"^\| Alarms \| {NUMBER} \|", ("alarms",)),
    ("MODEL.md", rf"^\| Codec \| {NUMBER} \|", ("codec",)),
    ("MODEL.md", rf"^\| Texts \| {NUMBER} \|", ("text",)),
    ("MODEL.md", rf"^\| Objects \| {NUMBER} \|", ("objects",)),
    ("MODEL.md", rf"^\| \*\*In all\*\* \| \*\*{NUMBER}\*\* \|", FOR_ALL),
    ("MODEL.md", rf"^\*\*{STOP}\.\*\* Up to here {NUMBER} lines\b", FOR_RUN),
    ("TEXTS.md", rf"\b{NUMBER} lines of definitions\b", ("text",)),
)


def words_of(place):
    document, part, section = place
    return f"docs/{document}, '{part}'" + (f", under a heading '{section}: ..'" if section else "")


# ---- where definitions stand, and where they belong

def standing(document, part, section):
    """The place that the headings above a row give it; nothing, where the part lists no definitions."""
    for place in PLACES.values():
        if place[:2] == (document, part) and place[2] in {"", section.partition(": ")[0]}:
            return place
    return (document, part, section) if part in {BELIEVED, LAWS} else None


def kind_of(world, crate, file, name):
    """The class of a definition, of the class believed that of rules or that of formats; nothing, where it need not be named."""
    found = world.class_of(crate, file, name)
    if found == "believed":
        return "rules" if reach.is_rule(crate, file) else "formats"
    return found if found in PLACES else None


def kind_of_word(world, module, name):
    """The class of a word of the kit: those of the class believed serve rules and formats alike."""
    found = world.kit.get((module, name))
    return "formats" if found == "believed" else found if found in PLACES else None


def rows(document, text):
    """Of each row of a table: its line's place, what the headings above it say, the names in it, and their file: where the cell is empty,
    that of the row above."""
    part, section, place, above = "", "", 0, ""
    for line in text.split("\n"):
        if line.startswith("## "):
            part, section, above = line[3:].strip(), "", ""
        elif line.startswith("### "):
            section, above = line[4:].strip(), ""
        cells = [cell.strip() for cell in line.split("|")]
        if line.startswith("|") and len(cells) >= 3 and standing(document, part, section) and cells[2] not in {"file", "---"}:
            above = cells[2] or above
            yield place, standing(document, part, section), re.findall(r"`([^`]+)`", cells[1]), above
        place += len(line) + 1


def row_faults(world, document, text, said):
    """Faults of the rows; collects what each of them names."""
    for place, stands, names, where in rows(document, text):
        if not names or not where:
            yield place, "has a row without a name or without a file"
        if stands not in PLACES.values():
            yield place, f"has a row under '{stands[2]}', a heading that says no class"
        crate, _, file = where.partition(", ")
        for name in names:
            is_word = where.startswith("Rattle.")
            key = (where, "", name) if is_word else (crate, file, name)
            kind = None
            if is_word and (where, name) in world.kit:
                kind = kind_of_word(world, where, name)
            elif not is_word and world.is_in(*key):
                kind = kind_of(world, *key)
            else:
                yield place, f"names `{name}` ({where}), where it is not, or which nothing reaches"
                continue
            if key in said:
                yield place, f"names `{name}` ({where}) twice"
            elif kind is None:
                yield place, f"names `{name}` ({where}), which need not be believed, and which no law uses"
            elif PLACES[kind] != stands:
                yield place, f"has `{name}` ({where}) in: {words_of(stands)}; it belongs in: {words_of(PLACES[kind])}"
            said.add(key)


def missing_faults(world, document, said):
    """What belongs in a document, and is not named there."""
    for crate, file, name in sorted(set(world.needed) - said):
        kind = kind_of(world, crate, file, name)
        if kind and PLACES[kind][0] == document:
            yield None, f"misses `{name}` ({crate}, {file}); it belongs in: {words_of(PLACES[kind])}"
    for module, name in sorted(world.kit):
        kind = kind_of_word(world, module, name)
        if kind and PLACES[kind][0] == document and module not in words.EVERYDAY and (module, "", name) not in said:
            yield None, f"misses `{name}` ({module}), a word of the kit; it belongs in: {words_of(PLACES[kind])}"


def order_faults(document, text):
    """The sections of what has to be believed come in the order of a reader."""
    if document != "MODEL.md":
        return
    part, before = "", 0
    for found in re.finditer(rf"^## (.+)$|^### (\w+): |^\*\*({STOP})\.", text, flags=re.M):
        part = found.group(1) or part
        at = ORDER.get(found.group(2) or found.group(3), before)
        if part == BELIEVED and at < before:
            yield found.start(), f"has '{found.group()}' behind what comes after it for a reader"
        before = max(at, before)


def sentence_faults(world):
    """What stands in neither document has its sentence where it is defined."""
    for crate in world.crates.values():
        for file, spec in crate.specs.items():
            for name in spec.definitions:
                if kind_of(world, crate.name, file, name) is None and name not in spec.told:
                    yield None, f"does not name `{name}` ({crate.name}, {file}), which has no sentence above it in specs/"
    for crate, file, name in world.needed:
        found = world.crates[crate].source.types.get(name) if file.endswith(".rt") else None
        if found and kind_of(world, crate, file, name) is None and not found.is_told:
            yield None, f"does not name `{name}` ({crate}, {file}), which has no sentence above it in src/"


def faults(world, document, text):
    for crate in world.misread():
        yield None, f"cannot be checked: not all clauses of {crate} were read"
    if len(text.splitlines()) > MOST_LINES[document]:
        yield None, f"has {len(text.splitlines())} lines, and may have {MOST_LINES[document]}"
    said = set()
    yield from row_faults(world, document, text, said)
    yield from missing_faults(world, document, said)
    yield from order_faults(document, text)
    if document == "MODEL.md":
        yield from sentence_faults(world)
    yield from number_faults(world, document, text)


def to_be_named(world):
    """How many definitions both documents have to name."""
    return sum(kind_of(world, *key) is not None for key in world.needed)


# ---- lengths

def lengths(world):
    """The lines of each class, and of the class believed those of rules and those of formats."""
    total = dict.fromkeys((*reach.CLASSES, "rules", "formats", "case", "code"), 0)
    for (crate, file), found in world.by_file().items():
        for name, part, lines in found:
            total[class_or_case(world, crate, file, name, part)] += lines
            if part == "believed":
                total["rules" if reach.is_rule(crate, file) else "formats"] += lines
    return total


def class_or_case(world, crate, file, name, part):
    """A definition that the witnesses of laws alone reach is a worked case."""
    return "case" if part == "law" and (crate, file, name) not in world.needed else part


def numbers_in(world, document, text):
    """Each number of lines that a document tells: where it stands, what it says, and what there is; no place, where it is not told."""
    total = lengths(world)
    for told_in, pattern, kinds in NUMBERS:
        if told_in == document:
            found = re.search(pattern, text, flags=re.M)
            yield pattern, found, f"{sum(total[kind] for kind in kinds):,}"


def number_faults(world, document, text):
    for pattern, found, right in numbers_in(world, document, text):
        if found is None:
            yield None, f"does not say how many lines there are, as in: {pattern.replace(NUMBER, right)}"
        elif found.group(1) != right:
            yield found.start(), f"says {found.group(1)} lines, and there are {right} (python3 .ci/documents.py --write puts that in)"


def write(world, folder):
    """Puts the numbers of lines into both documents."""
    for document in sorted(DOCUMENTS):
        old = text = (folder / document).read_text()
        for pattern, found, right in numbers_in(world, document, text):
            again = found and re.search(pattern, text, flags=re.M)
            text = text[:again.start(1)] + right + text[again.end(1):] if again else text
        if text != old:
            (folder / document).write_text(text)


def count(world):
    """Prints the definitions of each class by file, but for the code's own, with their lines."""
    for (crate, file), found in sorted(world.by_file().items()):
        for wanted in reach.CLASSES:
            names = [(name, lines) for name, part, lines in found if class_or_case(world, crate, file, name, part) == wanted]
            if names:
                print(f"{wanted:8} {crate}, {file}: {sum(lines for _, lines in names)} lines: {', '.join(name for name, _ in names)}")
    total = lengths(world)
    print("lines of specs/, without imports, blanks and comments:")
    for what, kinds in (("for `dispatch run`", FOR_RUN), ("for the headline", FOR_HEADLINE), ("in all", FOR_ALL)):
        print(f"believed {what}: {sum(total[kind] for kind in kinds)}: {', '.join(f'{total[kind]} of {kind}' for kind in kinds)}")
    print(f"law: {total['law']}, and {total['case']} of worked cases")
    print(f"boundary: {total['boundary']}")
    print(f"code: {total['code']}")
