#!/usr/bin/env python3
"""Checks README.md, docs/ and the documents of bench/ against the crates. It reads files only.

    python3 .ci/documents.py            prints each fault on a line, and one line of summary; status 1 where there is a fault
    python3 .ci/documents.py --count    also lists the definitions of each class (documents_reach.py), with the number of their lines
    python3 .ci/documents.py --write    first puts into MODEL.md and TEXTS.md how many lines have to be believed, and into EVIDENCE.md
                                        how many faulty variants each crate has
    python3 .ci/documents.py --rules    prints for each rule of docs/RULES.md where its definitions, tests and faulty variants
                                        stand, and checks nothing

What is checked:
- each path, module, file and link that a document names is there, and so is each name in backticks: a function, a type, a
  constant or a field of src/, a definition or a field of specs/ and proofs/, a key or a word of docs/explain.schema.json, or a word of
  documents_words.py;
- `name` of CRATE, `TYPE::name`, `CRATE::name`, names in a table's row of a crate, and names before (CRATE, FILE) or (CRATE, FILE.rt) are where that says;
- docs/MODEL.md and docs/TEXTS.md name each definition that has to be believed or that a law uses, in the part and the section where
  its class belongs (documents_reach.py), and each word of the kit that these use and that is not of everyday use; they say how many
  lines there are of each class, and for `dispatch run`; and each other definition has a sentence above it in specs/;
- bench/EVIDENCE.md says how many faulty variants each crate has, and docs/ASSESSMENT.md how many there are; each still fits the
  file that it edits;
- figures of speed, memory and tests are those of bench/RESULTS.md, and constants those of the sources (documents_figures.py), also
  where a document gives a limit without its constant (documents_limits.py);
- the table of docs/ARCHITECTURE.md says what crates.txt says, and an output in README.md is that of its file;
- no document is longer than MOST_LINES says, its prose is in lines of MOST_COLUMNS, each subcommand `dispatch WORD` is one of SUBCOMMANDS, and no prose tells of machines or earlier versions;
- each name of a rule, such as R-STOP-3, is defined once in docs/RULES.md, each rule is named by a definition, and no name stands above
  nothing (documents_rules.py);
- no file cites a paper, or a demand by its number.
"""
import json
import re
import sys
import textwrap
from pathlib import Path

sys.path.insert(0, str(Path(__file__).resolve().parent))
sys.dont_write_bytecode = True

import documents_figures
import documents_limits
import documents_model as model
import documents_reach as reach
import documents_rules as rules
import documents_words as words

ROOT = Path(__file__).resolve().parent.parent
CITATION = re.compile(
    r"\b[Dd]ocument 0?[1-4]\b|\b0[1-4] section\b|\b(?:T[1-5](?:\.\d)|[DW]\d{1,2}|R(?:1[0-5]|[1-9]))\b(?!\()"
    r"|\brow \d{1,2}\b|\b(?:scope|theorems|requests|formats)\.md\b"
)
CITED_IN = {".rt", ".antt", ".md", ".edit", ".txt", ".toml", ".sh", ".py", ".cpp", ".hpp", ".ads", ".adb", ".rs", ".lua", ""}
NAME = re.compile(r"(?<!\w)[A-Za-z_][A-Za-z0-9_']*")
CRATE = r"(?:rbc|ertms|test)_[a-z_]+"
MOST_LINES = {"README.md": 100, "docs/GUIDE.md": 320, "docs/INTEGRATION.md": 200, "docs/C_LIBRARY.md": 160}
MOST_COLUMNS = 120  # of prose; rows of tables, images and blocks may be wider
SUBCOMMANDS = {"run", "live", "explain", "picture", "check", "encode", "decode", "codes", "help"}
HISTORY = re.compile(r"\bon (?:[\w-]+ ){0,3}machines?\b|\bearlier versions?\b|\bprevious versions?\b", re.I)
SUBCOMMAND = re.compile(r"(?<![\w/-])(?:\./)?dispatch ([a-z][\w-]*)")
FILE = re.compile(r"(?<![\w/.-])((?:[\w.-]+/)*[\w.-]+\.(?:md|rt|antt|sh|py|toml|batch|expected|edit|tsv|txt|c|h|cpp|hpp|ads|adb|lua)|"
                  r"(?:crates|docs|examples|bench|bindings|include|\.ci)(?:/[\w.-]+)*/?)(?![\w/-])")


# ---- documents

def files(root):
    """All files of the repository, but for what a build makes."""
    for path in sorted(root.rglob("*")):
        parts = path.relative_to(root).parts
        if path.is_file() and not {".git", "out", "target", "__pycache__"} & set(parts):
            yield path


def documents(root):
    return [root / "README.md"] + sorted((root / "docs").glob("*.md")) + sorted((root / "bench").glob("*.md"))


def without_blocks(text):
    """The text with its fenced blocks blanked, so that line numbers stay."""
    return re.sub(r"^```.*?^```", lambda m: re.sub(r"[^\n]", " ", m.group()), text, flags=re.M | re.S)


def line_at(text, place):
    return text.count("\n", 0, place) + 1


def spans(text):
    """Each inline piece of code: its place and its text on one line."""
    for match in re.finditer(r"`([^`]+)`", text):
        yield match.start(), re.sub(r"\s+", " ", match.group(1))


# ---- paths and links

def is_there(root, document, name):
    """Whether a path is in the repository: from its top, from the document, or as the end of some path."""
    name = name.rstrip("/")
    if (root / name).exists() or (document.parent / name).exists():
        return True
    crate, built, _ = name.partition("/out/")
    if built and (root / crate).is_dir():
        return True  # a build makes it
    return f"/{name}\n" in ENDS.get(name.rsplit("/", 1)[-1], "")


def ends_of(root):
    """For each file name, the paths that end with it, so that `specs/X.antt` and `X.antt` are found."""
    ends = {}
    for path in files(root):
        ends[path.name] = ends.get(path.name, "") + "\n/" + path.relative_to(root).as_posix() + "\n"
    return {name: re.sub(r"\n\n", "\n", all_paths) for name, all_paths in ends.items()}


ENDS = {}


def anchors(text):
    """The anchors of a document's headings."""
    headings = re.findall(r"^#+ (.*)$", without_blocks(text), flags=re.M)
    return {re.sub(r"[^\w -]", "", heading.lower()).replace(" ", "-") for heading in headings}


def path_faults(root, document, text):
    for match in re.finditer(r"\]\(([^)\s]+)\)", text):
        target, _, anchor = match.group(1).partition("#")
        if target.startswith("http"):
            continue
        linked = (document.parent / target).resolve() if target else document
        if not linked.exists():
            yield match.start(), f"links to {target}, which is not there"
        elif anchor and anchor not in anchors(linked.read_text()):
            yield match.start(), f"links to #{anchor}, which is no heading of {linked.name}"
    for match in FILE.finditer(text):
        name = match.group(1)
        if name in words.FILES or name.startswith("Rattle.") or is_there(root, document, name):
            continue
        yield match.start(), f"names {name}, which is not there"


# ---- names

def words_of_objects(root):
    """The keys and the words of the objects that `--json` writes: docs/explain.schema.json."""
    found, todo = set(), [json.loads((root / "docs/explain.schema.json").read_text())]
    while todo:
        value = todo.pop()
        if isinstance(value, dict):
            found |= set(value.get("properties", {})) | {word for word in (*value.get("enum", []), value.get("const")) if isinstance(word, str)}
        todo += value.values() if isinstance(value, dict) else value if isinstance(value, list) else []
    return found


def known_names(world):
    names = set(words.KNOWN) | set(world.crates) | {name for _, name in world.kit} | words_of_objects(ROOT)
    for crate in world.crates.values():
        names |= crate.rust_names | crate.antt_names | {path.stem for path in crate.edits}
    return names


def is_variable(name):
    """Whether a name is a variable of SUBSET-026."""
    return re.fullmatch(r"(?:NID|Q|D|L|T|M|V)_[A-Z]+", name) is not None


def name_faults(world, known, text):
    for place, span in spans(text):
        if span in known or FILE.fullmatch(span):
            continue
        if re.fullmatch(r"[a-z0-9]+(?:-[a-z0-9]+)+", span):
            yield place, f"names `{span}`, which is no must-fail edit"
            continue
        code = re.sub(r'b?"[^"]*"|(?<!\S)--[a-z-]+', " ", span)
        for word in NAME.findall(FILE.sub(" ", code)):
            if word not in known and not is_variable(word) and len(word) > 1:
                yield place, f"names `{word}`, which is no name of crates/"


def owned_faults(world, text):
    """`name` of CRATE, `TYPE::name`, names in the row of a crate, and names before (CRATE, FILE)."""
    for match in re.finditer(rf"`([A-Za-z_]\w*)`\s+of\s+({CRATE})\b", text):
        crate = world.crates.get(match.group(2))
        if crate is None or match.group(1) not in crate.rust_names | crate.antt_names:
            yield match.start(), f"names `{match.group(1)}` of {match.group(2)}, which has no such name"
    for match in re.finditer(r"`[^`]*?\b(\w+)::(\w+)", text):
        if not world.has_member(match.group(1), match.group(2)):
            yield match.start(), f"names {match.group(1)}::{match.group(2)}, which is not there"
    for match in re.finditer(rf"^\| `({CRATE})` \|(.*)$", text, flags=re.M):
        crate = world.crates.get(match.group(1))
        for name in re.findall(r"`([A-Za-z_]\w*)`", match.group(2)):
            if crate and name not in crate.rust_names | crate.antt_names | set(words.KNOWN) | set(world.crates):
                yield match.start(), f"names `{name}` beside {match.group(1)}, which has no such name"
    for match in re.finditer(rf"((?:`\w+`(?:,\s+|\s+and\s+)?)+)\s*\(({CRATE}),\s+([\w/]+(?:\.rt)?)\)", text):
        for name in re.findall(r"`(\w+)`", match.group(1)):
            if not world.is_in(match.group(2), match.group(3), name):
                yield match.start(), f"names `{name}` ({match.group(2)}, {match.group(3)}), where it is not"


# ---- tables and outputs

def table_faults(root, text):
    """The crates by their layers in docs/ARCHITECTURE.md: each crate of crates.txt stands there once, and depends on no crate of a layer below its own."""
    uses = {}
    for line in (root / "crates.txt").read_text().split("\n"):
        found = re.split(r"[\s:]+", line.split("#")[0].strip())
        if found[0]:
            uses[found[0]] = set(found[1:])
    layer, layers = 0, {}
    for match in re.finditer(rf"^\| (?:\*\*(\w[\w ]*)\*\*|`({CRATE})`) \|[^|]*\|$", text, flags=re.M):
        layer += match.group(1) is not None
        if match.group(2) in layers:
            yield match.start(), f"has the crate {match.group(2)} twice"
        if match.group(2):
            layers[match.group(2)] = layer, match.start()
    for crate, (own, at) in layers.items():
        for other in sorted(uses.get(crate, ())):
            if layers.get(other, (0,))[0] > own:
                yield at, f"has {crate} above {other}, on which it depends"
    for crate in sorted(set(uses) ^ set(layers)):
        yield None, f"and crates.txt differ on whether there is a crate {crate}"


def output_faults(root, text):
    """A block behind a line that ends with `FILE`: is what that file holds."""
    for match in re.finditer(r"`(examples/[\w.]+)`:\n\n```text\n(.*?)```", text, flags=re.S):
        file = root / match.group(1)
        if not file.exists() or file.read_text() != match.group(2):
            yield match.start(), f"shows another text than {match.group(1)} has"


VARIANTS = re.compile(r"^Faulty variants by crate, [^\n]*(?:\n[^\n]+)*", flags=re.M)


def variant_counts(root):
    """How many faulty variants each crate has: those of the gate, and those that are tried by hand."""
    counts = {}
    for at, name in enumerate(("must-fail", "edits")):
        for edit in root.glob(f"crates/*/{name}/*.edit"):
            counts.setdefault(edit.parts[-3], [0, 0])[at] += 1
    return counts


def variants(root):
    """The paragraph that lists these counts."""
    counts = variant_counts(root)
    listed = ", ".join(f"{crate} {gate} and {hand}" for crate, (gate, hand) in sorted(counts.items()))
    gate, hand = map(sum, zip(*counts.values()))
    text = f"Faulty variants by crate, in the gate and by hand: {listed}; {gate} and {hand} in all."
    return textwrap.fill(text, 120, break_on_hyphens=False)


def variant_faults(root, text):
    said = VARIANTS.search(text)
    if said is None or said.group() != variants(root):
        yield said and said.start(), f"does not say: {variants(root)}"


def variant_total_faults(root, text):
    gate, hand = map(sum, zip(*variant_counts(root).values()))
    total = f"{gate} are for the gate, {hand} for use by hand"
    if total not in " ".join(text.split()):
        yield None, f"does not say of the faulty variants: {total}"


def edit_faults(root):
    """Faulty variants that no longer fit: each text that one replaces has to stand once in its file."""
    for edit in sorted(root.glob("crates/*/*/*.edit")):
        text = old = ""
        for line in edit.read_text().splitlines():
            word, _, rest = line.partition(": ")
            if word == "file":
                text = (edit.parent.parent / rest).read_text()
            elif word == "old":
                old = rest
                if text.count(old) != 1:
                    yield edit, f"replaces a text that stands {text.count(old)} times: {old}"
            elif word == "new":
                text = text.replace(old, rest)


def length_faults(root, document, text):
    """A document with more lines than it may have, or with prose in wider ones: with such lines the number would mean nothing."""
    most = MOST_LINES.get(document.relative_to(root).as_posix())
    lines = len(text.splitlines())
    if most is not None and lines > most:
        yield None, f"has {lines} lines, and may have {most}"
    for match in re.finditer(rf"^(?!\||!\[|    | *$).{{{MOST_COLUMNS + 1},}}$", without_blocks(text), flags=re.M):
        yield match.start(), f"has a line of {len(match.group())} columns, and may have {MOST_COLUMNS}"


def command_faults(text):
    """Subcommands that the program does not have, in inline code and in blocks."""
    for code in re.finditer(r"^```.*?^```|`[^`]+`", text, flags=re.M | re.S):
        for match in SUBCOMMAND.finditer(code.group()):
            if match.group(1) not in SUBCOMMANDS:
                yield code.start() + match.start(), f"names `dispatch {match.group(1)}`, which is no subcommand"


def texts(root):
    """The files in which citations and names of rules are looked for: all but this one."""
    return [path for path in files(root)
            if path.suffix in CITED_IN and "data" not in path.parts and path.resolve() != Path(__file__).resolve()]


def citation_faults(root):
    for path in texts(root):
        try:
            text = path.read_text()
        except UnicodeDecodeError:
            continue
        for match in CITATION.finditer(text):
            yield path, match.start(), f"cites a paper or a number of a demand: '{match.group()}'"


# ---- all of it

def history_faults(text):
    """Prose tells of the program as it is, and no machine or earlier version."""
    for match in HISTORY.finditer(text):
        yield match.start(), f"says '{match.group()}', which belongs in CHANGELOG.md or bench/RESULTS.md"


def faults(root, world):
    known = known_names(world)
    for name in sorted(model.DOCUMENTS - {document.name for document in documents(root)}):
        yield root / "docs" / name, "", None, "is not there"
    for document in documents(root):
        whole = document.read_text()
        text = without_blocks(whole)
        found = [*path_faults(root, document, text), *name_faults(world, known, text), *owned_faults(world, text), *output_faults(root, whole)]
        found += [*length_faults(root, document, whole), *command_faults(whole), *history_faults(text)]
        if document.name in model.DOCUMENTS:
            found += model.faults(world, document.name, whole)
        if document.name == "EVIDENCE.md":
            found += variant_faults(root, whole)
        if document.name == "ASSESSMENT.md":
            found += variant_total_faults(root, whole)
        if document.name == "ARCHITECTURE.md":
            found += table_faults(root, whole)
        for place, fault in found:
            yield document, whole, place, fault
    yield from documents_figures.faults(root, documents(root))
    yield from documents_limits.faults(root, documents(root))
    for path, place, fault in citation_faults(root):
        yield path, path.read_text(), place, fault
    for path, fault in edit_faults(root):
        yield path, "", None, fault
    yield from rules.faults(root, texts(root))


def main():
    root = ROOT
    if "--rules" in sys.argv[1:]:
        rules.show(root, texts(root))
        return 0
    ENDS.update(ends_of(root))
    world = reach.World(root)
    if "--write" in sys.argv[1:]:
        model.write(world, root / "docs")
        evidence = root / "bench" / "EVIDENCE.md"
        evidence.write_text(VARIANTS.sub(lambda _: variants(root), evidence.read_text()))
    if "--count" in sys.argv[1:]:
        model.count(world)
    broken = 0
    for document, text, place, fault in faults(root, world):
        broken += 1
        at = "" if place is None else f":{line_at(text, place)}"
        print(f"{document.relative_to(root)}{at}: {fault}")
    print(f"documents: {broken} faults in {len(documents(root))} documents, {model.to_be_named(world)} definitions to be named")
    return 1 if broken else 0


if __name__ == "__main__":
    sys.exit(main())
