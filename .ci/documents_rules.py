"""The names of the rules, such as R-STOP-3: where docs/RULES.md defines them, and where the rest of the repository gives them.

A name stands once in docs/RULES.md, in bold and with a full stop, at the head of its rule. Elsewhere it stands
- in specs/*.antt, in the comment right above a definition;
- in a test, in the comment above its function or its constant, in crates/*/src/tests/*.rt;
- in a faulty variant, *.edit, in a line that begins with #;
- in any other text, where it only has to be one of docs/RULES.md.
"""
import re

NAME = re.compile(r"\bR-[A-Z]+-\d+\b")
HEAD = re.compile(r"\*\*(R-[A-Z]+-\d+)\.\*\*")
DEFINITION = re.compile(r"(?:(?:abbrev|unfoldable|opaque) )?(?:pub )?(?:(?:record|data) )?([^\s:({]+)(?=[ :({])")
TEST = re.compile(r"(?:pub(?:\([a-z]+\))? )?(?:fn|const) (\w+)")
KINDS = ("definition", "test", "variant")


def named(root, paths):
    """Each place where a file gives the name of a rule: the name, the kind of what it stands at or None, the path, its text, the
    place in it, and the line and the name of what it stands at."""
    for path in paths:
        try:
            text = path.read_text()
        except UnicodeDecodeError:
            continue
        lines = text.split("\n")
        for match in NAME.finditer(text):
            at = text.count("\n", 0, match.start())
            yield match.group(), *of_what(path.relative_to(root), lines, at), path, text, match.start()


def of_what(path, lines, at):
    """The kind, the line and the name of what a name in this line stands at."""
    if path.parts[0] != "crates":
        return None, at + 1, ""
    if path.suffix == ".edit":
        return ("variant" if lines[at].startswith("#") else None), at + 1, path.stem
    if path.suffix == ".antt" and path.parts[2] == "specs":
        return "definition", *below(lines, at, "--", DEFINITION)
    if path.suffix == ".rt" and "tests" in path.parts:
        return "test", *below(lines, at, "//", TEST)
    return None, at + 1, ""


def below(lines, at, mark, form):
    """The line and the name of what stands right below a comment; no name where nothing does."""
    if not lines[at].startswith(mark):
        return at + 1, ""
    while at < len(lines) and lines[at].startswith((mark, "#[")):
        at += 1
    found = form.match(lines[at]) if at < len(lines) else None
    return at + 1, found.group(1) if found else ""


def heads(root):
    """The names in docs/RULES.md, each with its places."""
    found = {}
    for match in HEAD.finditer((root / "docs" / "RULES.md").read_text()):
        found.setdefault(match.group(1), []).append(match.start())
    return found


def faults(root, paths):
    """Names that no rule has, or two have; names that stand at nothing; and rules that no definition names."""
    rules, document = heads(root), root / "docs" / "RULES.md"
    defined = set()
    for name, kind, _, owner, path, text, place in named(root, paths):
        if name not in rules:
            yield path, text, place, f"names {name}, which is no rule of docs/RULES.md"
        elif kind and not owner:
            yield path, text, place, f"names {name} in a comment that stands above no {kind}"
        elif kind == "definition":
            defined.add(name)
        elif kind is None and path.relative_to(root).parts[0] == "crates":
            yield path, text, place, f"names {name} elsewhere than above a definition or a test, or at the head of a variant"
    text = document.read_text()
    for name, places in rules.items():
        for place in places[1:]:
            yield document, text, place, f"defines {name} once more"
        if name not in defined:
            yield document, text, places[0], f"defines {name}, which no definition of specs/ names"


def show(root, paths):
    """Prints each rule with the definitions, the tests and the variants that name it, and how many rules have such."""
    found = {name: {kind: {} for kind in KINDS} for name in heads(root)}
    for name, kind, line, owner, path, _, _ in named(root, paths):
        if kind and owner and name in found:
            found[name][kind][f"{path.relative_to(root)}:{line}"] = owner
    for name, kinds in found.items():
        print(name)
        for kind in KINDS:
            for where, owner in kinds[kind].items():
                print(f"  {kind}: {owner}, {where}")
            if not kinds[kind]:
                print(f"  no {kind} names it")
    counts = [sum(1 for kinds in found.values() if kinds[kind]) for kind in KINDS]
    print(f"{len(found)} rules: definitions name {counts[0]}, tests {counts[1]}, variants {counts[2]}")
