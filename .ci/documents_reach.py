"""To which class a definition of specs/ belongs, by the contracts that are said with it.

- believed: the contracts of the calls by which `dispatch run` answers a batch (`CALLED`), but for what that of `process` says by
  `SAID`. They are the rules, or formats (`is_rule`).
- messages: what `SAID` says beyond that. Up to here `dispatch run` is described.
- run: what the contract of `run` of rbc_engine says beyond those: any opening desk, any number of workers.
- books: what `event_law` of rbc_core says beyond those: any interleaving of attempts.
- alarms: what the contract of `process_with_alarms` says beyond those.
- codec: what the contracts of ertms_codec say beyond those: messages to trains read, messages as text.
- text: what the contracts of the program itself (`PRINTING`), and the texts of values and faults, say beyond those, but for `OBJECTS`.
- objects: what `OBJECTS` says beyond those: the objects that `explain --json` writes.
- law: laws, and none of those.
- boundary: contracts of functions that some crate gives away, and none of those. They are proved to compose into the contracts of
  the program's calls.
- code: private contracts and proofs alone.

A definition belongs to the first class that reaches it.

A crate gives a function away where its lib.rt names it, or the type that its method is of. Of a program with a specs/ of its own each
contract counts, since a program gives nothing away. From the words of a contract the way goes by the imports (`ghost use` in src/,
`use` in specs/, also of a file that a specs/Lib.antt passes on by `pub use`) to definitions, from the words of a definition to
further ones, and from a type of src/ to the types of its fields, or to its value in contracts where it has one. How private fields
make that value, and what a type keeps, is of the code: a caller sees it only through contracts. What the witnesses of laws reach
is apart: worked cases, of which nothing has to be named.
"""
import re

from documents_source import TOKEN, WORDS_OF_PROGRAM, Crate

# the functions that `dispatch run` calls, but for that with alarms
CALLED = {("rbc_track", "track_from_toml"), ("rbc_batch", "process"), ("rbc_batch", "process_by_train"), ("rbc_batch", "process_with_desk")}
ALARMS = ("rbc_batch", "process_with_alarms")
CODEC = "ertms_codec"

# what the contract of `process` says of what messages say
SAID = ("rbc_batch", "Process", "AreSaid")

# the functions beside `process` on whose contracts the headline stands
HEADLINE = {"run": ("rbc_engine", "run"), "books": ("rbc_core", "event_law")}

# what the contract of `explain_in_objects` says
OBJECTS = ("rbc_json", "Log", "ExplainsInObjects")

# the program, but for the files that read its words, and the one function that it calls for a text
PRINTING = {"rbc_dispatch"}
PRINTING_FUNCTIONS = {("ertms_codec", "describe")}

# where the rules stand; the rest of the class believed is formats
RULES = {"rbc_place", "rbc_zones", "rbc_ids", "rbc_maps", "rbc_settle", "rbc_rule"}
RULES_FILES = {("rbc_desk", "Serial"), ("rbc_desk", "outbox.rt")}

CLASSES = ("believed", "messages", "run", "books", "alarms", "codec", "text", "objects", "law", "boundary")

# the classes that begin at one definition, and those that leave such a definition out
BEGIN_AT = {"messages": SAID, "objects": OBJECTS}
LEAVE_OUT = {"believed": SAID, "text": OBJECTS}


def is_printing(crate, found):
    return crate.name in PRINTING and found.module not in WORDS_OF_PROGRAM or (crate.name, found.name) in PRINTING_FUNCTIONS


def reads_words(crate, owner):
    return owner in crate.source.types and crate.source.types[owner].module in WORDS_OF_PROGRAM


def is_called(crate, found):
    return (crate.name, found.name) in CALLED


def is_of_alarms(crate, found):
    return (crate.name, found.name) == ALARMS


def is_of_codec(crate, found):
    return crate.name == CODEC and not is_printing(crate, found)


def is_rule(crate, file):
    return crate in RULES or (crate, file) in RULES_FILES


class World:
    """All crates, and what is reached in them."""

    def __init__(self, root):
        self.crates = {p.name: Crate(p) for p in sorted((root / "crates").iterdir()) if (p / "src").is_dir()}
        self.reached = {part: self.closure(part) for part in (*CLASSES, "witness")}
        self.needed, self.kit = self.classes()
        self.witnessed = {node[1:] for node in self.reached["witness"]}

    # -- questions

    def misread(self):
        """The crates in whose text there are more or fewer clauses than were read."""
        return [crate.name for crate in self.crates.values()
                if crate.source.clauses_written != sum(len(found.clauses) for found in crate.source.functions)]

    def specs(self):
        return {(crate.name, file) for crate in self.crates.values() for file in crate.specs}

    def has_member(self, owner, name):
        """Whether `owner::name` is there, where the owner is a crate, a module or a type of the crates."""
        if owner in self.crates:
            return name in self.crates[owner].source.given
        owners = [c for c in self.crates.values() if owner in c.source.types or f"{owner}.rt" in c.source.in_file or owner in c.source.names]
        return not owners or any(name in c.rust_names for c in owners)

    def is_in(self, crate, file, name):
        crate = self.crates.get(crate)
        if crate is None:
            return False
        if file.endswith(".rt"):
            return name in crate.source.in_file.get(file, ())
        return file in crate.specs and name in crate.specs[file].makes

    def classes(self):
        """The class of each reached definition and type, and of each word of the kit: the first one that reaches it. Types that
        the kit declares in Rust are known by their names."""
        needed, kit = {}, {}
        for part in reversed(CLASSES):
            for kind, crate, file, name in self.reached[part]:
                if kind in {"definition", "type"}:
                    needed[(crate, file, name)] = part
                elif kind == "kit" and ".declared." not in file:
                    kit[(file, name)] = part
        return needed, kit

    def class_of(self, crate, file, name):
        """The class of a name; cases of witnesses stand with the laws."""
        key = (crate, file, name)
        return self.needed.get(key) or ("law" if key in self.witnessed else "code")

    def by_file(self):
        """The definitions of each specs file, in its order: name, class, lines."""
        found = {}
        for crate in self.crates.values():
            for file, spec in crate.specs.items():
                for name, definition in spec.definitions.items():
                    part = self.class_of(crate.name, file, name)
                    found.setdefault((crate.name, file), []).append((name, part, definition.length()))
        return found

    # -- the way

    def closure(self, part):
        todo, reached = list(self.roots(part)), set()
        while todo:
            node = todo.pop()
            if node not in reached and node[1:] != LEAVE_OUT.get(part):
                reached.add(node)
                todo.extend(self.next(node))
        return reached

    def roots(self, part):
        if part in BEGIN_AT:
            yield ("definition", *BEGIN_AT[part])
            return
        for crate in self.crates.values():
            for found in crate.source.functions:
                if crate.is_given(found) and self.is_root(part, crate, found):
                    for clause in found.clauses:
                        yield from self.words(crate, found.scope, clause)
                    yield from self.types_in(crate, found.signature)
            for owner, trait, _, text, scope in crate.source.ghosts:
                if trait != "Model" and (owner in crate.source.given or crate.is_program and crate.specs):
                    if part == "boundary" or part == "text" and crate.name in {"rbc_batch", CODEC} | PRINTING and not reads_words(crate, owner):
                        yield from self.words(crate, scope, text)

    def is_root(self, part, crate, found):
        if part in HEADLINE:
            return (crate.name, found.name) == HEADLINE[part]
        if part in {"law", "witness"}:
            return found.kind() == part
        roots = {"believed": is_called, "alarms": is_of_alarms, "codec": is_of_codec, "text": is_printing, "boundary": lambda crate, found: True}
        return found.kind() == "call" and roots[part](crate, found)

    def next(self, node):
        kind, crate, file, name = node
        if kind == "definition":
            crate = self.crates[crate]
            spec = crate.specs[file]
            yield from self.words(crate, spec.scope, spec.definitions[name].text, spec, file)
        elif kind in {"type", "value"}:
            yield from self.type_words(self.crates[crate], name)

    def type_words(self, crate, name):
        values = [(text, scope) for owner, trait, ghost, text, scope in crate.source.ghosts
                  if owner == name and trait == "Model" and ghost == "Value"]
        for text, scope in values:
            yield from self.words(crate, scope, text)
        if not values:
            yield from self.types_in(crate, crate.source.types[name].text)

    def types_in(self, crate, text):
        """The types of the crates that a piece of Rust names."""
        for word in set(re.findall(r"\b[A-Z]\w*", text)):
            owner = crate if word in crate.source.types else self.owner_of(word)
            if owner:
                yield ("value", owner.name, owner.source.types[word].module, word)

    def owner_of(self, name):
        owners = [c for c in self.crates.values() if name in c.source.types and name in c.source.given]
        return owners[0] if owners else None

    def words(self, crate, scope, text, spec=None, file=None):
        for token in set(TOKEN.findall(text)):
            first, _, rest = token.partition(".")
            if spec and first in spec.makes:
                yield ("definition", crate.name, file, spec.makes[first])
            elif first in scope.modules and rest:
                yield from self.resolve(scope.modules[first], rest.split(".")[0])
            elif first in scope.names:
                yield from self.resolve(*scope.names[first])

    def resolve(self, module, name):
        path = module.split(".")
        if path[0] != "Rattle":
            yield ("kit", "", module, name)
        elif path[1] not in self.crates:
            yield ("kit", "", module, name)
        elif path[2] == "specs" and path[3] in self.crates[path[1]].passed:
            yield from self.resolve(".".join([self.crates[path[1]].passed[path[3]], *path[4:]]), name)
        elif path[2] == "specs" and path[3] == "declared":
            owner = self.crates[path[1]]
            types = [part for part in path[4:] if part in owner.source.types]
            if types:
                yield ("type", owner.name, owner.source.types[types[0]].module, types[0])
        elif path[2] == "specs":
            spec = self.crates[path[1]].specs.get(path[3])
            if spec and name in spec.makes:
                yield ("definition", path[1], path[3], spec.makes[name])
            elif spec and name in spec.scope.names:  # it is handed on by `pub use`
                yield from self.resolve(*spec.scope.names[name])
