"""What stands in a crate: its functions with their contracts, its types, and the definitions of its specs/ and proofs/."""
import re

TOKEN = re.compile(r"[A-Za-z_][A-Za-z0-9_']*(?:\.[A-Za-z0-9_][A-Za-z0-9_']*)*")
RUST_NOISE = re.compile(r'//[^\n]*|b?"(?:\\.|[^"\\])*"|b?\'(?:\\.[^\']*|[^\\\'\n])\'', re.S)
ANTT_NOISE = re.compile(r'--[^\n]*|"(?:\\.|[^"\\])*"', re.S)

# the most definitions over which one sentence stands in specs/
MOST_IN_GROUP = 4

# the files of the program that read its words: of these public contracts alone count, as those of a library
WORDS_OF_PROGRAM = {"words.rt", "no_task.rt", "command_line.rt", "misuse.rt"}


def blank(pattern, text):
    """The text with comments and strings blanked, so that places stay."""
    return pattern.sub(lambda m: re.sub(r"[^\n]", " ", m.group()), text)


class Scope:
    """The names that imports bring: to (module, name), and other names of modules."""

    def __init__(self, outer=None):
        self.names = dict(outer.names) if outer else {}
        self.modules = dict(outer.modules) if outer else {}

    def use(self, text):
        """Takes an import: `A.B.{x, y as z}` or `A.B as z`."""
        listed = re.match(r"\s*([\w.]+)\.\{(.*)\}\s*$", text, flags=re.S)
        if listed:
            for word in listed.group(2).split(","):
                name, _, other = word.strip().partition(" as ")
                for piece in [other or name, *re.findall(r"[A-Za-z_]\w*", other or name)]:
                    self.names[piece] = (listed.group(1), name)
            return
        module, _, other = text.strip().partition(" as ")
        self.modules[other.strip() or module.rsplit(".", 1)[-1]] = module


# ---- specs

class Definition:
    def __init__(self, name, keyword, lines):
        self.name, self.keyword, self.lines = name, keyword, lines
        self.text = "\n".join(lines)
        self.fields = set(re.findall(r"^  (?:pub )?(\w+) :", self.text, flags=re.M))

    def length(self):
        return sum(1 for line in self.lines if line.strip())


class Spec:
    """A file of specs/ or proofs/: its imports and its definitions."""
    HEAD = re.compile(r"^(?:(?:abbrev|unfoldable|opaque) )?(?:pub )?(?:(record|data) )?([^\s:({]+)(?=[ :({])")

    def __init__(self, path):
        self.scope, self.definitions, self.makes = Scope(), {}, {}
        self.told = set()  # the definitions with a sentence: one above each, or above a group of them
        written = path.read_text()
        current, in_group, is_mutual = None, MOST_IN_GROUP, False
        for line, with_words in zip(blank(ANTT_NOISE, written).split("\n"), written.split("\n")):
            is_mutual = re.match(r"(?:abbrev )?mutual$", line) is not None or is_mutual and with_words[:1] in {" ", ""}
            if is_mutual and with_words.startswith("  "):  # definitions that use each other stand indented below that word
                line, with_words = line[2:], with_words[2:]
            if with_words.startswith("--"):
                in_group = 0
            if line.startswith(("use ", "pub use ")):
                self.scope.use(line.removeprefix("pub ")[4:])
                current = None
            elif self.begins(line):
                match = self.HEAD.match(line)
                current = Definition(match.group(2), match.group(1), [line])
                if current.name not in self.definitions and in_group < MOST_IN_GROUP:
                    self.told.add(current.name)
                in_group += current.name not in self.definitions
                self.definitions[current.name] = current
            elif re.match(r"infix|pub mod|mod |(?:abbrev )?mutual$", line):
                current = None
            elif current is not None:
                current.lines.append(line)
        for found in self.definitions.values():
            found.__init__(found.name, found.keyword, found.lines)
            self.makes[found.name] = found.name
            for piece in re.findall(r"[A-Za-z_]\w*", found.name) if "◌" in found.name else []:
                self.makes[piece] = found.name
            for field in found.fields if found.keyword == "data" else []:
                self.makes[field] = found.name

    def begins(self, line):
        return bool(re.match(r"(?:(?:abbrev|unfoldable|opaque)(?! mutual$)|pub(?! mod)|record|data) ", line) or re.match(r"[^\s:]+ : ", line))


# ---- sources

class Function:
    def __init__(self, name, public, owner, trait, scope, module):
        self.name, self.public, self.owner, self.trait = name, public, owner, trait
        self.scope, self.module = scope, module
        self.signature, self.clauses, self.is_law = "", [], False

    def kind(self):
        """A law is a function that does nothing, and so are its witnesses."""
        if not self.is_law:
            return "call"
        return "witness" if self.name.endswith("_witnesses") else "law"


class Type:
    def __init__(self, name, module, text, is_told):
        self.name, self.module, self.text, self.is_told = name, module, text, is_told
        self.value = None  # in contracts: its text, and the scope of that
        body = text.partition("{")[2]
        self.members = set(re.findall(r"^\s*(?:pub(?:\([a-z]+\))? )?([a-z_]\w*):", body, flags=re.M))
        self.members |= set(re.findall(r"^\s*([A-Z]\w*)\s*(?:[,({]|$)", body, flags=re.M))


def closing(text, place):
    """Behind the brace that closes the one at a place."""
    depth = 0
    for at in range(place, len(text)):
        depth += {"{": 1, "}": -1}.get(text[at], 0)
        if depth == 0:
            return at + 1
    raise ValueError("a brace is not closed")


def statement_end(text, place):
    """Behind the semicolon that ends what begins at a place."""
    depth = 0
    for at in range(place, len(text)):
        depth += {"{": 1, "(": 1, "[": 1, "}": -1, ")": -1, "]": -1}.get(text[at], 0)
        if text[at] == ";" and depth == 0:
            return at + 1
    return len(text)


def head_end(text, place):
    """The first brace or semicolon from a place on that stands in no parentheses, as that of `[u8; 32]` does."""
    depth = 0
    for at in range(place, len(text)):
        depth += {"(": 1, "[": 1, ")": -1, "]": -1}.get(text[at], 0)
        if text[at] in "{;" and depth == 0:
            return at
    return len(text)


class Source:
    """What stands in the files of a crate's src/."""
    ITEM = re.compile(
        r"(?P<attribute>#!?\[)|(?P<use>ghost use |(?:pub(?:\([a-z]+\))? )?use )|(?P<ghost>ghost )"
        r"|(?P<block>(?:pub(?:\([a-z]+\))? )?(?:impl|trait)\b|(?:pub )?mod \w+ \{)|(?P<mod>(?:pub(?:\([a-z]+\))? )?mod \w+;)"
        r"|(?P<function>(?:pub(?:\([a-z]+\))? )?(?:const )?fn (?=\w))|(?P<type>(?:pub(?:\([a-z]+\))? )?(?:struct|enum|type)\b)"
        r"|(?P<const>(?:pub(?:\([a-z]+\))? )?(?:const|static) )"
    )

    def __init__(self, folder):
        self.functions, self.types, self.names, self.given, self.ghosts = [], {}, set(), set(), []
        self.in_file = {}
        self.clauses_written = 0  # in the text, to be held against those that were read
        for path in sorted(folder.rglob("*.rt")):
            module = path.relative_to(folder).as_posix()
            self.is_test = "tests" in module
            self.module = module
            self.in_file.setdefault(module, set())
            self.written = path.read_text()
            text = blank(RUST_NOISE, self.written)
            if not self.is_test:
                shown = text.split("#[cfg(test)]\nmod tests {")[0]
                self.clauses_written += len(re.findall(r"\b(?:requires|ensures)\b", shown))
            self.walk(text, 0, len(text), Scope(), None, None, False)

    def name(self, *names):
        self.names.update(names)
        self.in_file[self.module].update(names)

    def walk(self, text, at, end, scope, owner, trait, public_trait):
        while True:
            match = self.ITEM.search(text, at, end)
            if not match:
                return
            kind, start = match.lastgroup, match.start()
            if kind == "attribute":
                at = self.attribute(text, match)
            elif kind in {"use", "mod", "const", "ghost"}:
                at = match.end() if kind == "mod" else statement_end(text, match.end())
                self.statement(kind, text[start:at - 1], scope, owner, trait)
            elif kind == "function":
                at = self.function(text, match, scope, owner, trait, public_trait)
            elif kind == "type":
                at = self.type(text, match)
            else:
                at = self.block(text, match, scope)

    def attribute(self, text, match):
        at, depth = match.end(), 1
        while depth:
            depth += {"[": 1, "]": -1}.get(text[at], 0)
            at += 1
        if "cfg(test)" in text[match.start():at]:
            inner = re.compile(r"\s*mod \w+ \{").match(text, at)
            return closing(text, inner.end() - 1) if inner else at
        return at

    def statement(self, kind, words, scope, owner, trait):
        if kind == "use" and words.startswith("ghost"):
            scope.use(words[len("ghost use "):])
        elif kind == "use" and words.startswith("pub use ") and self.module == "lib.rt":
            self.given.update(re.findall(r"\w+", words.rsplit("::", 1)[-1]))
        elif kind == "mod":
            self.name(words.rsplit(" ", 1)[-1])
        elif kind == "const":
            self.name(re.search(r"(?:const|static) (\w+)", words).group(1))
        elif kind == "ghost":
            name = re.match(r"ghost (\w+)", words)
            if name and not self.is_test:
                self.name(name.group(1))
                self.ghosts.append((owner, trait, name.group(1), words, Scope(scope)))

    def function(self, text, match, scope, owner, trait, public_trait):
        name = re.compile(r"\w+").match(text, match.end()).group()
        public = match.group().startswith("pub fn") or match.group().startswith("pub const fn") or public_trait
        found = Function(name, public, owner, trait, scope, self.module)
        self.name(name)
        if public and owner is None and self.module == "lib.rt":
            self.given.add(name)
        at = match.end()
        while True:
            stop = head_end(text, at)
            head = text[at:stop]
            clause = re.search(r"\b(?:requires|ensures)(?:\s+(\w+))?\s*$", head)
            found.signature += head[:clause.start()] if clause else head
            if text[stop] == ";":
                at = stop + 1
                break
            at = closing(text, stop)
            inner = text[stop + 1:at - 1]
            if not clause:
                found.is_law = not inner.strip() and bool(found.clauses) and "->" not in found.signature
                break
            found.clauses.append(inner)
            self.name(*(name for name in [clause.group(1)] if name))
        self.name(*re.findall(r"(\w+): ", found.signature))
        if not self.is_test:
            self.functions.append(found)
        return at

    def type(self, text, match):
        name = re.compile(r"\s*(\w+)").match(text, match.end()).group(1)
        stop = head_end(text, match.end())
        at = stop + 1 if text[stop] == ";" else closing(text, stop)
        is_told = re.search(r"///[^\n]*\n(?:\s*#\[[^\n]*\n)*\s*\Z", self.written[:match.start()]) is not None
        found = Type(name, self.module, text[match.start():at], is_told)
        self.name(name, *found.members)
        if self.module == "lib.rt" and found.text.startswith("pub "):
            self.given.add(name)
        if not self.is_test:
            self.types[name] = found
        return at

    def block(self, text, match, scope):
        brace = text.index("{", match.start())
        head, stop = text[match.start():brace], closing(text, text.index("{", match.start()))
        inner, owner, trait, public = Scope(scope), None, None, False
        if "mod " in head:
            inner = scope
        elif re.match(r"(?:pub(?:\([a-z]+\))? )?trait\b", head):
            owner = trait = re.search(r"trait (\w+)", head).group(1)
            public = True
            self.name(owner)
        else:
            head = re.sub(r"^impl\s*(<(?:[^<>]|<[^<>]*>)*>)?\s*", "", head)
            of, _, subject = head.rpartition(" for ")
            owner = re.match(r"&?\s*(?:\w+::)*(\w+)", (subject or head).strip()).group(1)
            trait = re.match(r"(?:\w+::)*(\w+)", of.strip()).group(1) if of else None
        at = brace + 1
        # the imports of a block hold for all of it
        for use in re.finditer(r"ghost use ([^;]*);", text[at:stop]):
            if owner:
                inner.use(use.group(1))
        self.walk(text, at, stop - 1, inner, owner, trait, public)
        return stop


class Crate:
    def __init__(self, folder):
        self.name, self.folder = folder.name, folder
        self.source = Source(folder / "src")
        self.is_program = (folder / "src" / "main.rt").exists()
        self.specs = {p.stem: Spec(p) for p in sorted((folder / "specs").glob("*.antt")) if p.stem != "Lib"}
        lib = folder / "specs" / "Lib.antt"
        self.passed = Spec(lib).scope.modules if lib.exists() else {}  # what it passes on of the crates below, by its `pub use` lines
        self.edits = [edit for name in ("must-fail", "edits") for edit in sorted((folder / name).glob("*.edit"))]
        self.rust_names = set(self.source.names)
        self.antt_names = set()
        proofs = [Spec(p) for p in sorted((folder / "proofs").rglob("*.antt"))]
        for spec in [*self.specs.values(), *proofs]:
            for found in spec.definitions.values():
                self.antt_names |= {found.name, *found.fields, *re.findall(r"[A-Za-z_]\w*", found.name)}
        self.antt_names |= {p.stem for p in (folder / "proofs").rglob("*.antt")} | set(self.specs)

    def is_given(self, found):
        """Whether a function is one that the crate gives away."""
        if self.is_program:
            return bool(self.specs) and (found.public or found.module not in WORDS_OF_PROGRAM)
        return (found.public or found.trait is not None) and (found.owner or found.name) in self.source.given
