"""What the sources of the repository hold: its crates, their functions with the clauses of their contracts, the
definitions of `specs/`, and the wrong bodies. Scripts of tools/ and tests/ read it; nothing is proved or built here.
"""
import os
import re
from collections.abc import Iterator
from dataclasses import dataclass, field
from functools import cache

TOP = os.path.dirname(os.path.dirname(os.path.realpath(__file__)))
EDIT_FOLDERS = ("must-fail", "first-ring", "wrong-bodies")
FUNCTION = re.compile(r'( *)(pub(?:\([a-z]+\))? )?(?:const )?(?:extern "C" )?fn (\w+)')
IMPL = re.compile(r"(?:pub )?(?:(impl)(?:<[^{]*?>)? (?:(?:\w+::)*(\w+)(?:<.*?>)? for )?&?(?:'\w+ )?|(trait) )(\w+)")
CLAUSE = re.compile(r"^ *(ensures\*?|requires) ?([a-z_0-9]*) *\{", re.M)
GHOST = re.compile(r"^ *ghost (\w+)\b.*? = \{|^ *ghost (\w+):", re.M)
DEFINITION = re.compile(
    r"^( *)(?:unfoldable )?(?:abbrev )?(?:pub )?(data|record) (\w+)|^( *)(?:unfoldable )?(?:abbrev )?pub (\S+) :"
)
WORD = re.compile(r"[^\s(){}\[\],×≡→]+")


def read(path: str) -> str:
    with open(f"{TOP}/{path}", encoding="utf-8") as file:
        return file.read()


def without_comments(text: str) -> str:
    """The text with each comment blanked, so that places and lines stay."""
    return re.sub(r"(?m)(^|\s)(//|--).*$", lambda it: it[1] + " " * (len(it[0]) - len(it[1])), text)


@cache
def crates() -> dict[str, list[str]]:
    """Each crate of crates.txt, with the crates of this repository that it lists."""
    listed = {}
    for line in read("crates.txt").splitlines():
        name, colon, words = line.partition("#")[0].partition(":")
        if colon and name.split():
            listed[name.split()[0]] = words.split()
    return {name: [it for it in words if it in listed] for name, words in listed.items()}


def crates_above(names: set[str]) -> list[str]:
    """The crates that list one of these, or one that does, in the order of crates.txt."""
    found = set(names)
    while more := {name for name, words in crates().items() if name not in found and found & set(words)}:
        found |= more
    return [name for name in crates() if name in found - names]


def files_in(folder: str, *endings: str) -> list[str]:
    """The files below a folder of the repository that end so, but those that a check or a build left."""
    found = []
    for at, folders, names in os.walk(f"{TOP}/{folder}"):
        folders[:] = sorted(it for it in folders if it not in ("out", "target", ".git", "__pycache__"))
        found += [os.path.relpath(f"{at}/{it}", TOP) for it in sorted(names) if it.endswith(endings)]
    return found


@dataclass(frozen=True)
class Clause:
    """A clause of a contract: `ensures` or `requires` (or `ghost`, a word of a trait's impl), its name, its text."""

    kind: str
    name: str
    text: str
    line: int


@dataclass
class Function:
    """A function of a crate, where it is defined, and its contract."""

    crate: str
    file: str
    line: int
    type: str
    trait: str
    name: str
    is_public: bool
    clauses: list[Clause] = field(default_factory=list)

    @property
    def module(self) -> str:
        """The words of the path of its file, as proofs/ has them."""
        return self.file.partition("/src/")[2].removesuffix(".rt")

    @property
    def path(self) -> str:
        parts = [self.crate, *(it for it in self.module.split("/") if it not in ("lib", "main"))]
        owner = f"{self.type}+{self.trait}" if self.trait else self.type
        return "::".join([*parts, *([owner] if owner else []), self.name])

    def is_called(self, call: str) -> bool:
        """Whether a name means this function: its own, after the ends of its type, its trait, its module or crate."""
        *outer, name = re.split(r"::|\+", call)
        own = [it for it in re.split(r"::|\+", self.path) if it != self.name]
        return name == self.name and all(it in [self.name, *own] for it in outer)


def closed(text: str, at: int) -> int:
    """The place after the bracket that closes the one at a place."""
    depth = 0
    for place in range(at, len(text)):
        depth += (text[place] == "{") - (text[place] == "}")
        if not depth:
            return place + 1
    return len(text)


def clauses_in(text: str, first: int) -> list[Clause]:
    """The clauses of a text whose first line has this number."""
    found = []
    for it in CLAUSE.finditer(text):
        end = closed(text, it.end() - 1)
        found.append(Clause(it[1], it[2], text[it.end() : end - 1].strip(), first + text.count("\n", 0, it.end())))
    return found


@cache
def functions_in(crate: str) -> list[Function]:
    """The functions of a crate's src, each with its clauses, in the order of its files."""
    found = []
    for file in files_in(f"crates/{crate}/src", ".rt"):
        text = without_comments(read(file))
        lines = text.split("\n")
        type_, trait, is_trait, ghosts = "", "", False, []
        starts = [at for at, line in enumerate(lines) if FUNCTION.match(line) or IMPL.match(line)]
        for start, end in zip(starts, [*starts[1:], len(lines)]):
            body = "\n".join(lines[start:end])
            if owner := IMPL.match(lines[start]):
                is_trait = bool(owner[3])
                type_, trait = owner[4], owner[2] or ""
                ghosts = [
                    Clause("ghost", it[1] or it[2], body[it.end() :].partition("};")[0].strip(" {}"),
                           start + 1 + body.count("\n", 0, it.start(1) if it[1] else it.start(2)))
                    for it in GHOST.finditer(body)
                    if (it[1] or it[2]) != "use"
                ]
                continue
            head = FUNCTION.match(lines[start])
            if head is None or not head[1]:
                type_, trait, is_trait, ghosts = "", "", False, []
            name = head[3] if head else ""
            public = bool(head and head[2] and head[2].strip() == "pub") or bool(trait) or is_trait
            made = Function(crate, file, start + 1, type_, trait, name, public, clauses_in(body, start + 1))
            made.clauses += ghosts if trait else []
            found.append(made)
    return found


def functions() -> Iterator[Function]:
    for crate in crates():
        yield from functions_in(crate)


def called(call: str) -> list[Function]:
    """The functions that a name means: public ones where there are any, and a trait's own before those of its impls."""
    found = [it for it in functions() if it.is_called(call)]
    owner = re.split(r"::|\+", call)[-2:][0]
    own = [it for it in found if it.type == owner and not it.trait]
    return own or [it for it in found if it.is_public] or found


@dataclass(frozen=True)
class Definition:
    """A definition of specs/: its name, its file and line, and the comment before it."""

    crate: str
    file: str
    line: int
    name: str
    comment: str


@cache
def definitions() -> dict[str, list[Definition]]:
    """Each name that specs/ define, with all its definitions."""
    found: dict[str, list[Definition]] = {}
    for crate in crates():
        for file in files_in(f"crates/{crate}/specs", ".antt"):
            lines, record = read(file).split("\n"), -1
            for at, line in enumerate(lines):
                it = DEFINITION.match(line)
                # (what is deeper than its record is a field)
                if line.strip() and len(line) - len(line.lstrip()) <= record:
                    record = -1
                if it and it[2] == "record":
                    record = len(it[1])
                elif it and record >= 0 and it[5]:
                    it = None
                if it:
                    comment = []
                    while at - 1 - len(comment) >= 0 and lines[at - 1 - len(comment)].lstrip().startswith("-- "):
                        comment.insert(0, lines[at - 1 - len(comment)].strip()[3:])
                    name = it[3] or it[5]
                    found.setdefault(name, []).append(Definition(crate, file, at + 1, name, " ".join(comment)))
    return found


def imports(file: str) -> dict[str, str]:
    """Each name that a file of the crates takes from other modules, with the path of the module that it is from."""
    found = {}
    for path, words, whole in re.findall(r"\buse Rattle\.([\w.]+?)(?:\.\{([^}]*)\}| as (\w+))?[;\n]", read(file)):
        for word in re.split(r",\s*", words) if words else [whole or path.rpartition(".")[2]]:
            name, _, alias = word.strip().partition(" as ")
            found[alias or name] = path
    return found


def words_of(clause: Clause, file: str) -> list[Definition]:
    """The definitions of this repository's specs that a clause's words mean, each once."""
    taken, found = imports(file), []
    for word in WORD.findall(clause.text):
        alias, _, name = word.rpartition(".")
        module = taken.get(alias or word)
        for it in definitions().get(name, []):
            if it.file == f"crates/{(module or '').replace('.', '/')}.antt" and it not in found:
                found.append(it)
    return found


@dataclass(frozen=True)
class WrongBody:
    """A wrong body of EDIT_FOLDERS: its file, and the files and functions that it changes or names."""

    path: str
    crate: str
    files: tuple[str, ...]
    functions: tuple[str, ...]


def function_at(file: str, line: int) -> str:
    """The path of the function that a line belongs to, or nothing."""
    crate = file.split("/")[1]
    before = [it for it in functions_in(crate) if it.file == file and it.line <= line]
    return before[-1].path if before else ""


@cache
def wrong_bodies() -> list[WrongBody]:
    found = []
    for crate in crates():
        for path in [it for folder in EDIT_FOLDERS for it in files_in(f"crates/{crate}/{folder}", ".edit")]:
            file, files, paths = "", [], []
            for word, rest in re.findall(r"^(file|old|goal): ?(.*)$", read(path), re.M):
                if word == "file":
                    file = f"crates/{crate}/{rest.strip()}"
                    files.append(file)
                elif word == "goal":
                    paths.append(f"{crate}::{rest.split()[0]}")
                elif os.path.exists(f"{TOP}/{file}") and rest in read(file) and file.endswith(".rt"):
                    text = read(file)
                    paths.append(function_at(file, text.count("\n", 0, text.index(rest)) + 1))
            found.append(WrongBody(path, crate, tuple(dict.fromkeys(files)), tuple(filter(None, dict.fromkeys(paths)))))
    return found
