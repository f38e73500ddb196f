"""The modules of definitions, crates/CRATE/specs/**.antt, and which of their words some contracts need."""

import re
from dataclasses import dataclass

NAME = r"[A-Za-z_][A-Za-z0-9_'-]*"
PATH = re.compile(r"Rattle(?:\.[A-Za-z_][A-Za-z0-9_]*)+")
KEYWORD = r"(?:abbrev|unfoldable|pub|record|data) +"
DECLARATION = re.compile(rf"((?:{KEYWORD})*)(?!{KEYWORD})({NAME})(?: |$)")
SIGNS = re.compile(rf"{KEYWORD}|[^\x00-\x7f]")  # how a word begins that is written in signs
USE = re.compile(rf"(?:pub )?use ([\w.]+?)(?:\.\{{(.*)\}})?(?: as ({NAME}))?")
CITED = re.compile(rf"(?<![.\w'-])({NAME})")


@dataclass
class Word:
    """A word with its comment: its first and last line, the first and last of the head of its block, what it cites."""

    name: str
    start: int
    end: int
    head: tuple | None
    cited: list


class Module:
    """A module: what its names stand for, and its words."""

    def __init__(self, path, text):
        self.name = ".".join(["Rattle", *path.with_suffix("").parts[1:]])
        self.path, self.lines = path, text.splitlines()
        self.uses = {}  # a name -> the module and the word for which it stands; no word for a module as a whole
        self.used = []  # the modules that it uses
        self.words = {}  # a name -> its Word
        self.variants = {}  # a constructor -> the name of its word
        self.proofs = []  # the words that are no definitions
        word = comment = head = None
        is_head = False
        is_data = False
        base = 0
        for number, line in enumerate(self.lines, 1):
            code = line.strip()
            depth = len(line) - len(line.lstrip())
            if not code:
                comment = None
            elif code.startswith("--"):
                comment = comment or number
            elif is_head or code.startswith("module _"):
                head = (head[0] if is_head else number, number)
                is_head, base = not code.endswith(" where"), 2
            elif use := USE.fullmatch(code):
                names = names_of_use(*use.groups())
                self.used += [target for target, _ in names.values()]
                self.uses.update(names)
            elif not code.startswith("pub mod "):
                if depth == 0:
                    base, head = 0, None
                declared = DECLARATION.match(code) if depth == base else None
                if not declared and (word is None or depth == base and SIGNS.match(code)):
                    raise ValueError(f"{path}:{number}: no rule says what this is")
                if declared and not (word and declared[2] == word.name):
                    word = self.words[declared[2]] = Word(declared[2], comment or number, number, head, [])
                    is_data = "data " in declared[1]
                    if declared[1].strip() in ("", "pub"):
                        self.proofs.append((number, word.name))
                elif is_data and depth == base + 2 and (variant := re.match(rf"({NAME}) :", code)):
                    self.variants[variant[1]] = word.name
                word.end = number
                word.cited += names_in(code)
                comment = None

    def meaning(self, name):
        """The module and the word for which a name stands here, if it is no bound name."""
        return (self.name, name) if name in self.words else self.uses.get(name)


class Needed:
    """What contracts need: the words and types that they cite, and those on which these stand. Each has the place that
    cites it first."""

    def __init__(self, modules, crates):
        self._modules, self._crates = modules, crates
        self.words = {}  # (module, word) -> its place; no word is the module as a whole
        self.types = {}  # (source, type) -> its place
        self.unknown = {}  # what is found nowhere -> its place

    def add(self, source, contract):
        """Adds what a contract needs."""
        waiting = [(f"{source}:{line}: the contract of {contract.item}", *cited) for line, *cited in contract.cited()]
        while waiting:
            waiting += self._note(*waiting.pop())

    def of(self, module):
        """The words of a module that are needed, in their order."""
        return [word for name, word in module.words.items() if (module.name, name) in self.words]

    def _note(self, place, target, name):
        """Notes a word or a type that is cited at a place, and gives what it cites."""
        target = module_of(self._modules, target)
        parts = target.split(".")
        if parts[0] != "Rattle" or parts[1] not in self._crates:
            return []
        if "declared" in parts:
            names = [*parts[parts.index("declared") + 1:], name]
            folders = [name for name in names if name and name[0].islower()]
            self.types.setdefault((f"crates/{parts[1]}/src/{'/'.join(folders)}.rt", names[len(folders)]), place)
            return []
        module = self._modules.get(target)
        name = module.variants.get(name, name) if module else name
        if module is None or name not in (None, *module.words):
            self.unknown.setdefault(f"{target}.{name}", place)
            return []
        if (target, name) in self.words:
            return []
        self.words[target, name] = place
        if name is None:
            return []
        word = module.words[name]
        meanings = [name.rsplit(".", 1) if "." in name else module.meaning(name) for name in word.cited]
        return [(f"{module.path}:{word.start}: {name}", *meaning) for meaning in meanings if meaning]


def names_of_use(target, many, alias):
    """What the names stand for that `use TARGET.{a, b as c, d.e}` or `use TARGET as ALIAS` brings."""
    if many is None:
        return {alias or target.split(".")[-1]: (target, None)}
    parts = [part.strip().partition(" as ") for part in many.split(",") if part.strip()]
    paths = [(f"{target}.{path}".rpartition("."), alias) for path, _, alias in parts]
    return {alias or word: (module, word) for (module, _, word), alias in paths}


def module_of(modules, target):
    """The module that a path means: one of its own crate, or one that this crate hands on by `pub use` in its Lib."""
    crate, _, rest = target.partition(".specs.")
    name, _, below = rest.partition(".")
    lib = modules.get(f"{crate}.specs.Lib")
    if lib is None or name not in lib.uses:
        return target
    return ".".join(filter(None, [lib.uses[name][0], below]))


def names_in(code):
    """The names that a line cites, and all paths in full."""
    return CITED.findall(PATH.sub(" ", code.split(" -- ")[0])) + PATH.findall(code)


def read_modules(top):
    """All modules of definitions below a folder, by name; their paths are those from there."""
    paths = sorted(top.glob("crates/*/specs/**/*.antt"))
    modules = [Module(path.relative_to(top), path.read_text(encoding="utf-8")) for path in paths]
    return {module.name: module for module in modules}
