"""The contracts in the sources, crates/CRATE/src/**.rt, laid out by `rt fmt`: what they cite, and which are public."""

import re
from collections import defaultdict
from dataclasses import dataclass
from functools import cache

from definitions import names_in, names_of_use

TESTS = re.compile(r"callers|test_\w+")
# Crates whose functions are `pub` for other code of this repository alone, and their modules that are public.
INTERNAL = set("p3_merkle_core p3_merkle_hashing p3_merkle_prover p3_merkle_verifier mmcs_engine fohlazu".split())
PUBLIC = set("""mmcs_engine/src/engine mmcs_engine/src/fault mmcs_engine/src/laws mmcs_engine/src/process
    p3_merkle_core/src/error p3_merkle_core/src/laws p3_merkle_prover/src/tree""".split())

USE = re.compile(r"^ *ghost use (\S+?)(?:\.\{(.*?)\})?(?: as (\w+))?;", re.M | re.S)
HANDED_ON = re.compile(r"^pub use ([\w:]+?)(?:::\{([^}]*)\})?;", re.M)
ALIAS = re.compile(r"^pub type (\w+)[^;]*?= (?:&|\[|\()*(\w+)", re.M)
ITEM = re.compile(r"(pub )?(?:pub\(\w+\) )?(?:(?:unsafe|final|const|extern \"C\") )*"
                  r"(fn|impl|trait|struct|enum|ghost)\b(?! use) ?(\w*)")
CLAUSE = re.compile(r" *(requires|ensures|decreases)(?: (\w+))? \{")


@dataclass
class Block:
    """The file as a whole (no kind), or a trait, an impl, a struct. An impl of a trait is of the kind `trait`."""

    kind: str | None
    title: str | None  # of an impl: its trait
    owner: str | None
    is_open: bool


@dataclass
class Contract:
    """A clause of a function, or a ghost member. `owner` is the function, the type or the trait that it belongs to."""

    item: str
    owner: str
    block: Block
    uses: dict
    is_public: bool
    line: int
    lines: list
    kind: str | None = None  # of a clause: `requires` or `ensures`
    clause: str | None = None  # its name, if it has one
    head: tuple | None = None  # the first and the last line of its function before the first clause

    @property
    def end(self):
        return self.line + len(self.lines) - 1

    def names(self):
        """The names in it, each with its line."""
        for number, text in enumerate(self.lines, self.line):
            yield from ((number, name) for name in names_in(text.partition("{")[2] if number == self.line else text))

    def cited(self):
        """Each word that is cited, with its line: (line, module, word). No word is a module as a whole."""
        for number, name in self.names():
            if meaning := name.rsplit(".", 1) if "." in name else self.uses.get(name):
                yield number, *meaning

    def renamed(self):
        """The names that stand for words of another name: (name, module, word)."""
        meanings = {name: self.uses.get(name, (None, None)) for _, name in self.names()}
        return {(name, *meaning) for name, meaning in meanings.items() if meaning[1] not in (None, name)}


class Source:
    """A source: its contracts, the laws of its traits, what it hands on, and its public names."""

    def __init__(self, path):
        self.path = path
        self.lines = [line.partition("//")[0].rstrip() for line in path.read_text(encoding="utf-8").splitlines()]
        text = "\n".join(self.lines)
        self.handed_on, self.aliases = HANDED_ON.findall(text), dict(ALIAS.findall(text))
        self.uses = {}
        for target, many, alias in (found.groups() for found in USE.finditer(text)):
            self.uses.update(names_of_use(target, many, alias))
        self.contracts = []
        self.laws = set()
        self.traits = set()
        self.names = set(self.aliases)
        self.given = []  # what impls give for the ghost members of a trait: (trait, name, contract)
        file = block = Block(None, None, None, True)
        for at, line in enumerate(self.lines):
            block = file if line == "}" else block
            found = ITEM.match(line, 0 if block is file else 4)
            if found and found[2] == "fn":
                name = found[3]
                owner = block.owner or found[3]
                first = at + 1
                head = None
                is_public = bool(found[1]) or (block.kind == "trait" and block.is_open)
                self.names |= {owner} if is_public else set()
            elif found and found[2] == "ghost":
                self._note(found[3], self._contract(at, found[3], block.owner, block, block.is_open))
            elif found:
                block = self._opened(at, found[3], bool(found[1]), found[2]) or block
            elif clause := CLAUSE.match(line):
                head = head or (first, at)
                self.contracts.append(self._contract(at, name, owner, block, is_public, *clause.groups(), head))

    def _contract(self, at, name, owner, block, is_public, *of_clause):
        """The contract that begins at a line, up to the brace that closes its first one."""
        depth, end = 0, at
        while depth or end == at:
            depth += self.lines[end].count("{") - self.lines[end].count("}")
            end += 1
        return Contract(name, owner, block, self.uses, is_public, at + 1, self.lines[at:end], *of_clause)

    def _opened(self, at, name, is_public, kind):
        """The block of a trait, an impl, a struct or an enum at a line, if it opens one."""
        end = at
        title = name
        owner = name
        while not self.lines[end].endswith((";", "{", "}")):
            end += 1
        if kind == "impl":
            head, changes = " ".join(self.lines[at:end + 1]).replace("->", ""), 1
            while changes:
                head, changes = re.subn(r"<[^<>]*>", "", head)
            trait, _, own = re.split(r" where\b", head)[0].removeprefix("impl").rpartition(" for ")
            title, owner = ((re.findall(r"\b[A-Za-z_]\w*", part) or [None])[-1] for part in (trait, own))
        self.traits |= {name} if kind == "trait" else set()
        self.names |= {owner} if is_public else set()
        if not self.lines[end].endswith("{"):
            return None
        return Block("trait" if kind == "impl" and title else kind, title, owner, is_public or kind == "impl")

    def _note(self, name, contract):
        """Notes a ghost member. An invariant speaks of private fields, and promises a caller nothing."""
        block, text = contract.block, " ".join(contract.lines).partition("{")
        if name == "invariant":
            return
        if re.match(r" *ghost \w+ =", text[0]):
            self.given.append((block.title, name, contract))
            return
        self.contracts.append(contract)
        # A law speaks of values beside its own names.
        if block.kind == "trait" and re.search(r"(?<![\w.])[a-z_]", re.sub(r"\((?:\w+ )+:", "", text[2])):
            self.laws.add((block.title, name))


class Sources:
    """All sources, by their paths from the top."""

    def __init__(self, top):
        self._top = top
        self.paths = [str(path.relative_to(top)) for path in sorted(top.glob("crates/*/src/**/*.rt"))]
        self.crates = {crate_of(path) for path in self.paths}
        self._handed_on = defaultdict(set)  # a source -> the names of it that others hand on
        self._own = defaultdict(set)  # a crate -> the public names of its sources that are not left out
        self._laws = set()
        for path in self.paths:
            if not self.is_left_out(path):
                source = self.read(path)
                self._laws |= source.laws
                self._own[crate_of(path)] |= source.names
                for target, names in source.handed_on:
                    for name in re.findall(r"\w+", names) or [None]:
                        self._note(path, target.split("::"), name)
                    if target.split("::")[0] not in self.crates:
                        self._own[crate_of(path)] |= set(re.findall(r"\w+", names))

    @cache
    def read(self, path):
        """A source."""
        return Source(self._top / path)

    @cache
    def _private(self, crate):
        """The modules of a crate that are not public."""
        roots = [self._top / f"crates/{crate}/src/{name}.rt" for name in ("lib", "main")]
        return set(re.findall(r"^mod (\w+);", "".join(path.read_text() for path in roots if path.exists()), re.M))

    def is_left_out(self, path):
        """Whether a source has no public contract but those that others hand on."""
        crate, module = crate_of(path), path.removeprefix("crates/").removesuffix(".rt")
        is_private = module.split("/")[2] in self._private(crate)
        return module not in PUBLIC and (crate in INTERNAL or is_private or TESTS.fullmatch(crate) is not None)

    def public(self, path):
        """The public contracts of a source. What proves a law of a trait is none."""
        source = self.read(path)
        contracts = [contract for contract in source.contracts if contract.is_public]
        contracts += [contract for trait, name, contract in source.given if (trait, name) not in self._laws]
        if not self.is_left_out(path):
            return contracts
        names, own = self._handed_on[path], self._own[crate_of(path)]
        return [contract for contract in contracts if contract.owner in names or
                contract.block.kind in ("impl", "trait") and contract.owner in own]

    def _note(self, path, target, name):
        """Notes that a source hands on a name of a module. A module that is handed on as a whole is one of PUBLIC."""
        crate = target[0] if target[0] in self.crates else crate_of(path)
        rest = [part for part in target if part not in (crate, "crate")] + [name] * bool(name)
        if rest:
            self._handed_on[f"crates/{crate}/src/{'/'.join(rest[:-1])}.rt"].add(rest[-1])


def crate_of(path):
    """The crate of a source."""
    return path.split("/")[1]
