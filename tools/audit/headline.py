"""The headline of docs/AUDIT.md: the calls and traits of its tables, and all that they need as one text."""

import re
import textwrap
from dataclasses import dataclass
from itertools import takewhile

TYPE = r"^pub (?:struct|enum|type) (\w+)"


@dataclass
class Call:
    """A call with those of its clauses that are named, and what it requires; or a trait with members that are named."""

    name: str
    source: str
    named: set
    is_trait: bool

    def has(self, contract):
        """Whether a contract of its source is one of its clauses."""
        if self.is_trait:
            return contract.owner == self.name and contract.block.kind == "trait" and contract.item in self.named
        if self.name not in (f"{contract.owner}::{contract.item}", contract.item):
            return False
        return contract.kind == "requires" or self.named == {"all"} or contract.clause in self.named

    def is_whole(self, contracts):
        """Whether none of what is named is missing among some contracts."""
        found = {contract.item if self.is_trait else contract.clause for contract in contracts}
        return bool(contracts) and self.named - {"all"} <= found


def calls_in(document):
    """The calls and traits that a document lists, in its order."""
    for kind, rows in re.findall(r"^\| (Call|Trait) \|.*\n.*\n((?:\|.*\n)+)", document, re.M):
        for row in rows.splitlines():
            name, source, named = (cell.strip(" `") for cell in row.split("|")[1:4])
            yield Call(name, source, set(re.findall(r"\w+", named)), kind == "Trait")


def headline_of(audit):
    """The lines of the text."""
    def text_of(source):
        return audit.sources.read(source).path.read_text(encoding="utf-8").splitlines()

    yield from ["// docs/AUDIT.md says how this is read.", ""]
    named = set()  # by the heads of the calls
    for call, clauses in audit.calls:
        yield f"// ==== {call.name}: {call.source}"
        text = text_of(call.source)
        if call.is_trait:
            yield from trait_of(call.name, text, clauses)
        else:
            yield from contract_of(text, clauses)
            named.update(re.findall(r"\w+", " ".join(text[clauses[0].head[0] - 1:clauses[0].head[1]])))
        renamed = sorted({name for clause in clauses for name in clause.renamed()})
        yield from (f"    // {name} is {word} of {module}." for name, module, word in renamed)
        yield ""
    crates = {crate_of(call.source) for call, _ in audit.calls}
    for module in audit.order:
        if words := audit.headline.of(module):
            crates.add(crate_of(module.path))
            yield from definitions_of(module, words)
    # Another crate may have a type of the same name.
    texts = {source: text_of(source) for source in audit.sources.paths if crate_of(source) in crates}
    types = {(source, name) for source, text in texts.items() for name in re.findall(TYPE, "\n".join(text), re.M)}
    types = {found for found in types if found[1] in named} | set(audit.headline.types)
    for source, name in sorted(types):
        if name not in {call.name for call, _ in audit.calls if call.is_trait}:
            yield from type_of(name, source, texts[source])


def crate_of(path):
    """The crate of a source or of a module, by its path."""
    return str(path).split("/")[1]


def contract_of(text, clauses):
    """What a call is for, its head and its clauses."""
    first, last = clauses[0].head
    yield from takewhile(lambda line: line.strip() != "///", text[docs_of(text, first - 1):first - 1])
    yield from wrapped(text[first - 1:last])
    for clause in clauses:
        yield from text[docs_of(text, clause.line - 1):clause.end]


def wrapped(head):
    """The head of a function in as few lines as it takes."""
    text = " ".join(line.strip() for line in head)
    text = re.sub(r"(?<=[<(]) | (?=>)(?<!-)|,? (?=[)])|, (?=>)", "", text)
    indent = head[0][:-len(head[0].lstrip())]
    # A bound stays on the line of its name.
    lines = textwrap.wrap(text.replace(": ", ":\xa0"), 120, initial_indent=indent, subsequent_indent=indent + "    ")
    return [line.replace("\xa0", " ") for line in lines]


def trait_of(name, text, clauses):
    """The head of a trait, its types and constants, and those of its members that are named."""
    first = next(at for at, line in enumerate(text) if re.match(rf"pub trait {name}\b", line))
    yield from text[docs_of(text, first):first + 1]
    shown = {at for at in range(first, text.index("}", first)) if re.match(" {4}(type|const) ", text[at])}
    for clause in clauses:
        start, end = clause.head or (docs_of(text, clause.line - 1) + 1, clause.end)
        shown.update(range(start - 1, end), range(clause.line - 1, clause.end))
    for at in sorted(shown):
        if at > min(shown) and at - 1 not in shown:
            yield ""
        yield text[at]
    yield "}"


def definitions_of(module, words):
    """The definitions of a module that are needed."""
    yield from [f"-- ==== {module.path}", ""]
    head = None
    for word in words:
        if word.head != head and word.head:
            yield from module.lines[word.head[0] - 1:word.head[1]]
        head = word.head
        yield from [*module.lines[word.start - 1:word.end], ""]


def type_of(name, source, text):
    """A type of the code with its docstring, but without those of fields in variants; its name and where it stands, if
    it is none."""
    yield f"// ==== {name}: {source}"
    for at in [at for at, line in enumerate(text) if re.findall(TYPE, line) == [name]][:1]:
        last = next(end for end in range(at, len(text)) if re.match(r"}|.*;$", text[end]))
        shown = text[docs_of(text, at):last + 1]
        yield from (line for line in shown if not re.match(r" {8}///| *#\[", line))
    yield ""


def docs_of(text, at):
    """Where the comments begin that stand above a line."""
    while re.match(r" *(///?|#\[)", text[at - 1]):
        at -= 1
    return at
