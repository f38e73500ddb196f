"""Reads the public contracts and the definitions, as a reader of docs/AUDIT.md would.

    python3 tools/audit             sees that public contracts need only public definitions, that all of these are
                                    needed and are definitions, that the headline of docs/AUDIT.md is there, that
                                    docs/DEFINITIONS.md lists all that is read, and that names in PROVED.md, AUDIT.md
                                    and MAP.md are there
    python3 tools/audit headline    prints the contracts of the headline and the definitions that they need, in reading
                                    order
    python3 tools/audit write       writes docs/DEFINITIONS.md

What is wrong ends with status 1, wrong arguments with 2; where the script cannot run it ends with status 3.
"""

import re
import signal
import sys
from collections import defaultdict
from itertools import takewhile
from pathlib import Path

from named import unknown_names
from definitions import Needed, module_of, read_modules
from headline import calls_in, headline_of
from sources import TESTS, Sources

TOP = Path(__file__).resolve().parents[2]
TABLES, PAGE = TOP / "docs/AUDIT.md", TOP / "docs/DEFINITIONS.md"
# The modules that are read.
READ = re.compile(r"Rattle\.(\w+)\.specs\.(?!Lib$|Inner\b)\w+(?<!Examples)")


class Audit:
    """What the public contracts and the headline need, and what is wrong with it."""

    def __init__(self):
        self.sources = Sources(TOP)
        self.modules = read_modules(TOP)
        self.wrong = set()
        self.headline, self.needed = (Needed(self.modules, self.sources.crates) for _ in range(2))
        self.calls = []
        for call in calls_in(TABLES.read_text(encoding="utf-8")):
            contracts = self.sources.read(call.source).contracts if call.source in self.sources.paths else []
            clauses = [contract for contract in contracts if call.has(contract)]
            if not call.is_whole(clauses):
                self.wrong.add(f"docs/AUDIT.md: {call.source} has no such clauses of {call.name}")
            self.calls.append((call, clauses))
            for clause in clauses:
                self.headline.add(call.source, clause)
        for source, name in list(self.headline.types):
            for contract in self.sources.read(source).contracts:
                if contract.block.kind == "struct" and contract.owner == name:
                    self.headline.add(source, contract)
        self.public = {path: contracts for path in self.sources.paths if (contracts := self.sources.public(path))}
        for path, contracts in self.public.items():
            for contract in contracts:
                self.needed.add(path, contract)
        self.order = [self.modules[name] for name in self._order()]
        self._compare()

    def _compare(self):
        """Notes what is wrong with what is read."""
        for name, place in [*self.needed.unknown.items(), *self.headline.unknown.items()]:
            self.wrong.add(f"{place} cites {name}, which is not there")
        for (module, word), place in self.needed.words.items():
            if ".Inner" in module or ".proofs." in module:
                self.wrong.add(f"{place} cites {word or 'a word'} of {module}, which is not public")
        rows = {(call.source, call.name) for call, _ in self.calls}
        for (source, name), place in self.headline.types.items():
            if (source, name) not in rows and name in self.sources.read(source).traits:
                self.wrong.add(f"{place} cites the trait {name}, which the headline of docs/AUDIT.md does not have")
        for module in self.order:
            for word in module.words.values():
                if (module.name, word.name) not in self.needed.words:
                    self.wrong.add(f"{module.path}:{word.start}: {word.name} is needed by no public contract")
            for line, name in module.proofs:
                self.wrong.add(f"{module.path}:{line}: {name} is proved, and is no definition")

    def _order(self):
        """The modules that are read, each after those that it uses: those of the headline first."""
        order = []
        path = []
        cited = {name for name, _ in self.needed.words}

        def read(name, among):
            if name in among and name not in order and name not in path:
                path.append(name)
                for used in self.modules[name].used:
                    read(module_of(self.modules, used), among)
                order.append(path.pop())

        own = [name for name in self.modules if (found := READ.fullmatch(name)) and not TESTS.fullmatch(found[1])]
        of_headline = [name for name in own if self.headline.of(self.modules[name])]
        for among in of_headline, [name for name in own if name in cited], own:
            for name in among:
                read(name, among)
        return order

    def page(self, written):
        """The page of all definitions and public contracts: what is written, with the rows of its tables."""
        rows = []
        counts = []
        types = defaultdict(list)
        for module in self.order:
            counts.append((sum(word.end - word.start + 1 for word in self.headline.of(module)), len(module.lines)))
            rows.append(f"| {module.path} | {counts[-1][0] or ''} | {counts[-1][1]} | {said(module.lines, '--')} |")
        needed, lines = map(sum, zip(*counts))
        rows.append(f"| {len(rows)} files | {needed} | {lines} | |")
        contracts = [f"| {path} | {said(self.sources.read(path).path.read_text().splitlines(), '//!')} | "
                     f"{', '.join(dict.fromkeys(map(item_of, found)))} |" for path, found in self.public.items()]
        for source, name in sorted(self.needed.types):
            types[source].append(f"`{name}`")
        of_code = [f"| {source} | {', '.join(names)} |" for source, names in types.items()]
        tables = iter([rows, contracts, of_code])
        table = re.compile(r"^(\|.*\n\|---.*\n)(?:\|.*\n)*", re.M)
        return table.sub(lambda found: found[1] + "".join(f"{row}\n" for row in next(tables)), written)


def item_of(contract):
    """The call, or the ghost member, of a contract."""
    is_alone = contract.item == contract.owner or not contract.kind
    return f"`{contract.item}`" if is_alone else f"`{contract.owner}::{contract.item}`"


def said(lines, sign):
    """The first sentence of the comment at the top of a file."""
    head = " ".join(line[len(sign) + 1:] for line in takewhile(lambda line: line.startswith(f"{sign} "), lines))
    return re.split(r"(?<=\.)(?: |$)", head)[0].replace("|", "\\|")


def main(words):
    if words not in ([], ["headline"], ["write"]):
        print(__doc__.strip(), file=sys.stderr)
        return 2
    try:
        audit = Audit()
        audit.wrong.update(unknown_names(TOP, audit.sources))
        written = PAGE.read_text(encoding="utf-8")
        page = audit.page(written)
    except (OSError, ValueError, IndexError) as error:
        print(f"audit: the script cannot read this: {error}", file=sys.stderr)
        return 3
    if words == ["headline"]:
        signal.signal(signal.SIGPIPE, signal.SIG_DFL)
        print("\n".join(headline_of(audit)))
        return 0
    if words == ["write"]:
        PAGE.write_text(page, encoding="utf-8")
    elif page != written:
        audit.wrong.add(f"{PAGE.name} is not what `python3 tools/audit write` writes")
    print("".join(f"audit: {what}\n" for what in sorted(audit.wrong)), end="", file=sys.stderr)
    return 1 if audit.wrong else 0


sys.exit(main(sys.argv[1:]))
