"""The names in docs/PROVED.md, AUDIT.md and MAP.md beside the sources.

Each name in backquotes is a word of some source or definition, or a file. In PROVED.md `A.b` and `A::b` are parts of A,
and in brackets the names after a colon are clauses of each call, or members of each trait, before it.
"""

import re
from collections import defaultdict
from itertools import pairwise

from sources import TESTS, crate_of


def unknown_names(top, sources):
    """What is wrong with the names, in lines."""
    paths = [*top.glob("crates/*/src/**/*.rt"), *top.glob("crates/*/specs/**/*.antt")]
    texts = {path: path.read_text(encoding="utf-8") for path in paths}
    words = {part for path in paths for part in (path.relative_to(top).parts[1], path.stem)}
    words.update(*(re.findall(r"\w+", text) for text in texts.values()))
    parts = parts_in(sources, [text for path, text in texts.items() if path.suffix == ".antt"])
    for page in "PROVED", "AUDIT", "MAP":
        text = (top / f"docs/{page}.md").read_text(encoding="utf-8")
        for name in re.findall(r"`([\w.:/]+)`", text):
            is_other = "/" in name or name in words or re.fullmatch(r"\w\w?|\w\.\w+|[0-9a-f]{64}", name)
            if not is_other and not words.issuperset(filter(None, re.split(r"::|\.", name))):
                yield f"docs/{page}.md: no source has {name}"
        for claim in re.split(r"\n(?=- |\n)", text) if page == "PROVED" else []:
            claimed = claimed_parts(" ".join(claim.split()))
            yield from (f"docs/{page}.md: {owner} has no {name}" for owner, name in claimed if name not in parts[owner])


def claimed_parts(claim):
    """The parts that a claim names, each after what has it."""
    for path in re.findall(r"`(\w+(?:(?:::|\.)\w+)+)`", claim):
        yield from pairwise(re.split(r"::|\.", path))
    for piece in re.split(r";|, and |, with ", re.sub(r"\([^)]*\)| of `[^`]+`", "", claim.rpartition("[")[2])):
        groups = [re.findall(r"`([^`]+)`", group) for group in re.split(r"(?<=`): ", piece)]
        for owners, names in pairwise(groups):
            yield from ((owner.split("::")[-1], name) for owner in owners for name in names if "." not in name)


def parts_in(sources, definitions):
    """The parts of each crate, module, type, trait, call and record."""
    parts = defaultdict(set)
    for text in definitions:
        for name, body in re.findall(r"^ *pub record (\w+)(.*?)(?=^\S|^ *pub record|\Z)", text, re.M | re.S):
            parts[name].update(re.findall(r"^\s+pub (\w+) :", body, re.M))
    for path in sources.paths:
        if not TESTS.fullmatch(crate := crate_of(path)):
            source = sources.read(path)
            parts[crate].add(source.path.stem)
            for contract in source.contracts:
                parts[contract.item].add(contract.clause)
                for owner in (contract.owner, source.path.stem, crate):
                    parts[owner].add(contract.item)
            for alias, owner in source.aliases.items():
                parts[alias] = parts[owner] = parts[owner] | parts[alias]
    return parts
