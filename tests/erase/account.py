"""Whether what tools/erase says that it did explains each file of the package, by another reading of both texts.

The tokens of a file are those of its source without clauses and ghost items, less what the eraser says that it cut, and
with what it says that it put in. Their order is not looked at: a formatter sorts imports and sets commas and braces.
"""

import re
from collections import Counter

# A token is a comment, a text, a name or number, or a single sign.
TOKEN = re.compile(r"""//[^\n]*|b?"(?:\\.|[^"\\])*"|b?'(?:\\.|[^'\\])'|'?\w+|[^\s\w]""", re.S)
GHOST_USE = re.compile(r"\bghost use [^;]*;")
CLAUSE = re.compile(r"\b(?:requires|ensures)\s+(?:\w+\s+)?\{")
GHOST = re.compile(r"\bghost\s+\w+(?:: | = )\{")
FORMATTERS = {",", "{", "}"}


def parts(text):
    """The comments and texts of a source, and the code between them, each with whether it is code."""
    at = 0
    for match in re.finditer(r"""//[^\n]*|b?"(?:\\.|[^"\\])*"|b?'(?:\\.|[^'\\])'""", text, re.S):
        yield text[at : match.start()], True
        yield match.group(), False
        at = match.end()
    yield text[at:], True


def closing(text, at):
    """The place behind the brace that closes the one at `at`. The prover's comments begin with `--`."""
    depth = 0
    for match in re.compile(r"--[^\n]*|[{}]").finditer(text, at):
        depth += {"{": 1, "}": -1}.get(match.group(), 0)
        if depth == 0:
            return match.end()
    raise ValueError("braces that do not close")


def without_contracts(text):
    """A source without clauses and ghost items. `pub` ahead of a ghost item stays."""
    # Comments and texts are blanked where contracts are looked for, so that nothing in them counts.
    blanked = "".join(part if is_code else re.sub(r"[^\n]", " ", part) for part, is_code in parts(text))
    kept, at = [], 0
    while match := min(filter(None, (form.search(blanked, at) for form in (GHOST_USE, CLAUSE, GHOST))),
                       key=lambda found: found.start(), default=None):
        kept.append(text[at : match.start()])
        at = match.end() if match.re is GHOST_USE else closing(blanked, match.end() - 1)
        if match.re is GHOST:
            at = re.compile(r"\s*[;,]").match(blanked, at).end()
    return "".join(kept) + text[at:]


def tokens(text):
    """The tokens of a text, but for what a formatter sets."""
    return Counter(token.rstrip() for token in TOKEN.findall(text) if token not in FORMATTERS)


def unexplained(source, result, changes):
    """The tokens that the result has and should not have, and those that it lacks."""
    put, gone = Counter(), Counter()
    for change, count in changes.items():
        for total, text in ((put, change.put), (gone, change.gone)):
            for token, times in tokens(text).items():
                total[token] += times * count
    expected = tokens(without_contracts(source))
    expected.update(put)
    expected.subtract(gone)
    found = tokens(result)
    found.subtract(expected)
    return {token: count for token, count in found.items() if count}
