"""Reads sources: the texts of errors, and which errors the section `# Errors` of a call names, in its order."""

import re
from collections import defaultdict
from functools import cache
from typing import NamedTuple

from script import TOP, fail

TEXT = re.compile(r'#\[error\("((?:[^"\\]|\\.)*)"\)\]\n *(?:pub struct )?(\w+)')
NAME = re.compile(r"\[?`(?:\w+::)*(\w+)(?:\(\))?`\]?(?:\(([\w:]+)\))?")
# The error of missing memory, which has no text of its own.
ALLOC_ERROR = "AllocError"


@cache
def source(path):
    return (TOP / path).read_text(encoding="utf-8")


@cache
def texts():
    """The patterns of the texts of errors, by name: a value that a text prints may be anything. An error that only
    prints another one has none."""
    found = defaultdict(list)
    for path in sorted(TOP.glob("crates/*/src/*.rt")):
        for text, name in TEXT.findall(source(path.relative_to(TOP))):
            pieces, patterns = ".+".join(map(re.escape, re.split(r"\{\w+\}", text))), found[name]
            if text != "{0}":
                patterns.append(re.compile(rf"(malformed pruned proof: )?{pieces}( \(status \d\)| / .*)?"))
    return found


def is_text_of(answer, names):
    """Whether an answer is the text of one of these errors."""
    return any(pattern.fullmatch(answer) for name in names for pattern in texts()[name])


class Function(NamedTuple):
    """A function in a source, by its docstring and its head."""

    docstring: str
    head: str


@cache
def function(path, name):
    lines = source(path).split("\n")
    start = re.compile(rf'\s*(pub )?(final )?(extern "C" )?fn {name}\b')
    starts = [number for number, line in enumerate(lines) if start.match(line)]
    if not starts:
        fail(f"{path} has no function {name}")
    above, docstring = starts[0] - 1, []
    while re.match(r"\s*(//|#\[)", lines[above]):
        docstring.insert(0, lines[above].strip())
        above -= 1
    said = "\n".join(line[4:] for line in docstring if line.startswith("///"))
    # A head ends ahead of its body, or at a semicolon in a trait.
    head = re.split(r"\n\{|    \{\n|;\n", "\n".join(lines[starts[0] :]), maxsplit=1)[0]
    return Function(said, head)


def has_condition(path, name):
    return "requires" in function(path, name).head


class Call(NamedTuple):
    """A call whose errors a section refers to, less some; whether it says that this is the plain scheme's."""

    name: str
    is_plain: bool
    without: tuple


def named_in(part, calls):
    """What a part of a section names: errors, or a call that stands ahead of any. A part that begins with want of
    memory says what it may stand in place of."""
    errors = []
    if re.match(r"\[?`(\w+::)*OutOfMemory`", part):
        return errors
    for found in NAME.finditer(part):
        name, rest = found[1], part[found.end() :]
        if name in texts() or name == ALLOC_ERROR:
            errors.append(name)
        elif name in calls and not errors:
            less = re.search(r"(?:but for|except|without) ([^.;]*)", rest)
            is_plain = "MerkleTreeMmcs" in (found[2] or "") or part[: found.start()].endswith("plain ")
            return [Call(name, is_plain, tuple(re.findall(r"`(\w+)`", less[1] if less else "")))]
    return errors


def errors_of(path, name, calls):
    """What the section `# Errors` of a function names; none where it has no such section."""
    _, is_there, section = function(path, name).docstring.partition("# Errors\n")
    if not is_there:
        return None
    section = section.partition("\n# ")[0]
    parts = re.split(r"^- ", section, flags=re.M)
    # A sentence ahead of a list, or after it, names no further errors.
    parts = [part.partition("\n\n")[0] for part in parts[1:]] or parts
    return [named for part in parts for named in named_in(" ".join(part.split()), calls)]
