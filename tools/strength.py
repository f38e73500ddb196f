#!/usr/bin/env python3
"""python3 tools/strength.py            writes what docs/STRENGTH.md has of the edits
python3 tools/strength.py --check    sees that it has this, and that an edit names the function that it changes

An edit begins with `# A body that WRONG` and `# is refused at WHERE.`, or the status is 1. A row of the page's first
table names a body and its edits, and gets where these are refused and what tries them; a row without an edit stays. The
last table has the other edits.
"""

import re
import sys

from script import TOP, fail

PAGE, HEAD = TOP / "docs/STRENGTH.md", "| A body that | {} | is refused at | tried by |\n|---|---|---|---|\n"
BODIES, OTHERS = HEAD.format("Edits or tests"), HEAD.format("Edit")
EDIT = re.compile(r"# A body that (.+)\n# is refused at (.+)\.\n(?:#.*\n)*file: (.+)\nold: (.+)$", re.M)
NAMED = re.compile(r"(\w+): `(\w+)`")


def edits_in(wrong):
    """What each edit says, by the name that the page has for it: its body, where it is refused, and what tries it."""
    edits = {}
    for edit in sorted([*TOP.glob("crates/*/must-fail/*.edit"), *TOP.glob("tests/edits/*/*.edit")]):
        path, said = edit.relative_to(TOP), EDIT.match(edit.read_text(encoding="utf-8"))
        if not said:
            wrong.append(f"{path} does not begin with what it breaks and where it is refused")
            continue
        is_in_gate = path.parts[0] == "crates"
        crate = path.parts[1 if is_in_gate else 2]
        source = (TOP / "crates" / crate / said[3]).read_text(encoding="utf-8")
        names = re.findall(r"`(?:\w+::)?(\w+)`", said[2])
        if (changed := re.findall(r"\bfn (\w+)", source.partition(said[4])[0])[-1]) not in names:
            wrong.append(f"{path} changes {changed}, and names another function")
        unknown = [name for name in names if not re.search(rf"\b(fn|ensures|requires) {name}\b", source)]
        wrong += [f"{path} names {name}, which {said[3]} does not have" for name in unknown]
        edits[f"{crate}: `{edit.stem}`"] = said[1], said[2], "the gate" if is_in_gate else "`tests/edits`"
    return edits


def row_of(row, edits, wrong):
    """A row of the first table, with what its edits say."""
    body, tests, *rest = row.strip("| ").split(" | ")
    named = [found[0] for found in NAMED.finditer(tests)]
    wrong += [f"docs/STRENGTH.md names the edit {name}, which there is not" for name in named if name not in edits]
    if found := [edits[name] for name in named if name in edits]:
        rest = ["; ".join(dict.fromkeys(edit[part] for edit in found)) for part in (1, 2)]
    return f"| {body} | {tests} | {' | '.join(rest)} |\n"


def main(words):
    if words not in ([], ["--check"]):
        fail("usage: python3 tools/strength.py [--check]", 2)
    page, wrong = PAGE.read_text(encoding="utf-8"), []
    edits = edits_in(wrong)
    front, _, rest = page.partition(BODIES)
    rows, blank, rest = rest.partition("\n\n")
    middle = rest.partition(OTHERS)[0]
    bodies = "".join(row_of(row, edits, wrong) for row in rows.splitlines())
    others = [(name, edit) for name, edit in edits.items() if name not in rows]
    others = "".join(f"| {body} | {name} | {where} | {tried} |\n" for name, (body, where, tried) in others)
    written = front + BODIES + bodies + blank[1:] + middle + OTHERS + others
    if not words:
        PAGE.write_text(written, encoding="utf-8")
    elif page != written:
        wrong.append("docs/STRENGTH.md has other rows than `python3 tools/strength.py` writes")
    if wrong:
        fail("\nstrength: ".join(wrong))


main(sys.argv[1:])
