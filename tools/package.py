#!/usr/bin/env python3
"""python3 tools/package.py    compares rust/fohlazu/README.md with tools/erase; `make documents` calls it

Its table of what the eraser adds has a line for each kind that `python3 tools/erase --added` prints, with the count and
with an example that is printed there. Its tables of conditions name each condition of tools/erase/package.toml, and no
other, and its table of laws is the one that `python3 tools/erase --listed` prints. `python3 tools/package.py write`
writes the counts and the laws. What differs ends with status 1.
"""

import re
import subprocess
import sys
import tomllib

from script import TOP, fail

PAGE = TOP / "rust/fohlazu/README.md"
# A line of the table: kind, count, example, meaning. An example with backticks stands between two.
ROW = re.compile(r"^\| `([^`]+)` \| (\d+) \| (?:`` (.+?) ``|`(.+?)`) \| .+ \|$", re.M)


def added() -> dict[str, tuple[int, str]]:
    """Each kind that the eraser adds, with its count and what is printed of it."""
    ran = subprocess.run(["python3", TOP / "tools/erase", "--added"], capture_output=True, text=True)
    if ran.returncode:
        fail(ran.stdout + ran.stderr)
    # What is cut stands after what is put in.
    put_in = re.split(r"^Cut from ", ran.stdout, flags=re.M)[0]
    blocks = re.findall(r"^(\S[^\n]*): (\d+)(?: places?, .*)?\n((?: [^\n]*\n)*)", put_in, re.M)
    return {kind: (int(count), block) for kind, count, block in blocks}


def table_faults(text: str, kinds: dict[str, tuple[int, str]]) -> list[str]:
    """What differs between the table and what is added."""
    rows = {kind: (int(count), quoted or plain) for kind, count, quoted, plain in ROW.findall(text)}
    faults = [f"has no line of the kind {kind}" for kind in kinds if kind not in rows]
    for kind, (count, example) in rows.items():
        if kind not in kinds:
            faults.append(f"has the kind {kind}, and tools/erase --added has not")
        elif count != kinds[kind][0]:
            faults.append(f"counts {count} of {kind}, and there are {kinds[kind][0]}")
        elif example not in kinds[kind][1]:
            faults.append(f"has the example {example}, which is none of {kind}")
    return faults


def law_table(text: str) -> str:
    """The rows of the first table of laws."""
    return re.search(r"^\| Of \| The law \|[^\n]*\n(?:\|[^\n]*\n)*", text, re.M).group()


def laws() -> str:
    """The table of laws that the eraser prints."""
    ran = subprocess.run(["python3", TOP / "tools/erase", "--listed"], capture_output=True, text=True)
    if ran.returncode:
        fail(ran.stdout + ran.stderr)
    return law_table(ran.stdout)


def condition_faults(text: str, settings: dict) -> list[str]:
    """What differs between the conditions that the page names and those of the eraser's list."""
    names = {name for lines in settings["conditions"].values() for name in lines}
    section = text.partition("\n## Conditions\n")[2].partition("\n## ")[0]
    rows = [row.split("|")[1] for row in re.findall(r"^\| `.*", section, re.M)]
    in_table = {name for cell in rows for name in re.findall(r"`(\w+)`", cell)}
    faults = [f"does not name the condition {name}" for name in sorted(names) if f"`{name}`" not in section]
    return faults + [f"has the condition {name}, which no call has" for name in sorted(in_table - names)]


def main() -> None:
    """Compares, or writes the counts."""
    text, kinds = PAGE.read_text(), added()
    if sys.argv[1:] == ["write"]:
        for kind, (count, _) in kinds.items():
            text = re.sub(rf"^(\| `{re.escape(kind)}` \| )\d+ ", rf"\g<1>{count} ", text, flags=re.M)
        text = text.replace(law_table(text), laws())
        PAGE.write_text(text)
    elif sys.argv[1:]:
        fail("usage: python3 tools/package.py [write]", 2)
    settings = tomllib.loads((TOP / "tools/erase/package.toml").read_text())
    faults = table_faults(text, kinds) + condition_faults(text, settings)
    if law_table(text) != laws():
        faults.append("has other laws than tools/erase --listed")
    if faults:
        fail(f"{PAGE.relative_to(TOP)} " + ", ".join(faults))
    print(f"package: the page has the {len(kinds)} kinds of what the eraser adds, all conditions and laws")


main()
