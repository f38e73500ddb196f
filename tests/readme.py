#!/usr/bin/env python3
"""python3 tests/readme.py    runs the commands of README.md, and compares what they print with what stands there

A block that begins with ```sh has commands, and what they print stands in a block ```text after it; where none is,
nothing is to be printed. They run at the top in one shell, one block after the other, and may leave no file outside the
folders out/ and build/, which are ignored. The lines of the first block of Rust have to stand in the page of the Cargo
package, whose examples cargo test runs, and those of the second in crates/callers/src/readme.rt. It ends with status 1
where something differs.
"""

import re
import subprocess
import sys
from pathlib import Path

TOP = Path(__file__).resolve().parent.parent
# Where the lines of each block of Rust stand.
SOURCES = ["rust/fohlazu/README.md", "crates/callers/src/readme.rt"]


def blocks(text):
    """The blocks with commands, each with what it is to print, and the blocks of Rust."""
    found = re.findall(r"^```(\w+)\n(.*?)^```$", text, re.M | re.S)
    commands = [(block, after[1] if after[0] == "text" else "")
                for (kind, block), after in zip(found, [*found[1:], ("", "")]) if kind == "sh"]
    return commands, [block for kind, block in found if kind == "rust"]


def files():
    """The files of the work tree, but for those of other scripts that run beside this one."""
    left_out = {"out", "build", ".git", "target", "Cargo.lock", "__pycache__"}
    return {path for path in TOP.rglob("*") if not left_out & set(path.relative_to(TOP).parts)}


def packed(rust):
    """A piece of Rust without comments, and without what its layout may change."""
    return re.sub(r",(?=[}\]])", "", re.sub(r"\s", "", re.sub(r"//.*", "", rust)))


def faults():
    """What in the README is not so."""
    text = (TOP / "README.md").read_text()
    commands, rust = blocks(text)
    for line in re.findall(r"^    (?:\./|build/|make |bash |python3 |sh ).*", text, re.M):
        yield f"a command stands outside a block of commands: {line.strip()}"
    if len(rust) != len(SOURCES):
        yield f"there are {len(rust)} blocks of Rust, and not {len(SOURCES)}"
    for name, block in zip(SOURCES, rust):
        source = packed((TOP / name).read_text())
        yield from (f"{name} has no {line}" for line in block.splitlines() if packed(line) not in source)
    before = files()
    script = "printf '\\0'\n".join(block for block, _ in commands)
    ran = subprocess.run(["bash", "-c", script], cwd=TOP, stdin=subprocess.DEVNULL, capture_output=True, text=True)
    printed = ran.stdout.split("\0")
    for (block, expected), got in zip(commands, printed):
        if got != expected:
            yield f"these commands\n{block}print\n{got}and not\n{expected}{ran.stderr}"
    if len(printed) != len(commands):
        yield f"the commands end too soon\n{ran.stderr}"
    for path in files() ^ before:
        yield f"the commands made or removed {path.relative_to(TOP)}"


found = list(faults())
for fault in found:
    print(f"readme: {fault}", file=sys.stderr)
if not found:
    print("readme: the commands print what they should")
sys.exit(bool(found))
