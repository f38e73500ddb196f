#!/usr/bin/env python3
"""python3 tools/documents.py    compares docs/CALLING.md with crates/callers, which the gate proves and runs

It names each caller and the proof files of its program, and what it has of them is as it is. Other lines of code are
lines of some caller. What differs ends with status 1.
"""

import re
from pathlib import Path

from script import TOP, fail

CRATE, TEXT = TOP / "crates/callers", (TOP / "docs/CALLING.md").read_text()
# The caller of README.md, which tests/readme.py compares, and the proofs of the other callers.
LEFT_OUT = re.compile(r"src/readme\.rt|(.*/)?out/.*|.*/Lib\.antt|proofs/(Collisions\.antt|(coins|messages)/.*)")


def difference(path: Path, name: str) -> str | None:
    """What is wrong about a file in the text."""
    if f"`{name}`" not in TEXT:
        return f"does not name {name}"
    block = re.search(rf"^`{re.escape(name)}`:$.*?^```(?:rust|antt)\n(.*?)^```$", TEXT, re.M | re.S)
    # It is without what `main` needs for the other callers.
    whole = re.sub(r"^// The other callers.*?^$\n", "", path.read_text(), flags=re.M | re.S)
    is_same = block is None or block[1] == re.sub(r"^.*::run\(&rt\)\?;\n", "", whole, flags=re.M)
    return None if is_same else f"does not have {name} as it is"


files = [path for path in CRATE.rglob("*.*t") if path.suffix in (".rt", ".antt")]
files = [path for path in files if not LEFT_OUT.fullmatch(str(path.relative_to(CRATE)))]
wrong = [difference(path, str(path.relative_to(TOP))) for path in sorted(files)]
callers = "".join(path.read_text() for path in CRATE.glob("src/*.rt"))
# tests/bindings compiles the block that calls the library for C.
blocks = re.findall(r"^```rust\n(.*?)^```$", TEXT, re.M | re.S)
own = "".join(block for block in blocks if 'extern "C"' in block)
lines = [line for line in re.findall(r"^    (.*;)$", TEXT, re.M) if line not in own]
wrong += [f"has the line {line}, and no caller does" for line in lines if line not in callers]
if any(wrong):
    fail("docs/CALLING.md " + ", ".join(filter(None, wrong)))
print(f"documents: {len(files)} files of callers are as they are written")
