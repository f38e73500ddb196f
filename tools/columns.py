#!/usr/bin/env python3
"""python3 tools/columns.py    counts the columns of sources; `make documents` calls it

Lines of code, definitions and proofs in crates/ have at most 120 columns, but for an import of one name and the text of
an error, which can't be broken. What is longer ends with status 1.
"""

import re
import subprocess

from script import TOP, fail

MOST_COLUMNS = 120
UNBROKEN = re.compile(r"(ghost |pub )*use [^,]*$|\s*#\[error\(")


def long_lines(name):
    """The lines of a file that are too long."""
    for number, line in enumerate((TOP / name).read_text().splitlines(), 1):
        if len(line) > MOST_COLUMNS and not UNBROKEN.match(line):
            yield f"{name}:{number}: {len(line)} columns, and at most {MOST_COLUMNS} are allowed"


listed = subprocess.run(["git", "ls-files", "-z", "crates/*.rt", "crates/*.antt"], cwd=TOP, capture_output=True, text=True, check=True)
names = [name for name in listed.stdout.split("\0")[:-1] if (TOP / name).is_file()]
wrong = [line for name in names for line in long_lines(name)]
if wrong:
    fail("\n".join(wrong))
print(f"columns: {len(names)} sources are in form")
