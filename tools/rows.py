#!/usr/bin/env python3
"""python3 tools/rows.py [NAME]    sees that all that docs/ROWS.md names is there: cases, tests, runs, examples, scripts

A NAME prints the cases of each row whose name contains it, for `rt try` in crates/test_merkle, and on standard error
what else runs it. The page says how its lines are read. What is missing, and a row that nothing runs, end with status
1; a NAME of no row with status 2.
"""

import re
import sys
from pathlib import Path
from typing import NamedTuple

from script import TOP, fail

CRATES, NOT_RUN = TOP / "crates", "What is not run"
TEST = re.compile(r"#\[test\]\s+fn (\w+)")
EXAMPLE = re.compile(r"^(\w+) :", re.M)
STORED_LINE = re.compile(r"in ([^ ]+): (.*)")
# Words with commas between them. Each word makes a line.
WORDS = re.compile(r"\{(\w+(?:, \w+)+)\}")
STORED_RUN = re.compile(r"run (\w+)((?: \S+)*): (.*)")
# A line of the page, with those that go on with it.
LINE = re.compile(r"^    (\S.*(?:\n {8}.+)*)$", re.M)


class Row(NamedTuple):
    """A row of the page: where it stands, and what runs it."""

    section: str
    name: str
    lines: list[str]


def rows_of(page: str) -> list[Row]:
    """The rows of a page. Its head has none."""
    found = []
    for part in re.split(r"^## ", page, flags=re.M)[1:]:
        section, _, text = part.partition("\n")
        for row in re.split(r"^\*\*", text, flags=re.M)[1:]:
            name, _, rest = row.partition(".**")
            lines = [line.replace("\n" + 8 * " ", " ") for line in LINE.findall(rest)]
            found.append(Row(section, " ".join(name.split()), lines))
    return found


def names_in(files: str, name: re.Pattern[str]) -> set[str]:
    """The names that files of the crates declare, each after the name of its crate."""
    return {f"{file.relative_to(CRATES).parts[0]} {found}" for file in CRATES.glob(files)
            for found in name.findall(file.read_text(encoding="utf-8"))}


def lines_in(file: Path) -> list[str]:
    """The lines of a file; none if there is no such file."""
    return file.read_text(encoding="utf-8").splitlines() if file.exists() else []


# A line that stands twice is one case.
CASES = list(dict.fromkeys(line for line in lines_in(CRATES / "test_merkle/stdin") if line and line[0] != "#"))
TESTS = names_in("*/src/**/*.rt", TEST)
EXAMPLES = names_in("*/specs/**/*Examples.antt", EXAMPLE)


def matching_cases(line: str) -> list[str]:
    """The cases that a line of the page stands for, where two dots may stand for a part of a case."""
    if line in CASES:
        return [line]
    begin, is_cut, end = line.partition(" .. ")
    return [case for case in CASES if is_cut and case.startswith(f"{begin} ") and case.endswith(f" {end}")]


def each_line(line: str) -> list[str]:
    """The lines that one with words between braces stands for."""
    begin, *rest = WORDS.split(line, 1)
    return [f"{begin}{word}{rest[1]}" for word in rest[0].split(", ")] if rest else [line]


def is_stored(program: str, words: list[str], printed: str) -> bool:
    """Whether the stored run of a program has these arguments, succeeds, and prints this line."""
    args, status, stdout = (lines_in(CRATES / program / name) for name in ("args", "status", "stdout"))
    return args == words and status in ([], ["0"]) and printed in stdout


def is_run_by_check(script: str) -> bool:
    """Whether `make check` runs a script: `tests/gate.sh` does, or `documents`, on which the target depends."""
    makefile = (TOP / "Makefile").read_text(encoding="utf-8")
    callers = re.findall(r"^documents:.*\n((?:\t.*\n)*)", makefile, re.M)
    if re.search(r"^check:.*\n(?:\t.*\n)*\t.*tests/gate\.sh$", makefile, re.M):
        callers.append((TOP / "tests/gate.sh").read_text(encoding="utf-8"))
    return (TOP / script).exists() and any(script in caller for caller in callers)


def is_there(line: str) -> bool:
    """Whether there is what a line of the page names."""
    kind, _, name = line.partition(" ")
    if run := STORED_RUN.fullmatch(line):
        return is_stored(run[1], run[2].split(), run[3])
    if stored := STORED_LINE.fullmatch(line):
        return set(each_line(stored[2])) <= set(lines_in(TOP / stored[1]))
    if kind in ("test", "definition"):
        return name in (TESTS if kind == "test" else EXAMPLES)
    if kind == "script":
        return is_run_by_check(name)
    return len(matching_cases(line)) == 1


def wrong_of(rows: list[Row]) -> list[str]:
    """What is wrong about the rows."""
    names = [row.name for row in rows]
    wrong = [f"two rows have the name {name}" for name in sorted(set(names)) if names.count(name) > 1]
    for row in rows:
        if bool(row.lines) == (row.section == NOT_RUN):
            wrong.append(f"{row.name}: {'it is among what is not run' if row.lines else 'nothing runs it'}")
        wrong += [f"{row.name}: there is no {line}" for line in row.lines if not is_there(line)]
    return wrong


def print_cases(rows: list[Row]) -> None:
    """Prints the cases of some rows. What else runs them goes to standard error."""
    for line in dict.fromkeys(line for row in rows for line in row.lines):
        cases = matching_cases(line)
        print("\n".join(cases) or line, file=sys.stdout if cases else sys.stderr)


def main(words: list[str]) -> None:
    rows = rows_of((TOP / "docs/ROWS.md").read_text(encoding="utf-8"))
    if len(words) > 1:
        fail(f"usage: {__doc__.partition('    ')[0]}", 2)
    if words:
        chosen = [row for row in rows if words[0] in row.name]
        if not chosen:
            fail(f"docs/ROWS.md has no row with {words[0]!r} in its name", 2)
        print_cases(chosen)
    elif wrong := wrong_of(rows):
        fail("docs/ROWS.md: " + "\nrows: docs/ROWS.md: ".join(wrong))
    else:
        print(f"rows: {len(rows)} rows, {sum(len(row.lines) for row in rows)} lines that run them")


main(sys.argv[1:])
