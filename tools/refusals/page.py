"""Reads docs/REFUSALS.md: its tables of calls, the cases below them, and the table of conditions."""

import re
from typing import NamedTuple

from docstrings import Call

SECTION = re.compile(r"^#{2,3} (.*)\n", re.M)
ROW = re.compile(r"^\| (\d+)(?: to (\d+))? \| (.*) \| (.*) \|$", re.M)
CASE = re.compile(r"^    (accepted|\d+(?: \d+)*) +(test )?(\S.*)$", re.M)
CONDITION = re.compile(r"^\| [^|]* \| [^|]* \| [^|]* \| (.*crates/.*) \|$", re.M)
CODE = re.compile(r"((?:`\w+`(?:, | and )?)+) of (crates/[\w/]+\.rt)")
# The tables leave want of memory out, and name what is within the other.
LEFT_OUT = {"OutOfMemory", "MalformedPrunedProof"}


def names_in(text):
    return re.findall(r"`(\w+)`", text)


def functions_in(text):
    """The functions that a text names, each with its source."""
    return [(path, name) for names, path in CODE.findall(text) for name in names_in(names)]


class Case(NamedTuple):
    """A stored case with the rows that apply to it, or with none if it is accepted; or a test function."""

    rows: list
    is_test: bool
    line: str


class Row(NamedTuple):
    """A row of a table, or several rows that are those of another table."""

    first: int
    last: int
    reason: str
    cell: str

    def refers(self):
        return self.cell.startswith("those of")

    def errors(self):
        """The errors that it names, or the call whose errors they are. Of errors within another the page writes the
        outer one ahead of brackets, or the inner one ahead of `within`: what is ahead is what a docstring names."""
        cell, _, without = re.sub(r"\(.*\)|within .*", "", self.cell).partition("without")
        if not self.refers():
            return names_in(cell)
        return [Call(names_in(cell)[0], "salted" not in cell, tuple(names_in(without)))]


class Section:
    """A part of the page: the table of a call, or of calls that refuse alike, if it has one; and cases."""

    def __init__(self, title, text):
        self.title, self.is_salted = title, title.startswith("Salted")
        self.names = re.findall(r"(\w+)`", title)
        self.functions = functions_in(text.partition("\n|")[0].replace("\n", " "))
        self.rows = [Row(int(first), int(last or first), *cells) for first, last, *cells in ROW.findall(text)]
        self.cases = [Case([] if rows == "accepted" else [*map(int, rows.split())], bool(test), line)
                      for rows, test, line in CASE.findall(text)]


class Page:
    """The page, by its sections."""

    def __init__(self, text):
        titles_and_texts = SECTION.split(text)[1:]
        self.sections = [Section(*pair) for pair in zip(titles_and_texts[::2], titles_and_texts[1::2])]
        self.tables = [section for section in self.sections if section.rows]
        self.by_name = {(name, table.is_salted): table for table in self.tables for name in table.names}
        self.calls = {name for name, _ in self.by_name}
        self.conditions = [function for row in CONDITION.findall(text) for function in functions_in(row)]

    def table_of(self, call, beside=None):
        """The table of a call. A docstring of the salted scheme means the salted one, if not that of its own name."""
        is_plain = call.is_plain if beside is None else not beside.is_salted or call.name in beside.names
        return self.by_name[call.name, (call.name, True) in self.by_name and not (is_plain or call.is_plain)]

    def flat(self, named, beside=None):
        """The errors of a list of errors and calls, in which a call stands for the errors of its table."""
        found, before = [], None
        for one in named:
            if not isinstance(one, Call):
                found.append(one)
            # The second of two openings is refused as the first one is.
            elif one != before:
                found += [error for error in self.errors(self.table_of(one, beside)) if error not in one.without]
            before = one
        return [error for error in found if error not in LEFT_OUT]

    def errors(self, table):
        """The errors of a table, in the order of its rows."""
        return self.flat([error for row in table.rows for error in row.errors()])

    def errors_at(self, table, number):
        """The errors with which a row of a table refuses."""
        row, = (row for row in table.rows if row.first <= number <= row.last)
        if not row.refers():
            return names_in(row.cell)
        of_other = re.search(r"rows (\d+) to \d+", row.reason)
        if not of_other:
            return self.flat(row.errors())
        return self.errors_at(self.table_of(*row.errors()), number - row.first + int(of_other[1]))
