"""python3 tools/refusals    compares docs/REFUSALS.md with the stored cases, and with the docstrings of the calls

Each case of the page is stored, the numbers ahead of it are the rows that apply to it, and its answer is the text of an
error of the first. What the page calls accepted is accepted, and each test that it names is there. The section
`# Errors` of a call names the errors of its table, in the order of the rows. A call of the table of conditions has a
condition, and its docstring names no error but want of memory. What differs ends with status 1.
"""

import sys
from itertools import chain
from pathlib import Path

sys.path.insert(0, str(Path(__file__).resolve().parents[1]))
from script import TOP, fail  # first: it makes the model known

from applying import rows_of
from docstrings import ALLOC_ERROR, errors_of, has_condition, is_text_of, source
from page import Page

PAGE = "docs/REFUSALS.md"


def stored_lines():
    files = (source(f"crates/{crate}/stdin") for crate in ("test_merkle", "test_log"))
    return [line for text in files for line in text.split("\n") if not line.startswith("#")]


def has_test(name):
    return any(f"#[test]\nfn {name}(" in source(path.relative_to(TOP)) for path in TOP.glob("crates/*/src/*.rt"))


def wrong_answer(page, section, case, answer):
    """What is wrong with the answer of a stored case."""
    if not case.rows:
        if answer != "accepted":
            yield f"calls this accepted, which is not: {case.line}"
        return
    errors = page.errors_at(section, case.rows[0])
    # An output that fails is stored with the answer that it would have had.
    is_unwritten = errors == ["Write"] and case.line.startswith("mmcs_unwritten")
    if not is_text_of(answer, errors) and not is_unwritten:
        yield f"has a case of row {case.rows[0]} of {section.title} that is answered otherwise: {case.line}"
    apply = sorted(rows_of(case.line)) or case.rows
    if apply != case.rows:
        yield f"counts the rows {case.rows}, where {apply} apply: {case.line}"


def wrong_cases(page, lines):
    """What is wrong with cases."""
    for section in page.sections:
        shown = {number for case in section.cases for number in case.rows[:1]}
        # Where rows are those of another table, their cases may stand there.
        yield from (f"has no case of row {row.first} of {section.title}" for row in section.rows
                    if row.first == row.last and row.first not in shown)
        for case in section.cases:
            answers = {line[len(case.line) + 3 :] for line in lines if line.startswith(f"{case.line} | ")}
            if case.is_test:
                if not has_test(case.line):
                    yield f"names the test {case.line}, which is not there"
            elif len(answers) != 1:
                yield f"has a case that is stored with {len(answers)} answers: {case.line}"
            else:
                yield from wrong_answer(page, section, case, *answers)


def wrong_docstrings(page):
    """What is wrong with the docstrings of calls that refuse."""
    for table in page.tables:
        expected = ", ".join(page.errors(table))
        if not table.functions:
            yield f"names no code of {table.title}"
        for path, name in table.functions:
            named = errors_of(path, name, page.calls)
            if named is None:
                yield f"has a table for {name} of {path}, which has no section # Errors"
            elif (found := ", ".join(page.flat(named, table))) != expected:
                yield f"has {expected} for {name} of {path}, whose docstring has {found or 'none'}"


def wrong_conditions(page):
    """What is wrong with the calls that have a condition and refuse nothing."""
    for path, name in page.conditions:
        if not has_condition(path, name):
            yield f"has a condition of {name} of {path}, which requires nothing"
        named = set(page.flat(errors_of(path, name, page.calls) or [])) - {ALLOC_ERROR}
        if named:
            yield f"says that {name} of {path} refuses nothing, and its docstring has {', '.join(sorted(named))}"


def main():
    page = Page(source(PAGE))
    wrong = [*chain(wrong_cases(page, stored_lines()), wrong_docstrings(page), wrong_conditions(page))]
    if wrong:
        fail("\nrefusals: ".join(f"{PAGE} {what}" for what in wrong))
    functions = sum(len(table.functions) for table in page.tables)
    cases = sum(len(section.cases) for section in page.sections)
    print(f"refusals: {functions} calls that refuse, {len(page.conditions)} with a condition, {cases} cases")


main()
