"""python3 tests/erase    tests tools/erase, which makes the sources of the Cargo package from the proved ones

Each form that it knows becomes the Rust of known.py, and each of refused.py is refused with its message. In each file
of the package the changes that `python3 tools/erase --added` lists explain every token that its source has not, and
every one that it lacks: account.py reads both texts in a way of its own.
"""

import re
import sys
from pathlib import Path

sys.path.insert(0, str(Path(__file__).resolve().parents[2] / "tools"))
from script import TOP, check, run_script

sys.path.insert(0, str(TOP / "tools/erase"))

from account import unexplained  # noqa: E402
from files import erased, erasers_of, check_lists, file_name, head_line, package_of  # noqa: E402
from known import KNOWN  # noqa: E402
from package import Package  # noqa: E402
from refused import REFUSED  # noqa: E402
from rewrite import Eraser  # noqa: E402
from source import Unknown, tokens_of  # noqa: E402

FILES = TOP / "rust/fohlazu/src/erased"
IMPORT = re.compile(r"\buse [^;]*;")


def package_of_form(source):
    """A package that exports what begins with `seen` in a source, with some conditions."""
    return Package(
        crates=["own", "other"],
        left_out={"own.laws", "other.laws"},
        features={"own.sha": "sha2"},
        inline={"own.small"},
        of_words={"own.lanes.sum", "own.words"},
        lane_loops={"own.lanes.one": "w, v", "own.lanes.more": "w, v"},
        derives={"own.part.SeenMore": ["Clone", "Default First"]},
        defaults={"own.part.SeenDefault.LANES": "1"},
        unbound={"own.part.SeenBound": ["M", "B"], "own.part.Loose": ["T"]},
        known={"own.part.known": "n < 4", "own.part.seen_known": "n < 4"},
        exported={f"own.part.{name}" for name in re.findall(r"\b[Ss]een\w*", source)},
        internal={"own.part.Seen.inside"},
        conditions={
            "own.part.seen_tested": {"few": "n < 4", "some": "1 <= m"},
            "own.part.seen_const": {"arity": "const: N == 2"},
            "own.part.seen_untested": {"ends": "untested: it ends when it does"},
            "own.part.SeenTrait.lane": {"lane_in": "k < 1"},
            "own.part.Seen.Index.index": {"can_index": "i < 1"},
        },
        laws={"own.part.SeenTrait": {}},
        other_laws={},
    )


def erased_form(source, module, has_lists):
    """What a source becomes; with its lists, if these are compared too."""
    package = package_of_form(source)
    eraser = Eraser(package, "own", module, source)
    eraser.survey()
    text = eraser.erase()
    if has_lists:
        check_lists(package)
    return text


def texts(text):
    """The tokens of a text in order, imports ahead, without spaces. A comma before a closing bracket does not count."""
    imports = sorted(IMPORT.findall(text))
    text = " ".join(imports) + " " + IMPORT.sub("", text)
    found = [token.text.rstrip() for token in tokens_of(text) if token.kind != "space"]
    return [token for token, behind in zip(found, [*found[1:], ""]) if token != "," or behind not in (")", "}", "]")]


def check_known():
    """Each form that is known becomes what it should."""
    for form in KNOWN:
        found = texts(erased_form(form.source, form.module, False))
        check(found == texts(form.becomes), f"{form.name} becomes", *found)


def check_refused():
    """Each form that is not known is refused, with its message."""
    for form in REFUSED:
        try:
            erased_form(form.source, "part", True)
            said = "nothing"
        except Unknown as error:
            said = str(error)
        check(form.says in said, f"of {form.name} it says:", said)


def check_account():
    """What the eraser says that it did explains each file of the package."""
    crates = TOP / "crates"
    package = package_of(crates)
    erasers = erasers_of(crates, package)
    erased(erasers, package)
    for path, eraser in erasers.items():
        result = (FILES / file_name(path)).read_text(encoding="utf-8").removeprefix(head_line(path))
        left = unexplained((crates / path).read_text(encoding="utf-8"), result, eraser.sheet.changes)
        check(not left, f"{file_name(path)} has tokens that nothing explains, or lacks some:", left)
    return len(erasers)


def main():
    """Runs all checks."""
    check_known()
    check_refused()
    count = check_account()
    print(f"erase: {len(KNOWN)} forms that are known, {len(REFUSED)} that are refused, {count} files explained")


run_script(main)
