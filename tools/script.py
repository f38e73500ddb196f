"""What scripts of tools/ and tests/ share: the folders of modules that several use, the words of a script, how it ends,
and programs that are built.

`make` builds a program where it is not built, after the word `quick` with no proof; FOHLAZU names another fohlazu. A
script ends with status 1 where something is wrong, 2 where its words are, 3 where something is missing.
"""

import os
import subprocess
import sys
from pathlib import Path

import __main__

TOP = Path(__file__).resolve().parents[1]
# The script, or the file that runs a folder. Python knows the other modules of the folder.
SCRIPT = Path(__main__.__file__).resolve()
NAME = SCRIPT.parent.name if SCRIPT.stem == "__main__" else SCRIPT.stem
FOLDERS = "tests/model", "tests/bindings", "tests/follow", "tests/peers", "python"
sys.dont_write_bytecode = True
sys.path[:0] = [str(TOP / folder) for folder in FOLDERS]


class Wrong(Exception):
    """What is wrong."""


def fail(why, status=1):
    """Ends the script."""
    print(f"{NAME}: {why}", file=sys.stderr)
    sys.exit(status)


def check(is_so, *found):
    if not is_so:
        raise Wrong(" ".join(map(str, found)))


def run_script(main):
    """Runs a script to its end."""
    try:
        main()
    except Wrong as wrong:
        fail(wrong)


def arguments(is_right=lambda numbers: not numbers):
    """Whether `quick` is the first word, and the numbers after it, if there may be these. The first words of the
    script's docstring are its usage."""
    is_quick = sys.argv[1:2] == ["quick"]
    words = sys.argv[1 + is_quick:]
    if not all(word.isascii() and word.isdecimal() for word in words) or not is_right(words):
        fail(f"usage: {__main__.__doc__.partition('    ')[0]}", 2)
    return is_quick, [*map(int, words)]


def built(is_quick, name="fohlazu"):
    """The path of a program."""
    if name == "fohlazu" and os.environ.get("FOHLAZU"):
        return Path(os.environ["FOHLAZU"]).resolve()
    path = TOP / ("build/quick" if is_quick else "build") / name
    if subprocess.run(["make", "-s", path.relative_to(TOP)], cwd=TOP, stdin=subprocess.DEVNULL).returncode:
        fail(f"{path.relative_to(TOP)} can't be built", 3)
    return path


def counted(counts):
    """Counts as a text: their names, which may have parts, and numbers."""
    names = {name: name if isinstance(name, str) else " ".join(name) for name in counts}
    return ", ".join(f"{text} {counts[name]}" for name, text in sorted(names.items(), key=lambda pair: pair[1]))
