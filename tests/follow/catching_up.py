"""A customer who missed days catches up by the loop of docs/USES.md, and notices what else may be published."""

import os
import re
import subprocess
import sys
import textwrap
from pathlib import Path

from script import TOP, check

# A run that takes as many seconds does not end.
SECONDS = 60


def commands(folder):
    """A folder of the scripts' names, for the PATH."""
    folder.mkdir()
    for name in "fohlazu-follow", "fohlazu-open":
        (folder / name).write_text(f'#!/bin/sh\nexec "{sys.executable}" -S "{TOP}/share/{name}" "$@"\n')
        (folder / name).chmod(0o755)
    return folder


class Loop:
    """The loop, in a folder of a customer, who has `kept` or gets one with the first checkpoint."""

    def __init__(self, folder, program, vkey, first):
        text = (TOP / "docs/USES.md").read_text()
        found = re.search(r"^    curl -fsS [^\n]* -o last && \{\n.*?^    \}\n", text, re.M | re.S)
        self.lines = textwrap.dedent(found[0])
        self.folder = folder
        self.kept = folder / "kept/checkpoint"
        self.kept.parent.mkdir(exist_ok=True)
        self.kept.write_bytes(first)
        (folder / "vkey").write_text(vkey + "\n")
        path = f"{commands(folder / 'commands')}:{os.environ['PATH']}"
        self.environment = {**os.environ, "PATH": path, "FOHLAZU": str(program)}

    def run(self, published: Path):
        """Takes what is published in a folder."""
        return subprocess.run(["sh", "-euc", self.lines], cwd=self.folder, stdin=subprocess.DEVNULL,
                              env={**self.environment, "url": published.as_uri()}, capture_output=True, timeout=SECONDS)


def catch_up(folder, program, published, vkey, first):
    """Runs the loop twice: the second run compares alone."""
    loop = Loop(folder, program, vkey, first)
    last = (published / "checkpoint").read_bytes()
    for _ in range(2):
        ran = loop.run(published)
        is_compared = ran.stdout.endswith(b", the same root: nothing is new\n")
        check(ran.returncode == 0 and is_compared and loop.kept.read_bytes() == last, ran)
    return loop


def count_of(checkpoint):
    return int(checkpoint.split(b"\n")[1])


def notice(loop, operator, days):
    """What customers find where something else is published. An older folder is named, as of a machine that was rolled
    back, and a server that gives the last proof again and again does not hold the loop."""
    (before, _), (last, growth) = days[-2:]
    old, count = count_of(before), count_of(last)
    [rewritten] = [proof for why, _, _, proof in operator.forged(old) if why == "a rewritten log"]
    [_, (_, forked)] = operator.histories(count)
    longer = last.replace(b"\n%d\n" % count, b"\n%d\n" % (count + 9))
    cases = {
        "older": (last, {"checkpoint": before}, 1, b"last has %d entries, and kept/checkpoint has %d: " % (old, count)),
        "forked": (last, {"checkpoint": forked}, 3, b"two histories of one log: last and kept/checkpoint, both signed"),
        "rewritten": (before, {"checkpoint": rewritten.partition(b"\n\n")[2], f"from-{old}.growth": rewritten}, 1,
                      b"from-%d.growth is refused: " % old),
        "again": (last, {"checkpoint": longer, f"from-{count}.growth": growth}, 1, b"last is refused: the signature "),
        "a page": (last, {"checkpoint": b"<html>\n\n<h1>404</h1>\n"}, 1, b"last is no growth proof, or not whole"),
        "nothing": (last, {}, 37, b"curl: (37)"),
    }
    for name, (kept, files, status, said) in cases.items():
        site = loop.folder / name
        site.mkdir()
        for file, data in files.items():
            (site / file).write_bytes(data)
        loop.kept.write_bytes(kept)
        ran = loop.run(site)
        check(ran.returncode == status and said in ran.stderr and loop.kept.read_bytes() == kept, name, ran)
    return len(cases)
