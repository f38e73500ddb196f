"""Runs a program in a folder of its own, and says what is wrong about a run."""

import os
import resource
import signal
import subprocess
import sys
from functools import partial
from pathlib import Path
from typing import NamedTuple

# how long a run may take
SECONDS = 120
MEASURE = Path(__file__).resolve().parent / "measure.py"


class Ran(NamedTuple):
    """The exit status of a run, what it printed and said, the seconds of the processor and the bytes it held."""

    status: int
    printed: bytes
    said: bytes
    seconds: float = 0.0
    held: int = 0


class Program:
    """A program, the folder that it runs in, and how many bytes of memory a run may have, if there is a limit."""

    def __init__(self, path, folder, room=None):
        self.path = path
        self.folder = Path(folder)
        self.room = room
        self.written = {}

    def write(self, name, data):
        """Has a file say this, or be none."""
        if name in self.written and self.written[name] == data:
            return
        if data is None:
            (self.folder / name).unlink(missing_ok=True)
        else:
            (self.folder / name).write_bytes(data)
        self.written[name] = data

    def run(self, words, contents=None, **settings):
        """A run on these files; the one that is called `-` is its standard input."""
        contents = dict(contents or {})
        data = contents.pop("-", b"")
        for name in contents:
            self.write(name, contents[name])
        if not {"stdin", "input"} & settings.keys():
            settings["input"] = data
        settings = {"stdout": subprocess.PIPE, "stderr": subprocess.PIPE, "timeout": SECONDS, **settings}
        if self.room:
            settings["preexec_fn"] = partial(resource.setrlimit, resource.RLIMIT_AS, (self.room, self.room))
        ran = subprocess.run([self.path, *words], cwd=self.folder, **settings)
        return Ran(ran.returncode, ran.stdout or b"", ran.stderr or b"")

    def measured(self, words, contents, data=subprocess.DEVNULL):
        """The same, with its time and memory; what it prints and says goes through files."""
        for name in contents:
            self.write(name, contents[name])
        out, err, report = (self.folder / name for name in (".out", ".err", ".report"))
        helper = [sys.executable, "-I", "-S", MEASURE, report, self.path, *words]
        with out.open("wb") as printed, err.open("wb") as said:
            settings = {"stdin": data, "stdout": printed, "stderr": said, "start_new_session": True}
            child = subprocess.Popen(helper, cwd=self.folder, **settings)
            try:
                child.wait(SECONDS)
            except subprocess.TimeoutExpired:
                os.killpg(child.pid, signal.SIGKILL)
                child.wait()
                return Ran(-signal.SIGKILL, b"", b"takes too long")
        seconds, held, status = report.read_text().split()
        return Ran(int(status), out.read_bytes(), err.read_bytes(), float(seconds), int(held))


def is_line(said):
    """Whether this is one line with its end."""
    return said.count(b"\n") == 1 and said.endswith(b"\n") and len(said) > 1


def faults(ran, status, printed=b"", line=""):
    """What is wrong about a run, in lines. A line of standard error that ends in a space is the beginning of one; none
    at all stands for any text."""
    if ran.status != status:
        yield f"status {ran.status}, expected {status}"
    if ran.printed != printed:
        yield f"prints {ran.printed[:400]!r}, expected {printed[:400]!r}"
    if line is None:
        is_right = bool(ran.said)
    elif line.endswith(" "):
        is_right = is_line(ran.said) and ran.said.startswith(line.encode())
    else:
        is_right = ran.said == (line + "\n" * bool(line)).encode()
    if not is_right:
        yield f"says {ran.said[:400]!r}, expected {'something' if line is None else line!r}"
