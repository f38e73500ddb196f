"""What the scripts that measure share: the program `fohlazu`, files in bench/out, and the time and memory of a run."""

import os
import random
import shutil
import subprocess
import sys
from pathlib import Path

TOP = Path(__file__).resolve().parent.parent
OUT = TOP / "bench/out"
MEASURE = TOP / "tests/model/measure.py"
PIECE = 16 << 20
# openssl computes SHA-256 as the library does: without the processor's SHA instructions
os.environ["OPENSSL_ia32cap"] = ":~0x20000000"


def fail(text, status):
    print(f"bench/{Path(sys.argv[0]).name}: {text}", file=sys.stderr)
    sys.exit(status)


def built(is_quick):
    """The path of the program, which is built where it is not."""
    if os.environ.get("FOHLAZU"):
        return Path(os.environ["FOHLAZU"]).resolve()
    path = "build/quick/fohlazu" if is_quick else "build/fohlazu"
    if subprocess.run(["make", "-s", path], cwd=TOP, stdin=subprocess.DEVNULL).returncode != 0:
        fail(f"{path} can't be built", 3)
    return TOP / path


def measured(words, output=os.devnull):
    """The seconds of the processor of a run that writes to a file, and the bytes that it held at most."""
    report = OUT / "report"
    helper = [sys.executable, "-I", "-S", MEASURE, report, shutil.which(words[0]), *words[1:]]
    with open(output, "wb") as file:
        subprocess.run(helper, stdin=subprocess.DEVNULL, stdout=file, stderr=subprocess.DEVNULL, check=True)
    seconds, held, status = report.read_text().split()
    if status != "0":
        fail(f"{' '.join(map(str, words))} ends with status {status}", 3)
    return float(seconds), int(held)


def make(name, size, piece_of):
    """A file of so many bytes, made where there is none."""
    path = OUT / name
    if not path.exists() or path.stat().st_size != size:
        source, left = random.Random(name), size
        with path.open("wb") as file:
            while left:
                piece = piece_of(source)[:left]
                file.write(piece)
                left -= len(piece)
    return path


def bytes_of(source):
    return source.randbytes(PIECE)


def lines_of(least, most):
    """Makes lines of printable bytes: each length with the end, from the least to the most, as often as any other."""

    def piece_of(source):
        digits = source.randbytes(PIECE // 2).hex().encode()
        lines = []
        start = 0
        while start + most < len(digits):
            end = start + source.randint(least, most) - 1
            lines.append(digits[start:end])
            start = end
        return b"\n".join(lines) + b"\n"

    return piece_of
