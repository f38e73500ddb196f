#!/usr/bin/env python3
"""python3 tests/check_quick.py    what can be tried in minutes with no proof, side by side; `make check-quick` calls it

The tests and the stored run of each crate, random cases of the library, of `mmcs` and of `fohlazu`, the commands of
README.md and of tests/programs, the exchanges of examples/, output files, the verifier in Python, what is installed,
the Cargo package, and a crate over the proved libraries where they are built. A part that fails shows what it said, and
ends all with status 1.
"""

import os
import re
import signal
import subprocess
import sys
import threading
import time
from concurrent.futures import ThreadPoolExecutor, as_completed
from pathlib import Path

TOP = Path(__file__).resolve().parent.parent
# Cases that take minutes with checks at run time. The gate alone tries them.
SLOW = {"test_merkle": re.compile(rb"lawful 9|100000|999999"), "test_log": re.compile(rb"\*\d{6}")}
# Seconds that a run may take: many, since the machine may have other things to do.
LONGEST = "1800"
SCRIPTS = [f"python3 tests/fuzz.py quick {subject} 20 1" for subject in ("library", "mmcs", "fohlazu")]
SCRIPTS += ["python3 tests/readme.py", "bash tests/examples.sh", "bash tests/installed.sh"]
SCRIPTS += [f"python3 tests/{name} quick" for name in ("python", "output", "programs")]
SCRIPTS += ["python3 tests/cargo.py"]
BEGUN = time.monotonic()
processes, lock = set(), threading.Lock()


class Failed(Exception):
    """A part failed: what it said."""


def run(words, folder=TOP, data=b""):
    """What a command of the toolchain or of tests/ ends with, prints and says."""
    with lock:
        process = subprocess.Popen(words, cwd=folder, stdin=subprocess.PIPE, stdout=subprocess.PIPE,
                                   stderr=subprocess.PIPE, start_new_session=True)
        processes.add(process)
    printed, said = process.communicate(data)
    return process.returncode, printed, said.decode(errors="replace")


def tests(crate):
    """Runs the tests of a crate."""
    status, printed, said = run(["rt", "try", "--test", "--seconds", LONGEST], crate)
    passed = re.search(r"^test result: ok\. (\d+) passed; 0 failed;", printed.decode() + said, re.M)
    if status or not passed:
        raise Failed(printed.decode(errors="replace") + said)
    return f"{passed[1]} tests passed"


def stored_run(crate):
    """Runs a program on the input and the words that lie beside its sources, and compares what it prints."""
    stored = {"stdin": b"", "args": b"", "stdout": b"", "status": b"0"}
    stored |= {name: (crate / name).read_bytes() for name in stored if (crate / name).exists()}
    data, wanted, left_out = stored["stdin"], stored["stdout"], ""
    if is_slow := SLOW.get(crate.name):
        lines = data.splitlines(keepends=True)
        data = b"".join(line for line in lines if not is_slow.search(line))
        slow = sum(not line.startswith(b"#") for line in lines if is_slow.search(line))
        count, rest = wanted.split(b" ", 1)
        wanted, left_out = b"%d %s" % (int(count) - slow, rest), f", but for {slow} slow cases"
    paths = sorted((crate / "data").glob("*"))
    files = [word for path in paths for word in ("--data", f"{path.name}=data/{path.name}")]
    words = ["rt", "try", "--seconds", LONGEST, *files, "--", *stored["args"].decode().splitlines()]
    status, printed, said = run(words, crate, data)
    if printed != wanted or status != int(stored["status"]):
        raise Failed(f"{said}status {status}, and it prints\n{printed.decode(errors='replace')}")
    return f"the stored run is as it is written{left_out}"


def name_of(words):
    """The name of a script of tests/."""
    return Path(words.split()[1]).stem


def script(words):
    """Runs a script of tests/."""
    status, printed, said = run(words.split())
    if status:
        raise Failed(printed.decode(errors="replace") + said)
    return printed.decode().splitlines()[-1].removeprefix(f"{name_of(words)}: ")


def parts():
    """Each part: its name, what runs it, and a crate or the words of a script."""
    # The longest runs, among them those of test_rust, are not among the last.
    scripts = list(SCRIPTS)
    if subprocess.run(["make", "-sq", "build/libraries.tar.zst"], cwd=TOP).returncode == 0:
        scripts.append("python3 tests/libraries.py")
    for words in scripts:
        yield name_of(words), script, words
    for source in sorted(TOP.glob("crates/*/src"), reverse=True):
        crate = source.parent
        if any("#[test]" in path.read_text() for path in source.rglob("*.rt")):
            yield crate.name, tests, crate
        if (source / "main.rt").exists():
            yield crate.name, stored_run, crate


def main():
    signal.signal(signal.SIGTERM, signal.default_int_handler)
    # A part takes one processor and about a gigabyte of memory.
    lanes = min(len(os.sched_getaffinity(0)), 4)
    with ThreadPoolExecutor(lanes) as pool:
        jobs = {pool.submit(part, what): name for name, part, what in parts()}
        print(f"check-quick: {len(jobs)} parts with no proof, {lanes} side by side", flush=True)
        try:
            for job in as_completed(jobs):
                minutes, seconds = divmod(int(time.monotonic() - BEGUN), 60)
                print(f"check-quick: {minutes}:{seconds:02d} {jobs[job]}: {job.result()}", flush=True)
        except Failed as failed:
            print(f"{failed}check-quick: {jobs[job]} failed", file=sys.stderr)
            sys.exit(1)
        except KeyboardInterrupt:
            sys.exit(130)
        finally:
            pool.shutdown(wait=False, cancel_futures=True)
            with lock:
                for process in processes:
                    if process.poll() is None:
                        os.killpg(process.pid, signal.SIGTERM)
    print("check-quick: all passed; docs/TESTING.md says what is left out")


main()
