"""python3 tests/python [quick] [COUNT SEED]    python/fohlazu.py beside the program `fohlazu`; 2000 1 without numbers

- Its doctests and the example of docs/CALLING.md pass; mypy --strict takes it, where mypy is there; pip installs it
  from its folder without a network, where Debian's python3-venv is there; it has the program's version.
- The texts of crates/test_log, some arguments, and COUNT proofs of entries and of consistency, half of each:
  whole, and with each byte and line dropped, changed or put in front of, under other arguments and checkpoints of up to
  2^62 entries (tests/model/random_files.py). Exit status, standard output and reason are the program's. One in 100 is
  run as a command, the others in this process.
- Signed notes, where Debian's python3-cryptography is there: those that Go's note.Sign makes and that are changed
  somewhere are opened as by note.Open, or by its second writing where Go is not there (tests/peers), others as by
  `openssl pkeyutl -verify`, by the option `--key` of both commands, too. Without the package the option ends with an error.
- COUNT verdicts of its functions are the model's, and those of libfohlazu.so where `make` has built it or FOHLAZU_LIB
  names its folder.
"""

import contextlib
import doctest
import io
import os
import re
import shutil
import subprocess
import sys
import tempfile
from collections import Counter
from pathlib import Path
from random import Random
from unittest import mock

sys.path.insert(0, str(Path(__file__).resolve().parents[2] / "tools"))
from script import TOP, arguments, built, check, counted, run_script  # first: it makes those below known

import fohlazu
import log_answers
import random_files
import random_logs
import logs
from running import Program, Ran
from signatures import compare_signatures

FILE = TOP / "python/fohlazu.py"
COMMANDS = ["verify", "verify-consistency"]
# Of so many cases one is run as a command.
EVERY = 100
# Arguments that are refused, and some that are not: c, p and g are texts of a line, d and q of an empty one.
ARGUMENTS = TOP / "tests/python/arguments.txt"


def look_at_file():
    """Runs the doctests, and mypy."""
    failed, tried = doctest.testmod(fohlazu)
    example = re.search(r"^```python\n(.*?)^```$", (TOP / "docs/CALLING.md").read_text(), re.M | re.S)[1]
    test = doctest.DocTestParser().get_doctest(example, {}, "docs/CALLING.md", None, 0)
    check(doctest.DocTestRunner().run(test).failed + failed == 0, "a doctest fails")
    tried += len(test.examples)
    if not shutil.which("mypy"):
        return f"{tried} doctests passed; without mypy, which is not here"
    ran = subprocess.run(["mypy", "--strict", "--cache-dir", os.devnull, FILE], capture_output=True, text=True)
    check(ran.returncode == 0, ran.stdout, ran.stderr)
    return f"{tried} doctests passed; mypy --strict takes it"


def look_at_package(work):
    """Installs the folder without a network, and runs the commands that this makes."""
    if subprocess.run([sys.executable, "-m", "venv", work / "venv"], capture_output=True).returncode:
        return "skipped, it needs Debian's python3-venv"
    python, environment = work / "venv/bin/python", {**os.environ, "PYTHONDONTWRITEBYTECODE": "1"}
    words = [python, "-m", "pip", "install", "-q", "--no-index", "--disable-pip-version-check", FILE.parent]
    ran = subprocess.run(words, env=environment, capture_output=True, text=True)
    check(ran.returncode == 0, ran.stdout, ran.stderr)
    for command in [work / "venv/bin/fohlazu-verify"], [python, "-m", "fohlazu"]:
        ran = subprocess.run([*command, "--version"], cwd=work, capture_output=True, text=True)
        check(ran.stdout == f"fohlazu {fohlazu.__version__}\n", command, "prints", ran)
    return "it is installed and runs"


def answer_of(words):
    """What the file does in this process."""
    written = {1: b"", 2: b""}

    def write(file, data):
        written[file] += data

    said = io.StringIO()
    with mock.patch.object(fohlazu, "write", write), mock.patch.object(sys, "argv", ["fohlazu", *words]):
        with contextlib.redirect_stderr(said):
            try:
                status = fohlazu.main()
            except SystemExit as stopped:
                status = stopped.code
    return Ran(status, written[1], written[2] or said.getvalue().encode())


def command_of(words, data):
    """What the file does as a command."""
    ran = subprocess.run([sys.executable, "-I", FILE, *words], input=data, capture_output=True)
    return Ran(ran.returncode, ran.stdout, ran.stderr)


def compare(program, words, contents, is_command):
    """Fails where the file answers otherwise than the program. What is said of wrong arguments is its own."""
    expected = program.run(words, contents)
    found = command_of(words, contents.get("-", b"")) if is_command or "-" in words else answer_of(words)
    if found.said.startswith(b"usage: ") and expected.said and expected.status == 2:
        expected = expected._replace(said=found.said)
    check(found == expected, words, contents, "\n  answers ", found, "\n  expected", expected)
    return "accepted" if found.status == 0 else f"status {found.status}"


def compare_outputs(program):
    """Fails where a run ends otherwise whose output is full, closed or an input, or whose argument is no text."""
    with open("/dev/full", "wb") as full, open("p", "ab+") as proof:
        for words, settings in [
            (["verify", "c", "p"], {"stdout": full}),
            (["verify-consistency", "c", "g"], {"stdout": full}),
            (["verify", "c", "p"], {"stdout": proof}),
            (["verify", "-", "c"], {"stdin": proof, "stdout": proof}),
            (["verify", "c", "p"], {"preexec_fn": lambda: os.close(1)}),
            (["verify", "-", "p"], {"preexec_fn": lambda: os.close(0)}),
            (["verify", "c", b"\xff"], {}),
        ]:
            ran = [subprocess.run([*run, *words], stderr=subprocess.PIPE, **settings)
                   for run in ([program.path], [sys.executable, "-I", FILE])]
            check((ran[0].returncode, ran[0].stderr) == (ran[1].returncode, ran[1].stderr), words, *ran)


def cases(source, command, count):
    """So many cases of a command; of many one exchange has each byte of its texts damaged."""
    few = None if count > 5000 else 4
    while True:
        yield from random_files.CASES[command](source, 3 if few is None else source.choice([1, 3, 9, 33, 257]), few)
        few = source.choice([1, 2, 4, 8])


def few_texts():
    """The texts that ARGUMENTS name."""
    texts = {"log": b"a\n", "empty": b"\n"}
    for checkpoint, proof, log in ("c", "p", "log"), ("d", "q", "empty"):
        texts[checkpoint] = random_files.printed(["seal", "--origin", "a", log], texts)
        texts[proof] = random_files.printed(["prove", checkpoint, log, "1"], texts)
    texts["g"] = random_files.printed(["prove-consistency", "c", "c", "log"], texts)
    return {**texts, "-": texts["c"]}


def stored_texts():
    """The stored texts of logs, each with the name of the one that it stands for."""
    names = {"checkpoint": "c", "part": "c", "entries_proof": "p", "consistency_proof": "g"}
    for line in (TOP / "crates/test_log/stdin").read_text().splitlines():
        kind, _, text = line.partition(" |")[0].partition(" ")
        if kind in names:
            yield names[kind], log_answers.bytes_of(text)


def compare_commands(program, count, seed):
    counts, few = Counter(), few_texts()
    for words in ARGUMENTS.read_text().splitlines():
        counts["arguments", compare(program, words.split(), few, True)] += 1
    compare_outputs(program)
    for name, text in stored_texts():
        words = ["verify-consistency", "c", "g"] if name == "g" else ["verify", "c", "p"]
        counts["texts", compare(program, words, {**few, name: text}, False)] += 1
    for command in COMMANDS:
        source = Random(f"{seed} {command}")
        for number, case in zip(range(count // 2), cases(source, command, count // 2)):
            counts[command, compare(program, case.words, case.contents, number % EVERY == 0)] += 1
    return counts


def verdict_of(call, *question):
    """The status of a verdict, as libfohlazu.so has it, and its reason."""
    try:
        call(*question)
    except fohlazu.Refused as refused:
        return [*fohlazu.Reason].index(refused.reason) + 1, str(refused)
    return 0, "accepted"


def library():
    """The library, if it is built or named."""
    folder = os.environ.get("FOHLAZU_LIB") or TOP / "build"
    path = Path(folder).resolve() / "libfohlazu.so"
    return fohlazu.Library(str(path)) if path.exists() else None


def compare_verdicts(proved, count, rng):
    counts, calls = Counter(), [fohlazu, proved] if proved else [fohlazu]
    for _, (kind, *question) in zip(range(count), random_logs.questions(rng)):
        expected = logs.VERDICTS[kind](*question)
        for call in calls:
            found = verdict_of(getattr(call, f"verify_{kind}"), *question)
            check(found[0] == expected, call, kind, question, found, "the model:", expected)
        counts[kind, "refused" if expected else "accepted"] += 1
    log = logs.Log([b"%d" % number for number in range(1, 41)])
    for _ in range(count // 10):
        size, log_size, indices, leaves, nodes = random_logs.of_entries(rng, 40)
        proof = [log.root(slot << layer, min(slot + 1 << layer, log_size)) for layer, slot in nodes]
        question = size, indices, [log.leaves[index] for index in leaves], proof, log.root(0, log_size)
        expected, found = logs.entries(*question), verdict_of(fohlazu.verify_entries, *question)
        check(found[1] == expected, question, found, "the model:", expected)
        counts["entries", "accepted" if expected == "accepted" else "refused"] += 1
    for entry in map(rng.randbytes, range(200)):
        check(all(call.leaf_hash(entry) == logs.leaf_hash(entry) for call in calls), "another leaf hash of", entry)
    return counts


def main():
    is_quick, numbers = arguments(lambda numbers: len(numbers) in (0, 2))
    count, seed = numbers or (2000, 1)
    path, proved = built(is_quick), library()
    version = subprocess.run([path, "--version"], capture_output=True, text=True).stdout
    check(version == f"fohlazu {fohlazu.__version__}\n", "the program has the version", version)
    print(f"python: the file: {look_at_file()}", flush=True)
    with tempfile.TemporaryDirectory() as work:
        print(f"python: the package: {look_at_package(Path(work))}", flush=True)
        (Path(work) / "folder").mkdir()
        os.chdir(Path(work) / "folder")
        program = Program(path, ".")
        print(f"python: beside the program: {counted(compare_commands(program, count, seed))}", flush=True)
        found = compare_signatures(Random(seed), Path(work), FILE, program, few_texts(), answer_of)
        print(f"python: signatures: {found}", flush=True)
        os.chdir(TOP)
    beside = "the model and libfohlazu.so" if proved else "the model alone, libfohlazu.so is not built"
    print(f"python: beside {beside}: {counted(compare_verdicts(proved, count, Random(seed)))}")


run_script(main)
