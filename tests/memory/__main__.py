"""python3 tests/memory [gate|quick] [SEED]    refuses each request for memory in turn, and compares answers

- The calls of crates/test_memory: the lines of its stored run, and each call by each builder over four heights. The
  program makes a call again, with memory, where it ran out of memory. Requests that it makes for the call's inputs are
  not refused.
- The lines of commands.txt: commands of mmcs and fohlazu, and questions about logs.
- Stored cases of test_merkle: with `gate` those over the matrices of test_memory, otherwise one of each kind, arity,
  rule and answer, which SEED chooses (1 if it is not given).
- Without `gate`: how many bytes test_merkle asks for in each stored case that checks. They are no more than in
  proportion to its line.

Each runs with its nth request refused, for n = 1, 2, 3 and so on, alone and with all later ones. It answers as with
ample memory, or says only that memory ran out.

With `gate` the programs are those in crates/*/out, where `rt ci` leaves them; with `quick` those in build/quick, and
otherwise those in build, which `make` builds. It needs the GNU C library, and a C compiler, `cc` or what CC names.

It prints a line for each kind, and counts in the last line. A wrong answer ends with status 1, wrong words with 2, and
what is missing or can't be built with 3.
"""

import os
import shutil
import subprocess
import sys
import tempfile
from collections import defaultdict
from concurrent.futures import ThreadPoolExecutor
from pathlib import Path

sys.dont_write_bytecode = True
TOP = Path(__file__).resolve().parents[2]
sys.path.insert(0, str(TOP / "tests/model"))
import calls  # noqa: E402
import commands  # noqa: E402
from commands import Trial  # noqa: E402

CASES, CALLS = "test_merkle", "test_memory"
PROGRAMS = ["mmcs", "fohlazu", CASES, "test_log", CALLS]
ONCE, FROM = "REFUSE_ONCE", "REFUSE_FROM"
# What a run says that has no memory, and its status.
OUT_OF_MEMORY = {"mmcs": [(1, b"", b"out of memory\n")], "fohlazu": [(2, b"", b"fohlazu: out of memory\n")]}
TEST_OUT_OF_MEMORY = [(1, b"", b"Error: %s\n" % text)
                      for text in (b"Kind(OutOfMemory)", b"memory allocation failed", b"out of memory")]
# What `fohlazu verify` says of entries without numbers, with status 0.
UNCOMPARED = b"fohlazu: entry numbers were not compared: check that they are those you requested\n"
# Cases with more requests are left to others of their kind.
MOST = 200
# How many bytes a case that checks may ask for at a time, with what reads its line: so many, and so many for each item.
BESIDE, EACH = 16384, 200

Outcome = tuple[int, bytes, bytes]


def fail(why: str, status: int = 1) -> None:
    print(f"memory: {why}", file=sys.stderr)
    sys.exit(status)


def build(words: list[str | Path], folder: Path = TOP) -> None:
    done = subprocess.run(words, cwd=folder, stdin=subprocess.DEVNULL, capture_output=True, text=True)
    if done.returncode:
        fail(f"{done.stdout}{done.stderr}{' '.join(map(str, words))} failed", 3)


def find_programs(mode: str) -> dict[str, Path]:
    """The paths of the programs. Without `gate` they are built where they are not."""
    if mode == "gate":
        paths = {name: TOP / "crates" / name / "out" / name for name in PROGRAMS}
        for name, path in paths.items():
            if not path.exists():
                fail(f"{path.relative_to(TOP)} is missing: `rt ci` leaves it there", 3)
        return paths
    print("memory: builds what is not built, for minutes", file=sys.stderr)
    folder = Path("build/quick" if mode == "quick" else "build")
    build(["make", "-s", *(folder / name for name in PROGRAMS)])
    return {name: TOP / folder / name for name in PROGRAMS}


class Wrong(Exception):
    def __init__(self, trial: Trial, what: str):
        words = [trial.program, *trial.words, "" if trial.words else trial.data.decode().strip()]
        super().__init__(f"{' '.join(words).strip()}: wrong: {what}")


class Runs:
    """Runs programs below the library that refuses, in copies of a folder."""

    def __init__(self, programs: dict[str, Path], library: Path, files: Path):
        self.programs, self.library, self.files = programs, library, files

    def run(self, trial: Trial, folder: Path, mode: str = "", number: int = 0) -> tuple[Outcome, list[int]]:
        """Status, output and error of a run; its requests, how many of them were refused, and its bytes. What the file
        `made` says, which was empty, counts as output, and so do the names of files that are left."""
        (folder / "made").write_bytes(b"")
        before = set(os.listdir(folder))
        with tempfile.TemporaryFile() as report:
            settings = {"LD_PRELOAD": str(self.library), "REFUSE_REPORT": str(report.fileno())}
            settings |= {mode: str(number)} if mode else {}
            # Such a program prints its line once the inputs of the call stand.
            settings |= {"REFUSE_AFTER_OUTPUT": "yes"} if trial.program == CALLS else {}
            done = subprocess.run([self.programs[trial.program], *trial.words], cwd=folder, input=trial.data,
                                  capture_output=True, env={**os.environ, **settings}, pass_fds=[report.fileno()],
                                  timeout=120)
            report.seek(0)
            counts = [int(word) for word in report.read().split()]
        left = "".join(sorted(set(os.listdir(folder)) - before)).encode()
        return (done.returncode, done.stdout + (folder / "made").read_bytes() + left, done.stderr), counts

    def ample(self, trial: Trial, folder: Path) -> tuple[Outcome, list[int]]:
        """The same with ample memory: it has to end with the status that is wanted, and print or say something."""
        outcome, counts = self.run(trial, folder)
        status, printed, said = outcome
        is_refused = said not in (b"", UNCOMPARED)
        if status != trial.status or bool(printed) != (status == 0) or is_refused == (status == 0):
            raise Wrong(trial, f"with ample memory: {outcome}")
        return outcome, counts

    def attempt(self, trial: Trial) -> tuple[int, int]:
        """Refuses each request of a run in turn: how many it makes, and how many runs were made."""
        with tempfile.TemporaryDirectory() as parent:
            folder, runs = Path(shutil.copytree(self.files, Path(parent) / "files")), 1
            ample, (requests, _, _) = self.ample(trial, folder)
            if trial.program == CALLS:
                check_call(trial, ample, requests)
            for mode in ONCE, FROM:
                number, refused = 0, 1
                while refused:
                    number, runs = number + 1, runs + 1
                    outcome, (_, refused, _) = self.run(trial, folder, mode, number)
                    if outcome != ample and (not refused or outcome not in outcomes_short(trial, mode)):
                        raise Wrong(trial, f"{mode}={number}: {outcome}")
        return requests, runs

    def first_short(self, cases: list[Trial]) -> Trial | None:
        """The first of some cases that makes few requests, if there is one."""
        return next((case for case in cases if self.ample(case, self.files)[1][0] <= MOST), None)

    def check_bytes(self, trial: Trial) -> int:
        """How many bytes a case asks for at a time. They have to be in proportion to its line."""
        _, (_, _, most) = self.ample(trial, self.files)
        if most > BESIDE + EACH * commands.items(trial):
            raise Wrong(trial, f"{most} bytes for {commands.items(trial)} numbers and rows")
        return most


def outcomes_short(trial: Trial, mode: str) -> list[Outcome]:
    """What a run may end with where a request was refused, beside its outcome with ample memory. A call that is made
    again with memory gives the answer of ample memory."""
    if trial.program != CALLS:
        return OUT_OF_MEMORY.get(trial.program, TEST_OUT_OF_MEMORY)
    refused = trial.data + b"out of memory\n"
    if mode == FROM:
        return [(1, refused, b"Error: out of memory again\n")]
    return [(0, refused + answer.encode() + b"\n", b"") for answer in trial.answers]


def check_call(trial: Trial, ample: Outcome, requests: int) -> None:
    """A call answers what is expected, and one that takes no memory makes no request."""
    if ample != (0, trial.data + trial.answers[0].encode() + b"\n", b""):
        raise Wrong(trial, f"with ample memory: {ample[1].decode()}and not {trial.answers[0]}")
    if requests and trial.kind in calls.FREE:
        raise Wrong(trial, f"{requests} requests")


def all_of(call, trials: list) -> tuple[list, int]:
    """What a call answers for each of some trials, side by side, and how many are wrong."""
    wrong = []

    def answer(trial):
        try:
            return call(trial)
        except Wrong as error:
            print(error, flush=True)
            wrong.append(error)
            return None

    with ThreadPoolExecutor(os.cpu_count()) as pool:
        return list(pool.map(answer, trials)), len(wrong)


def refuse(runs: Runs, trials: list[Trial]) -> int:
    """Refuses the requests of all trials, and prints a line for each kind. How many trials are wrong."""
    results, wrong = all_of(runs.attempt, trials)
    kinds, runs_made = defaultdict(list), 0
    for trial, result in zip(trials, results):
        if result:
            kinds[trial.program, trial.kind].append(result[0])
            runs_made += result[1]
    for (program, kind), requests in kinds.items():
        print(f"{program} {kind}".rstrip() + f": {len(requests)}, of {min(requests)} to {max(requests)} requests")
        if max(requests) == 0 and kind not in calls.FREE:
            print(f"{program} {kind}: wrong: no request was counted")
            wrong += len(requests)
    print(f"{len(trials)} commands and cases in {runs_made} runs, {wrong} wrong", flush=True)
    return wrong


def prepare(programs: dict[str, Path], folder: Path) -> Runs:
    """Compiles the library that refuses, and writes the files that commands read."""
    library, files = folder / "refuse.so", folder / "files"
    compiler = os.environ.get("CC", "cc").split()
    build([*compiler, "-O1", "-fPIC", "-shared", "-fno-builtin", "-o", library, TOP / "tests/memory/refuse.c"])
    files.mkdir()
    for name, data in commands.FILES.items():
        (files / name).write_bytes(data)
    runs = Runs(programs, library, files)
    for trial in commands.commands():
        if trial.kept:
            (files / trial.kept).write_bytes(runs.ample(trial, files)[0][1])
    return runs


def refuse_chosen(runs: Runs, cases: list[Trial], seed: int) -> tuple[int, int]:
    """Refuses the requests of one case of each shape. How many cases there are, and how many are wrong."""
    chosen, bad = all_of(runs.first_short, commands.choices(cases, seed))
    trials = [trial for trial in chosen if trial]
    wrong = bad + refuse(runs, trials)
    checks = [trial for trial in cases if commands.CHECKS.fullmatch(trial.kind)]
    most, bad = all_of(runs.check_bytes, checks)
    print(f"{len(most)} cases that check, {bad} of which ask for too many bytes")
    return len(trials) + len(checks), wrong + bad


def arguments() -> tuple[str, int]:
    """The first word, if it is not the seed, and the seed."""
    words = sys.argv[1:]
    mode = words.pop(0) if words[:1] in (["gate"], ["quick"]) else ""
    if len(words) > (mode != "gate") or not all(word.isdecimal() for word in words):
        fail("usage: python3 tests/memory [gate|quick] [SEED]", 2)
    return mode, int(words[0]) if words else 1


def main() -> int:
    mode, seed = arguments()
    programs = find_programs(mode)
    with tempfile.TemporaryDirectory() as folder:
        runs = prepare(programs, Path(folder))
        trials = commands.calls(TOP / "crates" / CALLS, CALLS) + commands.commands()
        cases = commands.stored(TOP / "crates" / CASES / "stdin", CASES)
        if mode == "gate":
            trials += commands.named(cases)
        wrong, count = refuse(runs, trials), len(trials)
        if mode != "gate":
            more, bad = refuse_chosen(runs, cases, seed)
            wrong, count = wrong + bad, count + more
    print(f"{count - wrong} passed, {wrong} failed")
    return 1 if wrong else 0


if __name__ == "__main__":
    sys.exit(main())
