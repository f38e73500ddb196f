"""python3 tests/bindings    builds libfohlazu.a and libfohlazu.so by make, and calls them from C, C++, Rust and Go

- The library has the calls of its header and no variable, and needs nothing of the C library but memmove, malloc,
  realloc and free.
- examples/c/log.c, linked to the one and to the other, answers as the model does, of logs of up to nine entries,
  examples/c/opening.c of random openings, whole and damaged, and examples/c/grow.c of logs that grow; with the archive
  each request for memory is refused, and an opening or entries may be answered so.
- The assertions of calls.c hold: refusals that leave what they are handed as it was, sizes at the limit, and texts.
- The header is C++ as well. The program of docs/CALLING.md that calls the library from Rust compiles without a warning,
  and its assertions hold. The tests of bindings/go pass. What has no compiler here is skipped.

A wrong answer ends with status 1; where the library or a C compiler is missing the status is 3.
"""

import os
import random
import re
import shutil
import subprocess
import sys
import tempfile
from pathlib import Path

sys.dont_write_bytecode = True
TOP = Path(__file__).resolve().parents[2]
sys.path.insert(0, str(TOP / "tests/model"))
import golang  # noqa: E402
import logs  # noqa: E402
import openings  # noqa: E402

LIBRARIES = [TOP / "build" / name for name in ("libfohlazu.a", "libfohlazu.so")]
INCLUDE = f"-I{TOP / 'include'}"
HEADER = (TOP / "include/fohlazu.h").read_text()
CALLS = sorted(re.findall(r"^(?:int|size_t|void) (fohlazu_\w+)\(", HEADER, re.M))
NEEDED = {"memmove", "malloc", "realloc", "free"}
# The toolchain's layer over malloc, with a local constant.
HEAP = {"rattle_alloc", "rattle_dealloc", "rattle_realloc", "nothing"}
MOST = 9
OUT_OF_MEMORY = 12
FLAGS = ["-std=c11", "-Wall", "-Wextra", "-Werror", "-pedantic", "-O2", INCLUDE]
# Of random logs: how they are drawn, and how many.
SEED, LOGS = 93, 40


def fail(why, status=1):
    print(f"bindings: {why}", file=sys.stderr)
    sys.exit(status)


def run(*words, folder=TOP, **environment):
    """What a command prints."""
    ran = subprocess.run(words, cwd=folder, env={**os.environ, **environment}, capture_output=True, text=True)
    if ran.returncode:
        fail(f"{ran.stdout}{ran.stderr}{' '.join(map(str, words))} ends with status {ran.returncode}")
    return ran.stdout


def look_at_symbols():
    """Compares the names that the library needs and has with those that it should."""
    archive, shared = LIBRARIES

    def symbols(*words):
        """Pairs of kind and name, but for those of the toolchain's layer over malloc."""
        lines = [line.split()[-2:] for line in run("nm", *words).splitlines()]
        return sorted(line for line in lines if len(line) == 2 and line[1] not in HEAP)

    for words in (["-u", archive], ["-D", "-u", shared]):
        if not {name for _, name in symbols(*words)} <= NEEDED:
            fail(f"the library needs {symbols(*words)}")
    for words in (["-g", "--defined-only", archive], ["-D", "--defined-only", shared]):
        if [name for _, name in symbols(*words)] != CALLS:
            fail(f"the library has {symbols(*words)}")
    if not {kind for kind, _ in symbols(archive)} <= set("TtrU"):
        fail("the library has variables")


def questions():
    """Words to the example, and the model's verdict: honest proofs, without their last digest, and with one more."""
    entries = [b"%d" % number for number in range(1, MOST + 1)]
    log = logs.Log(entries)
    for size in range(MOST + 1):
        root = log.root(0, size)
        for index in range(size):
            path = log.inclusion([index], size)
            for proof in (path, path[:-1], [*path, root]):
                verdict = logs.inclusion(index, size, log.leaves[index], proof, root)
                yield ["inclusion", index, size, index + 1, root, *proof], verdict
        for old in range(MOST + 1):
            path = log.consistency(old, size) if old <= size else []
            for first in (log.root(0, old), log.root(0, MOST)):
                verdict = logs.consistency(old, size, path, first, root)
                yield ["consistency", old, size, first, root, *path], verdict


def logs_that_grow():
    """Entries, words of the example, and the root of their log by the model: of up to nine entries, and of more, many of
    one length."""
    source = random.Random(SEED)
    for count in [*range(MOST + 1), *(source.randrange(10, 400) for _ in range(LOGS))]:
        lengths = source.choices([source.randrange(200) for _ in range(3)], k=count)
        entries = [bytes(source.choices(range(ord("!"), ord("~") + 1), k=length)) for length in lengths]
        yield entries, logs.Log(entries).root(0, count)


def compile_c(*words):
    compiler = shutil.which(os.environ.get("CC", "cc")) or fail("a C compiler is needed", 3)
    run(compiler, *FLAGS, "-o", *words)


def built(work, name):
    """Two programs of an example: over libfohlazu.so, and over libfohlazu.a with every request for memory refused."""
    archive, shared = LIBRARIES
    plain, refused, source = work / name, work / f"{name}-refused", TOP / f"examples/c/{name}.c"
    compile_c(plain, source, shared, f"-Wl,-rpath,{shared.parent}")
    compile_c(refused, source, TOP / "tests/bindings/refuse_all.c", archive)
    return plain, refused


def try_c(work):
    """Calls the library from C."""
    answers = 0
    for name, asked in {"log": questions(), "opening": openings.questions()}.items():
        programs = built(work, name)
        for question, verdict in asked:
            words = [word.hex() if isinstance(word, bytes) else str(word) for word in question]
            for program in programs:
                answers += 1
                status = subprocess.run([program, *words]).returncode
                if status != verdict and (program.name, status) != ("opening-refused", OUT_OF_MEMORY):
                    fail(f"{program.name} {' '.join(words)}: status {status}, and the model has {verdict}")

    plain, refused = built(work, "grow")
    for entries, root in logs_that_grow():
        answers += 2
        printed = run(plain, *entries)
        if printed != f"{root.hex()}\n":
            fail(f"grow {entries}: {printed}, and the model has {root.hex()}")
        ran = subprocess.run([refused, *entries], capture_output=True, text=True)
        expected = (OUT_OF_MEMORY, "", "grow: out of memory\n") if entries else (0, printed, "")
        if (ran.returncode, ran.stdout, ran.stderr) != expected:
            fail(f"grow {entries} with no memory: {ran}, and not {expected}")

    compile_c(work / "calls", TOP / "tests/bindings/calls.c", LIBRARIES[0])
    run(work / "calls")
    return f"{answers} answers, half of them with every request for memory refused"


def try_cpp(work):
    compiler = shutil.which(os.environ.get("CXX", "c++"))
    if not compiler:
        return "skipped, there is no compiler"
    calls = ", ".join(f"reinterpret_cast<void (*)()>({call})" for call in CALLS)
    (work / "calls.cpp").write_text(f"""#include <fohlazu.h>
        int main() {{
          void (*const calls[])() = {{{calls}}};
          for (auto call : calls) {{
            if (call == nullptr) {{ return 1; }}
          }}
          fohlazu_frontier log = {{}};
          uint8_t root[32];
          return fohlazu_log_root(&log, root);
        }}""")
    run(compiler, "-Wall", "-Wextra", "-Werror", "-pedantic", INCLUDE, "-o", work / "calls-cpp", work / "calls.cpp",
        LIBRARIES[0])
    run(work / "calls-cpp")
    return f"a program has all {len(CALLS)} calls, and makes one"


def try_rust(work):
    """Compiles and runs the program of docs/CALLING.md that declares calls of the library."""
    if not shutil.which("rustc"):
        return "skipped, there is no rustc"
    blocks = re.findall(r"^```rust\n(.*?)^```$", (TOP / "docs/CALLING.md").read_text(), re.M | re.S)
    [program] = [block for block in blocks if 'extern "C"' in block]
    (work / "log.rs").write_text(program)
    flags = ["--edition", "2024", "-D", "warnings", "-L", f"native={LIBRARIES[0].parent}"]
    run("rustc", *flags, "-o", work / "from-rust", work / "log.rs")
    run(work / "from-rust")
    return "the program of docs/CALLING.md runs"


def try_go(work):
    if golang.skipped():
        return golang.skipped()
    environment = {"GOCACHE": str(work / "cache"), **golang.ENVIRONMENT}
    printed = run("go", "test", "-count=1", "-v", ".", folder=TOP / "bindings/go", **environment)
    return f"{printed.count('--- PASS')} tests passed"


def main():
    if subprocess.run(["make", "-s", *(path.relative_to(TOP) for path in LIBRARIES)], cwd=TOP).returncode:
        fail("the library was not built", 3)
    if shutil.which("nm"):
        look_at_symbols()
    with tempfile.TemporaryDirectory() as work:
        for language, part in {"C": try_c, "C++": try_cpp, "Rust": try_rust, "Go": try_go}.items():
            print(f"bindings: {language}: {part(Path(work))}", flush=True)


main()
