"""How the program of bench/src is built: proved for a processor, or with no proof."""

import shutil
import subprocess
import sys

from inputs import TOP, fail

LIBRARIES = ("p3_support", "p3_hashes", "p3_merkle_tree", "tlog", "tlog_tree")
# The C library keeps what is freed: else it depends on earlier parts whether a commit waits for pages of the system.
TUNABLES = "glibc.malloc.trim_threshold=1073741824:glibc.malloc.mmap_threshold=33554432"


def lay_out(folder):
    """The program as a crate of a copy of the crates that it stands on, with what earlier checks kept in their out/."""
    words = ["sh", TOP / "tools/crates.sh", *LIBRARIES]
    crates = subprocess.run(words, capture_output=True, text=True, check=True).stdout.split()
    for crate in crates:
        shutil.copytree(TOP / "crates" / crate, folder / "crates" / crate, ignore=shutil.ignore_patterns("must-fail"))
    lines = [line for line in (TOP / "crates.txt").read_text().splitlines() if line.split(":")[0] in crates]
    lines.append(f"bench: {' '.join(LIBRARIES)} anyhow rand_core")
    (folder / "crates.txt").write_text("\n".join(lines) + "\n")
    bench = folder / "crates/bench"
    (bench / "src").mkdir(parents=True)
    # The gate takes no source that is outside its crates, so these have another ending.
    for source in (TOP / "bench/src").glob("*.rt.in"):
        shutil.copy(source, bench / "src" / source.stem)
    take_generator(bench)
    return bench


def take_generator(bench):
    """Salts are those of a generator of the tests that counts, and its proofs come with it."""
    cases = TOP / "crates/test_merkle"
    shutil.copy(cases / "src/counting.rt", bench / "src")
    for proof in (cases / "proofs/counting").rglob("*.antt"):
        path = bench / proof.relative_to(cases)
        path.parent.mkdir(parents=True, exist_ok=True)
        path.write_text(proof.read_text().replace("Rattle.test_merkle.", "Rattle.bench."))


def built(folder, cpus):
    """The programs in such a folder, one for each processor: proved, or the one with no proof where `cpus` is empty."""
    bench = lay_out(folder)
    name = f"bench/{sys.argv[0].rpartition('/')[2]}"
    print(f"{name}: building, which takes minutes, and an hour where nothing is proved yet", file=sys.stderr)
    if not cpus:
        (folder / "tools").mkdir()
        quick = shutil.copy(TOP / "tools/quick.sh", folder / "tools")
        run(["bash", quick, folder / "quick", "bench"], bench)
        return [folder / "quick/bench"]
    programs = []
    for cpu in cpus:
        run(["rt", "run", f"--cpu={cpu}"], bench)
        programs.append(shutil.copy(bench / "out/bench", folder / f"bench-{cpu}"))
    return programs


def run(words, bench):
    """Builds the program. With no part named, it prints the names of the columns and ends."""
    ran = subprocess.run(words, cwd=bench, stdin=subprocess.DEVNULL, capture_output=True, text=True)
    if ran.returncode != 0:
        fail(f"the program is not built\n{ran.stdout}{ran.stderr}", 3)
