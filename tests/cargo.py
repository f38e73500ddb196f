#!/usr/bin/env python3
"""python3 tests/cargo.py [quick | edits [NAME..]]    the Cargo packages in rust/, tried by `cargo test` without network

With `quick`: the examples, the worked rows, the proofs of logs, rows in each form, and each request for memory refused,
but for what takes long without optimization; and a user's program over fohlazu-p3. `make check` runs it ahead of the
proofs. Without a word: all of `cargo test` with all features, the stored answers of the Rust crate among them, and of
fohlazu-p3 also without features; then `cargo check` without the default features, and `cargo doc`, which must not warn.

With `edits`: the wrong bodies of EDITS below, or those of these names. Each is put into a copy of crates/, which
tools/erase makes a package of. Then `cargo test` has to fail, and it is said which test fails first.

Where there is no cargo, or an older one than the package names, this is said, and nothing is tried. What is wrong ends
with status 1, wrong words with 2.
"""

import os
import re
import resource
import shutil
import subprocess
import sys
import tempfile
from pathlib import Path

sys.path.insert(0, str(Path(__file__).resolve().parents[1] / "tools"))
from script import TOP, fail

# What takes seconds, first what sees most for the least time.
QUICK = ["examples", "logs", "worked_rows", "row_parts", "refused_memory", "user_program", "byte_hashers"]
SHORT = ["--", "--skip", "long::"]
# Wrong bodies of tests/edits: each changes what a call returns.
EDITS = [
    "p3_hashes/fold_hash_forgets_words",
    "p3_merkle_core/group_digest_at_the_front_of_its_group",
    "p3_merkle_core/schedule_lowered_cap_one_layer_too_high",
    "p3_merkle_hashing/rows_short_last_batch_dropped",
    "p3_merkle_prover/pruned_boundary_without_the_last_padding_slot",
    "p3_merkle_tree/open_gives_salts_for_rows",
    "p3_merkle_verifier/form_does_not_check_widths",
    "p3_merkle_verifier/path_check_accepts_every_well_shaped_opening",
    "tlog/consistency_takes_digests_between_equal_sizes",
    "tlog_multiproof/root_is_not_looked_at",
]


def why_skipped():
    """Why cargo can't try the package, if it can't."""
    if not shutil.which("cargo"):
        return "it is not installed"
    said = subprocess.run(["cargo", "--version"], capture_output=True, text=True, check=False).stdout
    found = re.match(r"cargo (\d+)\.(\d+)", said)
    manifest = (TOP / "rust/fohlazu/Cargo.toml").read_text()
    needed = re.search(r'^rust-version = "(\d+)\.(\d+)', manifest, re.M)
    if not found or tuple(map(int, found.groups())) < tuple(map(int, needed.groups())):
        return f"version {needed[1]}.{needed[2]} is needed"
    return None


def cargo(words, folder=TOP / "rust", **settings):
    """What `cargo` ends with, and what it prints and says."""
    done = subprocess.run(["cargo", words[0], "--offline", *words[1:]], cwd=folder, stdin=subprocess.DEVNULL,
                          stdout=subprocess.PIPE, stderr=subprocess.STDOUT, text=True, check=False,
                          env=os.environ | {"CARGO_TERM_COLOR": "never", "RUST_BACKTRACE": "0"} | settings)
    return done.returncode, done.stdout


def passed(words):
    """How many tests pass by these words. Ends the script where one fails, or where there is none."""
    status, said = cargo(["test", *words])
    count = sum(map(int, re.findall(r"^test result: ok\. (\d+) passed", said, re.M)))
    if status or not count:
        sys.stderr.write(said)
        fail(f"`cargo test --offline {' '.join(words)}` fails in rust/")
    return count


def silent(words, **settings):
    """Ends the script where these words of cargo fail, or warn."""
    status, said = cargo(words, **settings)
    if status or "warning" in said:
        sys.stderr.write(said)
        fail(f"`cargo {' '.join(words)} --offline` fails or warns in rust/")


def changed(text, edit):
    """A source with an edit: each old text, which stands there once, is replaced by a new one."""
    for old, new in re.findall(r"^old: ?(.*)\nnew: ?(.*)$", edit, re.M):
        if text.count(old.strip()) != 1:
            fail(f"this stands {text.count(old.strip())} times in the source: {old}")
        text = text.replace(old.strip(), new.strip())
    return text


def first_failure(folder, target):
    """The first test that fails in a copy of the package, and None where all pass. Each part is built by itself, since
    the first ones see most wrong bodies."""
    for words in *(["--test", name, *SHORT] for name in QUICK), []:
        status, said = cargo(["test", *words], folder / "rust", CARGO_TARGET_DIR=str(target))
        if status:
            found = re.search(r"^test (\S+) \.\.\. FAILED|^error.*", said, re.M)
            part = words[1] if words else "all"
            return f"{part}: {found[1] or found[0]}" if found else f"{part} ends otherwise"
    return None


def try_edit(name, folder, target):
    """Puts an edit into a copy of the sources and erases it, tries the package, and takes the edit back."""
    crate, edit = name.split("/")[0], (TOP / "tests/edits" / f"{name}.edit").read_text()
    path = folder / "crates" / crate / re.search(r"^file: (.*)$", edit, re.M)[1]
    text = path.read_text()
    path.write_text(changed(text, edit))
    out = folder / "rust/fohlazu/src/erased"
    erased = subprocess.run([sys.executable, TOP / "tools/erase", "--crates", folder / "crates", "--out", out],
                            capture_output=True, text=True, check=False)
    path.write_text(text)
    if erased.returncode:
        fail(f"{name} can't be erased: {erased.stderr}")
    return first_failure(folder, target)


def try_edits(names):
    """Tries wrong bodies, and ends the script where one is not seen."""
    missed = []
    with tempfile.TemporaryDirectory() as work:
        folder = Path(work)
        for part in "crates", "rust":
            shutil.copytree(TOP / part, folder / part, ignore=shutil.ignore_patterns("out", "target"))
        target = Path(os.environ.get("CARGO_TARGET_DIR", folder / "target"))
        for name in names:
            seen = try_edit(name, folder, target)
            print(f"cargo: {name}: {seen or 'not seen'}", flush=True)
            if not seen:
                missed.append(name)
    if missed:
        fail(f"wrong bodies that no test sees: {', '.join(missed)}")
    print(f"cargo: {len(names)} wrong bodies are seen")


def try_quick():
    """Tries what takes seconds."""
    return passed([word for name in QUICK for word in ("--test", name)] + SHORT)


def try_all():
    """Tries everything."""
    # All features, and what fohlazu-p3 does without its own.
    count = passed(["--all-features"]) + passed(["--package", "fohlazu-p3"])
    silent(["check", "--all-targets", "--no-default-features"])
    silent(["doc", "--no-deps"], RUSTDOCFLAGS="-D warnings")
    return count


def main():
    words = sys.argv[1:]
    if words[:1] not in ([], ["quick"], ["edits"]) or words[1:] and words[0] != "edits":
        fail("usage: python3 tests/cargo.py [quick | edits [NAME..]]", 2)
    if unknown := set(words[1:]) - {str(path.relative_to(TOP / "tests/edits").with_suffix(""))
                                    for path in TOP.glob("tests/edits/*/*.edit")}:
        fail(f"no edits of tests/edits: {', '.join(sorted(unknown))}", 2)
    if why := why_skipped():
        print(f"cargo: the Cargo package is skipped: {why}")
        return
    if words[:1] == ["edits"]:
        try_edits(words[1:] or EDITS)
        return
    count = try_quick() if words else try_all()
    used = resource.getrusage(resource.RUSAGE_CHILDREN)
    print(f"cargo: {count} tests pass; {used.ru_utime + used.ru_stime:.0f} processor seconds")


main()
