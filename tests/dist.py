#!/usr/bin/env python3
"""python3 tests/dist.py    makes a release by `make dist`, and looks at what is packed

- Packed again, with another umask, time zone and TMPDIR, the archives have the same bytes.
- p3_support, proved in another folder, has the bytes that were packed.
- No packed file has the path of this repository or of the toolchain in it.
- The programs run below a root that has nothing but them, the C library and a static shell (Debian's busybox-static).
- A program for C is linked to what is packed, by pkg-config.
- tests/libraries.py proves a crate of one's own over the second archive.
- Where cargo is, the examples of the page of the package for Cargo run from what is packed of it, over the stand-ins of
  rust/. Where it is not, no such package is packed.

What is wrong ends with status 1, and what is missing with 3. The last lines are those of SHA256SUMS.
"""

import os
import re
import shutil
import subprocess
import sys
import tempfile
from pathlib import Path

TOP = Path(__file__).resolve().parent.parent
DIST = TOP / "build/dist"
KIT = Path(subprocess.run(["rt", "doc"], capture_output=True, text=True, check=True).stdout).parent
LOG = (TOP / "examples/log/monday.txt").read_text()
# A crate above p3_support, so that a verdict writes what proofs of others read of it.
ABOVE = "//! A crate above p3_support.\n#![tactic(auto)]\n\nuse p3_support as _;\n"


def fail(why, status=1):
    print(f"dist: {why}", file=sys.stderr)
    sys.exit(status)


def run(*words, **settings):
    """What a command prints."""
    return subprocess.run(words, check=True, stdout=subprocess.PIPE, text=True, **settings).stdout


def make(folder, **environment):
    """The checksums of what `make dist` packs."""
    run("make", "-s", "dist", cwd=TOP, env={**os.environ, "TMPDIR": str(folder), **environment})
    run("sha256sum", "-c", "--quiet", "SHA256SUMS", cwd=DIST)
    return (DIST / "SHA256SUMS").read_text()


def unpacked(archive, folder):
    folder.mkdir()
    run("tar", "-xf", archive, cwd=folder)
    return folder


def proved_elsewhere(folder):
    """The folder that a proof of p3_support leaves in another repository."""
    shutil.copytree(TOP / "crates/p3_support", folder / "crates/p3_support", ignore=shutil.ignore_patterns("out"))
    (folder / "crates/above/src").mkdir(parents=True)
    (folder / "crates/above/src/lib.rt").write_text(ABOVE)
    line = re.search(r"^p3_support: .*$", (TOP / "crates.txt").read_text(), re.M)[0]
    (folder / "crates.txt").write_text(f"{line}\nabove: p3_support\n")
    run("rt", "verdict", cwd=folder / "crates/above")
    return folder / "crates/p3_support/out/rlib/p3_support.rlib"


def below_empty_root(release, folder):
    """Runs the programs below an empty root, as this processor's and as the other one's."""
    shutil.copytree(release, folder / "release")
    for library in re.findall(r"\S*/\S+", run("ldd", next(release.glob("libexec/*/*/mmcs")))):
        (folder / library[1:]).parent.mkdir(parents=True, exist_ok=True)
        shutil.copy(library, folder / library[1:])
    (folder / "bin").mkdir()
    shutil.copy(shutil.which("busybox"), folder / "bin/sh")
    (folder / "monday.txt").write_text(LOG)
    enter = [shutil.which("chroot")]
    if os.geteuid() != 0:
        enter = [shutil.which("unshare"), "--map-root-user", *enter]

    def printed(command, data=""):
        return run(*enter, folder, *command.split(), input=data, env={})

    for lacks in [False, True]:
        if lacks:
            for program in folder.glob("release/libexec/fohlazu/x86-64-v3/*"):
                program.write_text("#!/bin/sh\nexit 127\n")
        if printed("/release/bin/mmcs fold 2 0 commit", "1\n2\n3\n4\n") != "00008081\n":
            fail("mmcs prints another cap")
        (folder / "checkpoint").write_text(printed("/release/bin/fohlazu seal monday.txt"))
        (folder / "proof").write_text(printed("/release/bin/fohlazu prove checkpoint monday.txt 3"))
        if printed("/release/bin/fohlazu verify checkpoint proof 3") != LOG.splitlines(True)[2]:
            fail("fohlazu does not verify what it proves")


def try_package(folder):
    """Runs the examples of the page of the package for Cargo."""
    patches = [f'patch.crates-io.{path.name}.path="{path}"' for path in (TOP / "rust/stand-ins").iterdir()]
    words = [word for patch in patches for word in ("--config", patch)]
    environment = {**os.environ, "CARGO_TARGET_DIR": str(folder / "target")}
    printed = run("cargo", "test", "-q", "--doc", "--offline", *words, cwd=folder, env=environment)
    if not re.search(r"test result: ok\. [1-9]", printed):
        fail(f"the package for Cargo has no example that runs:\n{printed}")


def main():
    missing = [name for name in ("busybox", "pkg-config", "cc", "zstd") if not shutil.which(name)]
    if missing:
        fail(f"missing: {', '.join(missing)}", 3)
    with tempfile.TemporaryDirectory() as work:
        work = Path(work)
        sums = make(work)
        (work / "other").mkdir()
        os.umask(0o077)
        if make(work / "other", TZ="Asia/Tokyo") != sums:
            fail("packing again gives other bytes")
        programs, libraries = sorted(DIST.glob("*.tar.*"))
        release = next(unpacked(programs, work / "programs").iterdir())
        packed = unpacked(libraries, work / "libraries")
        packages = [next(unpacked(path, work / path.name).iterdir()) for path in DIST.glob("*.crate")]
        if len(packages) != bool(shutil.which("cargo")):
            fail(f"{len(packages)} packages for Cargo are packed")
        run("bash", TOP / "tools/build.sh", "pack", packed, ".", work / "again.tar.zst")
        if (work / "again.tar.zst").read_bytes() != libraries.read_bytes():
            fail("packing the libraries again gives other bytes")
        paths = subprocess.run(["grep", "-rlF", "-e", f"{TOP}/", "-e", f"{KIT}/", release, packed, *packages])
        if paths.returncode == 0:
            fail("these files have a path of this machine in them")
        below_empty_root(release, work / "root")
        for folder in packages:
            try_package(folder)
        found = {**os.environ, "PKG_CONFIG_PATH": str(release / "lib/pkgconfig")}
        words = run("pkg-config", "--cflags", "--libs", "fohlazu", env=found).split()
        run("cc", "-o", work / "linked", TOP / "examples/c/log.c", *words)
        print(run("diff", "-r", proved_elsewhere(work / "elsewhere"), packed / "p3_support.rlib"), end="")
        run("python3", TOP / "tests/libraries.py", libraries)
    print(f"dist: the archives are as they should be\n{sums}", end="")


main()
