"""The original's files as they are given, and a Cargo package of them."""

import re
import tomllib
from pathlib import Path
from typing import NamedTuple

# What the original imports, in the versions whose names and signatures its sources fit.
NEIGHBOURS = """\
itertools = { version = "0.14", default-features = false, features = ["use_alloc"] }
p3-commit = "0.8"
p3-field = "0.8"
p3-matrix = "0.8"
p3-maybe-rayon = "0.8"
p3-symmetric = "0.8"
p3-util = "0.8"
rand = { version = "0.10", default-features = false }
serde = { version = "1", default-features = false, features = ["alloc", "derive"] }
spin = { version = "0.10", default-features = false, features = ["mutex", "spin_mutex"] }
thiserror = { version = "2", default-features = false }
tracing = { version = "0.1", default-features = false, features = ["attributes"] }
"""
MANIFEST = f"""\
[package]
name = "p3-merkle-tree"
version = "0.8.0"
edition = "2024"
publish = false

[lib]
doctest = false

[dependencies]
{NEIGHBOURS}"""
# The head of a test module that stands apart from its source, in a file of tests/.
HEAD = re.compile(r"^// =+ src/(\S+) \(test module\) =+\n", re.M)
TEST_MODULE = re.compile(r"^#\[cfg\(test\)\]\nmod \w+ \{\n.*?^\}$", re.M | re.S)


class NoSources(Exception):
    """Why a folder is not one of the original's files."""


class Original(NamedTuple):
    """The original's files: texts by paths below src/ and tests/, its page, and where its Cargo package is, if there is
    one that can be compiled as it is."""

    sources: dict
    tests: dict
    page: str
    package: Path | None

    def package_in(self, folder):
        """Where its Cargo package is: in this folder, if it has none that fits."""
        if self.package:
            return self.package
        for path, text in self.sources.items():
            write(folder / "src" / path, text)
        write(folder / "README.md", self.page)
        write(folder / "Cargo.toml", MANIFEST)
        return folder

    def test_modules(self):
        """The test modules of each source: those in it, and those that stand apart."""
        modules = {path: TEST_MODULE.findall(text) for path, text in self.sources.items()}
        for text in self.tests.values():
            _, *pieces = HEAD.split(text)
            for path, module in zip(pieces[::2], pieces[1::2]):
                modules.setdefault(path, []).append(module)
        return {path: found for path, found in modules.items() if found}

    def test_files(self):
        """The files of tests/ that are tests themselves."""
        return {path: text for path, text in self.tests.items() if not HEAD.search(text)}


def write(path, text):
    path.parent.mkdir(parents=True, exist_ok=True)
    path.write_text(text)


def fits(folder):
    """Whether a folder is a Cargo package of the original that needs no other folder."""
    if not ((folder / "Cargo.toml").is_file() and (folder / "src/lib.rs").is_file()):
        return False
    manifest = tomllib.loads((folder / "Cargo.toml").read_text())
    package, dependencies = manifest.get("package", {}), manifest.get("dependencies", {})
    return ((package.get("name"), package.get("version")) == ("p3-merkle-tree", "0.8.0")
            and not any(isinstance(value, dict) and "workspace" in value for value in package.values())
            and not any(isinstance(value, dict) and value.keys() & {"path", "workspace"}
                        for value in dependencies.values()))


def read(folder):
    """The original's files from a folder: a Cargo package, its sources alone, or flat files, in whose names `--` stands
    for `/` and to whose ends `.txt` may be added."""
    paths = {}
    for path in sorted(Path(folder).rglob("*")):
        name = str(path.relative_to(folder)).replace("--", "/").removesuffix(".txt")
        if path.is_file() and name.endswith((".rs", "README.md")) and not name.startswith("target/"):
            paths[name] = path
    roots = sorted((name for name in paths if Path(name).name == "lib.rs"), key=len)
    if not roots:
        raise NoSources(f"{folder} has no lib.rs")
    sources = Path(roots[0]).parent
    package = sources.parent if sources.name == "src" else sources

    def below(part):
        return {str(Path(name).relative_to(part)): path.read_text() for name, path in paths.items()
                if Path(name).is_relative_to(part) and name.endswith(".rs")}

    tests = below(package / "tests")
    own = {name: text for name, text in below(sources).items() if not name.startswith(("tests/", "benches/"))}
    page = paths.get(str(package / "README.md"))
    where = Path(folder).resolve()
    return Original(own, tests, page.read_text() if page else "", where if fits(where) else None)
