"""A user's program over p3-merkle-tree and over fohlazu-p3: it has to print the same."""

from script import TOP
from upstream import write

PROGRAM = TOP / "rust/fohlazu-p3/examples/both_schemes.rs"
MANIFEST = """\
[package]
name = "both-schemes"
version = "0.1.0"
edition = "2024"
publish = false

[[bin]]
name = "both-schemes"
path = "{program}"

[dependencies]
p3-merkle-tree = {{ {taken} }}
p3-commit = "0.8"
p3-field = "0.8"
p3-matrix = "0.8"
p3-symmetric = "0.8"
rand = {{ version = "0.10", default-features = false }}
serde = {{ version = "1", default-features = false, features = ["alloc", "derive"] }}

[workspace]
"""


def run(folder, package, cargo_run):
    """Runs the program over both, and says whether it prints the same. It returns the status."""
    printed = []
    for name, taken in (("original", f'path = "{package}"'),
                        ("drop-in", f'package = "fohlazu-p3", path = "{TOP / "rust/fohlazu-p3"}"')):
        write(folder / name / "Cargo.toml", MANIFEST.format(program=PROGRAM, taken=taken))
        status, said = cargo_run("--manifest-path", str(folder / name / "Cargo.toml"))
        if status:
            print(said)
            return 1
        printed.append(said.splitlines())
    original, drop_in = printed
    for number, (expected, got) in enumerate(zip(original, drop_in), 1):
        if expected != got:
            print(f"line {number}: p3-merkle-tree prints {expected}, fohlazu-p3 {got}")
            return 1
    if len(original) != len(drop_in):
        print(f"p3-merkle-tree prints {len(original)} lines, fohlazu-p3 {len(drop_in)}")
        return 1
    print(f"{PROGRAM.name} prints the same {len(original)} lines over both")
    return 0
