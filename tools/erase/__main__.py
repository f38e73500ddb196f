"""python3 tools/erase [--check | --added | --listed] [--crates DIR] [--out DIR]    makes the Cargo package

Makes rust/fohlazu/src/erased from the proved sources, crates/*/src: contracts and ghost code are cut, and what the
toolchain's library has in another form than Rust's is replaced, as rewrite.py says. rustfmt lays it out.

`--check` compares the result with what is there and writes nothing; where there is no rustfmt, it says that it was
skipped. `--added` prints what the result has and the sources have not, by kind, and then what was cut from them beside
contracts and ghost code. `--listed` prints the conditions of public calls and the laws of public traits, in Markdown,
as package.toml has them. A form that isn't known, and a condition or a trait that is not listed there, end it with exit
code 1.
"""

from __future__ import annotations

import argparse
import re
import shutil
import subprocess
import sys
import tempfile
from collections import Counter
from pathlib import Path

TOP = Path(__file__).resolve().parents[2]
sys.dont_write_bytecode = True

import source  # noqa: E402
from files import erased, erasers_of, package_of  # noqa: E402
from listing import listing  # noqa: E402
from package import Package  # noqa: E402
from sheet import Change  # noqa: E402

FORMAT = ["rustfmt", "--edition", "2024", "--config-path", str(TOP / "rust" / "rustfmt.toml")]
# What rustfmt may add or drop.
LAYOUT = {",", "{", "}"}
MOST_COLUMNS = 110


def contents(text: str) -> Counter[str]:
    """The tokens and comments of a file that rustfmt leaves as they are, in any order: it sorts imports."""
    return Counter(token.text.rstrip() for token in source.tokens_of(text)
                   if token.kind != "space" and token.text not in LAYOUT)


def formatted(files: dict[str, str]) -> dict[str, str]:
    """The files in rustfmt's layout, which has the same tokens."""
    with tempfile.TemporaryDirectory() as folder:
        for name, text in files.items():
            path = Path(folder, name)
            path.parent.mkdir(exist_ok=True)
            path.write_text(text, encoding="utf-8")
        done = subprocess.run([*FORMAT, *(str(Path(folder, name)) for name in files)], capture_output=True, text=True,
                              check=False)
        if done.returncode:
            raise source.Unknown(f"rustfmt refuses the result:\n{done.stderr}")
        result = {name: Path(folder, name).read_text(encoding="utf-8") for name in files}
    for name, text in files.items():
        if contents(text) != contents(result[name]):
            differ = (contents(text) - contents(result[name])) + (contents(result[name]) - contents(text))
            raise source.Unknown(f"rustfmt changes tokens of {name}: {', '.join(differ)}")
    return result


def write(files: dict[str, str], out: Path, package: Package) -> None:
    """Writes the files, and removes those of sources that are gone."""
    for crate in package.crates:
        for path in (out / crate).glob("*.rs"):
            if f"{crate}/{path.name}" not in files:
                path.unlink()
    for name, text in files.items():
        path = out / name
        path.parent.mkdir(parents=True, exist_ok=True)
        if not path.exists() or path.read_text(encoding="utf-8") != text:
            path.write_text(text, encoding="utf-8")


def check(files: dict[str, str], out: Path) -> None:
    """Refuses files that are there and not the sources' own, and those that are missing."""
    there = {str(path.relative_to(out)) for path in out.rglob("*") if path.is_file()}
    wrong = sorted(there - set(files)) + [
        name for name, text in files.items() if name not in there or (out / name).read_text(encoding="utf-8") != text
    ]
    if wrong:
        raise source.Unknown(f"not what the sources give, run `python3 tools/erase`: {', '.join(wrong)}")


def size(text: str) -> int:
    """How many tokens a text has. A comment is one."""
    return sum(token.kind != "space" for token in source.tokens_of(text))


def shown(change: Change) -> str:
    """A change in one line: of a docstring its links, of a long item its head."""
    if change.kind == "link in a docstring":
        text = ", ".join(re.findall(r"\]\(([^)]*)\)", change.put)) or "no link"
    elif change.gone and change.put:
        text = f"{change.gone} => {change.put}"
    else:
        text = change.put or change.gone
    return text if len(text) <= MOST_COLUMNS else f"{text.partition(' {')[0][:MOST_COLUMNS]} .."


def print_changes(title: str, changes: Counter[Change], is_put: bool) -> None:
    """Prints changes by kind, with how often each was made and how many tokens it has."""
    kinds: dict[str, Counter[str]] = {}
    sizes: Counter[str] = Counter()
    for change, count in changes.items():
        if text := change.put if is_put else change.gone:
            kinds.setdefault(change.kind, Counter())[shown(change)] += count
            sizes[change.kind] += count * size(text)
    print(f"{title}: {sum(sizes.values())} tokens")
    for kind, lines in sorted(kinds.items()):
        print(f"\n{kind}: {sum(lines.values())} places, {sizes[kind]} tokens")
        for line, count in sorted(lines.items(), key=lambda one: (-one[1], one[0])):
            print(f"  {count:4} {line}")


def run(args: argparse.Namespace) -> None:
    """Makes, compares or lists."""
    package = package_of(args.crates)
    erasers = erasers_of(args.crates, package)
    files = erased(erasers, package)
    if args.added:
        changes = sum((eraser.sheet.changes for eraser in erasers.values()), Counter())
        print_changes("Put into the sources", changes, True)
        print()
        print_changes("Cut from the sources, beside clauses and ghost items", changes, False)
    elif args.listed:
        print(listing(package))
    elif args.check and not shutil.which("rustfmt"):
        print("erase: the comparison with rust/fohlazu is skipped: there is no rustfmt")
    elif args.check:
        check(formatted(files), args.out)
        print(f"erase: {len(files)} files of rust/fohlazu are what the sources give")
    elif not shutil.which("rustfmt"):
        sys.exit("tools/erase: rustfmt is needed, which lays the result out")
    else:
        write(formatted(files), args.out, package)


def main() -> None:
    """Reads the arguments."""
    parser = argparse.ArgumentParser(prog="python3 tools/erase", description=__doc__.split("\n\n")[1])
    parser.add_argument("--check", action="store_true", help="compare, and write nothing")
    parser.add_argument("--added", action="store_true", help="print what the result has and the sources have not")
    parser.add_argument("--listed", action="store_true", help="print the conditions and the laws of what is public")
    parser.add_argument("--crates", type=Path, default=TOP / "crates", help="the sources")
    parser.add_argument("--out", type=Path, default=TOP / "rust/fohlazu/src/erased", help="where the result goes")
    try:
        run(parser.parse_args())
    except source.Unknown as error:
        sys.exit(f"tools/erase: {error}")


if __name__ == "__main__":
    main()
