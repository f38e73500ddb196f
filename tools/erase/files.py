"""The sources that become the package, and its files."""

from __future__ import annotations

import re
import tomllib
from pathlib import Path

from package import Package
from rewrite import Eraser
from source import Unknown

TOP = Path(__file__).resolve().parents[2]
SETTINGS = TOP / "tools" / "erase" / "package.toml"
FACADE = TOP / "rust" / "fohlazu" / "src" / "lib.rs"


def uses(text: str) -> list[tuple[str, str]]:
    """The names that a file takes and gives on, maybe under another name, each as its module, with dots, and itself."""
    found = []
    for path, one, many in re.findall(r"pub use ([\w:]+?)(?:::(\w+)(?: as \w+)?|::\{([^}]*)\});", text):
        names = [one] if one else many.replace("\n", " ").split(",")
        found += [(path.replace("::", "."), name.split()[0]) for name in names if name.strip()]
    return found


def renamed(text: str) -> dict[str, str]:
    """The names that a file gives on under another name, by that which they have in its sources."""
    return dict(re.findall(r"(\w+) as (\w+)", "".join(re.findall(r"pub use [^;]*;", text))))


def exported(facade: Path, crates: Path, names: list[str]) -> set[str]:
    """The names that the package exports, each where it is defined: lib.rs may take them from a crate's root."""
    given_on = {}
    for crate in names:
        for module, name in uses((crates / crate / "src" / "lib.rt").read_text(encoding="utf-8")):
            whole = module if module.split(".")[0] in names else f"{crate}.{module}"
            given_on[f"{crate}.{name}"] = f"{whole}.{name}"
    found = set()
    for module, name in uses(facade.read_text(encoding="utf-8")):
        path = f"{module}.{name}".removeprefix("crate.erased.")
        found.add(given_on.get(path, path))
    return found


def package_of(crates: Path) -> Package:
    """What the eraser knows beside the sources."""
    settings = tomllib.loads(SETTINGS.read_text(encoding="utf-8"))
    return Package(
        crates=settings["crates"],
        left_out=set(settings["left_out"]),
        features={module: name for name, modules in settings["features"].items() for module in modules},
        inline=set(settings["inline"]),
        of_words=set(settings["lanes"]["of_words"]),
        lane_loops=settings["lanes"]["loops"],
        derives=settings["derives"],
        defaults=settings["defaults"],
        unbound=settings["unbound"],
        known=settings["known"],
        exported=exported(FACADE, crates, settings["crates"]),
        renamed=renamed(FACADE.read_text(encoding="utf-8")),
        internal=set(settings["internal"]),
        conditions=settings["conditions"],
        laws=settings["laws"],
        other_laws=settings["other_laws"],
    )


def erasers_of(crates: Path, package: Package) -> dict[Path, Eraser]:
    """An eraser for each source that is not left out, by its path below the crates' folder."""
    erasers = {}
    for crate in package.crates:
        for path in sorted((crates / crate / "src").glob("*.rt")):
            if f"{crate}.{path.stem}" not in package.left_out:
                text = path.read_text(encoding="utf-8")
                erasers[path.relative_to(crates)] = Eraser(package, crate, path.stem, text)
    return erasers


def file_name(path: Path) -> str:
    """The name in src/erased of the file that a source becomes."""
    return f"{path.parts[0]}/{'mod' if path.stem == 'lib' else path.stem}.rs"


def head_line(path: Path) -> str:
    """The first line of the file that a source becomes."""
    return f"// Made from crates/{path} by tools/erase."


def erased(erasers: dict[Path, Eraser], package: Package) -> dict[str, str]:
    """The package's files by their names in src/erased. Each source is looked at before one is rewritten."""
    for eraser in erasers.values():
        eraser.survey()
    files = {file_name(path): f"{head_line(path)}\n\n{eraser.erase()}" for path, eraser in erasers.items()}
    check_lists(package)
    return files


def check_lists(package: Package) -> None:
    """Refuses a condition or a trait with no line, and a line of nothing."""
    if package.missing:
        lines = "\n".join(f"  {line}" for line in package.missing)
        raise Unknown(f"package.toml does not list what is public:\n{lines}")
    listed = [package.conditions, package.laws, package.internal, package.inline, package.of_words,
              package.lane_loops, package.derives, package.defaults, package.unbound,
              package.known]
    unknown = set().union(*listed) - package.used
    if unknown:
        raise Unknown(f"package.toml names what is not there: {', '.join(sorted(unknown))}")
