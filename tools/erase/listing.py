"""The conditions of public calls and the laws of public traits, in Markdown."""

from __future__ import annotations

from package import Package

# How a line of the list of conditions begins, and the title of its table with what its last column says.
KINDS = {
    "": ("Conditions that are asserted when the call begins", "What is asserted"),
    "asserted by": ("Conditions that a call inside asserts", "Where"),
    "const": ("Conditions that the compiler sees", "What is asserted"),
    "untested": ("Conditions that are not tested", "Why"),
}


def called(path: str) -> str:
    """The name of a function or a trait as its users write it: `crate.module.Type.method` without crate and module."""
    crate, _, *names = path.removesuffix(".clone").split(".") + ["try_clone"] * path.endswith(".clone")
    return "::".join([*(["tlog"] if crate.startswith("tlog") and names[0].islower() else []), *names])


def table(title: str, columns: list[str], rows: list[list[str]]) -> str:
    """A table in Markdown. A `|` in code is written with a backslash."""
    lines = [columns, ["---"] * len(columns), *rows]
    written = ["| " + " | ".join(cell.replace("|", "\\|") for cell in line) + " |" for line in lines]
    return "\n".join([f"### {title}", "", *written, ""])


def condition_rows(package: Package, kind: str) -> list[list[str]]:
    """The rows of the conditions of a kind. A function that is not exported has its line for another's sake."""
    rows = []
    for path, listed in package.conditions.items():
        is_private = path.count(".") == 2 and path not in package.exported
        for name, line in listed.items():
            how, colon, rest = line.partition(": ")
            found = how if colon and how in KINDS else ""
            if found == kind and not is_private:
                text = f"`{rest or line}`" if kind in ("", "const") else rest
                rows.append([f"`{called(path)}`", f"`{name}`", text])
    return rows


def listing(package: Package) -> str:
    """All tables."""
    tables = [table(title, ["Call", "Condition", last], condition_rows(package, kind))
              for kind, (title, last) in KINDS.items()]
    laws = [[f"`{package.renamed.get(name := called(path), name)}`", *law]
            for path, listed in package.laws.items() for law in listed.values()]
    others = [[name, *law] for name, law in package.other_laws.items()]
    tables.append(table("Laws", ["Of", "The law", "Where it is broken"], laws + others))
    return "\n".join(tables).rstrip()
