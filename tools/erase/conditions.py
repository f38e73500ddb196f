"""The conditions of functions: Rust has no `requires`, so a public function asserts its own."""

from __future__ import annotations

import re

from package import Package
from sheet import Sheet
from source import Item

# An item of an `impl` of a library's trait that says when its method may be called.
GHOST_CONDITION = re.compile(r"ghost\s+(can_\w+)\s*=")


class Conditions:
    """The conditions of one source."""

    def __init__(self, package: Package, path: str, sheet: Sheet) -> None:
        self.package = package
        self.path = path
        self.sheet = sheet
        self.code = sheet.code

    def survey(self, path: str, item: Item, outer: Item | None) -> None:
        """Notes what the list says of a trait's method: it holds for each type that implements the trait."""
        listed = self.package.conditions.get(path)
        if listed is None or outer is None or outer.kind != "trait":
            return
        name = f"{outer.name}.{item.name}"
        if name in self.package.of_traits:
            raise self.code.fail(item.head, f"two traits have a method {name} with conditions")
        self.package.of_traits[name] = listed

    def write(self, path: str, item: Item, outer: Item | None) -> None:
        """Asserts the conditions of a function where it begins, as the list says."""
        if path in self.package.known:
            self.write_known(path, item, outer)
        own = self.package.conditions.get(path)
        if own is not None:
            self.package.used.add(path)
        asked, listed = self.names(item, outer), own
        if outer and outer.of_trait and self.package.is_exported_type(path.rsplit(".", 2)[0]):
            # An `impl` may repeat the trait's contract.
            of_trait = self.package.of_traits.get(f"{outer.of_trait}.{item.name}")
            asked, listed = (asked, own) if of_trait is None else (list(of_trait), own or of_trait)
        if listed is None:
            if asked and self.is_public(path, item, outer):
                self.package.missing.append(f"{path}: {', '.join(name or 'unnamed' for name in asked)}")
            return
        self.check_names(path, item, asked, list(listed))
        for name, condition in listed.items():
            self.write_one(item, name, condition)
        if self.is_public(path, item, outer) and not (outer and outer.of_trait):
            self.write_docs(item, listed)

    def write_known(self, path: str, item: Item, outer: Item | None) -> None:
        """Asserts what is known where a function begins that no user calls and that has conditions."""
        self.package.used.add(path)
        if self.is_public(path, item, outer) or not self.names(item, outer) or item.body is None:
            raise self.code.fail(item.head, "a function of which nothing is known, or that users call")
        self.sheet.put(item.body[0] + 1, f"\nassert!({self.package.known[path]});", "known")

    def names(self, item: Item, outer: Item | None) -> list[str]:
        """The names of a function's conditions, each "" where it has none."""
        end = item.body[0] if item.body else item.end
        clauses = [token for token in self.code.tokens[item.head : end] if token.kind == "clause"]
        found = [clause.name for clause in clauses if clause.keyword == "requires"]
        if outer and outer.of_trait and outer.of_trait not in self.package.traits:
            ghosts = [token.text for token in self.code.tokens[outer.body[0] : outer.body[1]] if token.kind == "ghost"]
            found += [match[1] for match in map(GHOST_CONDITION.match, ghosts) if match]
        return found

    def check_names(self, path: str, item: Item, asked: list[str], listed: list[str]) -> None:
        """Refuses a list that has not a line for each condition."""
        unnamed = [name for name in listed if name not in asked]
        if len(listed) != len(asked) or set(filter(None, asked)) - set(listed) or len(unnamed) != asked.count(""):
            raise self.code.fail(item.head, f"{path} has the conditions {asked}, and its list has {listed}")

    def write_one(self, item: Item, name: str, condition: str) -> None:
        """Puts the assertion of a condition where a function begins, unless the list says that it has none."""
        how, _, rest = condition.partition(": ")
        if how in ("untested", "asserted by") or item.body is None:
            return
        text = f'const {{ assert!({rest}, "{name}") }};' if how == "const" else f'assert!({condition}, "{name}");'
        self.sheet.put(item.body[0] + 1, f"\n{text}", "condition")

    def write_docs(self, item: Item, listed: dict[str, str]) -> None:
        """Says in the docs of a function what it asserts, and what the compiler does."""
        docs = [at for at in range(item.start, item.head) if self.code.kind(at) == "doc"]
        panics, compiled = [], []
        for name, condition in listed.items():
            how, _, rest = condition.partition(": ")
            if how == "const":
                compiled.append(f"/// - `{name}`: `{rest}`.")
            elif how not in ("untested", "asserted by"):
                panics.append(f"/// - By `{name}` unless `{condition}`.")
        lines = ["///", "/// # Panics", "///", *panics] if panics else []
        lines += ["///", "/// The compiler refuses a call that breaks one of these:", "///", *compiled] if compiled else []
        for line in lines if docs else []:
            self.sheet.put(docs[-1] + 1, f"\n{line}", "docs of a condition")

    def is_public(self, path: str, item: Item, outer: Item | None) -> bool:
        """Whether users of the package can call a function."""
        if outer is None:
            return path in self.package.exported
        if outer.kind == "trait":
            return f"{self.path}.{outer.name}" in self.package.exported
        if outer.of_trait:
            return self.package.is_exported_type(path.rsplit(".", 2)[0])
        owner = path.rsplit(".", 1)[0]
        is_pub = item.visibility is not None and item.visibility[0] == item.visibility[1]
        return is_pub and self.package.is_exported_type(owner) and path not in self.package.internal

    def check_laws(self, path: str, item: Item) -> None:
        """Refuses an exported trait that has contracts and no laws in the list."""
        if item.kind != "trait" or path not in self.package.exported:
            return
        if path in self.package.laws:
            self.package.used.add(path)
        elif any(token.kind in ("ghost", "clause") for token in self.code.tokens[item.start : item.end]):
            self.package.missing.append(f"{path}: its laws")
