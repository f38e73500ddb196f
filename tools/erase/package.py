"""What the eraser knows beside the source at hand."""

from __future__ import annotations

from dataclasses import dataclass, field

from source import Item


@dataclass
class Package:
    """What the eraser knows beside the source at hand."""

    # The crates that become modules.
    crates: list[str]
    # Modules that are left out: `crate.module`.
    left_out: set[str]
    # Modules that need a feature: `crate.module`.
    features: dict[str, str]
    # Modules whose functions are inlined: `crate.module`.
    inline: set[str]
    # Functions of vectors that take words as well, or modules of such functions: `crate.module.function`.
    of_words: set[str]
    # By `crate.module.function`, the parameters of a function that a loop over lanes runs, in the order of that loop.
    lane_loops: dict[str, str]
    # By `crate.module.Type`, the derives that a type has beside those of its source.
    derives: dict[str, list[str]]
    # By `crate.module.Trait.CONSTANT`, what it is where a type does not say.
    defaults: dict[str, str]
    # By `crate.module.Type`, its parameters whose bound only its ghost members need.
    unbound: dict[str, list[str]]
    # By `crate.module.function`, what is asserted of a function that no user calls.
    known: dict[str, str]
    # Names that the package exports: `crate.module.name`.
    exported: set[str]
    # Public methods of exported types that stay inside: `crate.module.Type.method`.
    internal: set[str]
    # By `crate.module.function`, what is asserted for each of its conditions.
    conditions: dict[str, dict[str, str]]
    # By `crate.module.Trait`, the laws that an `impl` of a public trait must keep, and what comes of one that does not.
    laws: dict[str, dict[str, list[str]]]
    # The same of types and traits of Rust's library.
    other_laws: dict[str, list[str]]
    # Names that the package exports under another name, by that which they have in the sources.
    renamed: dict[str, str] = field(default_factory=dict)

    # What a first look at all sources finds: the names of functions and of traits, and by `Trait.method` what the list
    # asserts of it.
    functions: set[str] = field(default_factory=set)
    traits: set[str] = field(default_factory=set)
    of_traits: dict[str, dict[str, str]] = field(default_factory=dict)
    # Paths that `use` items name, with dots.
    taken: set[str] = field(default_factory=set)
    # Names of the lists that were found, and functions and traits that the lists lack.
    used: set[str] = field(default_factory=set)
    missing: list[str] = field(default_factory=list)

    def is_exported_type(self, path: str) -> bool:
        """Whether the package exports the type of an `impl`, which may stand in another module than its own.

        A name in small letters is a type of Rust's own. One of another crate with the name of an exported type counts
        as exported: so a condition too many is asked for, and none too few."""
        name = path.rsplit(".", 1)[1]
        return name[0].islower() or any(one.split(".")[-1] == name for one in self.exported)


def walk(items: list[Item], path: str = "") -> list[tuple[str, Item, Item | None]]:
    """Each item with its path and the item that it stands in. The path of an `impl` of a trait names both."""
    found: list[tuple[str, Item, Item | None]] = []
    for item in items:
        name = f"{item.name}.{item.of_trait}" if item.of_trait else item.name
        found.append((f"{path}.{name}", item, None))
        for inner_path, inner, outer in walk(item.items, f"{path}.{name}"):
            found.append((inner_path, inner, outer or item))
    return found
