"""Rewrites a Rattle source as Rust: clauses and ghost code are cut, and what the toolchain's library has in another
form than Rust's is replaced.

Every token of the result either stands in the source or was put there by `Sheet.put` or `Sheet.swap`, each under a
kind: `python3 tools/erase --added` prints these. Whatever is not known here is refused, here or by rustc.
"""

from __future__ import annotations

import re

import names
from conditions import Conditions
from derives import Derives
from package import Package, walk
from sheet import Sheet
from source import OPEN, TRIVIA, Item, Source

LEMMA = "lemma_"
# The type of a vector whose lanes are taken one by one.
VECTOR = "u32x8"
# How the comment of a statement begins that nothing but a proof needs.
FOR_PROOF = "// Only the proof in Rattle needs this "
# What the arguments of a lemma's call may not have: the call is cut, and with it what they would do.
EFFECTS = {"?", "!", "=", "mut", "return", "break", "continue", "await"}


class Eraser:
    """Erases one source of a crate."""

    def __init__(self, package: Package, crate: str, module: str, text: str) -> None:
        self.package = package
        self.crate = crate
        self.path = f"{crate}.{module}" if module != "lib" else crate
        self.code = Source(self.path, text)
        self.sheet = Sheet(self.code)
        self.items = self.code.items()
        self.walked = walk(self.items, self.path)
        self.imports: set[str] = set()
        # Names whose import goes: docstrings have no links to them.
        self.unused: set[str] = set()
        self.derives = Derives(package, self.path, self.sheet, self.imports)
        self.conditions = Conditions(package, self.path, self.sheet)

    def survey(self) -> None:
        """Notes what other sources ask of this one."""
        for path, item, outer in self.walked:
            if item.kind == "use":
                paths = (name.replace("::", ".") for name in self.used_names(item))
                self.package.taken.update(re.sub(r"^crate\b", self.crate, name) for name in paths)
            if item.kind == "trait":
                self.package.traits.add(item.name)
            if item.kind == "fn":
                self.package.functions.add(item.name)
                self.conditions.survey(path, item, outer)

    def erase(self) -> str:
        """The source as Rust."""
        self.check_places_of_clauses()
        self.cut_ghost()
        self.cut_lemmas()
        self.cut_for_proofs()
        self.cut_impls()
        self.check_words()
        self.check_calls()
        self.rewrite_attributes()
        self.rewrite_clones()
        self.rewrite_slices()
        self.cut_drop_bounds()
        self.cut_ghost_bounds()
        self.rewrite_allocation()
        self.cut_words()
        self.rewrite_imports()
        self.rewrite_modules()
        self.cut_unused_imports()
        self.rewrite_paths()
        self.rewrite_links()
        self.lower_visibility()
        self.write_conditions()
        self.write_inline()
        self.write_lanes()
        self.write_defaults()
        self.write_unsized()
        self.cut_empty_where()
        self.add_imports()
        return self.sheet.text()

    def places(self, kind: str, start: int = 0, end: int | None = None) -> list[int]:
        """The places of the tokens of a kind that are still there."""
        end = len(self.code.tokens) - 1 if end is None else end
        return [at for at in range(start, end + 1) if self.code.kind(at) == kind and self.sheet.live(at)]

    def around(self, at: int) -> tuple[str, str]:
        """The tokens of Rust before and behind a place."""
        return self.code.text(self.code.previous(at)), self.code.text(self.code.next(at))

    def use_around(self, at: int) -> Item | None:
        """The `use` item around a token."""
        return next((item for item in self.items if item.kind == "use" and item.start <= at <= item.end), None)

    def in_attribute(self, at: int) -> bool:
        """Whether a token stands in the attribute of an item."""
        return any(start <= at <= end for _, item, _ in self.walked for start, end in item.attributes)

    # Contracts, ghost code and lemmas.

    def check_places_of_clauses(self) -> None:
        """Refuses a clause that stands neither behind a function's signature nor behind a closure's."""
        heads = [range(item.head, item.body[0] if item.body else item.end)
                 for _, item, _ in self.walked if item.kind == "fn"]
        for at in self.places("clause"):
            if not any(at in head for head in heads) and not self.is_behind_closure(at):
                raise self.code.fail(at, "a clause behind no signature")

    def is_behind_closure(self, at: int) -> bool:
        """Whether a closure's parameters, and perhaps its type, stand before the clause at `at`, and braces behind."""
        behind, before, depth = self.code.next(at), self.code.previous(at), 0
        while self.code.text(before) not in ("|", "{", "}", "") and (depth or self.code.text(before) != ";"):
            depth += {"]": 1, "[": -1}.get(self.code.text(before), 0)
            before = self.code.previous(before)
        return self.code.text(behind) == "{" and self.code.text(before) == "|"

    def cut_ghost(self) -> None:
        """Cuts clauses and ghost items, with the plain comments ahead of them and with the `pub` of an item."""
        for at, token in enumerate(self.code.tokens):
            if token.kind == "clause":
                start = at
                while self.code.kind(start - 1) in ("space", "comment"):
                    start -= 1
                self.sheet.cut(start, at, "clause")
            elif token.kind == "ghost":
                self.sheet.cut(self.ghost_start(at), at, "ghost item")

    def ghost_start(self, at: int) -> int:
        """Where the ghost item at `at` begins, with what stands ahead of it: no empty line does."""
        start = at
        while self.code.kind(start - 1) in ("space", "comment") or self.code.text(start - 1) == "pub":
            start -= 1
            if self.code.kind(start) == "space" and self.code.text(start).count("\n") > 1:
                return start
        is_doc = self.code.kind(start - 1) == "doc" and not self.code.text(start - 1).startswith("//!")
        if is_doc or self.code.text(start - 1) in ("]", ")"):
            raise self.code.fail(at, "a docstring, an attribute or `pub(..)` of a ghost item")
        return start

    def cut_lemmas(self) -> None:
        """Cuts functions that are lemmas, and calls of them, which are statements and do nothing."""
        for _, item, _ in self.walked:
            if item.kind == "fn" and item.name.startswith(LEMMA):
                self.check_lemma(item)
                self.sheet.cut(item.start, item.end, "lemma")
        for at in self.places("word"):
            if self.code.text(at).startswith(LEMMA) and not self.use_around(at):
                self.cut_call_of_lemma(at)

    def check_lemma(self, item: Item) -> None:
        """Refuses a lemma that returns something or changes what it is given."""
        head = self.code.words(item.head, item.body[0] if item.body else item.end)
        if "->" in head or "mut" in head or item.body is None:
            raise self.code.fail(item.head, "a lemma that returns or changes something")

    def cut_call_of_lemma(self, at: int) -> None:
        """Cuts the call of a lemma whose name stands at `at`."""
        open_ = self.code.next(at)
        if self.code.text(open_) == "::":
            open_ = self.code.next(self.code.angle(self.code.next(open_)))
        if self.code.text(open_) != "(":
            raise self.code.fail(at, "a lemma that is not called")
        close = self.code.match(open_)
        last = self.code.next(close)
        if self.code.text(last) != ";" or self.around(at)[0] not in (";", "{", "}"):
            raise self.code.fail(at, "the call of a lemma that is no statement")
        if EFFECTS & set(self.code.words(open_, close)):
            raise self.code.fail(at, "the call of a lemma whose arguments do something")
        self.sheet.cut(at, last, "lemma")

    def cut_for_proofs(self) -> None:
        """Cuts statements of which a comment says that only the proof needs them, with the comment."""
        for at in self.places("comment"):
            if not self.code.text(at).startswith(FOR_PROOF):
                continue
            first = self.code.next(at)
            if self.code.text(first) == "for":
                last = self.end_of_empty_loop(first)
            else:
                last = first
                while self.code.text(last) not in (";", "{", "}", ""):
                    last = self.code.next(last)
                if not re.fullmatch(r"let _\w+ = \w+\.(height|len|width)\(\);", self.code.texts(first, last)):
                    raise self.code.fail(first, "a statement for the proof alone that may do something")
            self.sheet.cut(at, last, "statement for the proof")

    def end_of_empty_loop(self, at: int) -> int:
        """The end of the loop over numbers at `at`, in which nothing is left."""
        open_ = at
        while self.code.text(open_) not in ("{", ""):
            open_ = self.code.next(open_)
        if not re.fullmatch(r"for \w+ in \d+\.\.[\w:]+(\.len\(\))?", self.code.texts(at, open_ - 1)):
            raise self.code.fail(at, "a loop for the proof alone that is over no numbers")
        close = self.code.match(open_)
        if any(self.code.kind(place) not in TRIVIA for place in range(open_ + 1, close) if self.sheet.live(place)):
            raise self.code.fail(at, "a loop for the proof alone that does something")
        return close

    def cut_impls(self) -> None:
        """Cuts `impl Model`, which says what contracts see, and `impl From<AllocFailed<..>>`, which no call returns."""
        known = {"", *names.SAME_TRAITS, *names.TREATED_TRAITS, *self.package.traits}
        for item in self.items:
            if item.kind == "impl" and item.of_trait not in known:
                raise self.code.fail(item.head, f"an `impl` of `{item.of_trait}`")
            if item.kind != "impl" or item.of_trait not in ("Model", "From"):
                continue
            if item.of_trait == "Model" and any(inner.kind != "type" for inner in item.items):
                raise self.code.fail(item.head, "an `impl Model` with code")
            if item.of_trait == "Model" or "From<AllocFailed<" in self.code.texts(item.head, item.body[0]):
                self.sheet.cut(item.start, item.end, f"impl {item.of_trait}")

    # What is not known.

    def check_words(self) -> None:
        """Refuses words that were never looked at, macros, and `use` inside a function."""
        for at in self.places("word"):
            text = self.code.text(at)
            if text in names.REFUSED_WORDS:
                raise self.code.fail(at, f"`{text}`")
            if self.code.text(at + 1) == "!" and self.around(at + 1)[1] in OPEN and text != "vec":
                raise self.code.fail(at, f"the macro `{text}!`")
            if text == "use" and not self.use_around(at):
                raise self.code.fail(at, "`use` inside a function")
            if text == "Global" and not self.use_around(at) and not self.is_of_alloc(at):
                raise self.code.fail(at, "`Global` that is not the type of `alloc`")

    def is_of_alloc(self, at: int) -> bool:
        """Whether `alloc:` stands before the type at `at`."""
        colon = self.code.previous(at)
        return self.code.text(colon) == ":" and self.around(colon)[0] == "alloc"

    def check_calls(self) -> None:
        """Refuses methods and functions of the library that may do something else in Rust, or end the program."""
        for _, item, _ in self.walked:
            if item.kind == "fn" and item.name in names.FALLIBLE:
                raise self.code.fail(item.head, f"a function of its own with the name `{item.name}`")
        own = self.package.functions - names.ALLOCATING
        known = names.SAME_METHODS | set(names.FALLIBLE_METHODS) | {"allocator", "clone"} | own
        for at in self.places("word"):
            text, (before, behind) = self.code.text(at), self.around(at)
            if before == "." and behind in ("(", "::") and text not in known:
                raise self.code.fail(at, f"the method `{text}`")
            if before == "::" and not self.use_around(at):
                self.check_path(at, text)

    def check_path(self, at: int, name: str) -> None:
        """Refuses `TYPE::name` of the library that is in no table, and `Clone::clone`, which would not be renamed."""
        owner_at = self.code.previous(self.code.previous(at))
        owner = self.code.text(owner_at)
        if owner in names.OTHER_OWNERS or name not in names.SAME_FUNCTIONS.get(owner, {name}):
            raise self.code.fail(at, f"`{owner}::{name}`")
        if name == "clone" or owner == "Clone":
            raise self.code.fail(at, f"`{owner}::{name}`: a clone that is no method call")
        if owner == ">" and name in names.FALLIBLE:
            raise self.code.fail(at, f"`{name}` behind `>::`")

    # Attributes, clones and bounds.

    def rewrite_attributes(self) -> None:
        """Keeps what Rust knows, cuts what only the prover reads, and writes out the derives of other crates."""
        for at in self.places("sign"):
            if self.code.text(at) != "#" or not self.sheet.live(at):
                continue
            open_ = self.code.next(at)
            is_inner = self.code.text(open_) == "!"
            open_ = self.code.next(open_) if is_inner else open_
            close = self.code.match(open_)
            name = self.code.text(self.code.next(open_))
            if name == "tactic" or name == "error" and not is_inner:
                self.sheet.cut(at, close, f"attribute {name}")
            elif name in ("derive", "derive_where") and not is_inner:
                self.rewrite_derive(name, at, open_, close)
            elif name not in names.SAME_ATTRIBUTES or is_inner:
                raise self.code.fail(at, f"the attribute `{name}`")

    def rewrite_derive(self, name: str, at: int, open_: int, close: int) -> None:
        """Writes out the derives of an attribute."""
        owner = next((item for _, item, _ in self.walked if (at, close) in item.attributes), None)
        if name == "derive_where":
            self.derives.derive_where(owner, at, open_, close)
        elif owner is None:
            raise self.code.fail(at, "`derive` of no item")
        else:
            self.derives.derive(owner, at, open_, close)

    def rewrite_clones(self) -> None:
        """Fallible clones are `TryClone`, beside which Rust's `Clone` stands; calls of `clone` are fallible ones."""
        for item in self.items:
            if item.kind == "impl" and item.of_trait == "Clone" and self.sheet.live(item.head):
                self.derives.write_clone(item)
        for at in self.places("word"):
            text, (before, behind) = self.code.text(at), self.around(at)
            if text == "clone" and behind == "(" and before in (".", "fn"):
                self.sheet.swap(at, "try_clone", "fallible call")
                # A clone that takes the allocator is a type's own.
                if before == "." and self.around(self.code.next(at))[1] != "alloc":
                    self.imports.add("crate::fallible::TryClone")
            elif text == "Clone" and not self.in_attribute(at):
                if before not in ("+", ":", ">", "impl"):
                    raise self.code.fail(at, "`Clone` that is no bound")
                self.sheet.swap(at, "TryClone", "TryClone")
                self.imports.add("crate::fallible::TryClone")

    def rewrite_slices(self) -> None:
        """A value that is read as a slice has Rust's bound `AsRef<[T]>`."""
        for at in self.places("word"):
            if self.code.text(at) != "AsSlice" or self.use_around(at):
                continue
            open_ = self.code.next(at)
            if self.code.text(open_) != "<":
                raise self.code.fail(at, "`AsSlice` without its elements")
            self.sheet.swap(at, "AsRef", "AsRef")
            self.sheet.put(open_ + 1, "[", "AsRef")
            self.sheet.put(self.code.angle(open_), "]", "AsRef")
        for _, item, _ in self.walked:
            if item.kind != "fn" or item.body is None or "AsSlice" not in self.code.words(item.head, item.body[0]):
                continue
            for at in self.places("word", *item.body):
                if self.code.text(at) == "as_slice":
                    self.sheet.swap(at, "as_ref", "AsRef")

    def cut_drop_bounds(self) -> None:
        """Cuts bounds by `Drop`, which in Rattle says that a value may be dropped."""
        for at in self.places("word"):
            if self.code.text(at) != "Drop" or self.in_attribute(at):
                continue
            before, behind = self.code.previous(at), self.code.next(at)
            subject = self.code.previous(before)
            if self.code.text(before) == "+":
                self.sheet.cut(before, at, "bound Drop")
            elif self.code.text(before) != ":":
                raise self.code.fail(at, "`Drop` that is no bound")
            elif self.code.text(behind) == "+":
                self.sheet.cut(at, behind, "bound Drop")
            elif self.around(subject)[0] == "where":
                self.sheet.cut_element(subject, at, "bound Drop")
            else:
                self.sheet.cut(before, at, "bound Drop")

    def cut_ghost_bounds(self) -> None:
        """Cuts bounds of a struct's parameters that only its ghost members need: see the list."""
        for path, item, _ in self.walked:
            if item.kind != "struct" or path not in self.package.unbound:
                continue
            self.package.used.add(path)
            open_ = self.code.next(self.code.next(item.head))
            for name in self.package.unbound[path]:
                at = next((at for at in self.places("word", open_, self.code.angle(open_))
                           if self.code.text(at) == name and self.around(at)[0] in ("<", ",")), None)
                colon = self.code.next(at) if at else open_
                if self.code.text(colon) != ":":
                    raise self.code.fail(item.head, f"no bound of `{name}`")
                end = colon
                while self.code.text(behind := self.code.next(end)) not in (",", ">"):
                    end = self.code.closing(behind)
                self.sheet.cut(colon, end, "bound of a ghost member")

    def cut_empty_where(self) -> None:
        """Cuts `where` where no bound is left behind it."""
        for at in self.places("word"):
            if self.code.text(at) == "where":
                behind = self.code.next(at)
                while not self.sheet.live(behind):
                    behind = self.code.next(behind)
                if self.code.text(behind) in ("{", ";"):
                    self.sheet.cut(at, at, "bound Drop")

    # Memory.

    def rewrite_allocation(self) -> None:
        """Cuts the allocator from parameters and arguments, and renames calls that may want memory."""
        for at in self.places("word"):
            text = self.code.text(at)
            before, behind = self.around(at)
            if not self.sheet.live(at):
                continue
            if text == "alloc" and not self.use_around(at):
                self.cut_allocator(at)
            elif text == "vec" and behind == "!":
                self.rewrite_vec(at, self.code.next(at))
            elif text in names.FALLIBLE_METHODS and before == "." and behind == "(":
                self.sheet.swap(at, names.FALLIBLE_METHODS[text], "fallible call")
                self.imports.add("crate::fallible::VecExt")
            elif text in names.FALLIBLE_MAKERS and self.is_of_vec(at):
                self.sheet.swap(at, names.FALLIBLE_MAKERS[text], "fallible call")
                self.imports.add("crate::fallible::VecExt")
            elif text == "push_reserved":
                self.imports.add("crate::fallible::VecExt")
            elif text == "allocator":
                raise self.code.fail(at, "`allocator` outside `let alloc`")

    def is_of_vec(self, at: int) -> bool:
        """Whether `Vec::` stands before the name at `at`."""
        path = self.code.previous(at)
        return self.code.text(path) == "::" and self.around(path)[0] == "Vec"

    def cut_allocator(self, at: int) -> None:
        """Cuts `alloc` where it is a parameter, an argument or a variable."""
        before, behind = self.around(at)
        if before == "let":
            self.cut_variable(at)
        elif behind == ":":
            kind = self.code.next(self.code.next(at))
            if self.code.text(kind) != "Global" or self.around(kind)[1] not in (",", ")", "}"):
                raise self.code.fail(at, "an allocator of another type than `Global`")
            self.sheet.cut_element(at, kind, "allocator")
        elif before in ("(", ",") and behind in (")", ","):
            self.sheet.cut_element(at, at, "allocator")
        else:
            raise self.code.fail(at, "`alloc` that is no parameter and no argument")

    def cut_variable(self, at: int) -> None:
        """Cuts `let alloc = *VALUE.allocator();`, where VALUE is a variable or fields of one."""
        end = at
        while self.code.text(end) != ";":
            end = self.code.next(self.code.closing(end))
        words = self.code.words(at, end)
        value = words[3:-5]
        is_field = all(word == "." if place % 2 else word.isidentifier() for place, word in enumerate(value))
        if words[:3] != ["alloc", "=", "*"] or words[-5:] != [".", "allocator", "(", ")", ";"] or not is_field:
            raise self.code.fail(at, "`let alloc` that is no vector's allocator")
        self.sheet.cut(self.code.previous(at), end, "allocator")

    def rewrite_vec(self, at: int, bang: int) -> None:
        """`vec![in alloc; value; count]` and `vec![in alloc; value, ..]`, each of which may want memory."""
        open_ = self.code.next(bang)
        close = self.code.match(open_)
        first = self.code.next(open_)
        semicolon = self.code.next(self.code.next(first))
        if self.code.words(open_, semicolon) != ["[", "in", "alloc", ";"]:
            raise self.code.fail(at, "`vec!` without an allocator")
        self.sheet.cut(bang, bang, "allocator")
        self.sheet.cut(first, semicolon, "allocator")
        place = self.code.next(semicolon)
        while place < close and self.code.text(place) != ";":
            place = self.code.next(self.code.match(place) if self.code.text(place) in OPEN else place)
        is_counted = place < close
        name = "try_vec" if is_counted else "try_list"
        self.sheet.swap(at, name, "fallible call")
        self.sheet.swap(open_, "(" if is_counted else "([", "fallible call")
        self.sheet.swap(close, ")" if is_counted else "])", "fallible call")
        if is_counted:
            self.sheet.swap(place, ",", "fallible call")
        self.imports.add(f"crate::fallible::{name}")

    def cut_words(self) -> None:
        """Cuts `final`, which Rust's traits have not, and the labels of loops that only proofs name."""
        for at in self.places("word"):
            if self.code.text(at) == "final":
                if self.around(at)[1] != "fn":
                    raise self.code.fail(at, "`final` that is not ahead of `fn`")
                self.sheet.cut(at, at, "final")
        named = {self.around(at)[1] for at in self.places("word") if self.code.text(at) in ("break", "continue")}
        for at in self.places("lifetime"):
            colon = self.code.next(at)
            is_label = self.code.text(colon) == ":" and self.around(colon)[1] in ("for", "while", "loop")
            if is_label and self.code.text(at) not in named:
                self.sheet.cut(at, colon, "label")

    # Names: imports, modules, paths and links.

    def rewrite_imports(self) -> None:
        """Each name of a `use` item from another crate gets its place in this package, or goes."""
        for item in self.items:
            if item.kind != "use" or not self.sheet.live(item.head):
                continue
            first = self.code.text(self.code.next(item.head))
            if self.code.words(item.head, item.end).count("{") > 1:
                raise self.code.fail(item.head, "`use` with braces in braces")
            if first == "std":
                self.replace_use(item, names.STD_NAMES)
            elif first in ("sha2", "rand_core", "thiserror"):
                self.replace_use(item, names.CRATE_NAMES)
            elif first == "crate" or first in self.package.crates:
                self.cut_lemma_names(item)
            elif not self.is_own_module(first):
                raise self.code.fail(item.head, f"`use` of `{first}`")

    def is_own_module(self, name: str) -> bool:
        """Whether a name is a module of this file."""
        return any(item.kind == "mod" and item.name == name for item in self.items)

    def used_names(self, item: Item) -> list[str]:
        """The names of a `use` item, each as a whole path."""
        text = self.code.texts(self.code.next(item.head), item.end - 1)
        head, brace, tail = text.partition("{")
        listed = [name.strip() for name in tail.rstrip("} \n").split(",")] if brace else []
        return [head.strip() + name for name in listed if name] if brace else [text]

    def replace_use(self, item: Item, known: dict[str, str | None]) -> None:
        """Cuts a `use` item, and imports what it names from where this package has it."""
        if item.visibility:
            raise self.code.fail(item.head, "`pub use` of another crate's name")
        for name in self.used_names(item):
            name = name.removeprefix("std::")
            if name not in known:
                raise self.code.fail(item.head, f"`use` of `{name}`")
            if known[name]:
                self.imports.add(known[name])
        self.sheet.cut(item.start, item.end, "use")

    def cut_lemma_names(self, item: Item) -> None:
        """Cuts lemmas from a `use` item, and the item where it names nothing else."""
        used = self.used_names(item)
        lemmas = [name for name in used if name.split("::")[-1].startswith(LEMMA)]
        if len(lemmas) == len(used):
            self.sheet.cut(item.start, item.end, "lemma")
            return
        for at in self.places("word", item.head, item.end):
            if self.code.text(at).startswith(LEMMA):
                if self.around(at)[1] == "as":
                    raise self.code.fail(at, "a lemma under another name")
                self.sheet.cut_element(at, at, "lemma")

    def rewrite_modules(self) -> None:
        """Modules that are left out go, and those that need a feature say so."""
        for item in self.items:
            if item.kind == "mod":
                self.rewrite_module(item, f"{self.path}.{item.name}")
            elif item.kind == "use" and item.visibility and self.sheet.live(item.head):
                used = [name.replace("::", ".") for name in self.used_names(item)]
                modules = {used[0], f"{self.path}.{self.code.text(self.code.next(item.head))}"}
                if modules & self.package.left_out:
                    self.sheet.cut(item.start, item.end, "module left out")

    def rewrite_module(self, item: Item, path: str) -> None:
        """Cuts a module that is left out, or puts its feature and its visibility ahead of it."""
        if path in self.package.left_out:
            self.sheet.cut(item.start, item.end, "module left out")
            return
        if path in self.package.features:
            self.sheet.put(item.start, f'#[cfg(feature = "{self.package.features[path]}")]\n', "feature")
        if item.visibility is None:
            # lib.rs takes names from the module that defines them.
            self.sheet.put(item.head, "pub(crate) ", "visibility")

    def rewrite_paths(self) -> None:
        """A crate is a module of the package."""
        for at in self.places("word"):
            text, (before, behind) = self.code.text(at), self.around(at)
            if behind != "::" or before in ("::", "."):
                continue
            if text == "crate":
                self.sheet.put(self.code.next(at), f"::erased::{self.crate}", "path")
            elif text in self.package.crates:
                self.sheet.put(at, "crate::erased::", "path")
            elif text == "std":
                self.rewrite_std_path(at)
            elif text in ("self", "super") and not self.use_around(at):
                raise self.code.fail(at, f"a path that begins with `{text}`")

    def rewrite_std_path(self, at: int) -> None:
        """`std` is `core`, in a path that is known."""
        end = at
        while self.around(end)[1] == "::" and self.code.kind(self.code.next(self.code.next(end))) == "word":
            end = self.code.next(self.code.next(end))
        path = "".join(self.code.words(at, end))
        if path not in names.SAME_PATHS:
            raise self.code.fail(at, f"the path `{path}`")
        self.sheet.swap(at, "core", "path")

    def rewrite_links(self) -> None:
        """Links in docstrings go to where the package has their ends; one to a module that is left out is no link."""
        crates = "|".join(self.package.crates)
        for at in self.places("doc"):
            text = self.code.text(at)
            made = re.sub(r"\(crate::", f"(crate::erased::{self.crate}::", text)
            made = re.sub(rf"\(({crates})::", r"(crate::erased::\1::", made)
            made = re.sub(r"\(std::", "(core::", made)
            made = re.sub(r"\[(`(\w+)`)\](?![(\[])", lambda link: link[link[2] in self.unused], made)
            for gone in self.package.left_out:
                made = re.sub(rf"\[(`[^]]*`)\]\(crate::erased::{gone.replace('.', '::')}::\w+\)", r"\1", made)
            if made != text:
                self.sheet.swap(at, made, "link in a docstring")

    def lower_visibility(self) -> None:
        """What the package does not export is visible inside it alone."""
        for path, item, outer in self.walked:
            if item.visibility is None or not self.sheet.live(item.head):
                continue
            if item.kind == "use":
                is_exported = any(self.is_exported_name(name) for name in self.used_names(item))
            elif outer is None:
                is_exported = path in self.package.exported
            elif outer.kind == "impl" and not outer.of_trait:
                owner = path.rsplit(".", 1)[0]
                is_exported = self.package.is_exported_type(owner) and path not in self.package.internal
                self.package.used.add(path)
            else:
                continue
            start, end = item.visibility
            if not is_exported and start == end:
                self.sheet.put(end + 1, "(crate)", "visibility")
            elif is_exported and item.kind == "struct" and item.body:
                self.check_fields(item)

    def is_exported_name(self, name: str) -> bool:
        """Whether the package exports what a crate's root gives on under a path: of this crate, or of one below."""
        path = name.removeprefix("crate::").replace("::", ".")
        return path in self.package.exported or f"{self.crate}.{path}" in self.package.exported

    def check_fields(self, item: Item) -> None:
        """Refuses an exported struct with a fact of its fields, or with a model's, whose fields users could change."""
        code = self.code.tokens[item.body[0] : item.body[1]]
        models = [other for other in self.items if other.of_trait == "Model" and other.name == item.name]
        if not models and all(token.kind != "ghost" for token in code):
            return
        for at in self.places("word", *item.body):
            if self.code.text(at) == "pub" and self.around(at)[1] != "(":
                raise self.code.fail(at, "a public field of a struct with facts")

    def write_conditions(self) -> None:
        """Asserts the conditions of public functions, and looks for the laws of public traits."""
        for path, item, outer in self.walked:
            if item.kind == "fn" and self.sheet.live(item.head):
                self.conditions.write(path, item, outer)
            self.conditions.check_laws(path, item)

    def write_inline(self) -> None:
        """Marks the functions of a module of small ones for inlining, where the source does not say how they are."""
        if self.path not in self.package.inline:
            return
        self.package.used.add(self.path)
        for _, item, _ in self.walked:
            if item.kind == "fn" and item.body and self.sheet.live(item.head):
                names_of = [self.code.text(self.code.next(self.code.next(start))) for start, _ in item.attributes]
                if "inline" not in names_of:
                    self.sheet.put(item.visibility[0] if item.visibility else item.head, "#[inline]\n", "inline")

    def write_lanes(self) -> None:
        """Functions of a vector take a word as well, and a loop over lanes runs the bodies of others in each lane."""
        for path, item, _ in self.walked:
            if item.kind != "fn":
                continue
            if listed := {path, self.path} & self.package.of_words:
                self.package.used |= listed
                self.take_words(item)
            elif path in self.package.lane_loops:
                self.package.used.add(path)
                self.run_in_lanes(item, self.package.lane_loops[path])

    def take_words(self, item: Item) -> None:
        """The function's vectors are of a type that it is called for: a vector, or a word of one lane."""
        open_ = self.code.next(self.code.next(item.head))
        if self.code.text(open_) != "(":
            raise self.code.fail(item.head, "a function of words with type parameters of its own")
        self.sheet.put(open_, "<W: Word>", "lane")
        for at in self.places("word", *item.body):
            self.name_word(at)
        for at in self.places("word", open_, item.body[0]):
            self.name_word(at)

    def name_word(self, at: int) -> None:
        """A vector's type becomes the type parameter."""
        if self.code.text(at) == VECTOR:
            self.sheet.swap(at, "W", "lane")

    def run_in_lanes(self, item: Item, params: str) -> None:
        """The body runs in each lane, where the parameters that are vectors have a word in place of each."""
        open_, close = item.body
        is_changing = "mut" in self.code.words(item.head, open_)
        name = "in_each_lane_mut" if is_changing else "in_each_lane"
        self.sheet.put(open_ + 1, f" {name}({params}, #[inline(always)] |{params}| {{", "lane")
        self.sheet.put(close, "})", "lane")

    def write_defaults(self) -> None:
        """A constant that a trait asks for gets a default, where the list has one."""
        for path, item, outer in self.walked:
            if item.kind == "const" and outer and outer.kind == "trait" and path in self.package.defaults:
                self.package.used.add(path)
                if "=" in self.code.words(item.head, item.end):
                    raise self.code.fail(item.head, "a constant with a default of its own")
                self.sheet.put(item.end, f" = {self.package.defaults[path]}", "default")

    def write_unsized(self) -> None:
        """A reference to what has no size of its own, as `dyn Matrix<T>`, has the trait that a reference has."""
        for item in self.items:
            if item.kind != "impl" or item.name != "&" or not self.sheet.live(item.head):
                continue
            text = self.code.texts(item.head, item.body[0] - 1).rstrip()
            name = text.rpartition("&")[2]
            bounds = [at for at in self.places("word", item.head, item.body[0])
                      if self.code.text(at) == name and self.around(at)[1] == ":"]
            if len(bounds) != 1:
                raise self.code.fail(item.head, "an `impl` for a reference to what is no parameter with a bound")
            self.sheet.put(self.code.next(bounds[0]) + 1, " ?Sized +", "unsized")

    def cut_unused_imports(self) -> None:
        """Cuts imported names that no code of Rust has, as those of contracts, calls of lemmas and proofs, and names of
        a crate's root that no module of the package takes from there."""
        used = {self.code.text(at) for at in self.places("word")
                if not self.use_around(at) and self.around(at)[0] not in (".", "fn")} | self.package.traits
        for item in self.items:
            if item.kind != "use" or not self.sheet.live(item.head):
                continue
            names_of = [name.split("::")[-1].split(" as ")[-1].strip() for name in self.used_names(item)]
            if item.visibility:
                gone = [name for name in names_of if not self.is_taken(name)]
            else:
                gone = [name for name in names_of if name not in used | {"*", "self"}]
                self.unused.update(gone)
            if gone == names_of:
                self.sheet.cut(item.start, item.end, "unused import")
                continue
            for at in self.places("word", item.head, item.end):
                if self.code.text(at) in gone and self.around(at)[1] in (",", "}"):
                    if self.around(at)[0] == "as":
                        raise self.code.fail(at, "an unused name that stands under another one")
                    self.sheet.cut_element(at, at, "unused import")

    def is_taken(self, name: str) -> bool:
        """Whether the package exports what this crate's root gives on under a name, or a module takes it from there."""
        if self.path != self.crate:
            return True
        return f"{self.crate}.{name}" in self.package.taken or any(
            one.split(".")[-1] == name for one in self.package.exported)

    def add_imports(self) -> None:
        """Adds what the source has without an import, or from elsewhere."""
        code = re.sub(r"//[^\n]*", "", self.sheet.text())
        if re.search(r"\bVec\b", code):
            self.imports.add("alloc::vec::Vec")
        modules: dict[str, list[str]] = {}
        for path in sorted(self.imports):
            module, name = path.rsplit("::", 1)
            # A trait's methods are called without its name.
            if name in ("*", "VecExt", "TryClone") or re.search(rf"\b{name}\b", code):
                modules.setdefault(module, []).append(name)
        first = min(item.start for item in self.items)
        for module, listed in modules.items():
            text = f"{{{', '.join(listed)}}}" if len(listed) > 1 else listed[0]
            self.sheet.put(first, f"use {module}::{text};\n", "import")
