"""The `impl` items that stand for derives of the toolchain and of other crates, and for its fallible clones."""

from __future__ import annotations

import re

import names
from package import Package
from sheet import Sheet
from source import Item

FORMATTER = "f: &mut core::fmt::Formatter<'_>"


class Derives:
    """Writes out the derives of one source."""

    def __init__(self, package: Package, path: str, sheet: Sheet, imports: set[str]) -> None:
        self.package = package
        self.path = path
        self.sheet = sheet
        self.code = sheet.code
        self.imports = imports

    def derive(self, item: Item, at: int, open_: int, close: int) -> None:
        """Cuts `Drop` from the attribute `derive`; `Error` is written out, and so is a fallible clone."""
        places = [place for place in range(open_ + 1, close) if self.code.kind(place) == "word"][1:]
        traits = {self.code.text(place) for place in places}
        for place in places:
            name = self.code.text(place)
            if name in ("Drop", "Error"):
                self.sheet.cut_element(place, place, "derive")
            elif name not in names.SAME_DERIVES:
                raise self.code.fail(place, f"the derive `{name}`")
        more = self.package.derives.get(f"{self.path}.{item.name}", [])
        if not traits & names.SAME_DERIVES:
            self.sheet.cut(at, close, "derive")
        elif more:
            self.add_derives(item, more, close - 1)
        if "Error" in traits:
            self.write_error(item)
        if "Clone" in traits:
            self.write_try_clone(item, "Copy" in traits, None)

    def add_derives(self, item: Item, more: list[str], end: int) -> None:
        """Adds derives of the list, and marks the variant that is the default where one is named."""
        self.package.used.add(f"{self.path}.{item.name}")
        for name in more:
            trait, _, variant = name.partition(" ")
            self.sheet.put(end, f", {trait}", "derive")
            if variant:
                places = [at for at in range(*item.body) if self.code.text(at) == variant
                          and self.code.text(self.code.next(at)) in (",", "}")]
                self.sheet.put(places[0], "#[default]\n", "derive")

    def derive_where(self, item: Item | None, at: int, open_: int, close: int) -> None:
        """Writes out a derive whose bounds are named. `skip` on a field is read with its item."""
        head = self.code.next(self.code.next(open_))
        text = self.code.texts(head + 1, self.code.match(head) - 1)
        self.sheet.cut(at, close, "derive_where")
        if text == "skip":
            return
        if item is None:
            raise self.code.fail(at, "`derive_where` of no item")
        traits, _, bounded = text.partition(";")
        bounds = [name.strip() for name in bounded.split(",") if name.strip()]
        derived = [name.strip() for name in traits.split(",")]
        for trait in derived:
            path = "core::fmt::Debug" if trait == "Debug" else trait
            impl = self.impl_head(path, item, dict.fromkeys(bounds, path))
            body = self.derived(trait, item, "Copy" in derived)
            self.sheet.put_after(item, f"{impl} {{ {body} }}", "derive_where")
        if "Clone" in derived:
            self.write_try_clone(item, "Copy" in derived, bounds)

    def derived(self, trait: str, item: Item, is_copy: bool) -> str:
        """What stands in the `impl` of a derived trait."""
        if trait in ("Copy", "Eq"):
            return ""
        if trait == "Clone" and is_copy:
            return "fn clone(&self) -> Self { *self }"
        fields = self.fields(item)
        seen = [name for name, skipped in fields if not skipped]
        if trait == "Clone":
            clones = "".join(f"{name}: self.{name}.clone(), " for name, _ in fields)
            return f"fn clone(&self) -> Self {{ Self {{ {clones} }} }}"
        if trait == "PartialEq":
            return f"fn eq(&self, other: &Self) -> bool {{ {' && '.join(f'self.{n} == other.{n}' for n in seen)} }}"
        if trait == "Debug":
            parts = "".join(f'.field("{name}", &self.{name})' for name in seen)
            end = "finish" if len(seen) == len(fields) else "finish_non_exhaustive"
            return f'fn fmt(&self, {FORMATTER}) -> core::fmt::Result {{ f.debug_struct("{item.name}"){parts}.{end}() }}'
        raise self.code.fail(item.head, f"the derive `{trait}`")

    def write_try_clone(self, item: Item, is_copy: bool, bounds: list[str] | None) -> None:
        """Writes a clone whose want of memory is an error, which the toolchain's `Clone` is, of an exported type.

        Without `bounds` each type parameter has the trait as its bound, as a derive asks for."""
        if f"{self.path}.{item.name}" not in self.package.exported:
            return
        self.imports |= {"crate::fallible::TryClone", "crate::fallible::AllocError"}
        if bounds is None:
            bounds = [name for name, text in self.params(item) if not text.startswith(("const ", "'"))]
        elif is_copy and bounds:
            raise self.code.fail(item.head, "a copy with bounds")
        head = self.impl_head("TryClone", item, dict.fromkeys(bounds, "Copy" if is_copy else "TryClone"))
        clones = ", ".join(f"{name}: self.{name}.try_clone()?" for name, _ in ([] if is_copy else self.fields(item)))
        made = "*self" if is_copy else f"Self {{ {clones} }}"
        body = f"fn try_clone(&self) -> Result<Self, AllocError> {{ Ok({made}) }}"
        self.sheet.put_after(item, f"{head} {{ {body} }}", "TryClone")

    def write_clone(self, item: Item) -> None:
        """Writes Rust's `Clone` beside a fallible one that is written by hand: the same fields, cloned in the same way.

        The fallible one must be a single `Ok(..)`, in which `?` stands behind `clone()` alone."""
        method = item.items[0]
        head = self.code.texts(item.head, item.body[0] - 1)
        words = self.code.words(method.body[0] + 1, method.body[1] - 1)
        asked = [at for at, word in enumerate(words) if word == "?"]
        is_plain = words[:2] == ["Ok", "("] and words[-1] == ")" and len(item.items) == 1
        if not is_plain or any(words[at - 3 : at] != ["clone", "(", ")"] for at in asked):
            raise self.code.fail(item.head, "a clone that is not one `Ok(..)` of clones")
        made = " ".join(word for word in words[2:-1] if word != "?")
        self.sheet.put_after(item, f"{head} {{ fn clone(&self) -> Self {{ {made} }} }}", "Clone")

    def write_error(self, item: Item) -> None:
        """Writes out what the derive `Error` and the attribute `error` say: the texts of `Display`, and `Error`."""
        if item.kind == "struct":
            texts = [self.error_text(*place) for place in item.attributes if self.is_error(place[0])]
            if len(texts) != 1:
                raise self.code.fail(item.head, "an error with no text, or with several")
            used = [name for name, _ in self.fields(item) if f"{{{name}}}" in texts[0]]
            body = f"let Self {{ {', '.join(used)}, .. }} = self; write!(f, {texts[0]})"
        else:
            body = f"match self {{ {' '.join(self.error_arms(item))} }}"
        head = self.impl_head("core::fmt::Display", item, {})
        method = f"fn fmt(&self, {FORMATTER}) -> core::fmt::Result {{ {body} }}"
        self.sheet.put_after(item, f"{head} {{ {method} }}", "Display")
        self.sheet.put_after(item, f"{self.impl_head('core::error::Error', item, {})} {{}}", "Error")

    def is_error(self, at: int) -> bool:
        """Whether the attribute at `at` is `error`."""
        return self.code.text(self.code.next(self.code.next(at))) == "error"

    def error_text(self, start: int, end: int) -> str:
        """The text of an attribute `error`."""
        texts = [place for place in range(start, end) if self.code.kind(place) == "string"]
        if len(texts) != 1 or self.code.texts(start, end) != f"#[error({self.code.text(texts[0])})]":
            raise self.code.fail(start, "an attribute `error` that is no text")
        return self.code.text(texts[0])

    def error_arms(self, item: Item) -> list[str]:
        """The arms of `Display` for the variants of an error."""
        arms, text = [], ""
        at = self.code.next(item.body[0])
        while at < item.body[1]:
            if self.code.text(at) == "#":
                close = self.code.match(self.code.next(at))
                text = self.error_text(at, close) if self.is_error(at) else text
                at = self.code.next(close)
                continue
            if not text:
                raise self.code.fail(at, f"the variant {self.code.text(at)} has no text")
            end = self.code.next(at)
            arms.append(self.error_arm(self.code.text(at), self.code.text(end), text))
            text = ""
            at = self.code.next(self.code.match(end)) if self.code.text(end) in ("{", "(") else end
            at = self.code.next(at) if self.code.text(at) == "," else at
        return arms

    @staticmethod
    def error_arm(variant: str, open_: str, text: str) -> str:
        """The arm of `Display` for a variant, whose fields open with this bracket, if it has any."""
        pattern = f"Self::{variant}"
        if open_ == "{":
            used = dict.fromkeys(re.findall(r"\{(\w+)\}", text))
            pattern += f" {{ {''.join(name + ', ' for name in used)}.. }}"
        elif open_ == "(":
            pattern += "(inner)" if "{0}" in text else "(..)"
            text = text.replace("{0}", "{inner}")
        written = f"write!(f, {text})" if "{" in text else f"f.write_str({text})"
        return f"{pattern} => {written},"

    def impl_head(self, trait: str, item: Item, bounds: dict[str, str]) -> str:
        """`impl<..> TRAIT for TYPE<..>`, with a bound on some of the type's parameters."""
        params = self.params(item)
        written = []
        for name, text in params:
            text = re.sub(r"\s*\+\s*Drop\b", "", text)
            if name in bounds:
                text += f" + {bounds[name]}" if ":" in text else f": {bounds[name]}"
            written.append(text)
        head = f"impl<{', '.join(written)}>" if written else "impl"
        args = f"<{', '.join(name for name, _ in params)}>" if params else ""
        return f"{head} {trait} for {item.name}{args}"

    def params(self, item: Item) -> list[tuple[str, str]]:
        """The parameters of a type: their names, and their texts with bounds."""
        open_ = self.code.next(self.code.next(item.head))
        if self.code.text(open_) != "<":
            return []
        found, start, at = [], open_ + 1, open_ + 1
        end = self.code.angle(open_)
        while at <= end:
            if self.code.text(at) == "," or at == end:
                if param := self.code.texts(start, at - 1):
                    found.append((param.removeprefix("const ").split(":")[0].strip(), param))
                start = at + 1
            at = 1 + self.code.closing(at)
        return found

    def fields(self, item: Item) -> list[tuple[str, bool]]:
        """The fields of a struct, and whether `derive_where` leaves each out."""
        if item.kind != "struct" or item.body is None:
            raise self.code.fail(item.head, "a derive of what has no named fields")
        found = []
        at = self.code.next(item.body[0])
        skipped = False
        while at < item.body[1]:
            if self.code.text(at) == "#":
                close = self.code.match(self.code.next(at))
                skipped = self.code.texts(at, close) == "#[derive_where(skip)]"
                at = self.code.next(close)
            elif self.code.text(at) == "pub":
                at = self.code.next(at)
                if self.code.text(at) == "(":
                    at = self.code.next(self.code.match(at))
            else:
                found.append((self.code.text(at), skipped))
                skipped = False
                while self.code.text(at) != "," and at < item.body[1]:
                    at = self.code.next(self.code.closing(at))
                at = self.code.next(at)
        return found
