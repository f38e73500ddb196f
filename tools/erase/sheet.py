"""A source with what is cut from it and put into it, and the account of both."""

from __future__ import annotations

from collections import Counter
from typing import NamedTuple

from source import RUST_KINDS, Item, Source

# Stands where something was cut, until the result is put together.
CUT = "\0"


class Change(NamedTuple):
    """A change of a source: its kind, the tokens that go, and those that come. One of the two may be empty."""

    kind: str
    gone: str
    put: str


class Sheet:
    """A source with what is cut from it and put into it.

    Each change is counted, so that the result is the source less all that went and with all that came: clauses, ghost
    items and spaces are not counted.
    """

    def __init__(self, code: Source) -> None:
        self.code = code
        self.cuts: set[int] = set()
        self.before: dict[int, list[str]] = {}
        self.swaps: dict[int, str] = {}
        self.changes: Counter[Change] = Counter()

    def live(self, at: int) -> bool:
        """Whether the token at `at` is still there."""
        return at not in self.cuts

    def cut(self, start: int, end: int, kind: str) -> None:
        """Cuts the tokens from `start` to `end`."""
        places = [at for at in range(start, end + 1) if self.live(at)]
        for at in places:
            if at in self.swaps:
                raise self.code.fail(at, f"`{self.code.text(at)}` is replaced and cut")
            if self.code.kind(at) in ("comment", "doc"):
                self.changes[Change("comment of what is cut", self.code.text(at), "")] += 1
        words = " ".join(self.code.text(at) for at in places if self.code.kind(at) in RUST_KINDS)
        if words:
            self.changes[Change(kind, words, "")] += 1
        self.cuts.update(places)

    def cut_element(self, start: int, end: int, kind: str) -> None:
        """Cuts an element of a list with one comma beside it: the one behind it, or the last that is still ahead."""
        after, before = self.code.next(end), self.code.previous(start)
        while not self.live(before):
            before = self.code.previous(before)
        if self.code.text(after) == "," and self.live(after):
            end = after + 1 if self.code.text(after + 1) == " " else after
        elif self.code.text(before) == ",":
            start = before
        self.cut(start, end, kind)

    def put(self, at: int, text: str, kind: str) -> None:
        """Puts text before the token at `at`."""
        self.before.setdefault(at, []).append(text)
        self.changes[Change(kind, "", " ".join(text.split()))] += 1

    def put_after(self, item: Item, text: str, kind: str) -> None:
        """Puts an item after an item."""
        self.put(item.end + 1, f"\n\n{text}\n", kind)

    def swap(self, at: int, text: str, kind: str) -> None:
        """Puts text in place of the token at `at`."""
        if at in self.swaps or not self.live(at):
            raise self.code.fail(at, f"`{self.code.text(at)}` is replaced twice")
        self.swaps[at] = text
        self.changes[Change(kind, self.code.text(at), text)] += 1

    def text(self) -> str:
        """The result, without the lines of which nothing is left. Its layout is left to rustfmt."""
        parts = []
        for at, token in enumerate(self.code.tokens):
            parts += self.before.get(at, [])
            if self.live(at):
                parts.append(self.swaps.get(at, token.text))
            else:
                parts.append(CUT + "\n" * token.text.count("\n") if token.kind == "space" else CUT)
        parts += self.before.get(len(self.code.tokens), [])
        lines = "".join(parts).split("\n")
        kept = [line for line in lines if CUT not in line or line.replace(CUT, "").strip()]
        return "\n".join(kept).replace(CUT, "")
