"""The tokens and the items of a Rattle source.

Rattle is Rust with contracts: clauses (`requires`, `ensures`) behind a signature, and ghost items. Both are written in
the prover's language, so that each is one token here.
"""

from __future__ import annotations

import re
from dataclasses import dataclass, field
from pathlib import Path

TOKEN = re.compile(
    r"""
    (?P<doc>//[/!][^\n]*)
  | (?P<comment>//[^\n]*)
  | (?P<space>\s+)
  | (?P<string>b?"(?:\\.|[^"\\])*"|b?'(?:\\.[^']*|[^'\\])')
  | (?P<lifetime>'[A-Za-z_]\w*)
  | (?P<word>[A-Za-z_]\w*)
  | (?P<number>\d\w*(?:\.\d\w*)?)
  | (?P<sign>::|->|=>|\.\.=|\.\.|&&|\|\||[-+*/%&|^!<>=.,;:?#$@(){}\[\]])
    """,
    re.X | re.S,
)
CLAUSE_HEAD = re.compile(r"\s*([\w-]*)\s*(?=\{)")
GHOST_USE = re.compile(r"ghost\s+use\s+[^{};]+(?:\{[^{};]*\})?\s*;")
GHOST_HEAD = re.compile(r"ghost\s+\w+\s*[:=]\s*(?=\{)")
GHOST_TAIL = re.compile(r"\s*[;,]")
# Words that begin another kind of string or name where a quote or `#` follows them at once.
RAW_WORDS = {"r", "br", "c", "cr", "b"}
OPEN = {"(": ")", "[": "]", "{": "}"}
CLOSE = set(OPEN.values())
TRIVIA = {"space", "comment", "doc"}
RUST_KINDS = {"string", "lifetime", "word", "number", "sign"}
ITEM_WORDS = {"use", "mod", "const", "static", "type", "struct", "enum", "trait", "impl", "fn"}


class Unknown(Exception):
    """A form that the eraser does not know."""


@dataclass
class Token:
    """A token: its kind is a name of `TOKEN`, or `clause` or `ghost`."""

    kind: str
    text: str
    # Of a clause: `requires` or `ensures`, its name or "", and what stands in its braces.
    keyword: str = ""
    name: str = ""
    body: str = ""


@dataclass
class Item:
    """An item of Rust, in tokens: all places are indices of tokens, ends included."""

    kind: str
    name: str
    start: int
    head: int
    end: int
    body: tuple[int, int] | None
    visibility: tuple[int, int] | None
    attributes: list[tuple[int, int]]
    # Of an `impl`: the trait's name, or "".
    of_trait: str = ""
    items: list[Item] = field(default_factory=list)


def brace_end(text: str, at: int) -> int:
    """The place after the braces of the prover's language that open at `at`. It has comments behind `--`."""
    depth = 0
    while at < len(text):
        if text.startswith("--", at):
            line_end = text.find("\n", at)
            at = len(text) if line_end < 0 else line_end
            continue
        depth += {"{": 1, "}": -1}.get(text[at], 0)
        at += 1
        if depth == 0:
            return at
    raise Unknown("braces of a clause that do not close")


def ghost_end(text: str, at: int) -> int:
    """The place after the ghost item that begins at `at`: `ghost use ..;`, or a name with one pair of braces and then
    `;` or `,`."""
    if match := GHOST_USE.match(text, at):
        return match.end()
    head = GHOST_HEAD.match(text, at)
    tail = GHOST_TAIL.match(text, brace_end(text, head.end())) if head else None
    if tail is None:
        raise Unknown(f"a ghost item of another form: {first_line(text, at)}")
    return tail.end()


def clause_token(text: str, at: int, keyword: str) -> Token:
    """The clause that begins at `at`."""
    head = CLAUSE_HEAD.match(text, at + len(keyword))
    if head is None:
        raise Unknown(f"a clause without braces: {first_line(text, at)}")
    end = brace_end(text, head.end())
    body = " ".join(text[head.end() + 1 : end - 1].split())
    return Token("clause", text[at:end], keyword, head.group(1), body)


def first_line(text: str, at: int) -> str:
    """What stands from `at` to the end of its line, for a message."""
    return f"`{text[at:].splitlines()[0].strip()}`"


def rust_token(text: str, at: int) -> Token:
    """The token of Rust that begins at `at`."""
    match = TOKEN.match(text, at)
    if match is None or text.startswith("/*", at):
        raise Unknown(f"no token of Rust that is known: {first_line(text, at)}")
    word, end = match.group(), match.end()
    if word in RAW_WORDS and text[end : end + 1] in ('"', "#", "'"):
        raise Unknown(f"a raw string or a raw name: {first_line(text, at)}")
    return Token(match.lastgroup or "", word)


def tokens_of(text: str) -> list[Token]:
    """The tokens of a source."""
    tokens: list[Token] = []
    at = 0
    while at < len(text):
        token = rust_token(text, at)
        try:
            if token.kind == "word" and token.text == "ghost":
                token = Token("ghost", text[at : ghost_end(text, at)])
            elif token.kind == "word" and token.text in ("requires", "ensures"):
                token = clause_token(text, at, token.text)
        except Unknown as error:
            raise Unknown(f"line {text.count(chr(10), 0, at) + 1}: {error}") from None
        tokens.append(token)
        at += len(token.text)
    return tokens


class Source:
    """A source: its tokens, and ways from one to another that pass over spaces and comments."""

    def __init__(self, module: str, text: str) -> None:
        self.module = module
        try:
            self.tokens = tokens_of(text)
        except Unknown as error:
            raise Unknown(f"{module}, {error}") from None

    def text(self, at: int) -> str:
        """The token at a place, or "" outside the source."""
        return self.tokens[at].text if 0 <= at < len(self.tokens) else ""

    def kind(self, at: int) -> str:
        """The kind of the token at a place, or ""."""
        return self.tokens[at].kind if 0 <= at < len(self.tokens) else ""

    def next(self, at: int) -> int:
        """The place of the next token of Rust."""
        at += 1
        while at < len(self.tokens) and self.tokens[at].kind in TRIVIA | {"ghost", "clause"}:
            at += 1
        return at

    def previous(self, at: int) -> int:
        """The place of the previous token of Rust."""
        at -= 1
        while at >= 0 and self.tokens[at].kind in TRIVIA | {"ghost", "clause"}:
            at -= 1
        return at

    def match(self, at: int) -> int:
        """The place of the bracket that closes the one at `at`."""
        depth = 0
        for place in range(at, len(self.tokens)):
            token = self.tokens[place]
            if token.kind == "sign":
                depth += (token.text in OPEN) - (token.text in CLOSE)
                if depth == 0:
                    return place
        raise self.fail(at, "a bracket that does not close")

    def angle(self, at: int) -> int:
        """The place of the `>` that closes the `<` at `at`."""
        depth, place = 0, at
        while self.text(place) not in ("{", "}", ";", ""):
            text = self.text(place)
            depth += {"<": 1, ">": -1}.get(text, 0)
            if depth == 0:
                return place
            place = 1 + (self.match(place) if text in OPEN else place)
        raise self.fail(at, "a `<` that does not close")

    def closing(self, at: int) -> int:
        """The end of the brackets that open at `at`, or `at`."""
        if self.text(at) == "<":
            return self.angle(at)
        return self.match(at) if self.text(at) in OPEN else at

    def texts(self, start: int, end: int) -> str:
        """The tokens of Rust from `start` to `end`, as text."""
        return "".join(
            " " if token.kind == "space" else token.text
            for token in self.tokens[start : end + 1]
            if token.kind not in ("comment", "doc", "clause", "ghost")
        ).strip()

    def words(self, start: int, end: int) -> list[str]:
        """The tokens of Rust from `start` to `end`, without spaces and comments."""
        return [token.text for token in self.tokens[start : end + 1] if token.kind in RUST_KINDS]

    def fail(self, at: int, what: str) -> Unknown:
        """The refusal of a form at a place."""
        line = "".join(token.text for token in self.tokens[:at]).count("\n") + 1
        return Unknown(f"{self.module}, line {line}: {what}")

    def items(self, at: int = 0, end: int | None = None) -> list[Item]:
        """The items from `at` up to `end`."""
        end = len(self.tokens) if end is None else end
        found = []
        at = self.next(at - 1)
        while at < end:
            item = self.item(at)
            if item is not None:
                found.append(item)
                at = item.end
            else:
                at = self.match(self.next(at) if self.text(self.next(at)) != "!" else self.next(self.next(at)))
            at = self.next(at)
        return found

    def item(self, at: int) -> Item | None:
        """The item that begins at `at`, or nothing where an attribute of the whole file does."""
        start, attributes, visibility = at, [], None
        while self.text(at) == "#":
            if self.text(self.next(at)) == "!":
                return None
            close = self.match(self.next(at))
            attributes.append((at, close))
            at = self.next(close)
        if self.text(at) == "pub":
            last = self.match(self.next(at)) if self.text(self.next(at)) == "(" else at
            visibility = (at, last)
            at = self.next(last)
        if self.text(at) in ("final", "const") and self.text(self.next(at)) == "fn":
            at = self.next(at)
        if self.text(at) not in ITEM_WORDS:
            raise self.fail(at, f"no item begins with `{self.text(at)}`")
        kind = self.text(at)
        close = self.item_end(at, kind)
        body = close if isinstance(close, tuple) else None
        item = Item(kind, "", self.docs_start(start), at, body[1] if body else close, body, visibility, attributes)
        if kind == "impl":
            item.of_trait, item.name = self.impl_names(at, body[0])
        else:
            item.name = self.text(self.next(at))
        if kind == "mod" and body:
            raise self.fail(at, "a module that stands in its parent's file")
        if kind in ("trait", "impl"):
            item.items = self.items(body[0] + 1, body[1])
        return item

    def docs_start(self, at: int) -> int:
        """Where the comments of the item that begins at `at` begin: those with no empty line below them."""
        while at > 0:
            token = self.tokens[at - 1]
            if token.kind == "space" and token.text.count("\n") > 1:
                break
            if token.kind not in ("space", "comment", "doc") or token.text.startswith("//!"):
                break
            at -= 1
        while self.kind(at) == "space":
            at += 1
        return at

    def item_end(self, at: int, kind: str) -> int | tuple[int, int]:
        """The last token of the item whose keyword stands at `at`, or the braces that are its body."""
        while True:
            at = self.next(at)
            text = self.text(at)
            if text == ";":
                return at
            if text == "{" and kind in ("use", "const", "static", "type"):
                at = self.match(at)
            elif text == "{":
                return at, self.match(at)
            elif text in OPEN:
                at = self.match(at)
            elif text == "":
                raise self.fail(at, "an item that does not end")

    def impl_names(self, at: int, body: int) -> tuple[str, str]:
        """The name of the trait, or "", and that of the type of the `impl` at `at`."""
        at = self.next(at)
        if self.text(at) == "<":
            at = self.next(self.angle(at))
        names, last = [], ""
        while at < body and self.text(at) != "where":
            text = self.text(at)
            if text == "for":
                names.append(last)
                last = ""
            elif text == "<":
                at = self.angle(at)
            elif self.kind(at) == "word":
                last = text
            elif text == "&":
                last = "&"
                while self.text(self.next(at)) not in ("for", "{", "where"):
                    at = self.next(at)
            elif text not in ("::",):
                raise self.fail(at, f"an `impl` with `{text}`")
            at = self.next(at)
        return (names[0], last) if names else ("", last)


def read(module: str, path: Path) -> Source:
    """The source of a module."""
    return Source(module, path.read_text(encoding="utf-8"))
