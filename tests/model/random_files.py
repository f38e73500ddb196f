"""Models random users of `fohlazu`: files are sealed, proved, grown and joined, and all of this is damaged."""

from pathlib import Path
from typing import NamedTuple

import fohlazu_commands
import log_texts
import logs
from log_texts import checkpoint_text, consistency_text, entries_text
from running import faults

CUTS = [[], [], [], ["--partial"], ["--whole-lines"]]
LENGTHS = [0, 0, 1, 2, 5, 54, 55, 56, 63, 64, 118, 119, 120, 300]
ORIGINS = ["journal.example", "a", "localhost/log of today", "caf\u00e9", "x" * 100]
SIGNATURES = ["\u2014 journal.example bm90IGNoZWNrZWQ=\n".encode(), "\u2014 w\u00e9 MTIzNDU2Nzg5\n".encode()]
# How long a text is so that only some of its bytes are damaged, and how many these are.
LONG, SAMPLE = 700, 40
# Words for numbers, most of which are refused: ranges that go down, begin with 0, have no end, pass the last entry, the
# greatest number or the most that are taken; and what is no number.
STRANGE = (Path(__file__).parent / "numbers.txt").read_text().splitlines()


class Case(NamedTuple):
    kind: str
    words: list
    contents: dict

    def answer(self):
        return fohlazu_commands.answer(self.words, self.contents.get)

    def shown(self):
        """The case, to be tried by hand."""
        return "\n  ".join([str(self.words), *(f"{name}: {data!r}" for name, data in self.contents.items())])

    def wrongs(self, program, answer):
        """What is wrong about a program's answer, in lines. Whole texts are accepted, but for line feeds inside of
        lines."""
        if self.kind.endswith("whole") and "inside" not in self.kind and answer.status:
            return [f"the model refuses a whole text: {answer.refused.line}"]
        ran = program.run(self.words, self.contents)
        warned = "".join(map(fohlazu_commands.SECOND.format, answer.warned)).encode()
        if not ran.said.startswith(warned):
            return [f"says {ran.said[:400]!r}, expected {warned!r} first"]
        return [*faults(ran._replace(said=ran.said[len(warned):]), *answer.expected())]


def printed(words, contents):
    """What a command prints that is not to be refused."""
    answer = fohlazu_commands.answer(words, contents.get)
    assert answer.status == 0, (words, answer)
    return answer.printed


def file_of(source, limit, cuts=CUTS):
    """A random file, and the words that say how it is cut."""
    count = source.randrange(limit + 1)
    if source.randrange(3) == 0:
        size = source.choice([1, 2, 3, 55, 64, 100])
        data = bytes(source.choice(b"ab\n\xff") for _ in range(size * count + source.randrange(size)))
        return data, ["--blocks", str(size)]
    rows = [bytes(source.choice(b"ab \r\0\xff\t") for _ in range(source.choice(LENGTHS))) for _ in range(count)]
    cut = source.choice(cuts)
    rest = source.choice([b"", b"a", b"last\r"]) if cut else b""
    return b"".join(row + b"\n" for row in rows) + rest, cut


def published(source, checkpoint):
    """A checkpoint with extension lines and signatures, or as it is."""
    more = b"".join(source.choice([b"extension\n", b" \n"]) for _ in range(source.choice([0, 0, 0, 1, 2])))
    signatures = [source.choice(SIGNATURES) for _ in range(source.choice([0, 0, 0, 1, 2, 100]))]
    return checkpoint + more + (b"\n" + b"".join(signatures) if signatures else b"")


def damaged(source, text, few):
    """Texts with a byte or a line dropped, changed, or put in front of; all of a short text, or a few."""
    few = SAMPLE if few is None and len(text) > LONG else few
    lines = text.splitlines(keepends=True)

    def places(count):
        return range(count) if few is None else [source.randrange(count) for _ in range(few if count else 0)]

    for at in places(len(text) + 1):
        byte = bytes([source.choice([source.randrange(256), *b"\n\r =0+/A\xe2"])])
        for middle, rest in (b"", at + 1), (byte, at + 1), (byte, at):
            yield text[:at] + middle + text[rest:]
    for at in places(len(lines)):
        yield b"".join(lines[:at] + lines[at + 1 :])
        yield b"".join([*lines[:at], source.choice(lines), *lines[at + source.randrange(2) :]])


def whole_and_damaged(source, kind, words, contents, few):
    """A case, and those where one of its texts is damaged."""
    yield Case(f"{kind}, whole", words, contents)
    for name in contents:
        for text in damaged(source, contents[name], few):
            yield Case(f"{kind}, {name} damaged", words, {**contents, name: text})


def numbers_of(source, size, most=5):
    """Some numbers, or a run of them."""
    numbers = [source.randint(1, size) for _ in range(source.randint(1, most))]
    return numbers if source.randrange(3) else [*range(numbers[0], min(numbers[0] + most, size + 1))]


def spelled(source, numbers):
    """Words for these numbers: singly, and runs of them as ranges, some with commas between."""
    parts = []
    for number in numbers:
        first, last = parts[-1] if parts else (0, -1)
        if number == last + 1 and source.randrange(8):
            parts[-1] = first, number
        else:
            parts.append((number, number))
    words = ""
    for first, last in parts:
        forms = [f"{first}", f"{first}", f"{first}-{first}", f"0{first}"] if first == last else [f"{first}-{last}"]
        words += source.choice([" ", ","]) * bool(words) + source.choice(forms)
    return words.split(" ")


def strange(source, size):
    """Strange words for numbers of a log of so many entries."""
    low, high = sorted(source.sample(range(1, size + 9), 2))
    text = source.choice(STRANGE)
    return text.format(low=low, high=high, size=size, past=size + 1, far=size + 10**5, many=low + 10**8).split(" ")


def near(source, numbers):
    """The words of numbers, or of others."""
    numbers = list(numbers)
    kind = source.randrange(8)
    if kind == 0:
        numbers[source.randrange(len(numbers))] += source.choice([-1, 1, 100, 1 << 62])
    elif kind == 1:
        source.shuffle(numbers)
    elif kind == 2:
        numbers.append(source.choice(numbers))
    return spelled(source, numbers) if source.randrange(2) else [*map(str, numbers)]


def seals(source, limit, few):
    data, cut = file_of(source, limit, [*CUTS, []])
    for words in (cut, [], ["--partial"], ["--whole-lines"], ["--blocks", str(source.choice([1, 7, 1 << 30]))]):
        named = source.choice([[], ["--part"], ["--origin", source.choice(ORIGINS)]])
        yield Case("a file", ["seal", *named, *words, source.choice(["log", "log", "-"])], {"log": data, "-": data})
    yield Case("a file that ends inside a line", ["seal", "log"], {"log": data + b"x"})
    origin = source.choice(["", " a", "a ", "a\tb", "x" * 101])
    yield Case("a wrong origin", ["seal", "--origin", origin, "log"], {"log": data})


def sealed(source, limit):
    """A file with at least one entry, how it is cut, its checkpoint and how many entries it has."""
    while True:
        data, cut = file_of(source, limit)
        checkpoint = printed(["seal", "--origin", source.choice(ORIGINS), *cut, "log"], {"log": data})
        size = log_texts.checkpoint(checkpoint)[1]
        if size:
            return data, cut, checkpoint, size


def proves(source, limit, few):
    data, cut, checkpoint, size = sealed(source, limit)
    numbers = numbers_of(source, size)
    contents = {"checkpoint": published(source, checkpoint), "log": data}
    words = ["prove", *cut, "checkpoint", "log"]
    yield from whole_and_damaged(source, "a file", [*words, *spelled(source, numbers)], contents, few)
    yield Case("other numbers", [*words, *near(source, numbers)], contents)
    yield Case("all, whole", [*words, "all"], contents)
    for _ in range(few or SAMPLE):
        yield Case("strange numbers", [*words, *strange(source, size)], contents)
    yield Case("a file that has grown", [*words, *map(str, numbers)], {**contents, "log": data + b"more\nand more"})
    yield Case("cut otherwise", ["prove", *source.choice(CUTS), *words[len(cut) + 1 :], "1"], contents)


def known(source):
    """A checkpoint of up to 2^62 entries, some of which are known, and a proof of these."""
    size = source.choice([source.randint(1, 40), source.randint(1, logs.MOST), logs.MOST, logs.MOST - 1])
    found = {name: source.choice([b"", b"a", b"entry %d" % name, b"a\nb"]) for name in numbers_of(source, size)}
    numbers = [source.choice([*found]) for _ in range(source.randint(0, 2))] + [*found]
    nodes = logs.ranges([name - 1 for name in numbers], size)
    digests = [source.randbytes(32) for _ in nodes]
    values = {(name - 1, name): logs.leaf_hash(data) for name, data in found.items()} | dict(zip(nodes, digests))
    checkpoint = checkpoint_text(b"known.example", size, logs.root_of(0, size, values))
    return checkpoint, entries_text([(name, found[name]) for name in numbers], digests), numbers


def verifies(source, limit, few):
    if source.randrange(2):
        checkpoint, proof, numbers = known(source)
        cut = []
    else:
        data, cut, checkpoint, size = sealed(source, limit)
        numbers = numbers_of(source, size) if source.randrange(4) else [*range(1, size + 1)]
        proof = printed(["prove", *cut, "c", "log", *map(str, numbers)], {"c": checkpoint, "log": data})
    contents = {"checkpoint": published(source, checkpoint), "proof": proof}
    ways = cut if cut[:1] == ["--blocks"] else []
    words = ["verify", *ways, "checkpoint", "proof"]
    found, digests = log_texts.entries(proof)
    kind = "entries" if ways or all(b"\n" not in data for _, data in found) else "line feeds inside"
    size = log_texts.checkpoint(checkpoint)[1]
    is_every = len(numbers) == size and numbers == [*range(1, size + 1)]
    everything = ["all"] if is_every and source.randrange(2) else []
    yield from whole_and_damaged(source, kind, [*words, *spelled(source, numbers)], contents, few)
    if everything or not ways:
        yield from whole_and_damaged(source, f"all {kind}", [*words, *everything], contents, few)
    yield Case("all", [*words, "all"], contents)
    yield Case("other numbers", [*words, *near(source, numbers)], contents)
    for _ in range(few or SAMPLE):
        yield Case("strange numbers", [*words, *strange(source, max(numbers))], contents)
    yield Case("all, printed otherwise", ["verify", *source.choice([["--raw"], ["--blocks", "3"]]), *words[-2:],
                                          *everything], contents)
    blocks = ["verify", "--blocks", str(source.randrange(1, 70)), *words[-2:]]
    yield Case("printed otherwise", [*blocks, *map(str, numbers)], contents)
    yield Case("raw", ["verify", "--raw", *words[-2:], *map(str, numbers[: source.choice([1, 1, 2])])], contents)
    other = [(name + source.choice([0, 1]), data + source.choice([b"", b"\n", b"x"])) for name, data in found]
    digests = digests if source.randrange(3) else [*digests, source.randbytes(32)][source.randrange(2) :]
    yield Case("entries changed", [*words, *map(str, numbers)], {**contents, "proof": entries_text(other, digests)})


def grown(source, limit):
    """A file that has grown, how it is cut, and the checkpoints of its beginning and of all of it."""
    data, cut, new, size = sealed(source, limit)
    told = fohlazu_commands.words_of("seal").parse_args([*cut, "log"])
    log = logs.Log(fohlazu_commands.entries_of(told, data, None))
    old = source.choice([0, size, *range(size)])
    return data, cut, checkpoint_text(log_texts.checkpoint(new)[0], old, log.root(0, old)), new


def others(source, checkpoint):
    """Other checkpoints: of another origin, size or root."""
    origin, size, root = log_texts.checkpoint(checkpoint)
    yield checkpoint_text(b"another.example", size, root)
    yield checkpoint_text(origin, max(0, size + source.choice([-1, 1, 100])), root)
    yield checkpoint_text(origin, size, source.randbytes(32))


def proves_growth(source, limit, few):
    data, cut, old, new = grown(source, limit)
    contents = {"old": published(source, old), "new": published(source, new), "log": data}
    words = ["prove-consistency", *cut, "old", "new", "log"]
    yield from whole_and_damaged(source, "growth", words, contents, few)
    for name in ("old", "new"):
        for other in others(source, contents[name]):
            yield Case(f"another {name} checkpoint", words, {**contents, name: other})


def known_growth(source):
    """Checkpoints of up to 2^62 entries, and a proof between them."""
    size = source.choice([source.randint(1, 40), source.randint(1, logs.MOST), logs.MOST])
    old = source.choice([source.randint(1, size), 1 << source.randrange(size.bit_length())])
    digests = [source.randbytes(32) for _ in logs.growth_ranges(old, size)]
    roots = logs.roots_of_growth(old, size, source.randbytes(32), digests)
    return *(checkpoint_text(b"known.example", *pair) for pair in zip((old, size), roots)), digests


def verifies_growth(source, limit, few):
    if source.randrange(2):
        old, new, digests = known_growth(source)
        proof = consistency_text(log_texts.checkpoint(old)[1], digests, published(source, new))
    else:
        data, cut, old, new = grown(source, limit)
        contents = {"old": old, "new": published(source, new), "log": data}
        proof = printed(["prove-consistency", *cut, "old", "new", "log"], contents)
    words, old = ["verify-consistency", "old", "proof"], published(source, old)
    yield from whole_and_damaged(source, "growth", words, {"old": old, "proof": proof}, few)
    size, digests, new = log_texts.consistency(proof)
    for other in others(source, new):
        yield Case("another new checkpoint", words, {"old": old, "proof": consistency_text(size, digests, other)})
    other = [*digests, source.randbytes(32)][source.randrange(2) :]
    yield Case("other digests", words, {"old": old, "proof": consistency_text(size, other, new)})


def joins(source, limit, few):
    size, count = 1 << source.randrange(4), source.randint(1, 5)
    rows = [b"%d" % source.randrange(1000) for _ in range(size * (count - 1) + source.randint(1, size))]
    data = [b"".join(row + b"\n" for row in rows[at : at + size]) for at in range(0, len(rows), size)]
    names = [f"part{at}" for at in range(len(data))]
    contents = {name: printed(["seal", "--part", "log"], {"log": part}) for name, part in zip(names, data)}
    words = ["join", "--origin", source.choice(ORIGINS), *names]
    whole = printed(["seal", *words[1:3], "log"], {"log": b"".join(data)})
    assert Case("", words, contents).answer().printed == whole
    yield from whole_and_damaged(source, "parts", words, contents, few)
    some = [source.choice(names) for _ in range(source.randint(1, 4))]
    yield Case("other parts", [*words[:3], *some], contents)
    count = source.choice([0, 1 << source.randrange(63), 3, 1 << 62])
    huge = {name: checkpoint_text(log_texts.PART, count, source.randbytes(32)) for name in names}
    yield Case("huge parts", words, {**huge, names[-1]: source.choice([*contents.values(), *huge.values()])})


CASES = {"seal": seals, "prove": proves, "verify": verifies, "join": joins}
CASES |= {"prove-consistency": proves_growth, "verify-consistency": verifies_growth}
# How many entries a file has at most, and how many places of a text are damaged, or none for each.
SIZES = [(1, 1), (9, 1), (33, 1), (257, 5), (3, None), (3, 40), (9, 40), (33, 40)]


def cases(command, source, size, least=200):
    """At least so many cases of a command, of files of a size or of any."""
    made = 0
    while made < least:
        for case in CASES[command](source, *((size, 1) if size else source.choice(SIZES))):
            yield case
            made += 1
