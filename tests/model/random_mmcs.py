"""Models random users of `mmcs`: matrices and words, whole and damaged, and random bytes."""

from random_batches import heights_of

CAPS = ["0", "0", "0", "1", "2", "1f", "3f", "9"]
BYTES = b"\n\n \t\r0123456789abcdefABFgx-+"
# Other words for the hash, the arity and the cap, and for what follows.
OTHERS = [["fold", "sha256", "x"], ["2", "4", "8", "3"], [*CAPS, "f", "x"]]
WORDS = ["commit", "open", "check", "4x1", "0", "1", "x", "", "16", "+1", "00", "18446744073709551616"]
# What an answer begins with, and what it is counted as.
BEGINNINGS = {"ok": "checked", "line": "a faulty line", "usage": "no command"}


def input_of(random, size, limit):
    """Matrices as the program reads them, and how tall they are."""
    heights = heights_of(random, random.randrange(1, size + 1))
    if random.random() < 0.2:
        heights = [random.randrange(1, size + 1) for _ in heights]
    gap, end = random.choice([" ", " ", "  ", "\t"]), random.choice(["\n", "\n", "\n", "\r\n", "\t \r\n"])
    texts = []
    for height in heights:
        width = random.randrange(1, 4)
        rows = [[str(random.randrange(limit)) for _ in range(width)] for _ in range(height)]
        texts.append("".join(gap.join(row) + end for row in rows))
    return end.join(texts).encode(), max(heights)


def damaged(random, data):
    """An input with a few bytes dropped, put in or replaced."""
    data = bytearray(data)
    for _ in range(random.choice([1, 1, 2, 5])):
        place = random.randrange(len(data) + 1)
        added = bytes([random.choice([random.randrange(256), *BYTES])])
        data[place : place + random.randrange(2)] = random.choice([b"", added])
    return bytes(data)


def runs(random, size=None):
    """Words and inputs, each with what it is counted as."""
    hash_name = random.choice(["fold", "fold", "sha256"])
    head = [hash_name, random.choice("248"), random.choice(CAPS)]
    limit = random.choice([10, 256 if hash_name == "sha256" else 1 << 32])
    data, tallest = input_of(random, size or random.choice([1, 2, 4, 6, 9, 20]), limit)
    indices = [str(random.randrange(tallest)) for _ in range(random.choice([0, 1, 1, 2, 3, 5]))]
    for words in ([*head, "commit"], [*head, "open", *indices], [*head, "check", *indices]):
        yield words, data, "whole"
        yield words, damaged(random, data), "damaged"
        place = random.randrange(len(words))
        other = random.choice([*OTHERS, *[WORDS] * len(words)][place])
        yield [*words[:place], other, *words[place + 1 :]], data, "other words"
        yield words, random.randbytes(random.randrange(20)), "random bytes"
    past = tallest + random.choice([0, 1, 1 << 40])
    yield [*head, random.choice(["open", "check"]), "0", str(past)], data, "an index past the end"


def counted(kind, answer):
    """What an answer is counted as."""
    for beginning, what in BEGINNINGS.items():
        if answer.startswith(beginning):
            return f"{kind}: {what}"
    return f"{kind}: {'refused' if answer.endswith(')') else 'printed'}"
