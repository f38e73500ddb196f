"""The texts of logs by C2SP's tlog-checkpoint, signed-note and tlog-witness, and proofs of entries: read strictly, and
printed. A text is wrong at a line, numbered from 1, where it is read no further."""

from base64 import b64decode, b64encode
from itertools import takewhile

MOST_BYTES = 10**6
# With a size of 19 digits, a checkpoint of this origin has as many bytes as it may.
MOST_ORIGIN_BYTES = MOST_BYTES - len(b"\n") - len(b"%d\n" % (1 << 62)) - len(b64encode(bytes(32)) + b"\n")
# A consistency proof has its old size in at most 24 bytes, up to 63 digests, a blank line and a checkpoint.
MOST_DIGESTS = 63
MOST_CONSISTENCY_BYTES = len(b"old %d\n" % (1 << 62)) + MOST_DIGESTS * 45 + 1 + MOST_BYTES
PART = b"fohlazu part 1"
DASH = "—".encode()


class Wrong(Exception):
    """The number of the first wrong line."""


def is_text(line):
    try:
        line.decode()
    except UnicodeDecodeError:
        return False
    return all(byte >= 32 for byte in line)


def is_origin(line):
    if not is_text(line):
        return False
    text = line.decode()
    return 1 <= len(line) <= MOST_ORIGIN_BYTES and text[0] not in " \ufeff" and text[-1] != " "


def number(line):
    """The number that a line is, up to 2^62."""
    is_number = line.isdigit() and len(line) < 20 and str(int(line)).encode() == line and int(line) <= 1 << 62
    return int(line) if is_number else None


def unb64(line):
    """The bytes that a line is in base64, in their one spelling."""
    try:
        found = b64decode(line, validate=True)
    except ValueError:
        return None
    return found if b64encode(found) == line else None


def digest(line):
    found = unb64(line)
    return found if found is not None and len(found) == 32 else None


def is_key_name(name):
    return is_text(name) and name != b"" and not any(char.isspace() or char == "+" for char in name.decode())


def signature(line):
    words = line.split(b" ")
    if len(words) != 3 or words[0] != DASH or not is_key_name(words[1]):
        return None
    return line if len(unb64(words[2]) or b"") >= 5 else None


def one(line):
    """A reader of this line alone."""
    return lambda found: line if found == line else None


def counted(word):
    """A reader of a word and a number."""
    return lambda line: number(line[len(word) :]) if line.startswith(word) else None


class Lines:
    """The lines of a text, read one after another. A reader answers nothing where a line is wrong."""

    def __init__(self, text):
        self.at, self.text, self.start = 1, text, 0

    def read(self, reader):
        end = self.text.find(b"\n", self.start)
        found = reader(self.text[self.start : end]) if end >= 0 else None
        if found is None:
            raise Wrong(self.at)
        self.at, self.start = self.at + 1, end + 1
        return found

    def bytes(self, length):
        """So many bytes, and the line feed after them."""
        data, end = self.text[self.start : self.start + length], self.start + length
        if self.text[end : end + 1] != b"\n":
            raise Wrong(self.at)
        self.at, self.start = self.at + data.count(b"\n") + 1, end + 1
        return data

    def end(self):
        if self.start < len(self.text):
            raise Wrong(self.at)


def checkpoint(text, is_part=False):
    """The origin, the size and the root of a checkpoint, or of a part."""
    if len(text) > MOST_BYTES:
        raise Wrong(1)
    lines = Lines(text)
    origin = lines.read(one(PART) if is_part else lambda line: line if is_origin(line) and line != PART else None)
    size, root = lines.read(number), lines.read(digest)
    line = None
    while line != b"" and lines.start < len(text):
        line = lines.read(lambda line: line if is_text(line) else None)
    # A blank line ends the extension, and one to a hundred signatures follow.
    for count in range(100 if line == b"" else 0):
        if count == 0 or lines.start < len(text):
            lines.read(signature)
    lines.end()
    return origin, size, root


def has_second(text):
    """Whether a count and a root stand among the extension lines of a text, with a line ahead of them for an origin."""
    lines = [*takewhile(bool, text.split(b"\n")[:-1])][4:]
    return any(count.isdigit() and len(root) == 44 and root.endswith(b"=") for count, root in zip(lines, lines[1:]))


def entries(text):
    """The entries of a proof, each with its number, and its digests."""

    def head(line):
        words = line.split(b" ")
        found = [number(word) for word in words[1:]]
        return found if len(words) == 3 and words[0] == b"entry" and found[0] and found[1] is not None else None

    lines, found = Lines(text), []
    lines.read(one(b"fohlazu proof 1"))
    for _ in range(lines.read(counted(b"entries "))):
        name, length = lines.read(head)
        found.append((name, lines.bytes(length)))
    digests = [lines.read(digest) for _ in range(lines.read(counted(b"digests ")))]
    lines.end()
    return found, digests


def consistency(text):
    """The old size, the digests and the new checkpoint, as it stands, of a proof."""
    lines = Lines(text)
    old, digests = lines.read(counted(b"old ")), []
    while True:
        found = lines.read(lambda line: line if line == b"" else digest(line) if len(digests) < MOST_DIGESTS else None)
        if found == b"":
            return old, digests, text[lines.start :]
        digests.append(found)


def checkpoint_text(origin, size, root):
    return b"%s\n%d\n%s\n" % (origin, size, b64encode(root))


def digest_lines(digests):
    return b"".join(b64encode(digest) + b"\n" for digest in digests)


def entries_text(found, digests):
    heads = b"".join(b"entry %d %d\n%s\n" % (name, len(data), data) for name, data in found)
    return b"fohlazu proof 1\nentries %d\n%sdigests %d\n" % (len(found), heads, len(digests)) + digest_lines(digests)


def consistency_text(old, digests, checkpoint):
    return b"old %d\n%s\n%s" % (old, digest_lines(digests), checkpoint)
