"""Models `mmcs`: arguments and an input to what is printed, or an error with its line and status; and how its cases are
written."""

import re
from itertools import chain

from claims import height_errors, index_errors
from geometry import FIXED, LOWERED, MAX_NUMBER
from nodes import WORD, Fold, Scheme, Sha256

USAGE = "usage: mmcs fold|sha256 2|4|8 CAP[f] commit|open I..|check I.."
# The functions of a hash, and the greatest number of a row.
HASHES = {"fold": (Fold, WORD), "sha256": (Sha256, 255)}
ESCAPES = {b"n": b"\n", b"r": b"\r", b"t": b"\t", b"0": b"\0"}


class Fault(Exception):
    """A line and a status."""

    def __init__(self, line, status=1):
        super().__init__(line)
        self.status = status


def number_of(word, greatest):
    """The number that a word is; none where it is another word or too great."""
    digits = word.lstrip("0") or "0"
    is_number = re.fullmatch("[0-9]+", word) and len(digits) <= 20 and int(digits) <= greatest
    return int(digits) if is_number else None


def command_of(words):
    """The scheme of a command, the greatest number of a row, the action and the indices."""
    if len(words) < 4 or words[0] not in HASHES or words[1] not in ("2", "4", "8"):
        raise Fault(USAGE, 2)
    name, arity, cap, action, *indices = words
    functions, greatest = HASHES[name]
    cap_height, *indices = (number_of(word, MAX_NUMBER) for word in (cap.removesuffix("f"), *indices))
    if action not in ("commit", "open", "check") or (action == "commit" and indices) or None in (cap_height, *indices):
        raise Fault(USAGE, 2)
    rule = FIXED if cap.endswith("f") else LOWERED
    return Scheme(int(arity), cap_height, rule, functions=functions), greatest, action, indices


def matrices_of(data, greatest):
    """The matrices that an input stands for."""
    found, is_open = [], False
    for line, piece in enumerate(data.decode("latin-1").split("\n"), 1):
        words = piece.removesuffix("\r").replace("\t", " ").split(" ")
        row = [number_of(word, greatest) for word in words if word]
        if None in row:
            raise Fault(f"line {line}: not a number from 0 to {greatest}")
        if row and not is_open:
            found.append([])
        is_open = bool(row)
        if row and found[-1] and len(row) != len(found[-1][0]):
            raise Fault(f"line {line}: expected {len(found[-1][0])} numbers, got {len(row)}")
        if row:
            found[-1].append(row)
    return found


def printed(scheme, action, indices, matrices):
    """The lines that are printed."""
    heights = list(map(len, matrices))
    for error in chain(height_errors(heights), index_errors(heights, indices)):
        raise Fault(error)
    if action == "check":
        return [f"ok {scheme.shape(heights).boundary_len(indices)}"]
    tree = scheme.tree(matrices)
    lines, digests = [], tree.cap() if action == "commit" else tree.proof(indices)
    for index in indices:
        lines += [f"index {index}", *(" ".join(map(str, row)) for row in tree.rows(index))]
    lines += [f"digests {len(digests)}"] if action == "open" else []
    return lines + [digest.hex() if isinstance(digest, bytes) else f"{digest:08x}" for digest in digests]


def answered(words, data, is_unread=False):
    """What is printed, or nothing and the fault. An unread input fails, wherever it does."""
    try:
        scheme, greatest, action, indices = command_of(words)
        if is_unread:
            raise Fault("read failed")
        lines = printed(scheme, action, indices, matrices_of(data, greatest))
        return "".join(line + "\n" for line in lines), None
    except Fault as fault:
        return "", fault


def output(words, data, is_unread=False):
    """The same as one text."""
    text, fault = answered(words, data, is_unread)
    return f"{text}{fault} (status {fault.status})" if fault else text


def expected(words, data):
    """The exit status, what is printed, and the line of standard error."""
    text, fault = answered(words, data)
    return (fault.status, b"", str(fault)) if fault else (0, text.encode(), "")


def bytes_of(written):
    """The bytes that are written with escapes."""
    return re.sub(rb"\\(x..|.)", lambda found: bytes([int(found[1][1:], 16)]) if len(found[1]) > 1 else
                  ESCAPES.get(found[1], found[1]), written.encode())


# How an empty word is written.
QUOTED = '""'


def escaped(data):
    """Bytes as they are written: what is not printed, quotes, backslashes and bars by their numbers."""
    text = "".join(chr(byte) if 32 <= byte < 127 and byte not in b'"\\|' else f"\\x{byte:02x}" for byte in data)
    return text.replace("\\x0a", "\\n")


# The kinds of cases: that of an input that fails is answered otherwise.
WHOLE, UNREAD, UNWRITTEN = "mmcs", "mmcs_unread", "mmcs_unwritten"


def line_of(words, data, kind=WHOLE):
    """The case of a command and an input, and how its answer is written."""
    answer = escaped(output(words, data, kind == UNREAD).encode()).replace("\\x7c", "|")
    return f'{kind} | {" ".join(word or QUOTED for word in words)} | "{escaped(data)}"', answer


def case_of(line):
    """What its line says of the answer to a case, and what the model says."""
    kind, rest = line.split(" | ", 1)
    written, rest = rest.split('| "', 1)
    data, expected = map(bytes_of, rest.split('" | ', 1))
    words = ["" if word == QUOTED else word for word in written.split()]
    return expected.decode(), output(words, data, kind == UNREAD)
