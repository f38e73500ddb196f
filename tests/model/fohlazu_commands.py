"""The commands of `fohlazu`: what they print, or refuse, and with which status."""

import argparse
import os
from itertools import chain, islice
from typing import NamedTuple, Optional

import log_texts
import logs
from log_texts import PART, checkpoint_text, consistency_text, entries_text

MOST_BYTES = 1 << 30
# How many entries may be requested, and what is said of more.
MAX_ENTRIES_PER_PROOF = 10**8
TOO_MANY = f"more than {MAX_ENTRIES_PER_PROOF} entries at once"
# What is said of a file whose partial line is refused.
PARTIAL_LINE = "ends inside a line: `--whole-lines` leaves it out, `--partial` takes it as an entry"
# The words of each command, of options that exclude each other one.
COMMANDS = {
    "seal": "--blocks=SIZE|--whole-lines|--partial --origin=ORIGIN|--part FILE",
    "prove": "--blocks=SIZE|--whole-lines|--partial CHECKPOINT FILE NUMBER+",
    "verify": "--blocks=SIZE|--raw CHECKPOINT PROOF NUMBER*",
    "prove-consistency": "--blocks=SIZE|--whole-lines|--partial OLD NEW FILE",
    "verify-consistency": "OLD PROOF",
    "join": "--origin=ORIGIN PART+",
}
REASONS = {logs.TOO_FEW_DIGESTS: "it has too few digests", logs.TOO_MANY_DIGESTS: "it has too many digests"}
REASONS |= {logs.OLD_ROOT_MISMATCH: "it does not begin with the entries of the old checkpoint"}
REASONS |= {logs.ROOT_MISMATCH: "it does not lead to the new checkpoint"}
# The same of a proof of entries, by what the model's verifier says.
ENTRIES = {"there are no indices": "it has no entries"}
ENTRIES |= {"an index is not below the size": "it has an entry past the last one of the checkpoint"}
ENTRIES |= {f"the proof has too {number} digests": f"it has too {number} digests: is it under another checkpoint?"
            for number in ("few", "many")}
ENTRIES |= {"one index has two leaf hashes": "it has two entries of one number"}
ENTRIES |= {"the proof is of another root":
            "its entries or digests are not those of the checkpoint: some changed, or it is under another one"}
# What is said of entries that are verified without numbers.
SECOND = "fohlazu: {}: it has more than one checkpoint: only the first is read\n"
UNCOMPARED = "fohlazu: entry numbers were not compared: check that they are those you requested"


class Refused(Exception):
    """Why a command stops: its status, the input and the reason, or the beginning of it; no input for wrong words."""

    def __init__(self, status, name, why):
        super().__init__(status, name, why)
        self.status = status
        self.name = name
        self.line = f"fohlazu: {name}: {why}"


class Answer(NamedTuple):
    """The exit status, what is printed, why the command is refused, what is said where it is not, and of which inputs
    standard error warns before that."""

    status: int
    printed: bytes
    refused: Optional[Refused] = None
    said: str = ""
    warned: tuple = ()

    def expected(self):
        """The exit status, what is printed, and the line of standard error: its beginning, or none for wrong words."""
        line = self.said if self.refused is None else self.refused.line if self.refused.name is not None else None
        return self.status, self.printed, line

    def counted(self):
        """What an answer is counted as."""
        if self.refused is None:
            return "accepted"
        if self.refused.name is None:
            return "no command"
        return f"{'malformed' if ': line ' in self.refused.line else 'refused'}, status {self.status}"


class Words(argparse.ArgumentParser):
    def error(self, message):
        raise Refused(2, None, message)


def number(least, most):
    """Reads a number between two bounds."""

    def read(word):
        if not (word.isascii() and word.isdecimal() and least <= int(word) <= most):
            raise ValueError(word)
        return int(word)

    return read


def ranges(words):
    """The ranges of numbers that words request: 3, 3-7 or 3,7. None are for all."""
    found = []
    for part in ",".join(words).split(",") if words not in ([], ["all"]) else []:
        first, *last = map(number(1, logs.MOST), part.split("-", 1))
        found.append(range(first, max(last, default=first) + 1))
    if not all(found) or sum(map(len, found)) > MAX_ENTRIES_PER_PROOF:
        raise ValueError(words)
    return found


def words_of(command):
    """Reads the words that a command takes."""
    words = Words(allow_abbrev=False, add_help=False)
    for part in COMMANDS[command].split():
        name = part.rstrip("+*")
        if name.isupper():
            words.add_argument(name, nargs=part[len(name) :] or None)
            continue
        group = words.add_mutually_exclusive_group()
        for option in part.split("|"):
            flag, _, value = option.partition("=")
            read = number(1, MOST_BYTES) if value == "SIZE" else str
            group.add_argument(flag, **({"type": read} if value else {"action": "store_true"}))
    return words


def command_of(words):
    """A command and its words, if it can be run."""
    if not words or words[0] not in COMMANDS:
        raise Refused(2, None, "no command")
    command, told = words[0], words_of(words[0]).parse_args(words[1:])
    if command == "seal" and told.origin is None:
        name = "stdin" if told.FILE == "-" else os.path.basename(told.FILE)
        told.origin = PART.decode() if told.part else f"localhost/{name}"
    names = [vars(told)[name] for name in COMMANDS[command].split() if name.isalpha()]
    if [*names, *getattr(told, "PART", [])].count("-") > 1 or (command == "join" and told.origin is None):
        raise Refused(2, None, "standard input twice, or no origin")
    if command in ("seal", "join") and not log_texts.is_origin(told.origin.encode()):
        raise Refused(2, None, "no origin")
    try:
        told.ranges = ranges(getattr(told, "NUMBER", []))
        told.is_all = getattr(told, "NUMBER", []) == ["all"]
    except ValueError:
        raise Refused(2, None, "no numbers") from None
    told.is_any = command == "verify" and not told.ranges and not told.is_all
    if command == "verify" and ((told.blocks and told.is_any) or (told.raw and sum(map(len, told.ranges)) != 1)):
        raise Refused(2, None, "no numbers, or too many")
    return command, told


class Inputs:
    """The bytes of files by their names, and what texts say; none where one can't be read."""

    def __init__(self, contents):
        self.contents = contents
        # The inputs that have a second checkpoint, of which standard error warns.
        self.warned = []

    def bytes(self, name):
        data = self.contents(name)
        if data is None:
            raise Refused(2, name, "")
        return data

    def checkpoint(self, name):
        """The bytes of a checkpoint or a part, up to its limit."""
        data = self.limited(name, log_texts.MOST_BYTES, 2)
        self.warned += [name] * log_texts.has_second(data)
        return data

    def limited(self, name, limit, status):
        """The bytes of an input, if they are not above a limit."""
        data = self.bytes(name)
        if len(data) > limit:
            raise Refused(status, name, f"it has more than {limit} bytes")
        return data

    @staticmethod
    def read(status, name, data, reading, where=""):
        try:
            return reading(data)
        except log_texts.Wrong as wrong:
            raise Refused(status, name, f"line {wrong.args[0]}{where}: expected ") from None


def refuse_if(condition, name, why):
    if condition:
        raise Refused(1, name, why)


def cut_entries(cut, data):
    """The entries of a file, in blocks of a size or as lines without their line feed, and whether it ends inside a line
    that is refused. A partial line may be an entry, or be left out."""
    if cut.isdigit():
        size = int(cut)
        return [data[at : at + size] for at in range(0, len(data), size)], False
    *lines, partial = data.split(b"\n")
    return lines + [partial] * (partial != b"" and cut == "include"), partial != b"" and cut == "refuse"


def entries_of(told, data, limit):
    """The entries of a file, up to a limit, or all."""
    cut = told.blocks or ("include" if told.partial else "leave-out" if told.whole_lines else "refuse")
    found, is_refused = cut_entries(str(cut), data)
    is_refused = is_refused and (limit is None or len(found) < limit)
    refuse_if(is_refused, told.FILE, PARTIAL_LINE)
    return found[:limit]


def tree_under(told, data, size, root):
    """The tree of the entries of a checkpoint, and these."""
    found = entries_of(told, data, size)
    refuse_if(len(found) < size, told.FILE, f"it has {len(found)} entries, and the checkpoint {size}: "
              "some are missing, or give `--blocks` as for `seal`")
    log = logs.Log(found)
    refuse_if(log.root(0, size) != root, told.FILE, "its entries are not those of the checkpoint: "
              "some changed, or give `--blocks` as for `seal`")
    return log, found


def seal(told, inputs):
    found = entries_of(told, inputs.bytes(told.FILE), None)
    return checkpoint_text(told.origin.encode(), len(found), logs.Log(found).root(0, len(found)))


def prove(told, inputs):
    _, size, root = inputs.read(2, told.CHECKPOINT, inputs.checkpoint(told.CHECKPOINT), log_texts.checkpoint)
    refuse_if(not told.ranges and size > MAX_ENTRIES_PER_PROOF, told.CHECKPOINT, TOO_MANY)
    names = [*(told.ranges or [range(1, max(size, 1) + 1)])]
    for each in names:
        past = max(each.start, size + 1)
        refuse_if(past in each, told.CHECKPOINT, f"it has {size} entries, and no entry {past}")
    log, found = tree_under(told, inputs.bytes(told.FILE), size, root)
    names = [*chain(*names)]
    digests = log.inclusion([name - 1 for name in names], size)
    return entries_text([(name, found[name - 1]) for name in names], digests)


def is_printable(told, size, name, data):
    if told.blocks:
        return 1 <= len(data) <= told.blocks if name == size else len(data) == told.blocks
    return told.raw or b"\n" not in data


def other_number(names, wanted):
    """What is said of the first place where the entries of a proof are not the requested ones."""
    same = os.path.commonprefix([names, wanted])
    name, want = ([*all[len(same):], None][0] for all in (names, wanted))
    why = f"it has entry {name} where {want} is requested" if name and want else (
        f"it has entry {name} after all that are requested" if name else
        f"it ends where entry {want} is requested")
    return f"{why}: give the numbers that it has, in its order, or none"


def verify(told, inputs):
    text, proof = inputs.checkpoint(told.CHECKPOINT), inputs.bytes(told.PROOF)
    _, size, root = inputs.read(2, told.CHECKPOINT, text, log_texts.checkpoint)
    found, digests = inputs.read(1, told.PROOF, proof, log_texts.entries)
    names = [name for name, _ in found]
    each = [range(1, max(size, 1) + 1)] if told.is_all else told.ranges
    wanted = [*islice(chain(*each), len(names) + 1)]
    refuse_if(wanted and names != wanted, told.PROOF, other_number(names, wanted))
    for name, data in found:
        refuse_if(not is_printable(told, size, name, data), told.PROOF, f"entry {name} is no line, or no block of this "
                  "size: give `--blocks` as for `seal`, or `--raw` to print one entry")
    leaves = [logs.leaf_hash(data) for _, data in found]
    verdict = logs.entries(size, [name - 1 for name in names], leaves, digests, root)
    refuse_if(verdict != "accepted", told.PROOF, ENTRIES.get(verdict))
    end = b"" if told.blocks or told.raw else b"\n"
    return b"".join((b"%d\t" % name if told.is_any else b"") + data + end for name, data in found)


def compare(name, old, new):
    """Refuses a new checkpoint that does not follow an old one."""
    refuse_if(old[0] != new[0], name, "its origin is not that of the old checkpoint")
    refuse_if(old[1] > new[1], name, f"it has {new[1]} entries, fewer than the {old[1]} of the old checkpoint: "
              "are both exchanged?")
    refuse_if(old[1] == new[1] and old[2] != new[2], name, "two histories of one log, with one size and different "
              "roots: keep both checkpoints as evidence")


def prove_consistency(told, inputs):
    texts = [inputs.checkpoint(name) for name in (told.OLD, told.NEW)]
    old, new = (inputs.read(2, name, text, log_texts.checkpoint) for name, text in zip((told.OLD, told.NEW), texts))
    compare(told.NEW, old, new)
    log, _ = tree_under(told, inputs.bytes(told.FILE), *new[1:])
    refuse_if(log.root(0, old[1]) != old[2], told.FILE, "its first entries are not those of the old checkpoint")
    digests = log.consistency(old[1], new[1])
    return consistency_text(old[1], digests, texts[1])


def verify_consistency(told, inputs):
    text = inputs.checkpoint(told.OLD)
    proof = inputs.limited(told.PROOF, log_texts.MOST_CONSISTENCY_BYTES, 1)
    old = inputs.read(2, told.OLD, text, log_texts.checkpoint)
    size, digests, next_text = inputs.read(1, told.PROOF, proof, log_texts.consistency)
    refuse_if(size != old[1], told.PROOF, f"it is a proof from {size} entries, and the old checkpoint has {old[1]}")
    new = inputs.read(1, told.PROOF, next_text, log_texts.checkpoint, " of its checkpoint")
    compare(told.PROOF, old, new)
    verdict = logs.consistency(old[1], new[1], digests, old[2], new[2])
    refuse_if(verdict != logs.ACCEPTED, told.PROOF, REASONS.get(verdict))
    return next_text


def join(told, inputs):
    texts = [inputs.checkpoint(name) for name in told.PART]
    parts = [inputs.read(2, name, text, lambda text: log_texts.checkpoint(text, True))
             for name, text in zip(told.PART, texts)]
    sizes = [size for _, size, _ in parts]
    for at, (name, size) in enumerate(zip(told.PART, sizes)):
        fits = 1 <= size <= sizes[0] if at + 1 == len(sizes) else size == sizes[0] and size.bit_count() == 1
        refuse_if(not fits, name, f"{size} entries: all parts have one size, a power of two ({sizes[0]} in the first), "
                  "the last may have fewer")
    refuse_if(sum(sizes) > logs.MOST, told.PART[0], "more than 2^62 entries")
    whole = logs.Log([])
    whole.leaves = [root for _, _, root in parts]
    return checkpoint_text(told.origin.encode(), sum(sizes), whole.root(0, len(parts)))


ANSWERS = {"seal": seal, "prove": prove, "verify": verify, "join": join}
ANSWERS |= {"prove-consistency": prove_consistency, "verify-consistency": verify_consistency}


def answer(words, contents):
    """What a command answers; `contents` tells the bytes of a file by its name."""
    inputs = Inputs(contents)
    try:
        command, told = command_of(words)
        printed = ANSWERS[command](told, inputs)
        return Answer(0, printed, None, UNCOMPARED if told.is_any else "", tuple(inputs.warned))
    except Refused as refused:
        return Answer(refused.status, b"", refused, "", tuple(inputs.warned))
