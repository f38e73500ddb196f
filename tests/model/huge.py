"""Models huge claims, which take no memory, and large inputs of `fohlazu` and of `mmcs`."""

import random

import fohlazu_commands
import random_files
import logs
from claims import Error
from log_texts import checkpoint_text
from random_files import printed
from running import faults

MIB = 1 << 20
# What a run may hold whose texts are short.
LITTLE = 16 * MIB
LAST = (1 << 64) - 1
# Inputs of mmcs: how many pieces, and which.
TABLES = {"one line": (50_000_000, b"1 "), "blank lines": (10_000_000, b"\n"), "matrices": (1_000_000, b"1\n\n")}


def compared(program, name, words, contents, held=LITTLE, is_told=False):
    """A measured run beside the model."""
    answer = fohlazu_commands.answer(words, contents.get)
    ran = program.measured(words, contents)
    if is_told:
        print(f"{name}: {ran.seconds:.2f} s, {ran.held / MIB:.1f} MiB")
    much = [f"holds {ran.held / MIB:.1f} MiB, expected at most {held / MIB:.1f}"] if ran.held > held else []
    return name, [*faults(ran, *answer.expected()), *much]


def claims(program):
    """Texts that say huge numbers."""
    data, most = b"a\nb\nc\n", logs.MOST
    contents = {"file": data, "checkpoint": printed(["seal", "file"], {"file": data})}
    contents["proof"] = proof = printed(["prove", "checkpoint", "file", "2"], contents)
    prove, verify = ["prove", "checkpoint", "file"], ["verify", "checkpoint", "proof", "2"]
    for size in (most, most + 1, LAST + 1):
        huge = {**contents, "checkpoint": checkpoint_text(b"huge", size, bytes(32))}
        for words in ([*prove, "2"], [*prove, str(most)], [*prove, "--blocks", "1073741824", "2"], [*prove, "all"],
                      [*prove, f"1-{10**8 + 1}"], verify):
            yield compared(program, f"{words[0]}, {size} entries", words, huge)
    for head in ("entries %d", "entry 2 %d", "entry %d 1", "digests %d"):
        for number in (most, LAST):
            word, *_ = line = (head % number).encode().split(b" ")
            lines = [b" ".join(line) if own.split(b" ")[0] == word else own for own in proof.split(b"\n")]
            yield compared(program, f"verify, {head % number}", verify, {**contents, "proof": b"\n".join(lines)})


def known_trees(program):
    """Checkpoints of up to 2^62 entries, some of which are proved."""
    source = random.Random(1)
    for _ in range(40):
        checkpoint, proof, numbers = random_files.known(source)
        words = ["verify", "checkpoint", "proof", *map(str, numbers)]
        yield compared(program, f"entries {numbers}", words, {"checkpoint": checkpoint, "proof": proof})


def file_tests(program, what, entries, numbers):
    """A file is sealed, and some of its entries are proved and verified."""
    contents = {"file": b"\n".join([*entries, b""])}
    contents["checkpoint"] = printed(["seal", "file"], contents)
    yield compared(program, f"seal, {what}", ["seal", "file"], contents, LITTLE, True)
    for name, words, held in numbers:
        prove = ["prove", "checkpoint", "file", *words]
        contents["proof"] = printed(prove, contents)
        yield compared(program, f"prove {name}, {what}", prove, contents, held, True)
        verify = ["verify", "checkpoint", "proof", *words]
        yield compared(program, f"verify {name}, {what}", verify, contents, held, True)


def long_tests(program, part):
    """A line of 100 MB among short ones, and 2^20 lines, or a part of them."""
    long = bytes(range(11, 256)) * (100_000_000 // 245 // part)
    room = LITTLE + 4 * len(long)
    yield from file_tests(program, f"a line of {len(long)} bytes", [b"first", long, b"", b"last"],
                          [("another", ["4"], LITTLE), ("it", ["2"], room)])
    count = (1 << 20) // (1 << 7 if part > 1 else 1)
    some = [str(min(count, 1 + 37 * at)) for at in range(5000 // min(part, 10))]
    entries, room = [b"%d" % number for number in range(1, count + 1)], LITTLE + 400 * count
    yield from file_tests(program, f"{count} lines", entries, [(str(len(some)), some, LITTLE), ("all", ["all"], room)])
    contents = {"file": b"\n".join([*entries, b""])}
    contents["checkpoint"] = printed(["seal", "file"], contents)
    contents["proof"] = printed(["prove", "checkpoint", "file", "all"], contents)
    yield compared(program, "verify 1 of all", ["verify", "checkpoint", "proof", "1"], contents, room, True)


def digest_of_ones(count):
    """The fold digest of so many ones: the map that takes a one in, applied so often, by squaring."""
    factor, added, result = 31, 1, 1
    while count:
        if count & 1:
            result = (factor * result + added) % (1 << 32)
        factor, added = factor * factor % (1 << 32), (factor * added + added) % (1 << 32)
        count >>= 1
    return b"%08x\n" % result


def table_run(program, name, count, piece):
    """A run of `mmcs` on so many pieces, and what is wrong about its answer."""
    program.write("large", piece * count)
    with (program.folder / "large").open("rb") as data:
        ran = program.measured(["fold", "2", "0", "commit"], {}, data)
    print(f"{name}, {count * len(piece)} bytes: {ran.seconds:.2f} s, {ran.held / MIB:.1f} MiB")
    is_refused = "blank" in name
    expected = (1, b"", str(Error("EmptyBatch"))) if is_refused else (0, digest_of_ones(count))
    return ran, [*faults(ran, *expected)]


def table_tests(program, part):
    """Each input of `mmcs`, or a part of it, and half of that: time and memory have to be linear."""
    for name, (count, piece) in TABLES.items():
        half, wrong = table_run(program, name, count // part // 2, piece)
        whole, more = table_run(program, name, count // part, piece)
        is_linear = whole.seconds <= 3 * half.seconds + 0.5 and whole.held <= 2.5 * half.held + 30 * MIB
        yield name, [*wrong, *more] + ([] if is_linear else ["not linear"])


def log_tests(program, part):
    """Each test of `fohlazu` with its faults."""
    yield from claims(program)
    yield from known_trees(program)
    yield from long_tests(program, part)
