"""Models odd surroundings of `fohlazu`: files that can't be read or written, or that change, and odd arguments."""

import os
import random
import signal
import subprocess
from pathlib import Path

import fohlazu_commands
from random_files import printed
from running import Ran, faults, is_line

DATA = b"one\ntwo\n\nfour\n"
OLD = printed(["seal", "--origin", "odd", "file"], {"file": DATA[:8]})
NEW = printed(["seal", "--origin", "odd", "file"], {"file": DATA})
CONTENTS = {"file": DATA, "old": OLD, "new": NEW}
CONTENTS |= {f"part{at}": printed(["seal", "--part", "-"], {"-": data}) for at, data in enumerate([DATA[:8], DATA[8:]])}
PROOF = CONTENTS["proof"] = printed(["prove", "new", "file", "2", "4"], CONTENTS)
CONTENTS["growth"] = printed(["prove-consistency", "old", "new", "file"], CONTENTS)
COMMANDS = {words.split()[0]: words.split() for words in (
    "seal --origin odd file", "prove new file 2 4", "verify new proof 2 4", "prove-consistency old new file",
    "verify-consistency old growth", "join --origin odd part0 part1")}
# Arguments that are no command, or leave open what is wanted; the model refuses them as well.
WRONG = (Path(__file__).parent / "no-commands.txt").read_text().splitlines()
UNWRITTEN = "standard output: "
# Bytes of a file that changes while it is read, and of a file whose beginning alone is to be read.
CHANGING, LONG = 300_000, 100_000_000


def refused(ran, status, why):
    """What is wrong, where a run has to end with a status, to say why, and to print nothing."""
    return faults(ran, status, line=f"fohlazu: {why}")


def unread(program):
    """Each file in turn is a folder, is one that may not be read, or is in a folder that is none; so is the input."""
    (program.folder / "folder").mkdir()
    program.write("locked", b"")
    (program.folder / "locked").chmod(0)
    names = ["folder", "missing", "file/inside", "x" * 260] + ([] if os.geteuid() == 0 else ["locked"])
    for command, words in COMMANDS.items():
        for place, word in enumerate(words):
            for name in names if word in CONTENTS else []:
                ran = program.run([*words[:place], name, *words[place + 1 :]], CONTENTS)
                yield f"{command}, {word} is {name[:20]}", refused(ran, 2, f"{name}: ")
    folder = os.open(program.folder, os.O_RDONLY)
    yield "standard input is a folder", refused(program.run(["seal", "-"], stdin=folder), 2, "-: ")
    os.close(folder)
    closed = program.run(["seal", "-"], stdin=subprocess.DEVNULL, preexec_fn=lambda: os.close(0))
    yield "standard input is closed", refused(closed, 2, "-: ")


def unwritten(program):
    """Standard output is full, is closed, or is a pipe that nobody reads; or standard error is closed."""
    for command, words in COMMANDS.items():
        with open("/dev/full", "wb") as full:
            yield f"{command}, a full disk", refused(program.run(words, CONTENTS, stdout=full), 2, UNWRITTEN)
        yield f"{command}, a closed output", refused(program.run(words, preexec_fn=lambda: os.close(1)), 2, UNWRITTEN)
        reader, writer = os.pipe()
        os.close(reader)
        ran = program.run(words, stdout=writer, preexec_fn=lambda: signal.signal(signal.SIGPIPE, signal.SIG_IGN),
                          restore_signals=False)
        os.close(writer)
        yield f"{command}, a pipe that nobody reads", refused(ran, 2, UNWRITTEN)
        ran = program.run(words, dict.fromkeys(CONTENTS, b"x"), preexec_fn=lambda: os.close(2))
        yield f"{command}, a refusal that can't be said", faults(ran, 1 if command == "seal" else 2)


def arguments(program):
    """Arguments that aren't UTF-8, that ask for help or the version, and that are no command."""
    for command, words in COMMANDS.items():
        ran = program.run([*words[:-1], b"\xff\xfe"], CONTENTS)
        yield f"{command}, a word that isn't UTF-8", faults(ran, 2, line=None)
        yield f"{command} --help", helped(program.run([words[0], "--help"]), words[0].encode())
    yield "--help", helped(program.run(["--help"]), b"verify-consistency")
    yield "--version", helped(program.run(["--version"]), b"fohlazu ")
    for words in WRONG:
        answer = fohlazu_commands.answer(words.split(), CONTENTS.get)
        is_wrong = [] if answer.expected() == (2, b"", None) else [f"the model answers {answer}"]
        yield f"fohlazu {words}", [*is_wrong, *faults(program.run(words.split(), CONTENTS), 2, line=None)]


def helped(ran, word):
    if ran.status != 0 or word not in ran.printed or ran.said:
        yield f"{ran}"


def begun(program, words, stdin):
    return subprocess.Popen([program.path, *words], cwd=program.folder, stdin=stdin, stdout=subprocess.PIPE,
                            stderr=subprocess.PIPE, bufsize=0)


def in_pieces(program, words, pieces):
    """A run whose standard input comes in pieces, and whether it took all of them."""
    child = begun(program, words, subprocess.PIPE)
    try:
        for piece in pieces:
            child.stdin.write(piece)
        took_all = True
    except BrokenPipeError:
        took_all = False
    printed, said = child.communicate()
    return Ran(child.returncode, printed, said), took_all


def streamed(program):
    """Files that come byte by byte, and that never end; a number past the end leaves a file unread."""
    ran, _ = in_pieces(program, ["seal", "--origin", "odd", "-"], [DATA[at : at + 1] for at in range(len(DATA))])
    yield "a file that comes byte by byte", faults(ran, 0, NEW)
    program.run(COMMANDS["prove"], CONTENTS)
    endless = (DATA + b"more\n" * 1000 for _ in range(LONG // 5000))
    ran, took_all = in_pieces(program, ["prove", "new", "-", "2", "4"], endless)
    yield "a file that goes on for long", [*faults(ran, 0, PROOF), *["it is read to its end"] * took_all]
    yield "a number past the end", refused(program.run(["prove", "new", "missing", "5"], CONTENTS), 1,
                                           "new: it has 4 entries, and no entry 5")


def shrink(path, number):
    os.truncate(path, max(0, CHANGING - 1000 * number))


def grow(path, number):
    with path.open("ab") as file:
        file.write(b"%d\n" % number)


def flip(path, number):
    with path.open("r+b") as file:
        file.seek(CHANGING - 1500 * number - 1)
        file.write(b"%d" % (number % 10))


def changing(program):
    """A file that changes after it was sealed, and while it is read: the answer is right, or it is refused."""
    source = random.Random(1)
    data = b"".join(source.randbytes(100).hex().encode() + b"\n" for _ in range(CHANGING // 200))
    size = data.count(b"\n")
    contents = {"new": printed(["seal", "file"], {"file": data}), "file": data}
    words = ["prove", "new", "file", "1", str(size // 2), str(size)]
    proof = printed(words, contents)
    for name, other in [("cut", data[:-201]), ("emptied", b""), ("changed", data[:1000] + b"x" + data[1001:])]:
        changed = {**contents, "file": other}
        answer = fohlazu_commands.answer(words, changed.get)
        is_answered = [] if answer.status else ["the model answers"]
        yield f"a file that was {name}", [*is_answered, *faults(program.run(words, changed), *answer.expected())]
    for change in (shrink, grow, flip):
        program.written.pop("file", None)
        program.write("file", data)
        child = begun(program, words, subprocess.DEVNULL)
        for number in range(200):
            change(program.folder / "file", number)
        got, said = child.communicate()
        program.written.pop("file", None)
        is_refused = child.returncode in (1, 2) and not got and is_line(said)
        is_right = is_refused or (child.returncode, got) == (0, proof)
        wrong = [] if is_right else [f"{child.returncode}, {got[:200]}, {said}"]
        yield f"{change.__name__} a file while it is read", wrong


def shrinking(program):
    """A regular file that has fewer bytes than its size: those of the kernel are said to have a page."""
    path = "/sys/devices/system/cpu/online"
    if os.path.exists(path) and os.stat(path).st_size > len(open(path).read()):
        yield "a file that shrinks", refused(program.run(["seal", path]), 2, f"{path}: it shrank while it was read")


def tests(program):
    """Each test with its faults."""
    for each in (unread, unwritten, arguments, streamed, changing, shrinking):
        yield from each(program)
