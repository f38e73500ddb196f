"""python3 tests/output [quick]    what `fohlazu` does with the file that `-o` names, what it says, and how far it is

- A run with `-o` is killed at each of its system calls, and each of its calls that touches files fails in turn. The
  file then has its old contents or the whole new ones, inputs are as they were, and a run that fails leaves no other
  file. A killed run may leave one, `.fohlazu-N`, that allows no more than the old file. Where the folder alone can't be
  synced, a run fails with the new file.
- On a full disk the old file stays. Outputs that are inputs or no regular files are refused; links and modes stay.
- Mistakes have their lines; numbers are taken as ranges and with commas; where none are given, `verify` says that they
  were not compared. A second checkpoint in a file has a warning.
- A text that is longer than it may be is refused at the first byte above, from a file, a pipe and a device without end,
  within 8 MiB and 0.1 s of processor time; so are entries that a checkpoint claims and the file has not, within 8 MiB.
- Proofs of entries are verified within three times their bytes and 8 MiB: one entry of many bytes, many entries of no
  byte, many digests. An entry, a length or a digest that a proof claims and has not is refused within 8 MiB.
- How far a file is read is shown on a terminal, from the first second on, at most four times a second, and is taken
  away.

Calls need Debian's strace, and a full file system the right to mount one: what is missing is named and left out.
"""

import contextlib
import os
import pty
import re
import shutil
import signal
import subprocess
import sys
import tempfile
import threading
import time
from collections import Counter
from concurrent.futures import ThreadPoolExecutor
from functools import partial
from itertools import accumulate
from pathlib import Path

sys.path.insert(0, str(Path(__file__).resolve().parents[2] / "tools"))
from script import TOP, arguments, built  # first: it makes those below known

import odd
from log_texts import checkpoint_text, entries_text
from logs import leaf_hash
from running import Program, Ran

CONTENTS = odd.CONTENTS
STRACE = ["strace", "-qq", "-o"]
# The runs that are killed and whose calls fail: with an old file, through a link to one, and with none and no byte.
RUNS = {
    "seal": ["seal", "--origin", "odd", "-o", "out", "file"],
    "prove": ["prove", "-o", "link", "new", "file", "2", "4"],
    "verify": ["verify", "-o", "fresh", "--raw", "empty", "none", "1"],
}
# Where these outputs go, and what they may allow.
PLACES = {"seal": "out", "prove": "target", "verify": "fresh"}
MODES = {"seal": 0o600, "prove": 0o640, "verify": 0o666}
FAILING = {"openat", "read", "write", "fsync", "rename", "fchmod", "statx", "readlink", "close"}
ERRORS = ["error=EIO", "error=ENOSPC"]
OLD = b"old\n" * 1000
# What `verify --raw` prints of an empty entry has no bytes.
EMPTY = {"empty": odd.printed(["seal", "file"], {"file": b"\n"})}
EMPTY["none"] = odd.printed(["prove", "empty", "file", "1"], {**EMPTY, "file": b"\n"})
# Texts with mistakes, a checkpoint and a proof of an entry with a line feed inside, and a part of three entries.
NEW, PROOF = CONTENTS["new"], CONTENTS["proof"]
BOM = b"\xef\xbb\xbf"
MISTAKEN = {"crlf": NEW.replace(b"\n", b"\r\n"), "unended": NEW[:-1], "early": NEW[:6], "nothing": b"", "locked": NEW}
MISTAKEN |= {"proof.crlf": PROOF.replace(b"\n", b"\r\n"), "proof.bom": BOM + PROOF, "proof.unended": PROOF[:-1]}
MISTAKEN |= {"proof.early": PROOF[:40], "part.bom": BOM + CONTENTS["part0"], "inside": odd.DATA[:-1]}
MISTAKEN["new.blocks"] = odd.printed(["seal", "--blocks", "3", "file"], {"file": b"a\nb"})
MISTAKEN["proof.blocks"] = odd.printed(["prove", "--blocks", "3", "new.blocks", "file", "1"],
                                       {**MISTAKEN, "file": b"a\nb"})
MISTAKEN["part3"] = odd.printed(["seal", "--part", "file"], {"file": b"1\n2\n3\n"})
MISTAKEN |= {"new.bom": BOM + NEW, "twice": CONTENTS["old"] + NEW, "tabbed": NEW + b"a\tb\n"}
MISTAKEN["parts"] = CONTENTS["part0"] + CONTENTS["part1"]
MISTAKEN["signed"] = CONTENTS["old"] + "\n\u2014 odd MTIzNDU=\n".encode()
MISTAKEN["twice.signed"] = MISTAKEN["signed"] + NEW
MISTAKEN["whole"] = odd.printed(["prove", "new", "file", "all"], CONTENTS)
# Arguments with mistakes, and what is said of them.
MESSAGES = TOP / "tests/output/messages.txt"
SAME = "it is the output too: choose another output"
EMPTIED = "it is the output too, which `>` empties: choose another output"
INSIDE = "ends inside a line: `--whole-lines` leaves it out, `--partial` takes it as an entry"
# Numbers, and what `prove new file` prints for the same ones, written singly.
RANGES = {"3-4": "3 4", "1,3": "1 3", "4,1-2 3": "4 1 2 3", "2-2,2": "2 2", "01-4": "1 2 3 4", "all": "1 2 3 4"}
PRINTED = [(f"prove new file {numbers}", odd.printed(["prove", "new", "file", *singly.split()], CONTENTS), b"")
           for numbers, singly in RANGES.items()]
UNCOMPARED = b"fohlazu: entry numbers were not compared: check that they are those you requested\n"
PRINTED += [(f"verify {words}", b"two\nfour\n", b"") for words in ("new proof 2,4", "new proof 2-2 4")]
PRINTED += [(f"verify {words}", b"2\ttwo\n4\tfour\n", UNCOMPARED)
            for words in ("new proof", "-o - new proof")]
PRINTED += [("verify new whole all", odd.DATA, b""), ("verify --blocks 3 new.blocks proof.blocks all", b"a\nb", b"")]
PRINTED += [("verify -o made new proof", b"", UNCOMPARED), ("verify -o made new proof 2 4", b"", b"")]
PRINTED += [("verify-consistency old growth", NEW, b"")]
# What is said of a second checkpoint, which is read as extension lines of the first.
SECOND = "fohlazu: {}: it has more than one checkpoint: only the first is read\n"
PRINTED += [("verify-consistency twice growth", NEW, SECOND.format("twice").encode()),
            ("verify-consistency signed growth", NEW, b""),
            ("join --origin odd parts", CONTENTS["old"], SECOND.format("parts").encode()),
            ("prove-consistency twice new file", CONTENTS["growth"], SECOND.format("twice").encode())]
left_out = set()
# Seconds until the first line of progress, and between two.
FIRST, EACH = 1.0, 0.25
LINE = re.compile(rb"\r(\d+)(?: of (\d+))? MiB, (\d+) MiB/s(?:, (\d+) s left)?\x1b\[K")
CLEAR = b"\r\x1b[K"


def wrong(ran, status, said, printed=b""):
    """What is wrong about a run, in a list."""
    is_right = (ran.status, ran.said, ran.printed) == (status, said, printed)
    return [] if is_right else [f"status {ran.status}, prints {ran.printed[:200]!r}, says {ran.said[:400]!r}"]


def refused(ran, why):
    return wrong(ran, 2, f"fohlazu: {why}\n".encode())


def laid_out(program):
    """The folder, with the inputs, old outputs and a link, and nothing else."""
    folder = program.folder
    for path in folder.iterdir():
        shutil.rmtree(path) if path.is_dir() and not path.is_symlink() else path.unlink()
    program.written = {}
    for name, data in {**CONTENTS, **EMPTY, "out": OLD, "target": OLD}.items():
        program.write(name, data)
    (folder / "link").symlink_to("target")
    for name in "seal", "prove":
        (folder / PLACES[name]).chmod(MODES[name])
    return folder


def state(folder):
    """What the files of a folder say, and links."""
    return {path.name: os.readlink(path) if path.is_symlink() else path.read_bytes()
            for path in folder.iterdir() if path.is_file() or path.is_symlink()}


def under(program, tracer, words, **settings):
    """A run that another program starts."""
    return Program(tracer[0], program.folder).run([*tracer[1:], program.path, *words], **settings)


def injected(program, name):
    """A run is killed at each call but the one that starts it, and each call that touches files fails."""
    words = RUNS[name]
    counts = Counter()
    folder = laid_out(program)
    if not can_run([*STRACE, "/dev/null", "true"], "what needs Debian's strace"):
        return
    with tempfile.NamedTemporaryFile() as trace:
        faults = wrong(under(program, [*STRACE, trace.name], words), 0, b"")
        calls = re.findall(r"^(\w+)\(", Path(trace.name).read_text(), re.M)[1:]
    whole = state(folder).get(PLACES[name])
    if whole is None or [call for call in calls if call in ("fsync", "rename")] != ["fsync", "rename", "fsync"]:
        faults.append(f"the new file is not synced, renamed, and synced with its folder: {calls}")
    yield f"{name}, traced", faults
    for call in calls if not faults else []:
        counts[call] += 1
        is_last_sync = call == "fsync" and counts[call] == calls.count("fsync")
        for what in ["signal=KILL", *ERRORS] if call in FAILING else ["signal=KILL"]:
            before = state(laid_out(program))
            ran = under(program, [*STRACE, "/dev/null", f"--inject={call}:{what}:when={counts[call]}"], words)
            found = stopped_wrongly(folder, before, whole, ran, name, what == "signal=KILL", is_last_sync)
            yield f"{name}, call {counts[call]} of {call}, {what}", list(found)


def stopped_wrongly(folder, before, whole, ran, name, is_killed, is_last_sync):
    """What is wrong after a run that was killed, or one of whose calls failed, in lines."""
    after, place = state(folder), PLACES[name]
    left = [path.name for path in folder.glob(".fohlazu-*")] if is_killed else []
    has_new = after.get(place) == whole
    # The loader of programs has a status of its own.
    statuses = [-signal.SIGKILL, 128 + signal.SIGKILL] if is_killed else [0, 2, 127]
    yield from changed({**before, place: after.get(place)}, after, left)
    for fault, is_so in [
        ("another file allows more", any((folder / path).stat().st_mode & 0o777 & ~MODES[name] for path in left)),
        (f"the output says {after.get(place)!r}", not has_new and after.get(place) != before.get(place)),
        (f"{ran}", ran.status not in statuses or ran.printed),
        (f"says {ran.said!r}", ran.status == 2 and not re.fullmatch(rb"fohlazu: [^\n]+: [^\n]+\n", ran.said)),
        ("it ends with status 0, and the file is the old one", ran.status == 0 and not has_new),
        ("it fails, and the file is the new one", ran.status == 2 and has_new and not is_last_sync),
    ]:
        if is_so:
            yield fault


def changed(before, after, names=()):
    """Which files changed or are others, but for those with these names."""
    names = {name for name in before.keys() | after.keys() if before.get(name) != after.get(name)} - set(names)
    return [f"other files: {', '.join(sorted(names))}"] if names else []


def can_run(words, what):
    """Whether a command runs, or else what is left out."""
    with contextlib.suppress(FileNotFoundError):
        if subprocess.run(words, capture_output=True).returncode == 0:
            return True
    left_out.add(what)
    return False


def full(program):
    """A file may have no more bytes, or the file system has none."""
    words = ["prove", "--blocks", "20000", "-o", "out", "new", "file", "1"]
    data = b"x" * 20000
    new = odd.printed(["seal", "--blocks", "20000", "file"], {"file": data})
    for blocks in "0", "1":
        folder = laid_out(program)
        program.write("file", data)
        program.write("new", new)
        before = state(folder)
        ran = under(program, ["sh", "-c", f'trap "" XFSZ; ulimit -f {blocks}; exec "$@"', "sh"], words)
        yield f"files of {blocks} blocks", refused(ran, "out: File too large (os error 27)")
        yield f"files after {blocks} blocks", changed(before, state(folder))
    ways = ["unshare", "-m"] if os.geteuid() == 0 else ["unshare", "-rm"]
    mount = "mkdir small && mount -t tmpfs -o size=12k tmpfs small"
    if not can_run([*ways, "sh", "-c", f"cd '{program.folder}' && {mount}"], "a full file system"):
        return
    words[words.index("out")] = "small/out"
    (program.folder / "small").rmdir()
    script = mount + ' && cp out small && { "$@" || status=$?; } && cmp out small/out && ls -A small && exit $status'
    ran = under(program, [*ways, "sh", "-c", script, "sh"], words)
    said = b"fohlazu: small/out: No space left on device (os error 28)\n"
    yield "a full file system", wrong(ran, 2, said, b"out\n")


def places(program):
    """Outputs that are inputs or no regular files."""
    folder = laid_out(program)
    (folder / "hard").hardlink_to(folder / "file")
    (folder / "soft").symlink_to("hard")
    (folder / "loop").symlink_to("loop")
    (folder / "dangling").symlink_to("missing")
    (folder / "folder").mkdir()
    os.mkfifo(folder / "fifo")
    before = state(folder)
    for words in ["prove -o new new file 1", "verify -o proof new proof", "verify -o new new proof",
                  "verify-consistency -o old old growth", "prove-consistency -o old old new file",
                  "join --origin a -o part1 part0 part1"]:
        before_it, name, after = re.split(r"-o (\S+) ", words)
        yield words, refused(program.run(words.split()), f"{name}: {SAME}")
        with open(folder / name, "ab") as file:
            ran = program.run([*before_it.split(), *after.split()], stdout=file)
            yield f"{words}, standard output", refused(ran, f"{name}: {EMPTIED}")
    refusals = {}
    for name in ["file", "./file", "hard", "soft", "folder/../file", f"{folder}/file"]:
        refusals |= {f"seal -o {name} {given}": f"{given}: {SAME}" for given in ("file", "-")}
    others = {"folder": "not a regular file", "/dev/null": "not a regular file", "fifo": "not a regular file",
              "dangling": "not a regular file", "loop": "Too many levels of symbolic links (os error 40)",
              "missing/out": "No such file or directory (os error 2)", "file/out": "Not a directory (os error 20)"}
    refusals |= {f"seal -o {name} file": f"{name}: {why}" for name, why in others.items()}
    for words, why in refusals.items():
        with open(folder / "file", "rb") as file:
            yield words, refused(program.run(words.split(), stdin=file), why)
    yield "files after refused outputs", changed(before, state(folder))
    ran = program.run(["prove", "-o", "out", "new", "file", "5"])
    yield "a refused run", wrong(ran, 1, b"fohlazu: new: it has 4 entries, and no entry 5\n")
    ran = program.run(["seal", "--origin", "odd", "-o", "-", "file"])
    yield "the output -", wrong(ran, 0, b"", CONTENTS["new"]) + changed(before, state(folder))


def links(program):
    """Links, modes, and files beside."""
    words = ["seal", "--origin", "odd", "file", "-o"]
    # A hard link is no link to be followed: the other name keeps the old contents.
    for name, place in [("link", "target"), ("below/link", "target"), ("hard", "hard")]:
        folder = laid_out(program)
        (folder / "below").mkdir()
        (folder / "below/link").symlink_to("../link")
        (folder / "hard").hardlink_to(folder / "out")
        (folder / ".fohlazu-0").write_bytes(b"another run's")
        before = {**state(folder), place: CONTENTS["new"]}
        yield f"{name}, an output", wrong(program.run([*words, name]), 0, b"") + changed(before, state(folder))
    for mask, mode, expected in [(0o022, None, 0o644), (0o077, None, 0o600), (0o027, None, 0o640), (0, 0o600, 0o600),
                                 (0o077, 0o644, 0o644), (0o022, 0o444, 0o444), (0o022, 0o777, 0o777)]:
        folder = laid_out(program)
        (folder / "out").chmod(mode) if mode is not None else (folder / "out").unlink()
        ran = program.run([*words, "out"], umask=mask)
        found = (folder / "out").stat().st_mode & 0o7777
        faults = [] if found == expected else [f"mode {found:o}"]
        yield f"umask {mask:o}, expected mode {expected:o}", wrong(ran, 0, b"") + faults
    folder = laid_out(program)
    for number in range(1000):
        (folder / f".fohlazu-{number}").touch()
    before = state(folder)
    faults = refused(program.run([*words, "out"]), "out: too many files .fohlazu-N")
    yield "no name is left", faults + changed(before, state(folder))
    before = {**state(laid_out(program)), "out": CONTENTS["new"]}
    with ThreadPoolExecutor(8) as pool:
        runs = list(pool.map(lambda _: program.run([*words, "out"]), range(40)))
    faults = [fault for ran in runs for fault in wrong(ran, 0, b"")]
    yield "runs side by side", faults + changed(before, state(folder))


def messages(program):
    """What mistakes are said to be, and numbers as they may be written."""
    laid_out(program)
    for name, data in MISTAKEN.items():
        program.write(name, data)
    (program.folder / "folder").mkdir()
    (program.folder / "locked").chmod(0)
    if os.geteuid() == 0:
        left_out.add("files that root may read")
    for row in MESSAGES.read_text().splitlines()[2:]:
        status, words, line = (text.encode().decode("unicode_escape") for text in row.split(" | ", 2))
        if "locked" not in words or os.geteuid() != 0:
            ran, first = program.run(words.split(" ")), line if line.startswith("error: ") else f"fohlazu: {line}"
            is_ended = ran.said.endswith(b"\n") and (line == first or ran.said.count(b"\n") == 1)
            ran = ran._replace(said=ran.said.split(b"\n", 1)[0])
            yield f"fohlazu {words!r}", wrong(ran, int(status), first.encode()) + ([] if is_ended else ["other lines"])
    for words, printed, said in PRINTED:
        yield f"fohlazu {words}", wrong(program.run(words.split()), 0, said, printed)


# Commands with a text of any length, the status, and how many bytes the text may have.
LONG = [("prove LONG file 1", 2, 10**6), ("prove LONG file all", 2, 10**6), ("verify LONG proof 2 4", 2, 10**6),
        ("prove-consistency LONG new file", 2, 10**6), ("prove-consistency old LONG file", 2, 10**6),
        ("verify-consistency LONG growth", 2, 10**6), ("verify-consistency old LONG", 1, 1002860),
        ("join --origin odd part0 LONG", 2, 10**6)]
# The memory that a run with such a text has, in KiB, and the seconds of the processor that it may take.
HELD, SECONDS = 8192, 0.1
# How many bytes a proof has that is verified within three times its bytes.
BYTES = 20_000_000
# Ends of proofs of one entry, which claim more than they have, the line that is refused, and what is said of it.
CLAIMS = {"entries 4611686018427387904\nentry 1 0\n\n": (5, "`entry NUMBER LENGTH`, but the text ends"),
          "entries 1\nentry 1 4611686018427387904\n\n": (4, "4611686018427387904 bytes and a line feed"),
          "entries 1\nentry 1 0\n\ndigests 4611686018427387904\n": (6, "the base64 of 32 bytes, but the text ends")}


def limited(program, words, data, more=0):
    """A run that has little memory, and so many bytes more, and what is wrong about its time, in a list."""
    shell = Program("/bin/sh", program.folder)
    room = HELD + more // 1024
    ran = shell.measured(["-c", f'ulimit -v {room}; exec "$@"', "sh", program.path, *words], {}, data)
    return ran, [f"takes {ran.seconds:.2f} s"] * (ran.seconds > SECONDS)


def limits(program):
    """Texts that are longer than they may be, and entries that only a checkpoint claims."""
    folder = laid_out(program)
    with (folder / "sparse").open("wb") as file:
        file.truncate(4 << 30)
    for words, status, limit in LONG:
        for name in "sparse", "/dev/zero", "-":
            line = f"fohlazu: {name}: it has more than {limit} bytes\n".encode()
            with subprocess.Popen("yes", stdout=subprocess.PIPE) as endless:
                ran, slow = limited(program, words.replace("LONG", name).split(), endless.stdout)
                endless.stdout.close()
            yield f"fohlazu {words}, LONG is {name}", wrong(ran, status, line) + slow
    for more, answer in (0, (0, b"", PROOF)), (1, (2, b"fohlazu: long: it has more than 1000000 bytes\n", b"")):
        program.write("long", NEW + b"x" * (10**6 - len(NEW) - 1 + more) + b"\n")
        yield f"{more} bytes above the limit", wrong(program.run("prove long file 2 4".split()), *answer)
    origin = "the origin: 1 to 999934 bytes, no character below U+0020, and no space first or last"
    for more, answer in (0, (0, b"", PROOF)), (1, (2, f"fohlazu: named: line 1: expected {origin}\n".encode(), b"")):
        program.write("named", b"x" * (999934 + more) + NEW[NEW.index(b"\n"):])
        yield f"an origin {more} bytes above the limit", wrong(program.run("prove named file 2 4".split()), *answer)
    yield from one_byte_above(program)
    yield from claimed(program)
    yield from proofs(program)


def one_byte_above(program):
    """What follows the first byte above a limit is left in a pipe, whose other end stays open."""
    end, start = os.pipe()
    text, rest = b"x" * (10**6 + 1), b"not read"
    writer = threading.Thread(target=lambda: [os.write(start, piece) for piece in (text, rest)])
    writer.start()
    ran = program.run("prove - file 1".split(), stdin=end, timeout=20)
    writer.join()
    os.close(start)
    left = os.read(end, 1 << 16)
    os.close(end)
    line = b"fohlazu: -: it has more than 1000000 bytes\n"
    yield "a pipe that stays open", wrong(ran, 2, line) + ([] if left == rest else [f"leaves {left[:100]!r}"])


def claimed(program):
    """Checkpoints of more entries than the file has, and a file with many."""
    program.write("claims", NEW.replace(b"\n4\n", b"\n100000000\n"))
    why = "it has 4 entries, and the checkpoint 100000000: some are missing, or give `--blocks` as for `seal`"
    for numbers in "all", "1-100000000", "2-50000000 7", "100000000":
        for name in "file", "-":
            with (program.folder / "file").open("rb") as data:
                ran, slow = limited(program, ["prove", "claims", name, *numbers.split()], data)
            yield f"{numbers} of {name}", wrong(ran, 1, f"fohlazu: {name}: {why}\n".encode()) + slow
    ran, slow = limited(program, ["prove", "new", "file", "1-100000000"], subprocess.DEVNULL)
    yield "a range past the end", wrong(ran, 1, b"fohlazu: new: it has 4 entries, and no entry 5\n") + slow
    lines = [b"%d" % number for number in range(100_000)]
    data = b"".join(line + b"\n" for line in lines)
    program.write("many", data)
    program.write("sealed", odd.printed(["seal", "many"], {"many": data}))
    proof = entries_text([*enumerate(lines, 1)], [])
    for words in ("prove sealed many all", "prove sealed - all", "prove - many all", "prove sealed many 1-100000",
                  "prove sealed - 1-70000,70001-100000"):
        stdin = data if words.startswith("prove sealed") else program.written["sealed"]
        yield words, wrong(program.run(words.split(), {"-": stdin}), 0, b"", proof)


def proofs(program):
    """Proofs of many bytes, and proofs that claim more than they have."""
    line, count = b"x" * BYTES, BYTES // len("entry 1 0\n\n")
    digests = [bytes(32)] * (BYTES // 45)
    too_many = b"fohlazu: proof: it has too many digests: is it under another checkpoint?\n"
    large = {"one entry of many bytes": ([(1, line)], [], ["1"], (0, b"", line + b"\n")),
             "many entries of no byte": ([(1, b"")] * count, [], [], (0, UNCOMPARED, b"1\t\n" * count)),
             "many digests": ([(1, b"")], digests, ["1"], (1, too_many))}
    for name, (entries, found, numbers, answer) in large.items():
        proof = entries_text(entries, found)
        program.write("proof", proof)
        program.write("sealed", checkpoint_text(b"odd", 1, leaf_hash(entries[0][1])))
        ran, _ = limited(program, ["verify", "sealed", "proof", *numbers], subprocess.DEVNULL, 3 * len(proof))
        yield name, wrong(ran, *answer)
    for end, (at, expected) in CLAIMS.items():
        program.write("proof", b"fohlazu proof 1\n" + end.encode())
        ran, slow = limited(program, "verify new proof".split(), subprocess.DEVNULL)
        yield f"a proof of {end!r}", wrong(ran, 1, f"fohlazu: proof: line {at}: expected {expected}\n".encode()) + slow


def watched(program, words, pieces, tracer=(), has_terminal=True, prints_there=False):
    """A run with a terminal as standard error, whose standard input comes slowly: its status, what it prints, and what
    the terminal gets, each piece with the seconds since the beginning."""
    terminal, end = pty.openpty()
    begun, shown = time.monotonic(), []
    with tempfile.TemporaryFile() as printed, tempfile.TemporaryFile() as said:
        child = subprocess.Popen([*tracer, program.path, *words], cwd=program.folder, stdin=subprocess.PIPE,
                                 stdout=end if prints_there else printed, stderr=end if has_terminal else said)
        os.close(end)

        def feed():
            with contextlib.suppress(BrokenPipeError), child.stdin:
                for piece in pieces:
                    child.stdin.write(piece)
                    child.stdin.flush()
                    time.sleep(0.05)

        threading.Thread(target=feed).start()
        # A terminal that nobody has open any more ends with an error.
        with contextlib.suppress(OSError):
            while data := os.read(terminal, 1 << 16):
                shown.append((time.monotonic() - begun, data))
        os.close(terminal)
        status = child.wait()
        for file in printed, said:
            file.seek(0)
        return status, printed.read(), said.read(), shown, time.monotonic() - begun


def progress_wrongly(seen, status, printed, rest, size=None):
    """What is wrong about what is shown, in lines: lines of progress, which are taken away, and the rest."""
    found, got, said, shown, seconds = seen
    text = b"".join(data for _, data in shown)
    lines = list(LINE.finditer(text))
    if (found, got, said) != (status, printed, b""):
        yield f"status {found}, prints {got!r}, says {said!r}"
    if text != b"".join(line[0] for line in lines) + CLEAR + rest.replace(b"\n", b"\r\n"):
        yield f"shows {text!r}"
    if shown and shown[0][0] < FIRST:
        yield f"shows a line after {shown[0][0]} s"
    if not 3 <= len(lines) <= (seconds - FIRST) / EACH + 1:
        yield f"shows {len(lines)} lines in {seconds} s"
    ends = list(accumulate(len(data) for _, data in shown))
    for line in lines:
        since = next(at for (at, _), end in zip(shown, ends) if line.end() <= end)
        read, whole, rate, left = (None if field is None else int(field) for field in line.groups())
        # The program's clock starts later than this one, and it counts whole MiB.
        if not read / since - 2 <= rate <= (read + 1) / max(since - 0.7, FIRST / 2):
            yield f"shows {line[0]!r} after {since} s"
        if whole != size:
            yield f"shows {line[0]!r} of a file of {size} MiB"
        if whole and not (size - read - 1) / (rate + 1) - 1 <= left <= (size - read + 1) / max(rate, 0.5):
            yield f"shows {line[0]!r} with another rate"


def progress(program):
    """How far a file is read."""
    laid_out(program)
    # Two seconds and a half.
    pieces = [b"x" * 300_000] * 50
    contents = {"file": b"".join(pieces) + b"\n"}
    words = ["seal", "--origin", "odd", "-"]
    sealed = odd.printed(["seal", "--origin", "odd", "file"], contents)
    with (program.folder / "sparse").open("wb") as file:
        file.truncate(8 << 20)
    blocks = ["seal", "--origin", "odd", "--blocks", "4194304", "sparse"]
    of_blocks = odd.printed(blocks, {"sparse": bytes(8 << 20)})
    slow = [*STRACE, "/dev/null", "--inject=read:delay_enter=300000"]
    unwritten = ["sh", "-c", 'trap "" XFSZ; ulimit -f 0; exec "$@"', "sh"]
    inside = f"fohlazu: -: {INSIDE}\n".encode()
    full = b"fohlazu: full: File too large (os error 27)\n"
    whole = [*pieces, b"\n"]
    # What is run, and what is to be seen: the status, what is printed, what the terminal gets after the progress.
    shown = {
        "a slow file": ([words, whole], [0, sealed, b""]),
        "a slow file on one terminal": ([words, whole, (), True, True], [0, b"", sealed]),
        "a slow file with -o": ([[*words, "-o", "made"], whole], [0, b"", b""]),
        "a slow file, refused": ([words, pieces], [1, b"", inside]),
        "a slow file, a full disk": ([[*words, "-o", "full"], whole, unwritten], [2, b"", full]),
    }
    if can_run([*slow, "true"], "what needs Debian's strace"):
        shown["a slow regular file"] = ([blocks, [], slow], [0, of_blocks, b"", 8])
    hidden = {
        "a slow file, --quiet": ([[*words, "--quiet"], whole], sealed),
        "a slow file, no terminal": ([words, whole, (), False], sealed),
        "a fast file": ([[*words[:-1], "file"], []], NEW),
    }
    with ThreadPoolExecutor(len(shown) + len(hidden)) as pool:
        seen = {name: pool.submit(watched, program, *ran) for name, (ran, _) in {**shown, **hidden}.items()}
    for name, (_, expected) in shown.items():
        yield name, list(progress_wrongly(seen[name].result(), *expected))
    for name, (_, printed) in hidden.items():
        status, got, said, pieces, _ = seen[name].result()
        yield name, wrong(Ran(status, got, said + b"".join(data for _, data in pieces)), 0, b"", printed)


def tried(path, part):
    tests = []
    with tempfile.TemporaryDirectory() as folder:
        try:
            tests.extend(part(Program(path, folder)))
        except (OSError, subprocess.TimeoutExpired) as error:
            tests.append((f"after {tests[-1][0] if tests else 'nothing'}", [f"{error}"]))
    return tests


def main():
    path = built(arguments()[0])
    parts = [partial(injected, name=name) for name in RUNS] + [full, places, links, messages, limits, progress]
    with ThreadPoolExecutor(len(os.sched_getaffinity(0))) as pool:
        tests = [test for tests in pool.map(partial(tried, path), parts) for test in tests]
    faults = [f"{name}: {fault}" for name, found in tests for fault in found]
    print("".join(f"{fault}\n" for fault in faults), end="")
    rest = f"; left out: {', '.join(sorted(left_out))}" if left_out else ""
    print(f"output: {len(tests)} trials, {len(faults)} wrong{rest}")
    sys.exit(bool(faults))


main()
