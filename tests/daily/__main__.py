"""python3 tests/daily [quick] [rollback] [SEED..]    plays 30 days of share/fohlazu-daily for each seed, or 1 and 2

Each day a log grows, perhaps ends inside a line, and is sealed and signed. The clock may go back. In between

- a run is killed ahead of its Nth step (steps.py), for each N, or that step fails, for a third of them.
  After half of these the new lines are lost or replaced. The next run takes the log, or wants them back, or what it
  began is removed;
- the log is cut, edited, restored from a backup, removed, or rotated by logrotate, with and without copytruncate;
- the disk changes what was synced; it is full up to some blocks, another run holds the lock, the key is not given;
- files are planted in the folder, or an older one is copied over it; the record is lost, or on a disk that is not
  there; a log is read in two ways: planted.py.

After each run the link is to the checkpoint before or to the new one, and stored files have not changed. A refused day
leaves all as it was, and the next one goes on once the log is put right. In the end all that was ever signed or stored
is of the log, by tests/model, but for what was removed; all are opened, and each proof leads from one to the next. A
customer who missed the last thirty catches up by the loop of docs/USES.md.

Then machines roll back, by the seeds 0 to 199, or 0 to 17 of `quick`: rollback.py. Runs with witnesses are killed ahead
of each step, or of every ninth: witnessed.py. `rollback` plays machines that roll back alone, by the seeds that are
given or those. Each seed that fails is named, and the status is 1 then.

It needs openssl, and ends with status 3 without it; and curl where machines roll back, and with witnesses.
"""

import contextlib
import os
import random
import shutil
import subprocess
import sys
import tempfile
from collections import Counter
from collections.abc import Sequence
from concurrent.futures import ThreadPoolExecutor
from datetime import date, timedelta
from pathlib import Path

sys.path.insert(0, str(Path(__file__).resolve().parents[2] / "tools"))
from script import TOP, Wrong, arguments, built, check, fail  # first: it makes those below known

import log_texts
import logs
from catching_up import catch_up
from planted import await_lock, change, forge, lock, lose, plant
from rollback import rolled_back
from witnessed import witnessed

ORIGIN = "ledger.example/é"
DAYS = 30
MISSED = 30
FIRST = date(2026, 2, 20)
DISK = 4 << 20
BLOCK = 4096
ROLLBACKS, QUICK_ROLLBACKS = 200, 18
# With witnesses a run is stopped at each so many steps.
EACH_STEP, QUICK_STEP = 1, 9
REFUSED = ["cut", "edited", "restored", "removed", "rotated", "copied and truncated"]


def read(path: Path) -> bytes:
    return path.read_bytes() if path.exists() else b""


class Play:
    """A log, its folder of checkpoints, and all that was ever signed."""

    def __init__(self, folder: Path, program: str, seed: int):
        self.folder = folder
        self.program = program
        self.seed = seed
        self.random = random.Random(seed)
        self.dropped = []  # begun checkpoints that were removed
        self.lines = []
        self.tail = b""
        self.day = FIRST
        self.counts = Counter()
        self.shims, self.count, self.signed, self.disk = (folder / name for name in ("shims", "n", "signed", "disk"))
        self.log, self.dir, self.key = (self.disk / name for name in ("the log", "the days", "a key"))
        self.shims.mkdir()
        shutil.copy(TOP / "tests/daily/openssl.sh", self.shims / "openssl")
        (self.shims / "openssl").chmod(0o755)
        subprocess.run(["openssl", "genpkey", "-algorithm", "ed25519", "-out", self.key], check=True)
        self.vkey = self.script("fohlazu-sign", "-p", self.key, ORIGIN).stdout.decode().strip()
        self.record = self.disk / f"a key.{self.vkey.split('+')[1]}.signed"

    def script(self, name: str, *words, data=b"", at=0, how="") -> subprocess.CompletedProcess:
        """Runs a script of share/ in a process group of its own, and counts its steps."""
        environment = {**os.environ, "PATH": f"{self.shims}:{os.environ['PATH']}", "COUNT": str(self.count),
                       "AT": str(at), "HOW": how, "FOHLAZU": self.program, "DISK": str(self.disk),
                       "DAY": str(self.day), "SIGNED": str(self.signed), "TMPDIR": "/dev/null"}
        words = [sys.executable, "-SB", TOP / "tests/daily/steps.py", TOP / "share" / name, *words]
        ran = subprocess.run(words, input=data, capture_output=True, env=environment,
                             start_new_session=True, umask=self.random.choice([0o22, 0o77, 0]))
        self.commands = int(self.count.read_text()) if ran.returncode >= 0 else at
        return ran

    def write(self, lines: list[bytes], tail=b"") -> None:
        self.log.write_bytes(b"".join(line + b"\n" for line in lines) + tail)

    def grow(self) -> None:
        """Some more lines. What the log ended inside of is the beginning of the first of them."""
        for _ in range(self.random.randint(1, 8)):
            self.lines.append(self.tail + self.random.randbytes(self.random.randrange(40)).replace(b"\n", b" "))
            self.tail = b""
        self.tail = self.random.choice([b"", b"", b"begun"])
        self.write(self.lines, self.tail)

    def last(self) -> bytes:
        """The last checkpoint, or nothing."""
        return read(self.dir / "checkpoint")

    def stored(self) -> dict[Path, bytes]:
        """The published files, without the links."""
        return {path: path.read_bytes() for path in self.dir.glob("[!.]*-*") if not path.is_symlink()}

    def expected(self, count: int, lines=None, origin=ORIGIN) -> bytes:
        """The checkpoint of so many lines."""
        root = logs.Log(self.lines if lines is None else lines).root(0, count)
        return log_texts.checkpoint_text(origin.encode(), count, root)

    def run(self, at=0, how="", words=None) -> subprocess.CompletedProcess:
        """A run. The last checkpoint is then the one before, or that of what was begun or of the log."""
        before = self.last()
        stored = self.stored()
        begun = [path.read_bytes() for path in self.dir.glob(".*.begun")]
        words = ["-k", self.key, "--origin", ORIGIN] if words is None else words
        ran = self.script("fohlazu-daily", self.log, self.dir, *words, at=at, how=how)
        await_lock(self.dir)
        text, new = self.last().partition(b"\n\n")[0] + b"\n", self.expected(len(self.lines))
        is_last = self.last() == before or any(found.startswith(text) for found in [*begun, *stored.values()])
        check(text == new or is_last and ran.returncode != 0, how, at, ran, self.last(), "after", before)
        now, half = self.stored(), self.log.exists() and self.log.read_bytes()[-1:] != b"\n"
        check(how or ran.returncode or b"finished" in ran.stdout or half == (b"a half line" in ran.stdout), half, ran)
        check({**now, **stored} == now and all(path.stat().st_mode & 0o777 == 0o644 for path in now), how, at, ran, now)
        check(bool(ran.stderr) == (ran.returncode != 0) or how != "", ran)
        return ran

    def go_on(self, *after) -> None:
        ran = self.run()
        check(ran.returncode == 0 and not [*self.dir.glob(".*")], *after, ran, [*self.dir.glob(".*")])
        self.counts["runs that go on"] += 1

    def stop(self, at: int, how: str) -> bool:
        """A run that is stopped at a command, if it comes to so many. Then lines that nobody saw may be replaced."""
        self.grow()
        ran = self.run(at, how)
        if self.commands < at:
            check(ran.returncode == 0, ran)
            return False
        check(how == "fail" or ran.returncode < 0, how, at, ran)
        self.counts[f"{how}ed runs"] += 1
        known = int((self.last() or b"\n0\n").split(b"\n")[1])
        if at % 2 == self.seed % 2 and known < len(self.lines):
            old, self.lines = self.lines, self.lines[:known] + [b"other"] * self.random.randrange(known == 0, 9)
            self.write(self.lines)
            signed, ran = read(self.signed), self.run()
            left = [*self.dir.glob(".*.begun")]
            check(ran.returncode == 1 and signed == read(self.signed) or ran.returncode == 0 and not left, how, at, ran)
            self.counts[f"replaced lines {'refused' if ran.returncode else 'taken'}"] += 1
            if left and self.random.randrange(2):
                self.drop(left[0], known, ran)
                self.counts["begun checkpoints removed"] += 1
            elif ran.returncode == 1:
                self.lines = old
                self.write(self.lines, self.tail)
        self.go_on(how, at)
        return True

    def drop(self, begun: Path, known: int, ran: subprocess.CompletedProcess) -> None:
        """Removes what a stopped run began, and all else that a refusal names."""
        self.dropped.append(b"".join(begun.read_bytes().splitlines(True)[:3]))
        growth = [self.dir / f"from-{known}.growth", self.dir / f"{begun.stem[1:]}.growth"]
        for path in begun, *growth, self.record:
            is_named = f" {path}".encode() in ran.stderr
            is_left = os.path.lexists(path) and (path != self.record or self.dropped[-1] in path.read_bytes())
            check(is_named == is_left, path, "is named or left", ran)
            if is_left:
                path.unlink()

    def refuse(self, kind: str) -> None:
        """A day on which the log is not the old one and more. It leaves all, and says what to do."""
        self.go_on("a day")
        at = self.random.randrange(len(self.lines))
        written = {"cut": (self.lines[:at], b"cut"), "restored": ([*self.lines[:-1], *[b"other"] * 9],),
                   "edited": ([*self.lines[:at], self.lines[at] + b"!", *self.lines[at + 1:]],)}
        if kind in written:
            self.write(*written[kind])
        elif kind == "removed":
            self.log.unlink()
        else:
            how, rules = "create" if kind == "rotated" else "copytruncate", self.folder / "rules"
            compress = "compress" if self.seed % 2 else "nocompress"
            rules.write_text(f'"{self.log}" {{\n  rotate 2\n  {compress}\n  missingok\n  notifempty\n  {how}\n}}\n')
            subprocess.run(["logrotate", "-f", "-s", self.folder / "state", rules], check=True)
            self.log.write_bytes(self.log.read_bytes() + b"later\n" * self.random.choice([0, 9, len(self.lines) + 9]))
            rotated = f"{self.log}.1{'.gz' * (compress == 'compress')}"
        before = {path: path.read_bytes() for path in self.dir.iterdir()}
        ran, is_there = self.run(), self.log.exists()
        check(ran.returncode == (1 if is_there else 2) and (b"put its old lines back" in ran.stderr) == is_there, ran)
        check(before == {path: path.read_bytes() for path in self.dir.iterdir()}, kind, "changes the folder")
        self.counts[f"logs {kind}"] += 1
        if kind in REFUSED[4:]:
            # The operator puts the parts together again, as docs/USES.md says.
            whole = subprocess.run(["zcat", "-f", rotated, self.log], capture_output=True, check=True).stdout
            *self.lines, self.tail = whole.split(b"\n")
            self.log.write_bytes(whole)
        else:
            self.grow()
        self.go_on(kind)

    def fill(self) -> None:
        """Runs on a disk with so many blocks left, until one goes through."""
        filler = self.disk / "filler"
        status = 2 if os.path.ismount(self.disk) else 0
        blocks = 0
        while status == 2:
            self.grow()
            filler.write_bytes(bytes(shutil.disk_usage(self.disk).free - blocks * BLOCK))
            status = self.run().returncode
            filler.unlink()
            self.counts["runs on a full disk"] += status == 2
            blocks += self.random.randint(1, 3)
            self.go_on("a full disk")
        check(status == 0, "a full disk", status)

    def compare(self) -> None:
        """All that was signed or stored is of the log, and each proof leads from one checkpoint to the next."""
        signed = [text + b"\n" for text in read(self.signed).split(b"\n\n") if b"\n" in text]
        for text in signed:
            check(text in self.dropped or text == self.expected(int(text.split(b"\n")[1])), text, "was signed")
        last = self.folder / "last"
        subprocess.run([self.program, "seal", "--origin", ORIGIN, "-o", last, "/dev/null"], check=True)
        stored = {int(path.stem.split("-")[3]): path for path in self.dir.glob("*-*-*-*.growth")}
        for count in sorted(stored):
            checkpoint = stored[count].with_suffix(".checkpoint").read_bytes()
            opened = self.script("fohlazu-open", self.vkey, data=checkpoint)
            ran = subprocess.run([self.program, "verify-consistency", last, stored[count]], capture_output=True)
            check(opened.stdout == self.expected(count) and ran.stdout == checkpoint, stored[count], opened, ran)
            old = int(last.read_bytes().split(b"\n")[1])
            check(os.readlink(stored[count]) == f"from-{old}.growth", stored[count], "is a link elsewhere")
            last.write_bytes(checkpoint)
            check(stored[count].stem.endswith(f"-{count:012}"), stored[count])
        check(self.last() == checkpoint and len(stored) * 3 + 2 == len(os.listdir(self.dir)), os.listdir(self.dir))
        check(self.record.read_bytes() == checkpoint, "the record is not of the last checkpoint")
        check((self.dir / "growth").samefile(stored[count]), "the link to the last proof")
        self.counts.update({"checkpoints": len(stored), "signatures": len(signed)})
        if shutil.which("curl"):
            # A customer who missed thirty days, or all.
            first = sorted(stored)[max(0, len(stored) - 1 - MISSED)]
            caught = self.folder / "a customer"
            caught.mkdir()
            checkpoint = stored[first].with_suffix(".checkpoint").read_bytes()
            catch_up(caught, self.program, self.dir, self.vkey, checkpoint)
            self.counts["customers who missed thirty days"] += 1

    def play(self) -> Counter:
        kinds = REFUSED if shutil.which("logrotate") else REFUSED[:4]
        self.counts["skipped: rotations, which need Debian's logrotate"] += len(kinds) < len(REFUSED)
        self.counts["skipped: full disks, which cannot be mounted"] += not os.path.ismount(self.disk)
        for day in range(DAYS):
            at = day + 1
            while self.stop(at, "kill") and ((at + self.seed) % 3 or self.stop(at, "fail")):
                at += DAYS
            self.refuse(kinds[day % len(kinds)])
            if day % 10 == 5:
                lock(self)
                self.fill()
                plant(self)
                lose(self)
            self.day += timedelta(self.random.choice([1, 1, 1, 2, 0, -3]))
        change(self)
        self.compare()
        forge(self)
        return +self.counts


def played(program: str, seed: int) -> Counter:
    """What was counted in a play, on a small disk if one can be mounted."""
    with tempfile.TemporaryDirectory(prefix="daily ") as folder, contextlib.ExitStack() as stack:
        disk = Path(folder, "disk")
        disk.mkdir()
        mount = ["mount", "-t", "tmpfs", "-o", f"size={DISK},mode=700", "tmpfs", disk]
        if subprocess.run(mount, capture_output=True).returncode == 0:
            stack.callback(subprocess.run, ["umount", "-l", disk], check=True)
        return Play(Path(folder), program, seed).play()


def keep_days(program: str, seeds: list[int]) -> bool:
    """Plays days of these seeds, and prints what was counted, or what is wrong. Whether all is right."""
    with ThreadPoolExecutor() as pool:
        plays = {seed: pool.submit(played, program, seed) for seed in seeds}
    for seed, play in plays.items():
        print(f"daily: seed {seed}:", play.exception() or ", ".join(f"{n} {name}" for name, n in play.result().items()))
    return not any(play.exception() for play in plays.values())


def roll_back(program: str, seeds: Sequence[int]) -> bool:
    """Plays machines that roll back, and prints which seeds fail, and what was counted of the others. Whether none
    fails."""
    if not shutil.which("curl"):
        print("daily: machines that roll back: skipped, they need Debian's curl")
        return True
    with tempfile.TemporaryDirectory() as folder, ThreadPoolExecutor() as pool:
        plays = [pool.submit(rolled_back, Path(folder, str(seed)), program, seed) for seed in seeds]
    failed = [play.exception() for play in plays if play.exception()]
    counts = sum((play.result() for play in plays if not play.exception()), Counter())
    for why in failed:
        print(f"daily: {why}")
    print(f"daily: {len(plays)} machines that roll back, {len(failed)} wrong:",
          ", ".join(f"{n} {name}" for name, n in sorted(counts.items())), flush=True)
    return not failed


def with_witnesses(program: str, every: int) -> bool:
    """Kills runs with witnesses, and prints what was counted, or what is wrong. Whether all is right."""
    if not shutil.which("curl"):
        print("daily: runs with witnesses: skipped, they need Debian's curl")
        return True
    with tempfile.TemporaryDirectory() as folder:
        try:
            counts = witnessed(Path(folder, "operator"), program, 1, every)
        except Wrong as wrong:
            print(f"daily: {wrong}")
            return False
    print("daily: runs with witnesses:", ", ".join(f"{n} {name}" for name, n in sorted(counts.items())))
    return True


def main() -> None:
    is_alone = "rollback" in sys.argv[1:3]
    sys.argv[1:] = [word for word in sys.argv[1:] if word != "rollback"]
    is_quick, seeds = arguments(lambda seeds: True)
    if not shutil.which("openssl"):
        fail("openssl is needed", 3)
    program = str(built(is_quick))
    machines = range(QUICK_ROLLBACKS if is_quick else ROLLBACKS)
    if is_alone:
        sys.exit(not roll_back(program, seeds or machines))
    done = [keep_days(program, seeds or [1, 2]), roll_back(program, machines),
            with_witnesses(program, QUICK_STEP if is_quick else EACH_STEP)]
    sys.exit(not all(done))


main()
