"""steps.py SCRIPT WORD..    runs a script of share/, and counts its steps: each file of the folder $DISK that it opens,
links, renames, removes or syncs, and each program that it starts

At step $AT it kills its process group ($HOW kill), or the step fails ($HOW fail). With $HOW change only files that are
synced count, and the disk changes the one at step $AT. The number of steps is in the file $COUNT after it ended. Its
date is $DAY.
"""

import errno
import os
import runpy
import signal
import stat
import sys
import time

DISK, COUNT, HOW, AT = (os.environ[name] for name in ("DISK", "COUNT", "HOW", "AT"))
# The first word of an event of these is a path.
ON_PATHS = {"open", "os.link", "os.listdir", "os.mkdir", "os.remove", "os.rename", "os.rmdir", "os.symlink"}
sync = os.fsync
steps = 0


def step(is_sync=False):
    global steps
    if HOW == "change" and not is_sync:
        return
    steps += 1
    if steps != int(AT):
        return
    if HOW == "kill":
        os.killpg(0, signal.SIGKILL)
    if HOW == "fail":
        raise OSError(errno.EIO, os.strerror(errno.EIO))


def audit(event, words):
    """Python says ahead of a step what it is."""
    if event == "subprocess.Popen":
        step()
    elif event in ON_PATHS and not isinstance(words[0], int) and words[0] is not None:
        # A link has its target first.
        path = os.fsdecode(words[1] if event == "os.symlink" else words[0])
        if path.startswith(DISK):
            step()


def synced(file):
    if HOW == "change" and not stat.S_ISREG(os.fstat(file).st_mode):
        return
    step(is_sync=True)
    sync(file)
    if HOW == "change" and steps == int(AT):
        change(os.open(f"/proc/self/fd/{file}", os.O_RDWR))


def change(file):
    """Changes the last digit or letter of a file, but for its line feed."""
    at = os.fstat(file).st_size - 2
    byte = os.pread(file, 1, at)
    os.pwrite(file, b"A" if byte != b"A" else b"B", at)
    os.close(file)


os.fsync = synced
time.strftime = lambda _: os.environ["DAY"]
sys.argv = sys.argv[1:]
sys.addaudithook(audit)
try:
    runpy.run_path(sys.argv[0], run_name="__main__")
finally:
    with open(COUNT, "w") as file:
        file.write(str(steps))
