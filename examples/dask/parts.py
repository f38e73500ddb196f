"""parts.py SCHEDULER PROGRAM FILE BYTES [MARK]: workers of Dask seal the parts of a file, which have so many bytes.

SCHEDULER is the scheduler's file. The sealed parts are written to part.01, part.02 and so on. With MARK, a path where
no file is, the first worker that is in the middle of part 6 makes this file, and kills itself.
"""

import faulthandler
import os
import signal
import subprocess
import sys
import time
from pathlib import Path

from distributed import Client

WORKERS = 2
CHUNK = 1 << 16


def seal(program: str, path: str, start: int, size: int, mark: str | None) -> bytes:
    """What `fohlazu seal --part` prints of some bytes of a file."""
    command = [program, "seal", "--part", "--blocks", "4096", "-"]
    with open(path, "rb") as file, subprocess.Popen(command, stdin=subprocess.PIPE, stdout=subprocess.PIPE) as process:
        file.seek(start)
        end = start + size
        while file.tell() < end:
            if mark and file.tell() - start >= size // 2 and not os.path.exists(mark):
                Path(mark).touch()
                os.kill(os.getpid(), signal.SIGKILL)
            chunk = file.read(min(CHUNK, end - file.tell()))
            if not chunk:
                raise EOFError(path)
            process.stdin.write(chunk)
        # only now: at the end of its input the program seals what it has read
        sealed, _ = process.communicate()
    if process.returncode != 0:
        raise ChildProcessError(process.returncode)
    return sealed


def main() -> None:
    scheduler, program, path, part_bytes, *mark = sys.argv[1:]
    size, step = os.stat(path).st_size, int(part_bytes)
    # ends the client, with where it stands, if it is late: 45 s, and one for each 16 MiB
    faulthandler.dump_traceback_later(45 + (size >> 24), exit=True)
    with Client(scheduler_file=scheduler, timeout=30) as client:
        client.wait_for_workers(WORKERS, timeout=30)
        since = time.monotonic()
        parts = []
        for number, start in enumerate(range(0, size, step), 1):
            marked = mark[0] if mark and number == 6 else None
            parts.append(client.submit(seal, program, path, start, min(step, size - start), marked, pure=False))
        for number, sealed in enumerate(client.gather(parts), 1):
            Path(f"part.{number:02}").write_bytes(sealed)
        print(f"time: {WORKERS} workers: {round(1000 * (time.monotonic() - since))} ms")
        print(f"{len(client.scheduler_info()['workers'])} of {WORKERS} workers are there at the end")


main()
