#!/usr/bin/env python3
"""python3 tools/times.py CRATE    which functions a check of a crate from nothing spends its time on, the longest 30

First remove crates/CRATE/out, and run `rt check --jobs 1` in the crate, with nothing beside it. A check begins with
what other checkouts on this machine kept of the crate: remove it there, too. The checker writes a file for each part
of a function as it has checked it, so that the time between two files is what the later one took.
"""

import re
import sys
from collections import Counter, defaultdict
from itertools import pairwise

from script import TOP, fail

if len(sys.argv) != 2:
    fail("usage: python3 tools/times.py CRATE", 2)
files = (TOP / "crates" / sys.argv[1] / "out/incremental").rglob("*.oantt")
times = sorted((path.stat().st_mtime, path.name) for path in files)
if not times:
    fail(f"there is no check of {sys.argv[1]}: run `rt check --jobs 1` in its folder", 3)
parts = defaultdict(Counter)
for (before, _), (time, name) in pairwise(times):
    name = re.sub(r"^Rattle-\w+-(proofs|specs\.contracts|specs)\.|(\.decls)?\.oantt$", "", name)
    function, _, part = name.rpartition(".")
    parts[function][part] += time - before
print(f"{times[-1][0] - times[0][0]:.0f} s in all")
for function, seconds in sorted(parts.items(), key=lambda pair: -pair[1].total())[:30]:
    shares = ", ".join(f"{part} {share:.1f}" for part, share in seconds.most_common(3))
    print(f"{seconds.total():6.1f} {function or sys.argv[1]} ({shares})")
