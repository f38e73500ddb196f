"""Runs a program and reports its time and memory: python3 measure.py REPORT PROGRAM WORD.. writes a line with the
seconds of the processor, the bytes held at most, and the exit status. It is small itself, since a process counts as
held what its parent held when it was started."""

import os
import sys


def main():
    child = os.posix_spawn(sys.argv[2], sys.argv[2:], os.environ)
    _, ended, usage = os.wait4(child, 0)
    with open(sys.argv[1], "w") as report:
        report.write(f"{usage.ru_utime + usage.ru_stime} {usage.ru_maxrss * 1024} {os.waitstatus_to_exitcode(ended)}\n")


main()
