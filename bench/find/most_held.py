#!/usr/bin/env python3
"""Runs a program, and tells its status, its lines, its seconds and the most memory that it held, in kilobytes as the last word but one.

usage: most_held.py REPORT PROGRAM WORD..        REPORT is a file, which gets what the program writes to its error output

The most memory is that of the program alone, looked up every few milliseconds while it runs. What the system counts for a
child that has ended isn't taken, since that is never below what this script itself held when it began the child.
"""
import subprocess
import sys
import threading
import time


def held(process):
    """The most memory of a process so far, in kilobytes; 0 once it has ended."""
    try:
        with open(f"/proc/{process}/status") as status:
            return max((int(line.split()[1]) for line in status if line.startswith("VmHWM:")), default=0)
    except OSError:
        return 0


def watch(process, most, ended):
    while not ended.wait(0.005):
        most[0] = max(most[0], held(process))


if __name__ == "__main__":
    report, *words = sys.argv[1:]
    begun = time.monotonic()
    most, ended = [0], threading.Event()
    with open(report, "wb") as err, subprocess.Popen(words, stdout=subprocess.PIPE, stderr=err) as ran:
        watcher = threading.Thread(target=watch, args=(ran.pid, most, ended))
        watcher.start()
        lines = sum(piece.count(b"\n") for piece in iter(lambda: ran.stdout.read1(1 << 20), b""))
    ended.set()
    watcher.join()
    print(f"status {ran.returncode}, {lines} matches, {time.monotonic() - begun:.1f} s, at most {most[0]} KB")
