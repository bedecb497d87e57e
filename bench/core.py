#!/usr/bin/env python3
"""How many records a second a core takes in and lets go of, 100 of them in each call: with a queue in memory, with
a disk-buffer on a disk in memory, and with one in a file, beside how often a second the same disk makes one write of
as many bytes stable by fdatasync.

    bench/core.py [FOLDER [SECONDS]]     by default the folder for temporary files, about 2 seconds each

It runs `bench_parts core`, which it builds where it isn't built yet. A record has one offer with flow-control, of 200 bytes.
With a disk-buffer in a file the 100 records of an admit are stable behind two syncs, and they are gone behind two more.
"""
import os
import subprocess
import sys
import tempfile
import time

from parts import program
from spool import syncs_per_second

COUNT = 100
LENGTH = 200
# a disk in memory keeps all that was written to it
MOST = {"memory": 4096}


def timed(kind, turns):
    start = time.monotonic()
    subprocess.run([program(), "core", kind, str(turns), str(COUNT)], check=True)
    return time.monotonic() - start


def records_per_second(kind, seconds):
    """Doubles the number of turns until a run takes so long. The time of a run without turns doesn't count."""
    idle = timed(kind, 0)
    turns = 8
    while True:
        elapsed = timed(kind, turns)
        if elapsed >= seconds or turns >= MOST.get(kind, 1 << 20):
            return turns * COUNT / max(elapsed - idle, 1e-9)
        turns *= 2


def main():
    folder = sys.argv[1] if len(sys.argv) > 1 else tempfile.gettempdir()
    seconds = float(sys.argv[2]) if len(sys.argv) > 2 else 2.0
    with tempfile.TemporaryDirectory(dir=folder) as place:
        memory = {name: records_per_second(kind, seconds) for name, kind in (("a queue in memory", "queue"), ("a disk-buffer in memory", "memory"))}
        before = syncs_per_second(place, seconds, COUNT * LENGTH)
        file = records_per_second(os.path.join(place, "store"), seconds)
        after = syncs_per_second(place, seconds, COUNT * LENGTH)
    syncs = (before + after) / 2
    print("fdatasync: %.0f a second before, %.0f after" % (before, after))
    for name, rate in list(memory.items()) + [("a disk-buffer in a file", file)]:
        print("%s: %.0f records a second, %.1f for each fdatasync" % (name, rate, rate / syncs))
    return 0


if __name__ == "__main__":
    sys.exit(main())
