#!/usr/bin/env python3
"""How many entries a second a disk-buffer takes with 1, 10 and 100 of them staged for each commit, beside
how often a second the same disk makes one write of as many bytes stable by fdatasync.

    bench/spool.py [FOLDER [SECONDS]]     by default the folder for temporary files, about 2 seconds each

It runs `bench_parts spool`, which it builds where it isn't built yet. A commit syncs twice. It ends with status 1
where 100 staged aren't at least 20 times as fast as one.
"""
import os
import subprocess
import sys
import tempfile
import time

from parts import program

LENGTH = 200


def syncs_per_second(folder, seconds, length=LENGTH):
    """Writes behind the end of a file and calls fdatasync, in turns."""
    with tempfile.NamedTemporaryFile(dir=folder) as out:
        count = 0
        start = time.monotonic()
        while time.monotonic() - start < seconds:
            os.pwrite(out.fileno(), b"x" * length, count * length)
            os.fdatasync(out.fileno())
            count += 1
        return count / (time.monotonic() - start)


def timed(path, commits, staged):
    start = time.monotonic()
    subprocess.run([program(), "spool", path, str(commits), str(staged)], check=True)
    return time.monotonic() - start


def entries_per_second(folder, seconds, staged):
    """Doubles the number of commits until a run takes so long."""
    commits = 8
    while True:
        path = os.path.join(folder, "store-%d-%d" % (staged, commits))
        elapsed = timed(path, commits, staged)
        os.remove(path)
        if elapsed >= seconds or commits >= 1 << 20:
            return commits * staged / elapsed
        commits *= 2


def main():
    folder = sys.argv[1] if len(sys.argv) > 1 else tempfile.gettempdir()
    seconds = float(sys.argv[2]) if len(sys.argv) > 2 else 2.0
    with tempfile.TemporaryDirectory(dir=folder) as place:
        print("fdatasync: %.0f a second" % syncs_per_second(place, seconds))
        rates = {staged: entries_per_second(place, seconds, staged) for staged in (1, 10, 100)}
    for staged, rate in rates.items():
        print("%3d staged: %.0f entries a second, %.1f times one staged" % (staged, rate, rate / rates[1]))
    return 0 if rates[100] >= 20 * rates[1] else 1


if __name__ == "__main__":
    sys.exit(main())
