#!/usr/bin/env python3
"""Processor time of a record that is routed through three filters, a rewrite and a destination, beside that of its reading.

    bench/paths.py [TURNS]     by default 1,000,000 times each

It runs `bench_parts paths`, which it builds where it isn't built yet. What the path takes is the time of a routed record less
that of its reading; the script ends with status 1 where it is more than half of the reading. Where valgrind is
installed it says the instructions and the allocations of a record too, which hang on nothing else that the machine does.
"""
import re
import shutil
import subprocess
import sys

from parts import program, used


def said(tool, pattern, what, turns):
    """The number that valgrind says of one run."""
    words = ["valgrind", *tool, program(), "paths", what, str(turns)]
    text = subprocess.run(words, check=True, stderr=subprocess.PIPE, text=True).stderr
    return int(re.search(pattern, text).group(1).replace(",", ""))


def counted(tool, pattern):
    """What valgrind counts of a record that is read, and of its path besides."""
    read, route = ((said(tool, pattern, what, 2000) - said(tool, pattern, what, 1000)) / 1000 for what in ("read", "route"))
    return read, route - read


def main():
    turns = int(sys.argv[1]) if len(sys.argv) > 1 else 1_000_000
    program()
    read, route = (min(used("paths", what, turns) - used("paths", what, 0) for _ in range(3)) / turns * 1e6 for what in ("read", "route"))
    print("reading: %.3f microseconds; the path besides: %.3f, at most half of it" % (read, route - read))
    if shutil.which("valgrind"):
        instructions = counted(["--tool=callgrind", "--callgrind-out-file=/dev/null"], r"Collected : (\d+)")
        allocations = counted(["--tool=memcheck", "--leak-check=no"], r"total heap usage: ([\d,]+) allocs")
        print("instructions: reading %.0f; the path besides: %.0f" % instructions)
        print("allocations: reading %.2f; the path besides: %.2f" % allocations)
    return 0 if route - read <= read / 2 else 1


if __name__ == "__main__":
    sys.exit(main())
