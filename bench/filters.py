#!/usr/bin/env python3
"""Processor time that filters and rewrites take for a record whose MESSAGE has 100 bytes.

    bench/filters.py [TURNS]     by default 1,000,000 times each

It runs `bench_parts filters`, which it builds where it isn't built yet, and takes the time of none off that of so
many. It ends with status 1 where one takes longer than its bound.
"""
import sys

from parts import program, used

# what is done, what is said of it, and the most microseconds that it may take
ROWS = [
    ("match", 'a filter with match("error|fail")', 0.2),
    ("subst", "subst() with one match", 0.6),
]


def main():
    turns = int(sys.argv[1]) if len(sys.argv) > 1 else 1_000_000
    program()
    good = True
    for what, said, most in ROWS:
        took = min(used("filters", what, turns) - used("filters", what, 0) for _ in range(3)) / turns * 1e6
        print("%s: %.3f microseconds, at most %.1f" % (said, took, most))
        good = good and took <= most
    return 0 if good else 1


if __name__ == "__main__":
    sys.exit(main())
