#!/usr/bin/env python3
"""How many allocations a record costs from file to frame, by `bench_parts lines`.

    bench/allocations.py

`rt try --fail-alloc N` makes the Nth allocation of a run fail; a run of 1,000 records that allocates less often
ends as ever. So it is tried by halves how often a run allocates, to half a record's share. What a piece of the
file costs, some ten allocations in all, falls below that.
"""
import os
import subprocess
import tempfile

from parts import CRATE

RECORDS = 1000
MOST = 16

PARAMETERS = b'[exampleSDID@32473 iut="3" eventSource="Application" eventID="1011"]'
PATHS = [
    ("RFC 3164 to a file's text", "3164", b"<34>Oct 11 22:14:15 mymachine su[7]: failed for lonvick\n"),
    ("RFC 5424 without parameters", "5424", b"<34>1 2003-10-11T22:14:15.003Z mymachine su 7 ID47 - failed for lonvick"),
    ("RFC 5424 with three", "5424", b"<34>1 2003-10-11T22:14:15.003Z mymachine su 7 ID47 " + PARAMETERS + b" failed for lonvick"),
]


def ends_well(form, path, failing):
    words = ["rt", "try", "--fail-alloc", str(failing), "--", "lines", form, path, "out"]
    said = subprocess.run(words, cwd=CRATE, stdout=subprocess.PIPE, stderr=subprocess.STDOUT, text=True).stdout
    if "ended status=" not in said:
        raise SystemExit(said)
    return "ended status=0" in said


def allocations(form, path):
    low, high = 0, MOST
    while low < high:
        middle = (low + high + 1) // 2
        if ends_well(form, path, middle * RECORDS - RECORDS // 2):
            high = middle - 1
        else:
            low = middle
    return low


def main():
    with tempfile.TemporaryDirectory() as folder:
        path = os.path.join(folder, "in")
        for name, form, record in PATHS:
            with open(path, "wb") as out:
                out.write((record if form == "3164" else b"%d %s" % (len(record), record)) * RECORDS)
            print("%-30s %2d allocations a record" % (name, allocations(form, path)), flush=True)


if __name__ == "__main__":
    main()
