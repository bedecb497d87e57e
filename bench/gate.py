#!/usr/bin/env python3
"""What the gate costs, by crate: bench/gate.py PID

Looks every two seconds at the checks below the process PID, until that ends or this is told to end (SIGTERM), and then prints a table: the
processor minutes of each crate's proof, of that of its tests, of its must-fail edits and of compiling, and the memory that one of its checks
took at its highest, in GB; in the last row, what all checks together took at once. A check lacks what it took since the last look; what `rt`
itself takes is the difference to what `times` says."""
import collections
import os
import signal
import sys
import time

TICK = os.sysconf("SC_CLK_TCK")
KINDS = ("proof", "tests", "edits", "compiling")


def read(path):
    try:
        with open(path, "rb") as file:
            return file.read().decode(errors="replace")
    except OSError:
        return ""


def processes():
    """By process: its parent, when it began, the processor seconds of it and of the children that it waited for, and its memory in bytes."""
    found = {}
    for pid in filter(str.isdigit, os.listdir("/proc")):
        text = read(f"/proc/{pid}/stat")
        if text:
            rest = text[text.rindex(")") + 2 :].split()
            found[int(pid)] = int(rest[1]), rest[19], sum(map(int, rest[11:15])) / TICK, int(rest[21]) * 4096
    return found


def check_of(pid):
    """The crate and the kind of a check, or None where the process is none."""
    words = read(f"/proc/{pid}/cmdline").split("\0")
    if not words[0].endswith("/rattle") or words[1:2] not in (["check"], ["build"]) or "--crate-name" not in words:
        return None
    try:
        folder = os.readlink(f"/proc/{pid}/cwd")
    except OSError:
        return None
    crate = words[words.index("--crate-name") + 1]
    if "--test" in words:
        return crate, "tests"
    if "/rt-edit" in folder or any("/rt-edit" in word for word in words):
        return crate, "edits"
    return crate, "compiling" if "--crate-checked" in words else "proof"


def look(root, checks):
    """Notes what each check below the root has taken so far, with all that it started; returns whether the root is there, and what memory
    each check takes."""
    found = processes()
    below = collections.defaultdict(list)
    for pid, (parent, *_) in found.items():
        below[parent].append(pid)
    seconds, memory = collections.Counter(), collections.Counter()
    todo = [(root, None)]
    while todo:
        pid, check = todo.pop()
        if pid not in found:
            continue
        _, began, taken, size = found[pid]
        if check is None:
            told = check_of(pid)
            check = told and (*told, pid, began)
        if check:
            seconds[check] += taken
            memory[check] += size
        todo += [(it, check) for it in below[pid]]
    for check, taken in seconds.items():
        checks[check] = max(checks[check], taken)
    return root in found, memory


def show(checks, highest, most):
    sums = collections.defaultdict(collections.Counter)
    for (crate, kind, *_), seconds in checks.items():
        sums[crate][kind] += seconds
    rows = sorted(sums.items(), key=lambda it: -sum(it[1].values()))
    print(f"{'processor minutes of':22}" + "".join(f"{it:>10}" for it in KINDS) + f"{'all':>10}{'GB':>7}")
    for crate, of in rows:
        print(f"{crate:22}" + "".join(f"{of[it] / 60:10.1f}" for it in KINDS) + f"{sum(of.values()) / 60:10.1f}{highest[crate] / 1e9:7.1f}")
    total = [sum(of[it] for _, of in rows) / 60 for it in KINDS]
    print(f"{'all crates':22}" + "".join(f"{it:10.1f}" for it in total) + f"{sum(total):10.1f}{most / 1e9:7.1f}", flush=True)


def main(root):
    signal.signal(signal.SIGTERM, signal.default_int_handler)
    checks, highest, most = collections.Counter(), collections.Counter(), 0
    try:
        is_there = True
        while is_there:
            is_there, memory = look(root, checks)
            most = max(most, sum(memory.values()))
            for (crate, *_), size in memory.items():
                highest[crate] = max(highest[crate], size)
            time.sleep(2)
    except KeyboardInterrupt:
        pass
    show(checks, highest, most)


if __name__ == "__main__":
    if len(sys.argv) != 2 or not sys.argv[1].isdigit():
        sys.exit(__doc__)
    main(int(sys.argv[1]))
