#!/usr/bin/env python3
"""Runs of the real program over growing files, each of them killed at a moment of chance.

    tests/kills.py [COUNT [PROGRAM]]     by default 400 runs of the program that is proved

The records of two files go by one log path with flow-control to two destinations, of which one has a disk-buffer and takes nothing
in every fourth run or so, so that entries wait there. Each run is killed (SIGKILL) while lines and parts of lines are appended to
both files, at a moment within three times as long as a run takes that ends by itself, and a tenth of a second at most. None may end
before it is killed. At the end a run with `--once` must end with status 0, and then each destination has each record whole, those
of each file in their order, and nothing else, but that a record may stand there again, and that a kill within a write leaves what
was written of it: the beginning of a record, behind which the next line stands. As many series run beside each other as there are
processors, each in a folder of its own.

It says how many runs were killed, how many records there were, how many stood there again, and how many writes were cut off within
a record. It ends with status 1 where a record is lost or out of order, a line is none, or a run ended by itself.
"""
import concurrent.futures
import os
import random
import re
import subprocess
import sys
import tempfile
import time

TOP = os.path.dirname(os.path.dirname(os.path.abspath(__file__)))
PROGRAM = os.path.join(TOP, "crates", "sg_top", "out", "sg_top")
CONFIG = """@version: 4.2
source s { file("a.in" flags(no-parse)); file("b.in" flags(no-parse)); };
destination d_buffered { file("buffered" template("$MSG\\n") disk-buffer(reliable(yes) disk-buf-size(1048576))); };
destination d_queued { file("queued" template("$MSG\\n")); };
log { source(s); destination(d_buffered); destination(d_queued); flags(flow-control); };
"""


class Growing:
    """A file to which lines are appended, and parts of lines."""

    def __init__(self, folder, name, chance):
        self.name, self.chance = name, chance
        self.lines, self.rest = [], b""
        self.file = open(os.path.join(folder, name + ".in"), "ab", buffering=0)

    def grow(self, most):
        for _ in range(self.chance.randint(0, most)):
            line = b"%s %07d %s." % (self.name.encode(), len(self.lines), b"x" * self.chance.randint(0, 150))
            self.lines.append(line)
            self.rest += line + b"\n"
        count = self.chance.randint(0, len(self.rest)) if self.chance.random() < 0.3 else len(self.rest)
        self.file.write(self.rest[:count])
        self.rest = self.rest[count:]

    def end(self):
        self.file.write(self.rest)
        self.rest = b""
        self.file.close()


def point(folder, alive):
    """Where the destination with the disk-buffer writes: to its file, or to a device that takes nothing."""
    link = os.path.join(folder, "buffered.new")
    os.symlink("buffered.out" if alive else "/dev/full", link)
    os.rename(link, os.path.join(folder, "buffered"))


def run_once(program, folder):
    """A run to the end of the input: its exit status, what it said, and how many seconds it took."""
    start = time.monotonic()
    words = [program, "run", "c", "--once"]
    run = subprocess.run(words, cwd=folder, stdin=subprocess.DEVNULL, stdout=subprocess.PIPE, stderr=subprocess.STDOUT)
    return run.returncode, run.stdout.decode(errors="replace"), time.monotonic() - start


def run_killed(program, folder, files, span, chance):
    """The exit status of a run that is killed within so many seconds."""
    with open(os.path.join(folder, "said"), "wb") as said:
        run = subprocess.Popen([program, "run", "c"], cwd=folder, stdin=subprocess.DEVNULL, stdout=said, stderr=subprocess.STDOUT)
    end = time.monotonic() + chance.random() * span
    while True:
        chance.choice(files).grow(20)
        left = end - time.monotonic()
        if left <= 0:
            break
        time.sleep(min(left, 0.001 + chance.random() * 0.005))
    run.kill()
    return run.wait()


def parted(line, known):
    """The record at the end of a line, and how many beginnings of others stand before it; none where it has another form."""
    starts = [found.start() for found in re.finditer(rb"[ab]", line)]
    if not starts or line[starts[-1] :] not in known:
        return None
    for start, end in zip(starts, starts[1:]):
        part = line[start:end]
        if not re.fullmatch(rb"[ab]( (\d{0,6}|\d{7}( x*\.?)?))?", part):
            return None
    return (line[starts[-1] :], len(starts) - 1) if starts[0] == 0 else None


def lacks(wanted, path):
    """What is wrong with a destination's file, how many records stand there again, and how many writes were cut off."""
    with open(path, "rb") as file:
        text = file.read()
    places = {line: (k, n) for k, lines in enumerate(wanted) for n, line in enumerate(lines)}
    seen, again, cut, wrong = [0] * len(wanted), 0, 0, []
    lines = text.split(b"\n")
    if lines.pop():
        wrong.append("no end of a line at the end of the file")
    for line in lines:
        parts = parted(line, places)
        if parts is None:
            wrong.append("no record: %r" % line)
            continue
        k, n = places[parts[0]]
        cut += parts[1]
        if n < seen[k]:
            again += 1
        elif n > seen[k]:
            wrong.append("out of order: %r" % line)
            seen[k] = n + 1
        else:
            seen[k] += 1
    wrong += ["lost: %r" % line for k, lines in enumerate(wanted) for line in lines[seen[k] :]]
    return wrong, again, cut


def series(program, count, seed):
    """So many killed runs, and one to the end: how many records there were, how many stood there again, how many writes were cut off,
    and what is wrong."""
    chance = random.Random(seed)
    with tempfile.TemporaryDirectory() as folder:
        with open(os.path.join(folder, "c"), "w") as config:
            config.write(CONFIG)
        open(os.path.join(folder, "buffered.out"), "wb").close()
        point(folder, True)
        files = [Growing(folder, name, chance) for name in "ab"]
        status, said, seconds = run_once(program, folder)
        if status != 0:
            return 0, 0, 0, ["the first run ended with status %d: %s" % (status, said)]
        span = min(3 * seconds, 0.1)
        for k in range(count):
            point(folder, chance.random() < 0.75)
            status = run_killed(program, folder, files, span, chance)
            if status != -9:
                with open(os.path.join(folder, "said"), errors="replace") as said:
                    return 0, 0, 0, ["run %d of seed %d ended with status %d: %s" % (k, seed, status, said.read())]
        for file in files:
            file.end()
        point(folder, True)
        status, said, _ = run_once(program, folder)
        if status != 0:
            return 0, 0, 0, ["the last run of seed %d ended with status %d: %s" % (seed, status, said)]
        wanted = [file.lines for file in files]
        wrong, again, cut = [], 0, 0
        for name in ("buffered.out", "queued"):
            lacking, more, cuts = lacks(wanted, os.path.join(folder, name))
            wrong += ["seed %d, %s: %s" % (seed, name, it) for it in lacking]
            again += more
            cut += cuts
        return sum(map(len, wanted)), again, cut, wrong


def main():
    count = int(sys.argv[1]) if len(sys.argv) > 1 else 400
    program = os.path.abspath(sys.argv[2]) if len(sys.argv) > 2 else PROGRAM
    workers = min(os.cpu_count() or 1, count)
    counts = [count // workers + (k < count % workers) for k in range(workers)]
    first = random.randrange(1_000_000)
    start = time.monotonic()
    with concurrent.futures.ThreadPoolExecutor(workers) as pool:
        ends = list(pool.map(lambda k: series(program, counts[k], first + k), range(workers)))
    seconds = time.monotonic() - start
    wrong = [it for end in ends for it in end[3]]
    for it in wrong[:20]:
        print(it)
    if len(wrong) > 20:
        print("and %d more" % (len(wrong) - 20))
    records, again, cut = (sum(end[k] for end in ends) for k in range(3))
    print("%d runs killed in %.0f seconds, %d of them within a record" % (count, seconds, cut))
    print("%d records to each destination, %d of them again, %d wrong" % (records, again, len(wrong)))
    return 1 if wrong else 0


if __name__ == "__main__":
    sys.exit(main())
