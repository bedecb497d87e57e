#!/usr/bin/env python3
"""Runs of the real program with a file for each host, each of them killed at a moment of chance.

    tests/hosts.py [COUNT [HOSTS [PROGRAM]]]     by default 20 runs over 1,000 hosts of the program that is proved

Records of hosts by chance are appended to a file, which goes by a log path with flow-control to a destination whose path names the
host; folders are made. Each run is killed (SIGKILL) at a moment within half a second, while lines are appended. None may end before
it is killed. At the end a run with `--once` must end with status 0, and then the file of each host has each of its records whole, in
their order, and nothing else, but that a record may stand there again, and that a kill within a write leaves the beginning of a record,
behind which the next line stands. No more than 128 files may be open at any look.

It says how many runs were killed, how many records and files there were, how many records stood there again, and the most files that
were open. It ends with status 1 where a record is lost, out of order or in another file, or a run ended by itself.
"""
import os
import random
import subprocess
import sys
import tempfile
import time

TOP = os.path.dirname(os.path.dirname(os.path.abspath(__file__)))
PROGRAM = os.path.join(TOP, "crates", "sg_top", "out", "sg_top")
CONFIG = """@version: 4.2
options { keep-hostname(yes); };
source s { file("in"); };
destination d { file("hosts/$HOST/all.log" template("$MSGHDR$MSG\\n") create-dirs(yes)); };
log { source(s); destination(d); flags(flow-control); };
"""
MOST_OPEN = 128


class Records:
    """The records of all hosts, which are appended to the source."""

    def __init__(self, folder, hosts, chance):
        self.hosts, self.chance, self.count = hosts, chance, 0
        self.wanted = {}
        self.file = open(os.path.join(folder, "in"), "ab", buffering=0)

    def grow(self, most):
        lines = []
        for _ in range(self.chance.randint(0, most)):
            host = "host%04d" % self.chance.randrange(self.hosts)
            # Some hosts say several things behind each other.
            for _ in range(self.chance.choice((1, 1, 1, 5))):
                text = "r%07d %s." % (self.count, "x" * self.chance.randint(0, 100))
                self.count += 1
                self.wanted.setdefault(host, []).append(text)
                lines.append("<13>Oct 11 22:14:15 %s %s\n" % (host, text))
        self.file.write("".join(lines).encode())


def open_files(run):
    """How many files of hosts a run has open."""
    try:
        places = os.listdir("/proc/%d/fd" % run.pid)
        links = [os.readlink("/proc/%d/fd/%s" % (run.pid, place)) for place in places]
    except OSError:
        return 0
    return sum(link.endswith("/all.log") for link in links)


def run_killed(program, folder, records):
    """The status of a run that is killed, and the most files that it had open."""
    with open(os.path.join(folder, "said"), "wb") as said:
        run = subprocess.Popen([program, "run", "c"], cwd=folder, stdin=subprocess.DEVNULL, stdout=said, stderr=said)
    end, most = time.monotonic() + 0.05 + records.chance.random() * 0.45, 0
    while time.monotonic() < end:
        records.grow(200)
        most = max(most, open_files(run))
        time.sleep(0.002)
    run.kill()
    return run.wait(), most


def lacks(wanted, path):
    """What is wrong with the file of a host, and how many records stand there again."""
    places = {text: n for n, text in enumerate(wanted)}
    with open(path, encoding="ascii") as file:
        lines = file.read().split("\n")
    wrong, seen, again = [], 0, 0
    if lines.pop():
        wrong.append("%s: no end of a line at the end" % path)
    for line in lines:
        # Behind the beginning of a record that a kill has cut off the next one stands.
        record = line[line.rfind("r") :]
        if record not in places:
            wrong.append("%s: no record of this host: %r" % (path, line))
        elif places[record] > seen:
            wrong.append("%s: out of order: %r" % (path, line))
            seen = places[record] + 1
        elif places[record] < seen:
            again += 1
        else:
            seen += 1
    wrong += ["%s: lost: %r" % (path, text) for text in wanted[seen:]]
    return wrong, again


def main():
    count = int(sys.argv[1]) if len(sys.argv) > 1 else 20
    hosts = int(sys.argv[2]) if len(sys.argv) > 2 else 1000
    program = os.path.abspath(sys.argv[3]) if len(sys.argv) > 3 else PROGRAM
    seed = random.randrange(1 << 32)
    wrong, again, most = [], 0, 0
    with tempfile.TemporaryDirectory() as folder:
        with open(os.path.join(folder, "c"), "w", encoding="ascii") as config:
            config.write(CONFIG)
        records = Records(folder, hosts, random.Random(seed))
        for _ in range(count):
            status, files = run_killed(program, folder, records)
            most = max(most, files)
            if status != -9:
                wrong.append("a run ended by itself with status %d" % status)
        words = [program, "run", "c", "--once"]
        last = subprocess.run(words, cwd=folder, stdin=subprocess.DEVNULL, capture_output=True, check=False)
        if last.returncode != 0:
            wrong.append("the last run ended with status %d: %r" % (last.returncode, last.stdout + last.stderr))
        for host, wanted in sorted(records.wanted.items()):
            path = os.path.join(folder, "hosts", host, "all.log")
            if not os.path.exists(path):
                wrong.append("%s: no file" % path)
                continue
            more, twice = lacks(wanted, path)
            wrong += more
            again += twice
    if most > MOST_OPEN:
        wrong.append("%d files were open" % most)
    for line in wrong[:20]:
        print(line)
    print(
        "%d runs killed, %d records of %d hosts, %d stood there again, %d files open at most, %d wrong (seed %d)"
        % (count, records.count, len(records.wanted), again, most, len(wrong), seed)
    )
    return 1 if wrong else 0


if __name__ == "__main__":
    sys.exit(main())
