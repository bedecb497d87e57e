#!/usr/bin/env python3
"""Runs of the real program with a file for each of twenty hosts on a disk that is full at times.

    tests/full_hosts.py [COUNT [PROGRAM]]     by default 3 runs of the program that is proved

The hosts' files are on a file system of 1,500 KiB, which is mounted for this. Records of the hosts, mostly in turns, are appended to a
file that is followed, and go with flow-control to the file of their host. Five times the disk is filled but for a few pages, and emptied
again. At the end the file of each host must have each of its records whole, once, in their order, and nothing else: what stood behind a
record that had no room was cut off again. Each third run is under fsync.

It says how many records there were, and how often a file was told to fail. It ends with status 1 where a file is wrong, and with 2 where
no file system can be mounted.
"""
import os
import random
import subprocess
import sys
import tempfile
import time

TOP = os.path.dirname(os.path.dirname(os.path.abspath(__file__)))
PROGRAM = os.path.join(TOP, "crates", "sg_top", "out", "sg_top")
CONFIG = """@version: 4.2
options { keep-hostname(yes); time-reopen(1); };
source s { file("in" follow-freq(0.1)); };
destination d { file("small/$HOST.log" template("$MSGHDR$MSG\\n")%s); };
log { source(s); destination(d); flags(flow-control); };
"""
HOSTS = ["host%02d" % number for number in range(20)]


class Run:
    def __init__(self, program, seed):
        self.chance = random.Random(seed)
        self.count, self.wanted = 0, {host: [] for host in HOSTS}
        with open("conf", "w") as conf:
            conf.write(CONFIG % (" fsync(yes)" if seed % 3 == 0 else ""))
        self.source = open("in", "ab", buffering=0)
        self.child = subprocess.Popen([program, "run", "conf"], stdout=subprocess.DEVNULL, stderr=open("told", "wb"))

    def grow(self, most):
        lines = []
        for _ in range(most):
            in_turn = self.chance.random() < 0.8
            host = HOSTS[self.count % len(HOSTS)] if in_turn else self.chance.choice(HOSTS)
            text = "r%06d %s." % (self.count, "x" * self.chance.randint(0, 60))
            self.count += 1
            self.wanted[host].append(text)
            lines.append("<13>Oct 11 22:14:15 %s %s\n" % (host, text))
        self.source.write("".join(lines).encode())

    def fill(self):
        """The disk is full but for a few pages while records come."""
        about = os.statvfs("small")
        left = self.chance.choice((0, 4096, 8192, 16384, 40960))
        with open("small/filler", "wb") as filler:
            filler.write(b"0" * max(0, about.f_bavail * about.f_bsize - left))
        self.grow(self.chance.randint(200, 1500))
        time.sleep(self.chance.uniform(1.5, 3))
        os.remove("small/filler")
        time.sleep(self.chance.uniform(0.5, 2))

    def there(self, host):
        try:
            with open("small/%s.log" % host) as file:
                return file.read().split("\n")[:-1]
        except FileNotFoundError:
            return []

    def finish(self):
        """The files that are wrong once all records are there, or behind 20 seconds."""
        end = time.monotonic() + 20
        while time.monotonic() < end and sum(len(self.there(host)) for host in HOSTS) < self.count:
            time.sleep(0.2)
        time.sleep(1.5)
        wrong = [host for host in HOSTS if self.there(host) != self.wanted[host]]
        self.child.terminate()
        self.child.wait()
        return wrong


def go(program, seed):
    run = Run(program, seed)
    try:
        for _ in range(60):
            run.grow(len(HOSTS))
        time.sleep(1)
        for _ in range(5):
            run.fill()
        wrong = run.finish()
    finally:
        if run.child.poll() is None:
            run.child.kill()
            run.child.wait()
    told = open("told").read().count("cannot write")
    print("run %d: %d records, %d times a file was told to fail, %s" % (seed, run.count, told, "wrong: " + " ".join(wrong) if wrong else "0 wrong"))
    return not wrong


def main():
    count = int(sys.argv[1]) if len(sys.argv) > 1 else 3
    program = os.path.abspath(sys.argv[2] if len(sys.argv) > 2 else PROGRAM)
    good = True
    for seed in range(1, count + 1):
        with tempfile.TemporaryDirectory() as folder:
            os.chdir(folder)
            os.mkdir("small")
            if subprocess.call(["mount", "-t", "tmpfs", "-o", "size=1500k", "none", "small"], stderr=subprocess.DEVNULL) != 0:
                print("no file system can be mounted here")
                sys.exit(2)
            try:
                good = go(program, seed) and good
            finally:
                subprocess.call(["umount", "small"])
                os.chdir(TOP)
    sys.exit(0 if good else 1)


main()
