#!/usr/bin/env python3
"""The program with a disk-buffer that isn't reliable, beside a peer that comes and goes, and killed at moments of chance.

    tests/overflow.py [GOES [KILLS [PROGRAM]]]     by default 100 and 200, of the program that is proved

The records of a file that grows go by a log path with flow-control to a peer, through a disk-buffer with `reliable(no)`, which holds
a hundred frames in memory. A peer that goes away listens no more, tells the end of its own side of the connection, and reads what
comes until the program closes that: so what is on its way isn't lost by the peer.

First one run goes on while the peer goes away and comes back, as often as asked for. It must have each record once, in order, and
those that were held back when no new ones came. Then runs are killed (SIGKILL) at a moment of chance, with the peer there, away, or
going away meanwhile. Behind every second one or so a run with `--once` must end with status 0 before a peer. A kill may lose as many
records as are held in memory. What the peer gets must be records, each whole but for the last bytes of a connection, in their order,
but that records may come again behind a kill.

It ends with status 1 where anything else was seen.
"""
import os
import random
import select
import socket
import subprocess
import sys
import tempfile
import threading
import time

TOP = os.path.dirname(os.path.dirname(os.path.abspath(__file__)))
PROGRAM = os.path.join(TOP, "crates", "sg_top", "out", "sg_top")
HOST, MEMORY = "127.0.0.1", 100
CONFIG = """@version: 4.2
source s { file("in" flags(no-parse)); };
destination d { network("%s" port(%d) template("$MSG\\n") time-reopen(1)
    disk-buffer(reliable(no) disk-buf-size(16777216) mem-buf-length(%d))); };
log { source(s); destination(d); flags(flow-control); };
"""


def wait_for(test, seconds):
    end = time.monotonic() + seconds
    while not test():
        if time.monotonic() > end:
            return False
        time.sleep(0.002)
    return True


class Peer:
    """What each connection brought, in the order of the connections. It is there from `come` to `go`."""

    def __init__(self):
        with socket.socket() as free:
            free.bind((HOST, 0))
            self.port = free.getsockname()[1]
        self.brought, self.open, self.listener = [], {}, None

    def come(self):
        self.listener = socket.socket()
        self.listener.setsockopt(socket.SOL_SOCKET, socket.SO_REUSEADDR, 1)
        self.listener.bind((HOST, self.port))
        self.listener.listen(16)
        self.accepting = threading.Thread(target=self.accept, args=(self.listener,), daemon=True)
        self.accepting.start()

    def accept(self, listener):
        while True:
            try:
                one, _ = listener.accept()
            except OSError:
                return
            bytes_of = bytearray()
            self.brought.append(bytes_of)
            self.open[one] = threading.Thread(target=self.read, args=(one, bytes_of), daemon=True)
            self.open[one].start()

    def read(self, one, bytes_of):
        while True:
            try:
                piece = one.recv(1 << 16)
            except OSError:
                piece = b""
            if not piece:
                break
            bytes_of += piece
        del self.open[one]
        one.close()

    def go(self):
        """Nobody may be connecting meanwhile: there is a connection already, or no program."""
        while select.select([self.listener], [], [], 0)[0]:
            time.sleep(0.001)
        self.listener.shutdown(socket.SHUT_RDWR)
        self.accepting.join()
        self.listener.close()
        self.listener = None
        for one in list(self.open):
            try:
                one.shutdown(socket.SHUT_WR)
            except OSError:
                pass

    def is_there(self):
        return self.listener is not None

    def ends(self):
        """Whether all connections come to their end, which a program that has ended or tries to send closes."""
        return wait_for(lambda: not self.open, 10)


class Input:
    """A file to which lines are appended, and parts of lines."""

    def __init__(self, folder, chance):
        self.chance, self.lines, self.rest = chance, [], b""
        self.file = open(os.path.join(folder, "in"), "ab", buffering=0)

    def grow(self, most):
        for _ in range(self.chance.randint(0, most)):
            self.lines.append(b"%07d %s." % (len(self.lines), b"x" * self.chance.randint(0, 150)))
            self.rest += self.lines[-1] + b"\n"
        count = self.chance.randint(0, len(self.rest)) if self.chance.random() < 0.3 else len(self.rest)
        self.file.write(self.rest[:count])
        self.rest = self.rest[count:]

    def end(self):
        self.file.write(self.rest)
        self.rest = b""


class Place:
    """A folder with a configuration, a file that grows, and a peer."""

    def __init__(self, program, folder, chance):
        self.program, self.folder, self.chance = program, folder, chance
        self.peer, self.input = Peer(), Input(folder, chance)
        with open(os.path.join(folder, "c"), "w") as config:
            config.write(CONFIG % (HOST, self.peer.port, MEMORY))

    def start(self, *words):
        with open(os.path.join(self.folder, "said"), "ab") as said:
            how = {"cwd": self.folder, "stdin": subprocess.DEVNULL, "stdout": said, "stderr": said}
            return subprocess.Popen([self.program, "run", "c", *words], **how)

    def said(self):
        with open(os.path.join(self.folder, "said"), "rb") as said:
            return said.read()[-2000:].decode(errors="replace")

    def stored(self):
        """How many bytes the file of the disk-buffer has."""
        names = [name for name in os.listdir(self.folder) if name.startswith("over-")]
        return os.path.getsize(os.path.join(self.folder, names[0])) if names else 0


class Seen:
    """What a peer got, beside the lines that were written."""

    def __init__(self):
        self.connections, self.next, self.again, self.lost, self.back, self.last, self.wrong = 0, 0, 0, 0, 0, -1, []

    def take(self, brought, lines):
        """Reads what further connections brought, all of which have ended."""
        for bytes_of in brought[self.connections :]:
            self.connections += 1
            *whole, torn = bytes(bytes_of).split(b"\n")
            for line in whole:
                number = int(line[:7]) if line[:7].isdigit() else -1
                if not 0 <= number < len(lines) or lines[number] != line:
                    self.wrong.append("no record: %r" % line)
                    continue
                self.back += number <= self.last
                self.last = number
                if number < self.next:
                    self.again += 1
                else:
                    self.lost += number - self.next
                    self.next = number + 1
            if torn and not any(line.startswith(torn) for line in lines):
                self.wrong.append("no beginning of a record: %r" % torn)

    def end(self, lines):
        """Nothing comes any more."""
        self.lost += len(lines) - self.next
        self.next = len(lines)


def come_and_go(program, goes, seed):
    """One run before a peer that goes away so often: how many records there were, the most bytes in the store, and what is wrong."""
    chance = random.Random(seed)
    with tempfile.TemporaryDirectory() as folder:
        place = Place(program, folder, chance)
        peer, seen, stored = place.peer, Seen(), 0
        run = place.start()
        try:
            for k in range(goes):
                peer.come()
                before = len(peer.brought)
                growing = time.monotonic() + 10
                while len(peer.brought) == before and time.monotonic() < growing:
                    place.input.grow(40)
                    time.sleep(0.01)
                if len(peer.brought) == before:
                    return 0, 0, ["nobody connected to the peer: %s" % place.said()]
                for _ in range(chance.randint(0, 20)):
                    place.input.grow(40)
                    time.sleep(0.005)
                peer.go()
                until = time.monotonic() + chance.random() * 0.5
                while peer.open or time.monotonic() < until:
                    place.input.grow(40)
                    time.sleep(0.01)
                    if time.monotonic() > until + 20:
                        return 0, 0, ["the connection isn't closed: %s" % place.said()]
                stored = max(stored, place.stored())
            # what is held back now comes without a new record
            place.input.end()
            time.sleep(1.5)
            peer.come()
            wanted = b"".join(line + b"\n" for line in place.input.lines[-1:])
            if not wait_for(lambda: any(bytes(it).endswith(wanted) for it in peer.brought[-1:]), 20):
                seen.wrong.append("the last record didn't come: %s" % place.said())
            if run.poll() is not None:
                seen.wrong.append("the run ended: %s" % place.said())
        finally:
            run.kill()
            run.wait()
        if not peer.ends():
            seen.wrong.append("a connection is open")
        peer.go()
        seen.take(peer.brought, place.input.lines)
        seen.end(place.input.lines)
        if seen.lost or seen.again:
            seen.wrong.append("%d records lost and %d again without a kill" % (seen.lost, seen.again))
        if stored < 10_000:
            seen.wrong.append("the store has had %d bytes" % stored)
        return len(place.input.lines), stored, seen.wrong


def run_killed(place, chance):
    """A run that is killed; whether it went on until then."""
    peer = place.peer
    there = chance.random() < 0.6
    goes = there and chance.random() < 0.5
    if there:
        peer.come()
    before = len(peer.brought)
    run = place.start()
    end = time.monotonic() + (1.5 if chance.random() < 0.05 else 0.02 + chance.random() * 0.2)
    leave = time.monotonic() + chance.random() * (end - time.monotonic())
    while time.monotonic() < end:
        place.input.grow(30)
        if goes and peer.is_there() and time.monotonic() > leave and len(peer.brought) > before:
            peer.go()
        time.sleep(0.001 + chance.random() * 0.004)
    went = run.poll() is None
    run.kill()
    run.wait()
    if peer.is_there():
        peer.go()
    return went and peer.ends()


def run_once(place):
    """A run to the end of the input before a peer: its status."""
    place.input.end()
    place.peer.come()
    status = place.start("--once").wait()
    place.peer.go()
    place.peer.ends()
    return status


def killed(program, kills, seed):
    """So many killed runs: how many records there were, were lost, and came again, how many runs lost any, and what is wrong."""
    chance = random.Random(seed)
    with tempfile.TemporaryDirectory() as folder:
        place = Place(program, folder, chance)
        seen, since, losing = Seen(), 0, 0
        for k in range(kills):
            if not run_killed(place, chance):
                seen.wrong.append("run %d ended, or left a connection: %s" % (k, place.said()))
                break
            since += 1
            if chance.random() < 0.5 and k + 1 < kills:
                continue
            lost, back = seen.lost, seen.back
            status = run_once(place)
            if status != 0:
                seen.wrong.append("the run behind kill %d ended with status %d: %s" % (k, status, place.said()))
                break
            seen.take(place.peer.brought, place.input.lines)
            seen.end(place.input.lines)
            losing += seen.lost > lost
            if seen.lost - lost > since * MEMORY:
                seen.wrong.append("%d records lost by %d kills" % (seen.lost - lost, since))
            # one for what was sent when the run was killed, and one where its file is read again from
            if seen.back - back > 2 * since:
                seen.wrong.append("%d steps back behind %d kills" % (seen.back - back, since))
            since = 0
        return len(place.input.lines), seen.lost, seen.again, losing, seen.wrong


def main():
    goes, kills = (int(sys.argv[k]) if len(sys.argv) > k else by for k, by in ((1, 100), (2, 200)))
    program = os.path.abspath(sys.argv[3]) if len(sys.argv) > 3 else PROGRAM
    seed = random.randrange(1_000_000)
    start = time.monotonic()
    records, stored, wrong = come_and_go(program, goes, seed)
    print("%d records while the peer went away %d times, in %.0f seconds; its file had up to %d bytes" % (records, goes, time.monotonic() - start, stored))
    start = time.monotonic()
    records, lost, again, losing, more = killed(program, kills, seed)
    print("%d records and %d kills in %.0f seconds: %d lost, in %d of the runs behind them, and %d again" % (records, kills, time.monotonic() - start, lost, losing, again))
    wrong += more
    for it in wrong[:20]:
        print("seed %d: %s" % (seed, it))
    print("%d wrong" % len(wrong))
    return 1 if wrong else 0


if __name__ == "__main__":
    sys.exit(main())
