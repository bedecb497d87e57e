#!/usr/bin/env python3
"""The program beside a hundred connections, two slow peers and a dead one, over connections of this machine: what memory and how many
descriptors it has.

tests/soak.py [--minutes N] [PROGRAM]   10 minutes, or N, by default by the program that is proved

99 connections give 2,000 lines a second together, of which one at a time is closed and made anew; another one gives nothing. All lines
go to a file, by a path with flow-control, and to three peers without it: one reads 40 kB a second, one too and closes its connection
every 20 seconds, and one doesn't answer. Memory (VmRSS, VmHWM) and descriptors are looked at each second. Behind the first fifth of the
time neither may pass what it was there, but for a tenth and 4 MiB, and for 3 descriptors; and each line must stand in the file once.
With 10 minutes or more a connection beyond the slots is made at the end: then the one that gave nothing is closed too. Beside it another run
has a disk-buffer that can't grow, which is told at once and then once a minute."""
import argparse, os, resource, subprocess, sys, tempfile, time

sys.dont_write_bytecode = True
import peers

ACTIVE = 99  # connections that give lines; with the other one all slots are taken
LINES = 10  # of each connection, twice a second
IDLE = 605  # seconds until a connection has given nothing for 10 minutes


def read_slowly_and_close(peer, one):
    """40,000 bytes a second, for 20 seconds."""
    begun = time.monotonic()
    try:
        while time.monotonic() - begun < 20:
            piece = one.recv(4000)
            if not piece:
                return
            peer.taken += len(piece)
            time.sleep(0.1)
    except OSError:
        pass
    one.close()


class Givers:
    """The connections that give lines, each of a number of its own."""

    def __init__(self, port):
        self.port = port
        self.open = [peers.connected(port) for _ in range(ACTIVE)]
        self.next = 0
        self.turn = 0

    def give(self):
        """Lines over each connection; None stands for one that was closed."""
        for one in self.open:
            if one is not None:
                one.sendall(b"".join(peers.LINE % n for n in range(self.next, self.next + LINES)))
                self.next += LINES

    def change(self):
        """Closes a connection, or makes the one that was closed last time anew."""
        place = self.turn // 2 % ACTIVE
        if self.turn % 2 == 0:
            self.open[place].close()
            self.open[place] = None
        else:
            self.open[place] = peers.connected(self.port)
        self.turn += 1

    def close(self):
        for one in self.open:
            if one is not None:
                one.close()


class Usage:
    """What the program has of memory, in kB, and of descriptors, each second."""

    def __init__(self, process):
        self.process = process
        self.seen = []

    def look(self):
        with open(f"/proc/{self.process.pid}/status") as file:
            status = file.read()
        rss, most = (int(status.split(word)[1].split()[0]) for word in ("VmRSS:", "VmHWM:"))
        self.seen.append((rss, most, len(os.listdir(f"/proc/{self.process.pid}/fd"))))

    def text(self):
        return "%d kB, %d kB at most, %d descriptors" % self.seen[-1]

    def judge(self):
        """Behind the first fifth, and what it was there."""
        first = self.seen[: max(len(self.seen) // 5, 1)]
        memory, descriptors = max(rss for rss, _, _ in first), max(count for _, _, count in first)
        limit = memory * 11 // 10 + 4096
        most = max(most for _, most, _ in self.seen)
        peers.check("memory is steady", most <= limit, f"{most} kB at most, {memory} kB in the first fifth")
        most = max(count for _, _, count in self.seen)
        peers.check("descriptors are steady", most <= descriptors + 3, f"{most} at most, {descriptors} in the first fifth")


def configure(folder, port, outlets):
    paths = "".join(
        f'destination p{k} {{ network("127.0.0.1" port({peer.port}) template("$MSG\\n") time-reopen(1)); }};\n'
        f"log {{ source(s); destination(p{k}); }};\n"
        for k, peer in enumerate(outlets)
    )
    peers.config(
        folder,
        f'source s {{ network(ip("127.0.0.1") port({port}) max-connections({ACTIVE + 1}) flags(no-parse)); }};\n'
        'destination f { file("out" template("$MSG\\n")); };\n'
        "log { source(s); destination(f); flags(flow-control); };\n" + paths,
    )


def is_whole(path, count):
    """Whether each line of a number below this stands in the file once, and nothing else."""
    seen = bytearray(count)
    with open(path, "rb") as file:
        for line in file:
            number = int(line[:9]) if line[:9].isdigit() else count
            if number >= count or seen[number] or line != peers.LINE % number:
                return False
            seen[number] = 1
    return all(seen)


def go_on(process, folder, givers, usage, seconds):
    """Gives lines for so many seconds, and tells each minute what the program has."""
    begun = time.monotonic()
    while (passed := time.monotonic() - begun) < seconds and process.poll() is None:
        if passed >= len(usage.seen):
            usage.look()
            givers.change()
            if len(usage.seen) % 60 == 1:
                print(f"minute {len(usage.seen) // 60}: {usage.text()}, {givers.next} lines", flush=True)
        givers.give()
        time.sleep(0.5)
    print(f"at the end: {usage.text()}, {givers.next} lines", flush=True)
    peers.check("the program goes on", process.poll() is None, peers.told(folder).strip())


def close_idle(folder, givers, idle, begun):
    """A connection beyond the slots is closed, and with it the one that gave nothing."""
    if givers.turn % 2:
        givers.change()
    while time.monotonic() - begun < IDLE:
        givers.give()
        time.sleep(0.5)
    more = peers.connected(givers.port)
    peers.check("a connection beyond the slots is closed", peers.is_closed(more, 3))
    peers.check("and one that gave nothing for 10 minutes", peers.is_closed(idle, 3))
    words = "gave up the connection of 127.0.0.1: it has given nothing for 10 minutes\n"
    peers.check("which is told", peers.told(folder).count(words) == 1)
    more.close()


class Broken:
    """A run whose disk-buffer can't grow: no file of it may have more than 100,000 bytes."""

    def __init__(self, program, folder, port):
        self.folder = folder
        os.mkdir(folder)
        with open(os.path.join(folder, "in"), "wb") as file:
            file.write(b"".join(peers.LINE % n for n in range(3_000)))
        buffer = "disk-buffer(reliable(yes) disk-buf-size(1048576))"
        peers.config(
            folder,
            'source s { file("in" flags(no-parse)); };\n'
            f'destination p {{ network("127.0.0.1" port({port}) template("$MSG\n") {buffer}); }};\n'
            "log { source(s); destination(p); };\n",
        )
        limit = lambda: resource.setrlimit(resource.RLIMIT_FSIZE, (100_000, 100_000))
        how = {"cwd": folder, "stdout": subprocess.DEVNULL, "preexec_fn": limit, "restore_signals": False}  # SIGXFSZ stays ignored
        with open(os.path.join(folder, "errors"), "wb") as errors:
            self.process = subprocess.Popen([program, "run", "conf"], stderr=errors, **how)
        self.begun = time.monotonic()

    def judge(self):
        """It was told at once, and then each minute."""
        text, minutes = peers.told(self.folder), int((time.monotonic() - self.begun) // 60)
        store = "queue-network,127.0.0.1"
        first = [line for line in text.splitlines() if store in line and "cannot write: File too large" in line]
        later = [line for line in text.splitlines() if store in line and line.endswith("it has failed, and is not used until the next start")]
        good = len(first) == 1 and minutes - 1 <= len(later) <= minutes and self.process.poll() is None
        peers.check("a store that failed is told once a minute", good, f"{len(first)} and {len(later)} times in {minutes} minutes")
        peers.end(self.process)


def soak(program, minutes, folder):
    slow, closing, dead = peers.Peer(peers.read_slowly), peers.Peer(read_slowly_and_close), peers.Peer(None, 0)
    port = peers.free_port()
    configure(folder, port, [slow, closing, dead])
    process = peers.start(program, folder)
    broken = Broken(program, os.path.join(folder, "broken"), dead.port)
    try:
        givers = Givers(port)
        idle, begun = peers.connected(port), time.monotonic()
        usage = Usage(process)
        go_on(process, folder, givers, usage, minutes * 60)
        if minutes >= 10:
            close_idle(folder, givers, idle, begun)
        givers.close()
        out, size = os.path.join(folder, "out"), givers.next * len(peers.LINE % 0)
        peers.wait_for(lambda: os.path.getsize(out) >= size, 30)
        peers.check("each line stands in the file once", is_whole(out, givers.next), f"{givers.next} lines")
        rates = [int(peer.taken / (time.monotonic() - begun)) for peer in (slow, closing)]
        peers.check("the slow peers are served", min(rates) > 20_000, "%d and %d bytes a second" % tuple(rates))
        usage.judge()
        broken.judge()
    finally:
        peers.end(process)
        peers.end(broken.process)
        for peer in (slow, closing, dead):
            peer.close()


def main():
    words = argparse.ArgumentParser(description=__doc__, formatter_class=argparse.RawDescriptionHelpFormatter)
    words.add_argument("--minutes", type=float, default=10)
    words.add_argument("program", nargs="?", default=peers.PROGRAM)
    given = words.parse_args()
    with tempfile.TemporaryDirectory() as folder:
        soak(os.path.abspath(given.program), given.minutes, folder)
    print(f"{len(peers.failed)} failed")
    raise SystemExit(1 if peers.failed else 0)


if __name__ == "__main__":
    main()
