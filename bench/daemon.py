#!/usr/bin/env python3
"""Records a second and processor time a record of `syslogr run`, beside syslog-ng where it is installed.

    bench/daemon.py [JOB..]      all jobs, or those whose names begin so
        --mib N                  how much each job moves, by default 16 MiB
        --length N               the bytes of a record, by default 200
        --rounds N               how often, by default 5; the programs take turns, and the best of each is shown
        --program PATH           another build of syslogr
        --keep FOLDER            works there, and leaves what the last round wrote

Both programs get the same statements, and syslogr the environment that its launcher sets. A record counts as moved once
its destinations have it, or where its peer is away, its disk-buffer. syslogr is run with `--once`, and measured to its
end; syslog-ng doesn't end at the end of its input, and is measured to the moment when the last record was there. Each
must have written the lines that it should, and the last column tells how the outputs compare.

syslogr syncs its stores, and syslog-ng none of its files: where gcc is installed, its rate without syncs is shown too.
What a run of one record takes is taken off the times, so that the figures are those of the records alone; the table
shows it as the start. It stays in where it is more than half of the whole. The jobs that end short of their aim, in
records a second, are marked, and the script then ends with status 1. Processor time tells more where the machine
does other work too. MiB is the most memory that was seen in a run, each hundredth of a second.
"""
import argparse
import hashlib
import os
import shutil
import signal
import socket
import subprocess
import sys
import tempfile
import threading
import time

TOP = os.path.dirname(os.path.dirname(os.path.abspath(__file__)))
PROGRAM = os.path.join(TOP, "crates", "sg_top", "out", "sg_top")
PULLS = "log-fetch-limit(1000) log-iw-size(10000)"
LIMIT = 120
# GLIBC_TUNABLES, as the launcher sets it.
TUNABLES = "glibc.malloc.tcache_count=1000"
HOST = "127.0.0.1"

OPTIONS = "options { keep-hostname(yes); use-dns(no); };\n"
COPY = 'destination d { file("out" template("%s\\n")); };\nlog { source(s); destination(d); flags(flow-control); };\n'
PLAIN = 'source s { file("in" flags(no-parse) %s follow-freq(1)); };\n' % PULLS
PARSED = 'source s { file("in" %s follow-freq(1)); };\n' % PULLS
TCP = 'source s { network(ip("127.0.0.1") port({port}) transport("tcp") max-connections(%d) %s); };\n'
COUNTED = 'source s { syslog(ip("127.0.0.1") port({port}) transport("tcp") max-connections(1) %s); };\n' % PULLS
PEER = (
    'destination d { network("127.0.0.1" port({port}) transport("tcp") template("$MSG\\n")'
    ' disk-buffer(%s disk-buf-size(536870912) dir("."))); };\n'
    "log { source(s); destination(d); flags(flow-control); };\n"
)
BUFFER, OVERFLOW = PEER % "reliable(yes)", PEER % "reliable(no) mem-buf-length(10000)"
THREE = "".join(
    [
        "filter f_auth { facility(auth, authpriv); };\n",
        "filter f_error { level(err .. emerg); };\n",
        'filter f_late { program("app") and message("timed out"); };\n',
        *('destination d_%s { file("%s"); };\n' % (name, name) for name in ("auth", "error", "late")),
        *("log { source(s); filter(f_%s); destination(d_%s); flags(flow-control); };\n" % (name, name) for name in ("auth", "error", "late")),
    ]
)
COLUMNS = 'parser p { csv-parser(columns("A", "B", "C", "D", "E", "F", "G", "H", "I", "J") delimiters(",") flags(drop-invalid)); };\n'
PICKED = 'destination d { file("out" template("${J} ${B} ${D}\\n")); };\nlog { source(s); parser(p); destination(d); flags(flow-control); };\n'
# Records of each of eight facilities to a file of its own.
APART = "".join(
    'filter f_%d { facility(local%d); };\ndestination d_%d { file("out%d" template("$DATE $HOST $MSGHDR$MSG\\n")); };\n'
    "log { source(s); filter(f_%d); destination(d_%d); flags(flow-control); };\n" % ((k,) * 6)
    for k in range(8)
)

# A file for each host.
HOSTS = (
    'destination d { file("$HOST.log" template("$DATE $HOST $MSGHDR$MSG\\n")); };\n'
    "log { source(s); destination(d); flags(flow-control); };\n"
)


def filled(record, length):
    return record + b"x" * (length - 1 - len(record)) + b"\n"


def plain(k, length):
    return filled(b"record %d " % k, length)


def bsd(k, length):
    return filled(b"<34>Oct 11 22:14:15 mymachine su[7]: record %d " % k, length)


def mixed(k, length):
    """Of each eight records two are of auth, two are errors, and in two the program app says that something timed out."""
    pri = (34, 14, 86, 11, 14, 22, 14, 30)[k % 8]
    program = b"app" if k % 4 == 1 else b"other"
    event = b"timed out" if k % 2 else b"went on"
    return filled(b"<%d>Oct 11 22:14:15 mymachine %s[%d]: record %d %s " % (pri, program, k % 1000, k, event), length)


def columns(k, length):
    """Ten columns, one of them in quotes."""
    return filled(b'<34>Oct 11 22:14:15 mymachine web: 10.0.0.%d,-,ann,2003,"GET /a,b",200,%d,-,curl,record %d ' % (k % 256, k, k), length)


def local(k, length):
    """Of each eight records one has each of the facilities local0 to local7, so each of eight connections has one of them."""
    return filled(b"<%d>Oct 11 22:14:15 mymachine su[7]: record %d " % ((16 + k % 8) * 8 + 6, k), length)


def hosted(k, length):
    """Of each hundred records one is of each of a hundred hosts."""
    return filled(b"<34>Oct 11 22:14:15 host%02d su[7]: record %d " % (k % 100, k), length)


def counted(k, length):
    record = filled(
        b"<165>1 2003-10-11T22:14:15.003Z mymachine evntslog 8710 ID47 "
        b'[exampleSDID@32473 iut="3" eventSource="Application" eventID="1011"] record %d ' % k,
        length - 4,
    )
    return b"%d %s" % (len(record), record)


def of_all(count):
    return {"out": count}


def of_mixed(count):
    """How many lines each destination gets of so many records."""
    kinds = {"auth": (0, 2), "error": (0, 3), "late": (1, 5)}
    return {name: sum(count // 8 + (k < count % 8) for k in places) for name, places in kinds.items()}


def of_local(count):
    return {"out%d" % k: (count + 7 - k) // 8 for k in range(8)}


def of_hosts(count):
    return {"host%02d.log" % k: (count + 99 - k) // 100 for k in range(100)}


class Job:
    """`wanted` is how many times syslog-ng's rate the job is to reach."""

    def __init__(self, name, wanted, make, text, lines=of_all, connections=0, peer=None):
        self.name, self.wanted, self.make, self.text, self.lines = name, wanted, make, text, lines
        self.connections, self.peer = connections, peer


JOBS = [
    Job("plain file", 2, plain, PLAIN + COPY % "$MSG"),
    Job("parsed file", 2, bsd, PARSED + COPY % "$DATE $HOST $MSGHDR$MSG"),
    Job("filters", 1, mixed, PARSED + THREE, of_mixed),
    Job("columns", 2, columns, PARSED + COLUMNS + PICKED),
    Job("100 hosts", 2, hosted, PARSED + HOSTS, of_hosts),
    Job("tcp 1", 1, bsd, TCP % (1, PULLS) + COPY % "$DATE $HOST $MSGHDR$MSG", connections=1),
    Job("tcp 8", 1, bsd, TCP % (8, PULLS) + COPY % "$DATE $HOST $MSGHDR$MSG", connections=8),
    Job("apart, tcp 1", 1, local, TCP % (1, PULLS) + APART, of_local, connections=1),
    Job("apart, tcp 8", 1, local, TCP % (8, PULLS) + APART, of_local, connections=8),
    Job("counted 5424", 1, counted, COUNTED + COPY % "<$PRI>1 $ISODATE $HOST $PROGRAM $PID $MSGID ${.SDATA.exampleSDID@32473.eventID} $MSG", connections=1),
    Job("buffer, peer up", 1, plain, PLAIN + BUFFER, peer="up"),
    Job("buffer, peer away", 1, plain, PLAIN + BUFFER, peer="away"),
    Job("overflow, peer up", 1, plain, PLAIN + OVERFLOW, peer="up"),
    Job("overflow, peer away", 1, plain, PLAIN + OVERFLOW, peer="away"),
]


class Feeder:
    """Sends texts, each by a connection of its own, to a server that may still be starting."""

    def __init__(self, port, texts):
        self.threads = [threading.Thread(target=self.feed, args=(port, text), daemon=True) for text in texts]
        for thread in self.threads:
            thread.start()

    def feed(self, port, text):
        end = time.monotonic() + 30
        while time.monotonic() < end:
            try:
                with socket.create_connection((HOST, port)) as to:
                    to.sendall(text)
                return
            except ConnectionRefusedError:
                time.sleep(0.002)


class Sink:
    """A peer that takes what comes."""

    def __init__(self):
        self.pieces, self.lines = [], 0
        self.listener = socket.create_server((HOST, 0))
        self.port = self.listener.getsockname()[1]
        self.accepting = threading.Thread(target=self.accept, daemon=True)
        self.accepting.start()

    def accept(self):
        while True:
            try:
                connection, _ = self.listener.accept()
            except OSError:
                return
            threading.Thread(target=self.take, args=(connection,), daemon=True).start()

    def take(self, connection):
        with connection:
            while piece := connection.recv(1 << 18):
                self.pieces.append(piece)
                self.lines += piece.count(b"\n")

    def count(self):
        return self.lines

    def close(self):
        """Ends its thread first, which might accept at a later listener that gets this one's descriptor."""
        self.listener.shutdown(socket.SHUT_RDWR)
        self.accepting.join()
        self.listener.close()


class Files:
    """Counts the lines of files that grow."""

    def __init__(self, paths):
        self.at = {path: 0 for path in paths}
        self.lines = 0

    def count(self):
        for path, at in self.at.items():
            if os.path.exists(path) and os.path.getsize(path) > at:
                with open(path, "rb") as file:
                    file.seek(at)
                    more = file.read()
                self.at[path] += len(more)
                self.lines += more.count(b"\n")
        return self.lines


class Queue:
    """How many messages wait in syslog-ng's disk-buffer, as its control socket says."""

    def __init__(self, control):
        self.control = control

    def count(self):
        said = b""
        try:
            with socket.socket(socket.AF_UNIX) as ask:
                ask.connect(self.control)
                ask.sendall(b"STATS\n")
                while not said.endswith(b"\n.\n") and (piece := ask.recv(65536)):
                    said += piece
        except OSError:
            return 0
        return sum(int(line.rsplit(b";", 1)[1]) for line in said.split(b"\n") if line.startswith(b"dst.") and b";queued;" in line)


def read(path):
    """What stands in a file, nothing where it isn't there."""
    if not os.path.exists(path):
        return b""
    with open(path, "rb") as file:
        return file.read()


def free_port():
    with socket.socket() as probe:
        probe.bind((HOST, 0))
        return probe.getsockname()[1]


def processor_seconds(process):
    """What a process that runs has taken, all its threads together (clock_getcpuclockid)."""
    return time.clock_gettime((~process << 3) | 2)


class Peak(threading.Thread):
    """The most memory that a process was seen to hold."""

    def __init__(self, process):
        super().__init__(daemon=True)
        self.status, self.kib = "/proc/%d/status" % process, 0
        self.start()

    def run(self):
        while kib := self.held():
            self.kib = max(self.kib, kib)
            time.sleep(0.01)

    def held(self):
        """The most so far, in KiB; 0 once it has ended."""
        try:
            return next((int(line.split()[1]) for line in read(self.status).split(b"\n") if line.startswith(b"VmHWM:")), 0)
        except OSError:
            return 0

    def mib(self):
        return self.kib / 1024


class Run:
    """One run of one program for a job, in a folder of its own."""

    def __init__(self, job, folder, texts, count):
        self.job, self.folder, self.texts, self.count = job, folder, texts, count
        shutil.rmtree(folder, ignore_errors=True)
        os.makedirs(folder)
        self.sink = Sink() if job.peer == "up" else None
        self.port = self.sink.port if self.sink else free_port()
        if not job.connections:
            with open(self.path("in"), "wb") as file:
                file.write(b"".join(texts))
        self.outputs = {} if job.peer else job.lines(count)

    def path(self, name):
        return os.path.join(self.folder, name)

    def configure(self, version):
        with open(self.path("conf"), "w") as conf:
            conf.write("@version: %s\n" % version + OPTIONS + self.job.text.replace("{port}", str(self.port)))

    def feed(self):
        if self.job.connections:
            Feeder(self.port, self.texts)

    def start(self, words, settings=None):
        log = open(self.path("said"), "wb")
        environment = dict(os.environ, TZ="UTC", **(settings or {}))
        return subprocess.Popen(words, cwd=self.folder, stdout=log, stderr=subprocess.STDOUT, env=environment)

    def fail(self, why):
        raise SystemExit("%s: %s\n%s" % (self.job.name, why, read(self.path("said"))[-2000:].decode(errors="replace")))

    def syslogr(self, program, preload=None):
        self.configure("4.2")
        start = time.monotonic()
        settings = dict({"GLIBC_TUNABLES": TUNABLES}, **({"LD_PRELOAD": preload} if preload else {}))
        child = self.start([program, "run", "conf", "--once"], settings)
        peak = Peak(child.pid)
        self.feed()
        timer = threading.Timer(LIMIT, child.kill)
        timer.start()
        _, status, used = os.wait4(child.pid, 0)
        timer.cancel()
        while self.sink and self.sink.count() < self.count and time.monotonic() - start < LIMIT:
            time.sleep(0.002)
        took = time.monotonic() - start
        child.returncode = os.waitstatus_to_exitcode(status)
        if child.returncode != (6 if self.job.peer == "away" else 0):
            self.fail("syslogr ended with %d" % child.returncode)
        if self.job.peer == "away":
            store = next(name for name in os.listdir(self.folder) if name.startswith(("queue-", "over-")))
            said = subprocess.run([program, "spool", store], cwd=self.folder, stdout=subprocess.PIPE, stderr=subprocess.DEVNULL).stdout
            if not said.endswith(b"entries %d\n" % self.count):
                self.fail("syslogr's disk-buffer hasn't all")
        return took, used.ru_utime + used.ru_stime, peak.mib()

    def syslog_ng(self):
        self.configure("current")
        state = [self.path(name) for name in ("ng.persist", "ng.ctl", "ng.pid")]
        words = ["syslog-ng", "-F", "--no-caps", "-f", "conf", "-R", state[0], "-c", state[1], "-p", state[2]]
        meter = self.sink or (Queue(state[1]) if self.job.peer else Files([self.path(name) for name in self.outputs]))
        whole = self.count if self.job.peer else sum(self.outputs.values())
        start = time.monotonic()
        child = self.start(words)
        peak = Peak(child.pid)
        try:
            self.feed()
            while meter.count() < whole:
                if time.monotonic() - start > LIMIT or child.poll() is not None:
                    self.fail("syslog-ng has delivered %d of %d" % (meter.count(), whole))
                time.sleep(0.005)
            return time.monotonic() - start, processor_seconds(child.pid), peak.mib()
        finally:
            if child.poll() is None:
                child.send_signal(signal.SIGTERM)
                child.wait()

    def delivered(self):
        """What was written, each as its number of lines, its sum, and the sum of its lines in order."""
        texts = {}
        if self.sink:
            texts["peer"] = b"".join(self.sink.pieces)
        for name in self.outputs:
            texts[name] = read(self.path(name))
        found = {}
        for name, text in texts.items():
            lines = text.split(b"\n")
            found[name] = (len(lines) - 1, hashlib.sha256(text).digest(), hashlib.sha256(b"\n".join(sorted(lines))).digest())
        return found

    def check(self):
        wanted = {"peer": self.count} if self.sink else self.outputs
        found = self.delivered()
        for name, lines in wanted.items():
            if found[name][0] != lines:
                self.fail("%s has %d lines in the place of %d" % (name, found[name][0], lines))
        return found

    def close(self):
        if self.sink:
            self.sink.close()


def texts_of(job, count, length):
    """What each connection sends; of a file one text."""
    texts = [[] for _ in range(max(job.connections, 1))]
    for k in range(count):
        texts[k % len(texts)].append(job.make(k, length))
    return [b"".join(text) for text in texts]


def same(mine, theirs):
    """How the outputs of the two compare."""
    if mine == theirs:
        return "same bytes"
    if all(mine[name][2] == theirs[name][2] for name in mine):
        return "same lines"
    return "as many lines"


class Figures:
    """Times and memory of one program for one job, of all records and of the fewest."""

    def __init__(self):
        self.all, self.few = [], []

    def told(self, count, fewest):
        """Records a second, microseconds of the processor a record, MiB, and the start's milliseconds, of the clock and of the processor."""
        wall, used, mib = (min(times) for times in zip(*self.all))
        wall_few, used_few, _ = (min(times) for times in zip(*self.few))
        more = count - fewest
        net = wall - wall_few if wall_few < wall / 2 else wall
        return more / net, (used - used_few) / more * 1e6, mib, wall_few * 1e3, used_few * 1e3


def measured(job, options, preload, folder):
    count = options.mib * 1048576 // options.length
    fewest = max(job.connections, 1)
    texts = {n: texts_of(job, n, options.length) for n in (count, fewest)}
    mine, unsynced, theirs = Figures(), Figures(), Figures()
    ways = []
    if shutil.which(options.program):
        ways.append(("syslogr", mine, lambda run: run.syslogr(options.program)))
        if preload:
            ways.append(("unsynced", unsynced, lambda run: run.syslogr(options.program, preload)))
    if shutil.which("syslog-ng"):
        ways.append(("syslog-ng", theirs, Run.syslog_ng))
    compared = "not compared"
    for _ in range(options.rounds):
        for n in (fewest, count):
            found = {}
            for which, figures, go in ways:
                run = Run(job, os.path.join(folder, which), texts[n], n)
                took = go(run)
                found[which] = run.check()
                run.close()
                (figures.all if n == count else figures.few).append(took)
            if n == count and "syslogr" in found and "syslog-ng" in found:
                compared = same(found["syslogr"], found["syslog-ng"]) if found["syslogr"] else "in the buffer"
    return [figures.told(count, fewest) if figures.all else None for figures in (mine, unsynced, theirs)], compared


def shown(figures):
    return "%9.0f %7.2f %5.0f %5.0f %5.0f" % figures if figures else "%9s %7s %5s %5s %5s" % (("-",) * 5)


def without_syncs(folder):
    """A library with which a program's syncs do nothing."""
    if not shutil.which("gcc"):
        return None
    library = os.path.join(folder, "nosync.so")
    subprocess.run(["gcc", "-O2", "-shared", "-fPIC", "-o", library, os.path.join(TOP, "bench", "nosync.c")], check=True)
    return library


def tell(job, mine, unsynced, theirs, compared):
    """Prints a job's row. Whether it reaches its aim, or wasn't compared."""
    reached = not (mine and theirs) or mine[0] >= job.wanted * theirs[0]
    ratios = ["%.2f" % (figures[0] / theirs[0]) if figures and theirs else "-" for figures in (mine, unsynced)]
    used = "%.2f" % (mine[1] / theirs[1]) if mine and theirs else "-"
    aim = "%d %s" % (job.wanted, " " if reached else "!")
    print("%-19s | %s | %s | %7s %8s %7s %5s | %s" % (job.name, shown(mine), shown(theirs), *ratios, used, aim, compared), flush=True)
    return reached


def main():
    parser = argparse.ArgumentParser(description="syslogr beside syslog-ng")
    parser.add_argument("jobs", nargs="*")
    parser.add_argument("--mib", type=int, default=16)
    parser.add_argument("--length", type=int, default=200)
    parser.add_argument("--rounds", type=int, default=5)
    parser.add_argument("--program", default=PROGRAM)
    parser.add_argument("--keep")
    options = parser.parse_args()
    options.program = os.path.abspath(options.program)
    if options.program == PROGRAM and not os.path.exists(PROGRAM):
        subprocess.run([os.path.join(TOP, "syslogr")], check=False, stdout=subprocess.DEVNULL)
    chosen = [job for job in JOBS if not options.jobs or any(job.name.startswith(word) for word in options.jobs)]
    good = True
    with tempfile.TemporaryDirectory(prefix="syslogr-bench-") as temporary:
        preload = without_syncs(temporary)
        head = "%9s %7s %5s %5s %5s" % ("records/s", "µs each", "MiB", "start", "of it")
        print("%d MiB of records of %d bytes; starts in milliseconds, and what the processor had of them" % (options.mib, options.length))
        print("%-19s | %-35s | %-35s | %-30s |" % ("", "syslogr", "syslog-ng", "syslogr / syslog-ng"))
        print("%-19s | %s | %s | %7s %8s %7s %5s | %s" % ("job", head, head, "rate", "unsynced", "µs each", "aim  ", "outputs"))
        for job in chosen:
            figures, compared = measured(job, options, preload, os.path.abspath(options.keep or temporary))
            good &= tell(job, *figures, compared)
    return 0 if good else 1


if __name__ == "__main__":
    sys.exit(main())
