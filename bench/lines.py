#!/usr/bin/env python3
"""How fast records go, beside a small C program that makes one write call for each line, and beside
syslog-ng where it is installed:

- `syslogr run FILE --once` copies the lines of a file;
- `bench_parts lines 3164` makes texts of a file destination of the lines of a file, of RFC 3164;
- `bench_parts lines 5424` makes counted lines of counted records of RFC 5424, with three parameters each, which
  it reads from a file; syslog-ng gets the same bytes over TCP, and writes lines.

    bench/lines.py [LINES [LENGTH [ROUNDS]]]     by default 1,000,000 lines of 200 bytes, 5 rounds

The programs take turns; what is printed is the median of the rounds: lines per second and the ratio to
the C program; of syslogr also the same with its syncs left out, how often it synced its store, the time
of a run that finds nothing new, and the most memory that it held; and how long a record of 1 MiB takes
that has 100,000 parameters in descending order. No threshold is tested here.
"""
import os
import resource
import shutil
import signal
import socket
import statistics
import subprocess
import sys
import tempfile
import time

from parts import program

TOP = os.path.dirname(os.path.dirname(os.path.abspath(__file__)))
PROGRAM = os.path.join(TOP, "crates", "sg_top", "out", "sg_top")
PULLS = "follow-freq(1) log-fetch-limit(1000) log-iw-size(10000)"
SYSLOG_NG = 'source s { %s };\ndestination d { file("%s/out-ng" template("%s\\n")); };\nlog { source(s); destination(d); flags(flow-control); };\n'


def make_input(path, lines, length):
    with open(path, "wb") as out:
        for k in range(lines):
            head = b"record %d " % k
            out.write(head + b"x" * (length - 1 - len(head)) + b"\n")


def timed(words, folder, preload=None):
    environment = dict(os.environ, LD_PRELOAD=preload) if preload else None
    start = time.monotonic()
    subprocess.run(words, cwd=folder, check=True, stdout=subprocess.DEVNULL, env=environment)
    return time.monotonic() - start


def syncs(words, folder):
    """How often a run asks the system to make a file stable, where strace is installed."""
    if not shutil.which("strace"):
        return None
    log = os.path.join(folder, "syncs")
    subprocess.run(["strace", "-f", "-e", "trace=fsync,fdatasync", "-o", log] + words, cwd=folder, check=True, stdout=subprocess.DEVNULL)
    with open(log) as lines:
        return sum("fsync(" in line or "fdatasync(" in line for line in lines)


def forget(folder):
    """Takes the outputs and the stored positions away."""
    for name in os.listdir(folder):
        if name in ("out", "out-c") or name.startswith("pos-"):
            os.remove(os.path.join(folder, name))


def peak_kib(words, folder):
    """The largest resident set of a run, in KiB."""
    subprocess.run(words, cwd=folder, check=True, stdout=subprocess.DEVNULL)
    child = os.fork()
    if child == 0:
        os.chdir(folder)
        null = os.open(os.devnull, os.O_WRONLY)
        os.dup2(null, 1)
        os.execv(words[0], words)
    _, status, usage = os.wait4(child, 0)
    if status != 0:
        raise SystemExit("the run for its memory failed")
    return usage.ru_maxrss


def filled(record, length):
    return record + b"x" * (length - 1 - len(record)) + b"\n"


def make_3164(path, lines, length):
    with open(path, "wb") as out:
        for k in range(lines):
            out.write(filled(b"<34>Oct 11 22:14:15 mymachine su[7]: record %d " % k, length))


def make_5424(path, lines, length):
    with open(path, "wb") as out:
        for k in range(lines):
            record = filled(
                b"<165>1 2003-10-11T22:14:15.003Z mymachine evntslog 8710 ID47 "
                b'[exampleSDID@32473 iut="3" eventSource="Application" eventID="1011"] record %d ' % k,
                length,
            )
            out.write(b"%d %s" % (len(record), record))


def make_descending(path):
    """One record of about 1 MiB."""
    record = b"<13>1 - - - - - [a" + b"".join(b' %05d="v"' % k for k in range(99999, -1, -1)) + b"]"
    with open(path, "wb") as out:
        out.write(b"%d %s" % (len(record), record))


def sent_over_tcp(port):
    """Sends a file to a server that may still be starting."""

    def send(path):
        for _ in range(500):
            try:
                with socket.create_connection(("127.0.0.1", port)) as to, open(path, "rb") as records:
                    to.sendfile(records)
                return
            except ConnectionRefusedError:
                time.sleep(0.01)

    return send


def free_port():
    with socket.socket() as probe:
        probe.bind(("127.0.0.1", 0))
        return probe.getsockname()[1]


def syslog_ng(folder, lines, source, template, send=None):
    """Runs until all lines are there: it doesn't end at the end of its input."""
    out = os.path.join(folder, "out-ng")
    with open(os.path.join(folder, "ng.conf"), "w") as conf:
        conf.write("@version: current\noptions { keep-hostname(yes); };\n" + SYSLOG_NG % (source, folder, template))
    for name in ("out-ng", "ng.persist", "ng.ctl", "ng.pid"):
        if os.path.exists(os.path.join(folder, name)):
            os.remove(os.path.join(folder, name))
    state = [os.path.join(folder, name) for name in ("ng.persist", "ng.ctl", "ng.pid")]
    words = ["syslog-ng", "-F", "--no-caps", "-f", "ng.conf", "-R", state[0], "-c", state[1], "-p", state[2]]
    start = time.monotonic()
    child = subprocess.Popen(words, cwd=folder, stdout=subprocess.DEVNULL, stderr=subprocess.DEVNULL)
    try:
        if send:
            send(os.path.join(folder, "in"))
        size, changed = 0, start
        while time.monotonic() - start < 120 and child.poll() is None:
            now = os.path.getsize(out) if os.path.exists(out) else 0
            if now != size:
                size, changed = now, time.monotonic()
            elif size and time.monotonic() - changed > 0.5:
                with open(out, "rb") as written:
                    if sum(piece.count(b"\n") for piece in iter(lambda: written.read(1 << 20), b"")) == lines:
                        return changed - start
                changed = time.monotonic()
            time.sleep(0.002)
        return None
    finally:
        if child.poll() is None:
            child.send_signal(signal.SIGTERM)
            child.wait()


def told(times, lines):
    """Says the medians, each beside that of the C program."""
    reference = times["one write a line, in C"]
    base = statistics.median(reference) if reference else None
    for name, took in times.items():
        if not took:
            print("%-24s not measured" % name)
            continue
        middle = statistics.median(took)
        ratio = "   %.2f of the C program's speed" % (base / middle) if base else ""
        print("%-24s %12.0f lines per second%s" % (name, lines / middle, ratio))


def through(form, make, source, template, send, lines, length, rounds, reference, folder):
    """Measures the way of records to their frames."""
    make(os.path.join(folder, "in"), lines, length)
    times = {"lines " + form: [], "one write a line, in C": [], "syslog-ng": []}
    for _ in range(rounds):
        forget(folder)
        start = time.monotonic()
        said = subprocess.run([program(), "lines", form, "in", "out"], cwd=folder, check=True, stdout=subprocess.PIPE).stdout
        times["lines " + form].append(time.monotonic() - start)
        if int(said) != lines:
            raise SystemExit("bench_parts didn't read each record")
        if reference:
            times["one write a line, in C"].append(timed([reference, "in", "out-c"], folder))
        if shutil.which("syslog-ng"):
            took = syslog_ng(folder, lines, source, template, send)
            if took is not None:
                times["syslog-ng"].append(took)
    told(times, lines)


def main():
    lines, length, rounds = (int(word) for word in (sys.argv[1:] + ["1000000", "200", "5"][len(sys.argv) - 1 :]))
    if not os.path.exists(PROGRAM):
        subprocess.run([os.path.join(TOP, "syslogr")], check=False)
    program()
    with tempfile.TemporaryDirectory(prefix="syslogr-bench-") as folder:
        make_input(os.path.join(folder, "in"), lines, length)
        size = os.path.getsize(os.path.join(folder, "in"))
        with open(os.path.join(folder, "c"), "w") as conf:
            conf.write(
                '@version: 4.2\nsource s { file("in" flags(no-parse)); };\n'
                'destination d { file("out" template("$MSG\\n")); };\n'
                'log { source(s); destination(d); flags(flow-control); };\n'
            )
        reference = unsynced = None
        if shutil.which("gcc"):
            unsynced = os.path.join(folder, "nosync.so")
            subprocess.run(["gcc", "-O2", "-shared", "-fPIC", "-o", unsynced, os.path.join(TOP, "bench", "nosync.c")], check=True)
            reference = os.path.join(folder, "lines")
            subprocess.run(["gcc", "-O2", "-o", reference, os.path.join(TOP, "bench", "lines.c")], check=True)
        again = []
        times = {"syslogr": [], "syslogr without syncs": [], "one write a line, in C": [], "syslog-ng": []}
        for _ in range(rounds):
            forget(folder)
            times["syslogr"].append(timed([PROGRAM, "run", "c", "--once"], folder))
            if os.path.getsize(os.path.join(folder, "out")) != size:
                raise SystemExit("syslogr didn't write what it read")
            again.append(timed([PROGRAM, "run", "c", "--once"], folder))
            if unsynced:
                forget(folder)
                times["syslogr without syncs"].append(timed([PROGRAM, "run", "c", "--once"], folder, unsynced))
            if reference:
                times["one write a line, in C"].append(timed([reference, "in", "out-c"], folder))
            if shutil.which("syslog-ng"):
                took = syslog_ng(folder, lines, 'file("%s/in" flags(no-parse) %s);' % (folder, PULLS), "$MSG")
                if took is not None:
                    times["syslog-ng"].append(took)
        told(times, lines)
        print("%-24s %12.3f seconds" % ("nothing new to move", statistics.median(again)))
        forget(folder)
        count = syncs([PROGRAM, "run", "c", "--once"], folder)
        print("%-24s %12s syncs, of %d lines" % ("syslogr's store", "not counted" if count is None else count, lines))
        forget(folder)
        print("%-24s %12.1f MiB at most" % ("syslogr's memory", peak_kib([PROGRAM, "run", "c", "--once"], folder) / 1024))
        source = 'file("%s/in" %s);' % (folder, PULLS)
        through("3164", make_3164, source, "$DATE $HOST $MSGHDR$MSG", None, lines, length, rounds, reference, folder)
        port = free_port()
        source = 'syslog(ip("127.0.0.1") port(%d) transport("tcp") log-fetch-limit(1000) log-iw-size(10000));' % port
        template = "<$PRI>1 $ISODATE $HOST $PROGRAM $PID $MSGID $SDATA $MSG"
        through("5424", make_5424, source, template, sent_over_tcp(port), lines, length, rounds, reference, folder)
        make_descending(os.path.join(folder, "in"))
        print("%-24s %12.3f seconds" % ("100,000 parameters", timed([program(), "lines", "5424", "in", "out"], folder)))


if __name__ == "__main__":
    main()
