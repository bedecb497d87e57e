#!/usr/bin/env python3
"""How long a line is on its way through a daemon that has nothing else to do, beside syslog-ng where it is installed.

    bench/latency.py [--lines N] [--program PATH]     by default 100 lines each way

Each line is given by one connection, or written behind a file, at a moment by chance within half a second after the line before
has come out, and counts as there once the output's file has grown. It says the median, the tenth of the lines that took longest
from which on, and the most, in milliseconds, and what the processor had in each second. No threshold is tested here.
"""
import argparse
import os
import random
import shutil
import signal
import socket
import statistics
import subprocess
import sys
import tempfile
import time

from daemon import HOST, OPTIONS, PROGRAM, TUNABLES, free_port, processor_seconds

LOG = 'destination d { file("out" template("$MSG\\n")); };\nlog { source(s); destination(d); flags(flow-control); };\n'
WAYS = {
    "tcp to file": 'source s { network(ip("127.0.0.1") port(%d) transport("tcp") max-connections(1) flags(no-parse)); };\n',
    "file to file": 'source s { file("in" flags(no-parse) follow-freq(1)); };\n',
}


def connected(port):
    end = time.monotonic() + 30
    while True:
        try:
            return socket.create_connection((HOST, port))
        except ConnectionRefusedError:
            if time.monotonic() > end:
                raise
            time.sleep(0.01)


def size(path):
    return os.path.getsize(path) if os.path.exists(path) else 0


def there(path, want):
    """Waits until a file is as long as that."""
    end = time.monotonic() + 30
    while size(path) < want:
        if time.monotonic() > end:
            raise SystemExit("a line didn't come out")
        time.sleep(0.0002)


def told(way, folder, words, version, lines):
    """The times of the lines, and the share of a processor that the daemon had."""
    shutil.rmtree(folder, ignore_errors=True)
    os.makedirs(folder)
    port = free_port()
    text = WAYS[way]
    with open(os.path.join(folder, "conf"), "w", encoding="ascii") as conf:
        conf.write("@version: %s\n" % version + OPTIONS + (text % port if "%d" in text else text) + LOG)
    given = os.path.join(folder, "in")
    with open(given, "wb"):
        pass
    with open(os.path.join(folder, "said"), "wb") as said:
        environment = dict(os.environ, TZ="UTC", GLIBC_TUNABLES=TUNABLES)
        child = subprocess.Popen(words, cwd=folder, stdout=said, stderr=said, env=environment)
    try:
        peer = connected(port) if "%d" in text else None
        out, times, want = os.path.join(folder, "out"), [], 0
        for k in range(-1, lines):
            line = b"line %d\n" % k
            want += len(line)
            start = time.monotonic()
            if peer:
                peer.sendall(line)
            else:
                with open(given, "ab") as file:
                    file.write(line)
            there(out, want)
            # The first one waits for the start.
            if k < 0:
                begin, used = time.monotonic(), processor_seconds(child.pid)
            else:
                times.append((time.monotonic() - start) * 1e3)
            time.sleep(random.random() / 2)
        share = (processor_seconds(child.pid) - used) / (time.monotonic() - begin)
        return sorted(times), share
    finally:
        child.send_signal(signal.SIGTERM)
        child.wait()


def main():
    parser = argparse.ArgumentParser(description="a line's way through an idle daemon")
    parser.add_argument("--lines", type=int, default=100)
    parser.add_argument("--program", default=PROGRAM)
    options = parser.parse_args()
    names = [("syslogr", "4.2", [os.path.abspath(options.program), "run", "conf"])]
    if shutil.which("syslog-ng"):
        names.append(("syslog-ng", "current", ["syslog-ng", "-F", "--no-caps", "-f", "conf", "-R", "persist", "-c", "ctl", "-p", "pid"]))
    print("%-13s %-10s %8s %8s %8s %12s" % ("", "", "median", "a tenth", "most", "µs a second"))
    with tempfile.TemporaryDirectory() as folder:
        for way in WAYS:
            for name, version, words in names:
                times, share = told(way, os.path.join(folder, "work"), words, version, options.lines)
                figures = (statistics.median(times), times[len(times) * 9 // 10], times[-1], share * 1e6)
                print("%-13s %-10s %8.1f %8.1f %8.1f %12.0f" % (way, name, *figures), flush=True)
    return 0


if __name__ == "__main__":
    sys.exit(main())
