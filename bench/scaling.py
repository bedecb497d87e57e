#!/usr/bin/env python3
"""What eight connections gain on several processors, beside what the processors themselves give.

    bench/scaling.py
        --mib N                  how much a program moves, by default 64 MiB
        --length N               the bytes of a record, by default 200
        --rounds N               how often, by default 9
        --stolen SHARE           the share of the processors that others may have had in a round, by default 0.02
        --program PATH           another build of syslogr

The jobs are those of bench/daemon.py: `apart`, where each of eight connections has a destination of its own, and `tcp`,
where all go to one file. In each round the ways take turns, so that what else the machine does meets all of them alike;
what is shown are the medians, and over one connection of the same round the median, the least and the most.
`programs` are as many programs as there are processors, with one connection each, at the same time: how far the
processors go where programs share nothing. `pinned` is a program on one processor.

On a virtual machine the host may give the processors to others meanwhile, which the kernel counts as stolen. The last
columns leave out the ways and rounds in which more was stolen than `--stolen` says: how many were left, and their median.
"""
import argparse
import concurrent.futures
import os
import shutil
import statistics
import tempfile
import time

from daemon import JOBS, PROGRAM, Run, texts_of


class Pinned(Run):
    """A run on one processor."""

    def start(self, words, settings=None):
        return super().start(["taskset", "-c", "0", *words], settings)


def one(kind, job, folder, texts, count, program):
    """Seconds that one program takes."""
    run = kind(job, folder, texts, count)
    took = run.syslogr(program)[0]
    run.check()
    run.close()
    return took


def at_once(job, folder, texts, count, program, programs):
    """Seconds until the last of so many programs has ended, all begun at the same time."""
    begin = time.monotonic()
    with concurrent.futures.ThreadPoolExecutor(programs) as pool:
        for run in [pool.submit(one, Run, job, os.path.join(folder, str(n)), texts, count, program) for n in range(programs)]:
            run.result()
    return time.monotonic() - begin


def processor_times():
    """The processors' time so far, in ticks: all of it, and what was stolen."""
    with open("/proc/stat") as stat:
        fields = [int(field) for field in stat.readline().split()[1:9]]
    return sum(fields), fields[7]


def told_with_stolen(rate):
    """A rate, and the share of the processors that was stolen while it was measured."""
    before = processor_times()
    found = rate()
    after = processor_times()
    return found, (after[1] - before[1]) / max(after[0] - before[0], 1)


def median_of(ratios):
    return "%7.2f" % statistics.median(ratios) if ratios else "%7s" % "-"


def main():
    parser = argparse.ArgumentParser(description="connections on several processors")
    parser.add_argument("--mib", type=int, default=64)
    parser.add_argument("--length", type=int, default=200)
    parser.add_argument("--rounds", type=int, default=9)
    parser.add_argument("--stolen", type=float, default=0.02)
    parser.add_argument("--program", default=PROGRAM)
    options = parser.parse_args()
    program = os.path.abspath(options.program)
    processors = len(os.sched_getaffinity(0))
    count = options.mib * 1048576 // options.length
    jobs = {job.name: job for job in JOBS}
    texts = {name: texts_of(jobs[name], count, options.length) for name in ("apart, tcp 1", "apart, tcp 8", "tcp 1", "tcp 8")}
    folder = tempfile.mkdtemp(prefix="syslogr-bench-")

    def alone(name, kind=Run):
        return lambda: count / one(kind, jobs[name], os.path.join(folder, "one"), texts[name], count, program)

    def several(name):
        return lambda: processors * count / at_once(jobs[name], folder, texts[name], count, program, processors)

    ways = {
        "apart, 1 connection": alone("apart, tcp 1"),
        "apart, 8 connections": alone("apart, tcp 8"),
        "apart, 8 connections, pinned": alone("apart, tcp 8", Pinned),
        "apart, %d programs" % processors: several("apart, tcp 1"),
        "tcp, 1 connection": alone("tcp 1"),
        "tcp, 8 connections": alone("tcp 8"),
        "tcp, 8 connections, pinned": alone("tcp 8", Pinned),
    }
    rates = {way: [] for way in ways}
    try:
        for _ in range(options.rounds):
            for way, rate in ways.items():
                rates[way].append(told_with_stolen(rate))
    finally:
        shutil.rmtree(folder)
    print("%d processors, %d MiB of records of %d bytes, medians of %d" % (processors, options.mib, options.length, options.rounds))
    print("%-30s %11s %7s %7s %7s %7s %7s %7s" % ("", "records/s", "median", "least", "most", "stolen", "left", "median"))
    for way, found in rates.items():
        firsts = rates["apart, 1 connection" if way.startswith("apart") else "tcp, 1 connection"]
        pairs = [(rate / first, max(stolen, stolen_first)) for (rate, stolen), (first, stolen_first) in zip(found, firsts)]
        ratios = sorted(ratio for ratio, _ in pairs)
        left = [ratio for ratio, stolen in pairs if stolen <= options.stolen]
        shown = (way, statistics.median(rate for rate, _ in found), statistics.median(ratios), ratios[0], ratios[-1])
        print("%-30s %11.0f %7.2f %7.2f %7.2f" % shown, "%7.2f %7d" % (statistics.median(stolen for _, stolen in found), len(left)), median_of(left))


if __name__ == "__main__":
    main()
