"""The program that measures parts, for the scripts beside this file."""
import os
import resource
import subprocess

CRATE = os.path.join(os.path.dirname(os.path.dirname(os.path.abspath(__file__))), "crates", "bench_parts")
PROGRAM = os.path.join(CRATE, "out", "bench_parts")


def program():
    """Builds it where it isn't built yet."""
    if not os.path.exists(PROGRAM):
        subprocess.run(["rt", "run", "--", "paths", "read", "1"], cwd=CRATE, check=True, stdout=subprocess.DEVNULL)
    return PROGRAM


def used(part, what, turns):
    """Seconds of processor time of one run."""
    before = resource.getrusage(resource.RUSAGE_CHILDREN)
    subprocess.run([program(), part, what, str(turns)], check=True)
    after = resource.getrusage(resource.RUSAGE_CHILDREN)
    return after.ru_utime + after.ru_stime - before.ru_utime - before.ru_stime
