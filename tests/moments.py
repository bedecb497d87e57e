#!/usr/bin/env python3
"""Longer series of rows `moments` of the program test_program, which aren't part of the gate.

    tests/moments.py [SEED [COUNT [PROGRAM]]]     by default 1, 20000, and the program that rt builds

Runs in which each store stops at each of its calls, for each way in which a failing call may leave something; runs in which both
stores and the outlet stop, each at each of its calls or never, for pairs of picks; and COUNT chains of one to four stopped runs drawn
at random from the seed. It says how many rows there were, and each that isn't right, and ends with status 1 then.
"""
import concurrent.futures
import itertools
import os
import random
import re
import subprocess
import sys

TOP = os.path.dirname(os.path.dirname(os.path.abspath(__file__)))
CRATE = os.path.join(TOP, "crates", "test_program")
PICKS = ["o", "n", "1", "0", "on", "no", "1o", "0n", "n0", "o1n"]
BEGINS = ["fresh", "older"]
SENDS = 5
EACH = re.compile(r"right behind each stop, \d+ of them before the rounds")


def answers(program, rows):
    """What the program answers to these rows, of which each processor takes a part."""
    count = os.cpu_count() or 1
    parts = [rows[k::count] for k in range(count)]

    def answer(part):
        ran = subprocess.run([program], input="".join("moments %s\n" % row for row in part), stdout=subprocess.PIPE, text=True)
        said = ran.stdout.splitlines()
        if ran.returncode != 0 or len(said) != len(part):
            sys.exit("the program ended with status %d behind %d of %d rows" % (ran.returncode, len(said), len(part)))
        return dict(zip(part, said))

    with concurrent.futures.ThreadPoolExecutor(count) as pool:
        return {row: said for part in pool.map(answer, parts) for row, said in part.items()}


def is_right(said):
    return said == "right" or bool(EACH.fullmatch(said))


def main():
    seed = int(sys.argv[1]) if len(sys.argv) > 1 else 1
    count = int(sys.argv[2]) if len(sys.argv) > 2 else 20_000
    program = os.path.abspath(sys.argv[3]) if len(sys.argv) > 3 else os.path.join(CRATE, "out", "test_program")
    if not os.path.exists(program):
        with open(os.path.join(CRATE, "stdin")) as rows:
            subprocess.run(["rt", "run"], cwd=CRATE, stdin=rows, stdout=subprocess.DEVNULL, check=True)

    rows = ["each %s %s %s" % row for row in itertools.product(BEGINS, ["position", "buffer"], ["-"] + PICKS)]
    told = answers(program, rows)
    asked = {store: "stops %s %s -" % store for store in itertools.product(BEGINS, ["position", "buffer"])}
    said = answers(program, list(asked.values()))
    calls = {store: int(said[row]) for store, row in asked.items()}

    rows = []
    for begin in BEGINS:
        positions = [*range(calls[begin, "position"]), "-"]
        buffers = [*range(calls[begin, "buffer"]), "-"]
        for stop in itertools.product(positions, buffers, [*range(SENDS), "-"], PICKS[:4], PICKS[:4]):
            rows.append("chain %s %s %s %s %s %s" % (begin, *stop))
    told.update(answers(program, rows))

    chance = random.Random(seed)

    def stop(begin):
        position = chance.choice([chance.randrange(calls[begin, "position"] + 1), "-"])
        buffer = chance.choice([chance.randrange(calls[begin, "buffer"] + 1), "-"])
        return "%s %s %s %s %s" % (position, buffer, chance.choice([*range(SENDS), "-"]), chance.choice(PICKS), chance.choice(PICKS))

    rows = []
    for _ in range(count):
        begin = chance.choice(BEGINS)
        rows.append("chain %s %s" % (begin, " / ".join(stop(begin) for _ in range(chance.randint(1, 4)))))
    told.update(answers(program, rows))

    wrong = [(row, said) for row, said in told.items() if not is_right(said)]
    for row, said in wrong[:30]:
        print("%s: %s" % (row, said))
    print("%d rows, %d wrong" % (len(told), len(wrong)))
    return 1 if wrong else 0


if __name__ == "__main__":
    sys.exit(main())
