#!/usr/bin/env python3
"""Random log paths of up to 30 elements, each over 8 records: what the program `test_paths` says of them, beside
what this script makes of them by the rules of docs/CONFIGURATION.md.

    tests/paths.py COUNT [SEED]           compares, and ends with status 1 at the first that differs
    tests/paths.py --write COUNT SEED     writes so many lines of input and their answers to `rows` and `answers`

crates/test_paths/src/main.rt says how paths are written. Paths with more than 1,024 offers for a record aren't made.
"""
import os
import random
import subprocess
import sys

TOP = os.path.dirname(os.path.dirname(os.path.abspath(__file__)))
CRATE = os.path.join(TOP, "crates", "test_paths")
PROGRAM = os.path.join(CRATE, "out", "test_paths")
LETTERS = "azob"
COLUMNS = ["MESSAGE", "MESSAGE,B", "B,MESSAGE", "A,B,MESSAGE"]
FLAGS = [("f", 0.3), ("b", 0.2), ("w", 0.2), ("d", 0.15)]


class Making:
    """Makes paths at random; an element is a tuple, a statement or channel a dict."""

    def __init__(self, chance, left):
        self.chance = chance
        self.left = left

    def flags(self):
        return "".join(flag for flag, share in FLAGS if self.chance.random() < share)

    def elements(self, depth, most=4):
        return [self.element(depth) for _ in range(self.chance.randint(0, most)) if self.left > 0]

    def channels(self, depth, embedded):
        return [self.sibling(depth, embedded) for _ in range(self.chance.randint(1, 3)) if self.left > 0]

    def sibling(self, depth, embedded):
        self.left -= 1
        elements = self.elements(depth)
        logs = self.channels(depth - 1, True) if embedded and depth > 0 and self.chance.random() < 0.3 else []
        return {"elements": elements, "logs": logs, "flags": self.flags(), "sources": "-"}

    def element(self, depth):
        self.left -= 1
        letter, other = self.chance.choice(LETTERS), self.chance.choice(LETTERS)
        kind = self.chance.choice(["has", "is", "set", "when", "columns"] + ["to"] * 5 + (["junction", "if"] * 2 if depth > 0 else []))
        if kind == "is":
            return (kind, self.chance.randint(0, 1))
        if kind == "columns":
            return (kind, self.chance.choice(COLUMNS))
        if kind == "when":
            return (kind, letter, other + self.chance.choice(LETTERS))
        if kind == "to":
            return (kind, [self.chance.randint(0, 2) for _ in range(self.chance.randint(1, 2))])
        if kind == "junction":
            return (kind, self.channels(depth - 1, False))
        if kind == "if":
            tests = [(self.chance.choice(LETTERS), self.elements(depth - 1, 2)) for _ in range(self.chance.randint(1, 2))]
            return (kind, tests, self.elements(depth - 1, 2) if self.chance.random() < 0.5 else None)
        return (kind, letter)

    def tops(self):
        found = []
        while self.left > 0 and len(found) < 5:
            top = self.sibling(3, True)
            top["sources"] = self.chance.choice(["0"] * 6 + ["0,1", "-"])
            top["flags"] += "c" if self.chance.random() < 0.2 else ""
            found.append(top)
        return found


def written(element):
    """The parts of an element, in the order in which a stack reads them."""
    kind = element[0]
    if kind == "to":
        return ["to " + " ".join(map(str, element[1]))]
    if kind == "junction":
        return [part for one in element[1] for part in sibling_written(one)] + [f"junction {len(element[1])}"]
    if kind == "if":
        tests, other = element[1:]
        parts = [part for _, branch in tests for one in branch for part in written(one)]
        text, last = tests[-1]
        if other is None:
            parts.append(f"if {text} {len(last)}")
        else:
            parts += [part for one in other for part in written(one)] + [f"else {text} {len(last)} {len(other)}"]
        return parts + [f"first {text} {len(branch)}" for text, branch in reversed(tests[:-1])]
    return [" ".join(map(str, element))]


def sibling_written(one, top=False):
    parts = [part for element in one["elements"] for part in written(element)]
    parts += [part for log in one["logs"] for part in sibling_written(log, True)]
    count, flags = len(one["elements"]), one["flags"] or "-"
    if top or one["logs"]:
        return parts + [f"log {one['sources']} {count} {len(one['logs'])} {flags}"]
    return parts + [f"channel {count} {flags}"]


def walk(elements, logs, text, flow):
    """Deliveries, the messages that come out, and whether the message was processed."""
    given = []
    for place, element in enumerate(elements):
        kind = element[0]
        if kind == "has" and element[1] not in text or kind == "is" and "az"[element[1]] not in text:
            return given, [], False
        if kind == "columns":
            names, fields = element[1].split(","), text.split(",")
            if len(names) != len(fields):
                return given, [], False
            text = fields[names.index("MESSAGE")]
        if kind == "set":
            text = element[1]
        if kind == "when" and element[1] in text:
            text = element[2]
        if kind == "to":
            given += [(dest, flow, text) for dest in element[1]]
        if kind in ("junction", "if"):
            first = branches(element[1], text, flow) if kind == "junction" else chosen(element[1], element[2], text, flow)
            rests = [walk(elements[place + 1:], logs, one, flow) for one in first[1]]
            out = [one for rest in rests for one in rest[1]]
            given += first[0] + [one for rest in rests for one in rest[0]]
            return given, out, first[2] and any(rest[2] for rest in rests)
    return given + branches(logs, text, flow)[0], [text], True


def chosen(tests, other, text, flow):
    for letter, branch in tests:
        if letter in text:
            return walk(branch, [], text, flow)
    return walk(other or [], [], text, flow)


def branches(siblings, text, flow):
    given, out, counts = [], [], False
    for late in (False, True):
        if late and counts:
            break
        for one in siblings:
            if ("b" in one["flags"]) != late:
                continue
            mine = walk(one["elements"], one["logs"], text, flow or "w" in one["flags"])
            processed = mine[2] or "d" in one["flags"]
            given, out, counts = given + mine[0], out + mine[1], counts or processed
            if processed and "f" in one["flags"]:
                break
    return given, out, counts


def reach(elements, logs, count):
    """The most deliveries and messages out of so many messages, and the most at one place. A message takes one branch of an `if`."""
    given, most = 0, count
    for element in elements:
        kind = element[0]
        if kind == "to":
            given += count * len(element[1])
        if kind in ("junction", "if"):
            lists = [(one["elements"], one["logs"]) for one in element[1]] if kind == "junction" else [(branch, []) for _, branch in element[1]] + [(element[2] or [], [])]
            found = [reach(inner, below, count) for inner, below in lists]
            joined = sum if kind == "junction" else max
            given, count = given + joined(one[0] for one in found), joined(one[1] for one in found)
            most = max([most, count] + [one[2] for one in found])
    found = [reach(one["elements"], one["logs"], count) for one in logs]
    return given + sum(one[0] for one in found), count, max([most] + [one[2] for one in found])


def answer(tops, record):
    if not record:
        return ""
    offered = [one for one in tops if "0" in one["sources"] or "c" in one["flags"]]
    return " ".join(f"{dest}{'w' if flow else ''}={text}" for dest, flow, text in branches(offered, record, False)[0])


def row(chance):
    """A line of input and its answer. Not all records are without offers."""
    while True:
        tops = Making(chance, chance.randint(1, 30)).tops()
        found = [reach(one["elements"], one["logs"], 1) for one in tops]
        records = ["".join(chance.choice(LETTERS * 2 + ",,") for _ in range(chance.choice([0, 1, 2, 3, 3, 4, 4]))) for _ in range(8)]
        answers = [answer(tops, record) for record in records]
        if any(answers) and sum(one[0] for one in found) <= 1024 and all(one[2] <= 1024 for one in found):
            break
    parts = [part for one in tops for part in sibling_written(one, True)]
    return "paths " + "; ".join(parts) + " ~ 0 ~ " + "|".join(records), " | ".join(answers)


def program():
    if not os.path.exists(PROGRAM):
        subprocess.run(["rt", "run"], cwd=CRATE, check=True, stdin=subprocess.DEVNULL, stdout=subprocess.DEVNULL)
    return PROGRAM


def main():
    words = sys.argv[1:]
    write = words[:1] == ["--write"]
    words = words[1:] if write else words
    count, seed = int(words[0]), int(words[1]) if len(words) > 1 else random.randrange(10**9)
    chance = random.Random(seed)
    rows = [row(chance) for _ in range(count)]
    if write:
        with open("rows", "w") as lines, open("answers", "w") as answers:
            lines.writelines(line + "\n" for line, _ in rows)
            answers.writelines(said + "\n" for _, said in rows)
        return 0
    said = subprocess.run([program()], input="".join(line + "\n" for line, _ in rows), capture_output=True, text=True, check=True).stdout.split("\n")
    for (line, expected), found in zip(rows, said):
        if found != expected:
            print(f"paths: {line}\n  is {found}\n  and not {expected}")
            return 1
    print(f"paths: {count} log paths with 8 records each, from seed {seed}")
    return 0


if __name__ == "__main__":
    sys.exit(main())
