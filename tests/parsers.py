#!/usr/bin/env python3
"""Random texts through csv and kv parsers: what the program `test_paths` says of them, beside what this script makes
of them by the rules of docs/CONFIGURATION.md.

    tests/parsers.py COUNT [SEED]           compares, and ends with status 1 at the first that differs
    tests/parsers.py --write COUNT SEED     writes so many lines of input and their answers to `rows` and `answers`
    tests/parsers.py --beside [PROGRAM]     gives twenty records of each parser to syslogr and to syslog-ng, prints what each makes of
                                            them as docs/MIGRATION.md writes it, and ends with status 1 where it doesn't stand there

crates/test_paths/src/parsers.rt says how rows are written.
"""
import os
import random
import re
import signal
import subprocess
import sys
import tempfile
import time

TOP = os.path.dirname(os.path.dirname(os.path.abspath(__file__)))
CRATE = os.path.join(TOP, "crates", "test_paths")
PROGRAM = os.path.join(CRATE, "out", "test_paths")
COLUMNS = ["A", "B", "C", "OLD", "HOST", "MESSAGE", "x.y", "PRI", "R_DATE"]
HARD = {"PRI", "DATE", "R_DATE", "S_DAY", "TAGS"}
KEY = "[A-Za-z0-9_.-]+"


def unquoted(field):
    """The value of a field that begins with a quote."""
    found = re.match(r'"((?:[^"]|"")*)(?:"([^"].*)?)?$', field, re.DOTALL)
    return found.group(1).replace('""', '"') + (found.group(2) or "")


def fields(text, delimiters):
    """The fields of a text, each with the place where it begins."""
    delimiter = "[" + re.escape(delimiters) + "]"
    plain = "[^" + re.escape(delimiters) + "]*"
    found, at = [], 0
    while True:
        quoted = re.compile(r'"(?:[^"]|"")*(?:"(?!")' + plain + "|$)", re.DOTALL).match(text, at)
        end = quoted.end() if quoted else re.compile(plain, re.DOTALL).match(text, at).end()
        field = text[at:end]
        found.append((at, unquoted(field) if quoted else field))
        if end == len(text):
            return found
        assert re.match(delimiter, text[end])
        at = end + 1


def csv(flags, delimiters, columns, prefix, text):
    """The pairs, or None where the text is refused."""
    found = fields(text, delimiters)
    enough = len(found) >= len(columns) if "g" in flags else len(found) == len(columns)
    if "d" in flags and not enough:
        return None
    pairs = []
    for place, (column, (at, value)) in enumerate(zip(columns, found)):
        whole = "g" in flags and place == len(columns) - 1
        pairs.append((prefix + column, text[at:] if whole else value))
    return pairs


def kv(pair_separator, value_separator, prefix, text):
    pairs, at = [], 0
    while at < len(text):
        key = re.compile(KEY).match(text, at)
        if not key:
            at += 1
            continue
        at = key.end()
        if text[at:at + 1] != value_separator:
            continue
        at += 1
        quoted = re.compile(r'"((?:[^"\\]|\\.)*)"', re.DOTALL).match(text, at)
        if quoted:
            value, at = re.sub(r'\\(["\\])', r"\1", quoted.group(1)), quoted.end()
        else:
            ends = [place for place in range(at, len(text)) if text[place] in " \t\r\n" or text.startswith(pair_separator, place)]
            end = ends[0] if ends else len(text)
            value, at = text[at:end], end
        name = prefix + key.group()
        if len(name) <= 255 and name not in HARD:
            pairs.append((name, value))
    return pairs


def said(text, pairs):
    message = {"HOST": "h", "OLD": "o", "MESSAGE": text}
    message.update(pairs or [])
    if message["MESSAGE"] == text:
        del message["MESSAGE"]
    words = ("" if pairs is not None else "refused ") + "".join(f"{name}[{message[name]}]" for name in sorted(message))
    return re.sub(r"[\\\"']", lambda found: "\\" + found.group(), words)


def csv_row(chance):
    flags = chance.choice(["-", "g", "d", "gd"])
    delimiters = chance.choice([",", ";", ",;", " ", ", ;"])
    columns = chance.sample(COLUMNS, chance.randint(1, 4))
    prefix = chance.choice(["", "", "p.", "S"])
    text = "".join(chance.choice(['"', '"', delimiters[0], ",", ";", " ", "a", "bc", '""', '","', "d"]) for _ in range(chance.randint(0, 12)))
    answer = "no parser" if any(prefix + column in HARD for column in columns) else said(text, csv(flags, delimiters, columns, prefix, text))
    return f"parsers csv {flags} ~ {delimiters} ~ {','.join(columns)} ~ {prefix} ~ {text}", answer


def kv_row(chance):
    pair_separator = chance.choice([", ", ",", ";", "=", " ", "--", ", , "])
    value_separator = chance.choice(["=", "=", ":", " ", "~", ">"])
    prefix = chance.choice(["", "", "k.", "R_"])
    parts = ["a", "b", "OLD", "PRI", "DATE", "x-y", value_separator, value_separator, pair_separator, " ", "\t", '"', '"', "\\", '\\"', "\\\\", "+", "="]
    text = "".join(chance.choice(parts) for _ in range(chance.randint(0, 16)))
    return f"parsers kv - ~ {pair_separator} ~ {value_separator} ~ {prefix} ~ {text}", said(text, kv(pair_separator, value_separator, prefix, text)).replace("\t", "\\t")


def row(chance):
    return chance.choice([csv_row, kv_row])(chance)


CSV = 'csv-parser(columns("A", "B", "C") delimiters("%s")%s)'
KV = "kv-parser(%s)"
# Flags, or other options, and the records that a parser with them gets.
CSV_RECORDS = {
    "": ["a, b ,c", "a,b", "a,b,c,d"],
    "drop-invalid": [
        '"a ""q"" b",c,d', '"a \\"q\\" b",c,d', 'a"b,c",d', '"a"b,c,d', 'a,b,"c,d', "a,b", "a,b,c,d", ",,", "a,b,c,", "'a,b',c,d", ' "a,b",c,d', '"a,b" ,c,d',
    ],
    "greedy": ["a,b,c,d", 'a,b,"c,d" e', "a,b"],
    "greedy, drop-invalid": ["a,b", "a,b,"],
}
KV_RECORDS = {
    "": [
        "a=1, b=2", "a=1 b=2", "a=1,b=2", 'a="x \\"q\\" y", b=2', 'a="x, b=3", b=4', "a=, b=2", "a=1, a=2", "a=b=c, b=2", "é=1, b=2", "a=x y z, b=2", "a = 1, b=2",
        "a='x y', b=2", 'a="x y, b=2', 'a="x"y, b=2', "some words a=1 other words", "a=1\tb=2", 'a="\\x41\\n\\\\", b=2', 'a=x"y z"w, b=2', "k" * 256 + "=1, b=2",
    ],
    'pair-separator("--")': ["a=1--b=2"],
}


def beside_rows():
    """The kind, the options, the parser, the template of what it sets, and the record."""
    for flags, records in CSV_RECORDS.items():
        parser = CSV % (",", " flags(%s)" % flags if flags else "")
        yield from (("csv", flags, parser, "A=[${A}] B=[${B}] C=[${C}]", record) for record in records)
    for options, records in KV_RECORDS.items():
        yield from (("kv", options, KV % options, "a=[${a}] b=[${b}]", record) for record in records)


def configure(folder, version, rows):
    """C has the value `old` before."""
    os.makedirs(folder)
    text = "@version: %s\ndestination d_seen { file(\"seen\" template(\"x\\n\")); };\nrewrite r { set(\"old\" value(\"C\")); };\n" % version
    for k, (_, _, parser, template, record) in enumerate(rows):
        text += 'source s_%d { file("in_%d" flags(no-parse)); };\nlog { source(s_%d); destination(d_seen); flags(flow-control); };\n' % (k, k, k)
        text += 'log { source(s_%d); rewrite(r); parser { %s; }; destination { file("out_%d" template("%s\\n")); }; flags(flow-control); };\n' % (k, parser, k, template)
        with open(os.path.join(folder, "in_%d" % k), "w", encoding="utf-8") as given:
            given.write(record + "\n")
    with open(os.path.join(folder, "c"), "w", encoding="utf-8") as conf:
        conf.write(text)


def answers_of(folder, count):
    def answer(path):
        text = ""
        if os.path.exists(path):
            with open(path, encoding="utf-8") as out:
                text = out.read()
        return shown(text[:-1]) if text else "refused"

    return [answer(os.path.join(folder, "out_%d" % k)) for k in range(count)]


def shown(text):
    return "`%s`" % text.replace("\t", "⇥").replace("\n", "¶").replace("k" * 256, "k..")


def beside(product):
    """The rows of docs/MIGRATION.md that it lacks."""
    rows = list(beside_rows())
    with tempfile.TemporaryDirectory() as top:
        mine, theirs = os.path.join(top, "mine"), os.path.join(top, "theirs")
        configure(mine, "4.2", rows)
        subprocess.run([product, "run", "c", "--once"], cwd=mine, check=True, capture_output=True)
        configure(theirs, "current", rows)
        words = ["syslog-ng", "-F", "--no-caps", "-f", "c", "-R", "persist", "-c", "ctl", "-p", "pid"]
        with subprocess.Popen(words, cwd=theirs, stderr=subprocess.DEVNULL) as child:
            end = time.monotonic() + 30
            seen = os.path.join(theirs, "seen")
            while time.monotonic() < end and not (os.path.exists(seen) and os.path.getsize(seen) == 2 * len(rows)):
                time.sleep(0.05)
            time.sleep(0.5)
            child.send_signal(signal.SIGTERM)
        answers = zip(rows, answers_of(theirs, len(rows)), answers_of(mine, len(rows)))
    with open(os.path.join(TOP, "docs", "MIGRATION.md"), encoding="utf-8") as document:
        lines = document.read().split("\n")
    found = []
    for (kind, options, _, _, record), their, my in answers:
        parser = kind + (" `%s`" % options if options else "")
        cells = [parser, shown(record), my] if my == their else [parser, shown(record), their, my]
        found.append("| %s |" % " | ".join(cells))
    print("\n".join(found))
    return [line for line in found if line not in lines]


def program():
    if not os.path.exists(PROGRAM):
        subprocess.run(["rt", "run"], cwd=CRATE, check=True, stdin=subprocess.DEVNULL, stdout=subprocess.DEVNULL)
    return PROGRAM


def main():
    words = sys.argv[1:]
    if words[:1] == ["--beside"]:
        lacking = beside(os.path.abspath(words[1]) if words[1:] else os.path.join(TOP, "crates", "sg_top", "out", "sg_top"))
        print("parsers: %d rows aren't in docs/MIGRATION.md" % len(lacking))
        return 1 if lacking else 0
    write = words[:1] == ["--write"]
    words = words[1:] if write else words
    count, seed = int(words[0]), int(words[1]) if len(words) > 1 else random.randrange(10**9)
    chance = random.Random(seed)
    rows = [row(chance) for _ in range(count)]
    if write:
        with open("rows", "w") as lines, open("answers", "w") as answers:
            lines.writelines(line + "\n" for line, _ in rows)
            answers.writelines(answer + "\n" for _, answer in rows)
        return 0
    found = subprocess.run([program()], input="".join(line + "\n" for line, _ in rows), capture_output=True, text=True, check=True).stdout.split("\n")
    for (line, expected), one in zip(rows, found):
        if one != expected:
            print(f"parsers: {line}\n  is {one}\n  and not {expected}")
            return 1
    print(f"parsers: {count} texts, from seed {seed}")
    return 0


if __name__ == "__main__":
    sys.exit(main())
