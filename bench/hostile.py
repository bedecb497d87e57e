#!/usr/bin/env python3
"""What the program takes in time and memory where an input is hostile: rows of inputs that it must refuse or give up, and texts that
make `check` do as much work for few bytes as they can.

    bench/hostile.py [PROGRAM]     by default the program that is proved

The rows are printed first, each with its words, its seconds, the processor's seconds, the most memory held, and what was said. It
ends with status 1 where a row takes more than two seconds of the processor or 64 MiB, or says or does something else than is written
here.

Then it makes two texts for each family, one with half as many parts as the other, runs `PROGRAM check FILE` on each, and prints for
the longer one its bytes, the seconds, the processor's seconds and the most memory held, as /usr/bin/time (GNU) tells them,
the memory beyond that of the first run for each byte of the text, the same of the half, and what the program said. It ends
with status 1 where a family takes more than two seconds of the processor, where its memory isn't in proportion to the text
(more than BYTES for a byte, or more than three times that of the half), or where another answer is said than is written here.
Of the families of COPIES only the answers are looked at.
"""
import os
import re
import socket
import subprocess
import sys
import tempfile
import time

TOP = os.path.dirname(os.path.dirname(os.path.abspath(__file__)))
PROGRAM = os.path.join(TOP, "crates", "sg_top", "out", "sg_top")
SECONDS = 2.0
BYTES = 1000
SLACK = 8192  # KiB that two runs may differ by
ROW = 65536  # KiB of a row

OK = "ok"
DEEP = "nested too deep"
MANY = "too many"
CYCLE = "filter refers to itself"


def at(line, text):
    return "%d: %s" % (line, text)


# Each family gives, for a number of parts, a text from its second line on, and what is said behind `c:` (or `c: `).


def filters_before(count):
    """Filters that name the one before them: the sizes 1, 2, .. k are together above 65,536 from the 362nd on."""
    lines = ["filter a0{tags()};"] + ["filter a%d{filter(a%d)};" % (k, k - 1) for k in range(1, count)]
    return "\n".join(lines), at(1 + 362, MANY)


def filters_behind(count):
    """Filters that name the one behind them, the last one itself: it alone is on a cycle."""
    return "\n".join("filter a%d{filter(a%d)};" % (k, min(k + 1, count - 1)) for k in range(count)), at(1 + count, CYCLE)


def ring(count):
    """Filters in one ring."""
    return "\n".join("filter a%d{filter(a%d)};" % (k, (k + 1) % count) for k in range(count)), at(2, CYCLE)


def pairs(count):
    """Filters that name the one behind them twice: their sizes double, but the last one is on a cycle."""
    return "\n".join("filter a%d{filter(a%d)or filter(a%d)};" % (k, min(k + 1, count - 1), min(k + 1, count - 1)) for k in range(count)), at(1 + count, CYCLE)


def doubled(count):
    """Filters that name the one before them twice: they have 1, 4, 10, 22, .. calls, the 12th 6,142."""
    lines = ["filter a0{tags()};"] + ["filter a%d{filter(a%d)or filter(a%d)};" % (k, k - 1, k - 1) for k in range(1, count)]
    return "\n".join(lines), at(1 + 12, MANY)


def stars(count):
    """One filter that many rewrites name in their conditions: 1 and 2 of each are counted, up to 65,536."""
    lines = ["filter f{tags()};"] + ["rewrite r%d{unset(value(N)condition(filter(f)))};" % k for k in range(count)]
    return "\n".join(lines), OK if 1 + 3 * count <= 65536 else at(2 + 65535 // 3 + 1, MANY)


def statements(count):
    """Log statements without elements."""
    return "log{};\n" * count, OK


def named(count):
    """Templates, each with a name of its own."""
    return "".join('template %x"";\n' % k for k in range(count)), OK


def same_name(count):
    """Templates with one name."""
    return 'template t"";\n' * count, at(3, "name defined twice")


def unknown_names(count):
    """Elements that name no statement."""
    return "log{\n" + "".join("filter(f%x);\n" % k for k in range(count)) + "};", at(3, "unknown name")


def one_delivery(count):
    """Log statements with one delivery each: 1,024 are accepted."""
    return 'destination d{file("b");};\n' + "log{destination(d);};\n" * count, at(2 + 1025, "too many offers")


def levels(depth):
    """Embedded statements, of which 64 are accepted, with as many siblings in the innermost one as the parts say."""

    def text(count):
        return "log{" * depth + "log{};" * count + "};" * depth, at(2, DEEP) if depth > 63 else OK

    return text


def braces(count):
    """Embedded statements without end."""
    return "log{" * count, at(2, DEEP)


def groups(count):
    """Parentheses of an expression without end."""
    return "filter f{" + "(" * count, at(2, DEEP)


def balanced(count):
    """Brackets of an option without effect."""
    return "options{owner(" + "({" * count + "})" * count + ");};", OK


def calls(count):
    """An expression of as many calls."""
    return "filter f{tags()" + " or\ntags()" * (count - 1) + ";};", OK if count <= 4096 else at(2, MANY)


def shared(count):
    """Log statements that name one filter of 4,096 calls, which is copied into the paths: 15 are accepted, with itself 65,536 calls."""
    return "filter f{tags()" + " or tags()" * 4095 + ";};\n" + "log{filter(f);};\n" * count, OK if count <= 15 else at(2 + 16, MANY)


def inline_filters(count):
    """Inline filters of one call."""
    return "log{" + "filter{tags()};" * count + "};", OK if count <= 65536 else at(2, MANY)


def options(count):
    """One option of a source, repeated."""
    return 'source s{file("a"' + "\nlog-iw-size(700)" * count + ");};", OK


def out_of_range(count):
    """One option of a source, repeated, out of its range."""
    return 'source s{file("a"' + "\nlog-iw-size(0)" * count + ");};", at(3, "value out of range")


def templates_of_drivers(count):
    """One template of a driver, repeated."""
    return 'destination d{file("b"' + "\ntemplate(\"${A}\")" * count + ");};", OK


def buffers(count):
    """One disk-buffer of a driver, repeated."""
    return 'destination d{file("b"' + "\ndisk-buffer(reliable(yes)disk-buf-size(1))" * count + ");};", OK


def tags(count):
    """Tags of one source."""
    return 'source s{file("a"tags(' + "\na" * count + "));};", OK


def globals_of_one_name(count):
    """One global option, repeated."""
    return "options{" + "frac-digits(3);\n" * count + "};", OK


def channels(count):
    """The channels of one junction: 1,024 messages may come out of it."""
    return "log{junction{" + "channel{};\n" * count + "};};", OK if count <= 1024 else at(2, "too many offers")


def branches(count):
    """The branches of one `if`: one message comes out of each, and of the missing `else`."""
    return "log{if(tags()){}" + "\nelif(tags()){}" * (count - 1) + ";};", at(2, "too many offers") if count > 1023 else OK


def doubling_junctions(count):
    """Junctions of two channels one behind the other: after the 11th there are 2,048 messages."""
    return "log{" + "junction{channel{};channel{};};\n" * count + "};", at(2, "too many offers")


def drivers(count):
    """Drivers of a destination, of which 64 are accepted."""
    return "destination d{\n" + 'file("b");\n' * count + "};", at(3 + 64, MANY)


def inlets(count):
    """Drivers of a source, of which 128 are accepted."""
    return "source s{\n" + "".join('file("%x");\n' % k for k in range(count)) + "};", at(3 + 128, MANY)


def values(count):
    """The globs of one rewrite."""
    return 'rewrite r{groupunset(values(' + '"a*"\n' * count + "))};", OK


def texts(count):
    """Comparisons of templates with many parts."""
    return 'filter f{"' + "$A" * count + '"eq"' + "${B}" * count + '"};', OK


def patterns(count):
    """Patterns of one byte, in expressions of 4,000."""
    lines = ["filter f%d{host(a)%s;};" % (k, " or host(a)" * (min(4000, count - 4000 * k) - 1)) for k in range((count + 3999) // 4000)]
    return "\n".join(lines), OK


def long_patterns(count):
    """Patterns of 1,000 bytes."""
    return "filter f{" + "\nor ".join('host("%s")' % ("ab" * 500) for _ in range(count)) + ";};", OK


def named_patterns(times):
    """A filter of 4,000 patterns, which log statements name: it is copied into their paths."""
    return "filter f{host(a)" + " or host(a)" * 3999 + ";};\n" + "log{filter(f);};\n" * times, OK


def large_patterns(count):
    """Patterns of few bytes and many states."""
    return "filter f{" + "\nor ".join('host("a{999}")' for _ in range(count)) + ";};", OK


def parentheses(_):
    """65 parentheses on line 5, as text that a person may write."""
    return "\n\n\nfilter f { " + "(" * 65 + 'tags("x")' + ")" * 65 + "; };", at(5, DEEP)


FAMILIES = [
    ("nothing else", lambda count: ("", OK), 0),
    ("filters, each the one before", filters_before, 28_000),
    ("filters, each the one behind", filters_behind, 28_000),
    ("filters in a ring", ring, 28_000),
    ("filters, each twice the next", pairs, 18_000),
    ("filters, each twice the last", doubled, 18_000),
    ("one filter in 15,000 rewrites", stars, 15_000),
    ("statements", statements, 100_000),
    ("statements with names", named, 55_000),
    ("statements with one name", same_name, 65_000),
    ("unknown names", unknown_names, 50_000),
    ("deliveries", one_delivery, 34_000),
    ("64 levels", levels(63), 100_000),
    ("65 levels", levels(64), 100_000),
    ("braces", braces, 170_000),
    ("parentheses", groups, 520_000),
    ("65 parentheses on line 5", parentheses, 1),
    ("balanced brackets", balanced, 130_000),
    ("an expression of 4,096", calls, 4_096),
    ("an expression of 4,097", calls, 4_097),
    ("an expression of 60,000", calls, 60_000),
    ("17 times 4,096", shared, 20_000),
    ("inline filters", inline_filters, 40_000),
    ("options", options, 50_000),
    ("options out of range", out_of_range, 50_000),
    ("templates of a driver", templates_of_drivers, 50_000),
    ("disk-buffers of a driver", buffers, 18_000),
    ("tags", tags, 500_000),
    ("global options", globals_of_one_name, 50_000),
    ("channels", channels, 74_000),
    ("branches", branches, 40_000),
    ("junctions of two", doubling_junctions, 24_000),
    ("drivers of destinations", drivers, 69_000),
    ("drivers of sources", inlets, 58_000),
    ("globs", values, 205_000),
    ("parts of templates", texts, 170_000),
    ("patterns", patterns, 60_000),
    ("long patterns", long_patterns, 1_000),
]

# What isn't in proportion to the text, as each name of a filter is a copy of it: 65,536 calls are made in all, of 4 KB each, and
# of up to 10 MB where they hold a pattern.
COPIES = [
    ("16 times 4,096", shared, 15),
    ("4,000 patterns in 15 paths", named_patterns, 15),
    ("patterns with many states", large_patterns, 1_000),
]


A = """@version: 4.2
source s { file("in" flags(%s)); };
destination d { file("out" template("%s\\n")%s); };
log { source(s); destination(d); flags(flow-control); };
"""
LINES = A % ("no-parse", "$MSG", "")
BUFFERED = A % ("no-parse", "$MSG", " disk-buffer(reliable(yes) disk-buf-size(1048576))")

# The rows: a name, the words, the files, a pattern of what is said, and the exit status.
ROWS = [
    (
        "variables that double",
        ["check", "c"],
        {"c": "@version: 4.2\n" + '@define a0 "0123456789"\n' + "".join('@define a%d "`a%d``a%d`"\n' % (k, k - 1, k - 1) for k in range(1, 21))},
        "c:18: configuration too long",
        2,
    ),
    (
        "a hundred times the next of 14",
        ["check", "c"],
        {"c": "@version: 4.2\n" + '@include "h01"\n' * 100, "h14": "", **{"h%02d" % k: '@include "h%02d"\n' % (k + 1) * 100 for k in range(1, 14)}},
        r"h\d\d:\d+: configuration too long",
        2,
    ),
    ("65 parentheses on line 5", ["check", "c"], {"c": "@version: 4.2\n" + parentheses(1)[0] + "\n"}, "c:5: nested too deep", 2),
    (
        "65,536 brackets as RFC 5424",
        ["trace", "c", "s", "in"],
        {"c": A % ("syslog-protocol", "$PRI $PROGRAM", ""), "in": "[" * 65536 + "\n"},
        "record 0 destination 0 flow yes length 13\n43 syslog-ng",
        0,
    ),
    ("a disk-buffer of the payload ab", ["run", "c", "--once"], {"c": BUFFERED, "in": "one\n", "queue-file,out": "\0" * 64 + "\1\0\0\0\2ab" + "\0" * 57}, "store 1 damaged at 64", 5),
    ("a position store with byte 40", ["run", "c", "--once"], {"c": LINES, "in": "one\n", "pos-in": "\0" * 40 + "\1" + "\0" * 87}, "store 0 damaged at 40", 5),
]


def run(program, folder, command=("check", "c")):
    """The seconds, the processor's seconds, the peak in KiB, and what was said."""
    figures = os.path.join(folder, "figures")
    words = ["/usr/bin/time", "-o", figures, "-f", "%e %U %S %M", program, *command]
    said = subprocess.run(words, cwd=folder, stdout=subprocess.PIPE, stderr=subprocess.DEVNULL).stdout.decode(errors="replace").strip()
    with open(figures) as lines:
        elapsed, user, system, peak = lines.read().splitlines()[-1].split()
    return float(elapsed), float(user) + float(system), int(peak), said


def look_at_row(program, row):
    """The seconds, the processor's seconds, the peak in KiB, what was said, and whether that is right."""
    name, words, files, wanted, status = row
    with tempfile.TemporaryDirectory() as folder:
        for file, text in files.items():
            with open(os.path.join(folder, file), "w") as out:
                out.write(text)
        elapsed, processor, peak, said = run(program, folder, words)
        with open(os.path.join(folder, "figures")) as lines:
            ended = re.search(r"Command exited with non-zero status (\d+)", lines.read())
    return elapsed, processor, peak, said, (int(ended[1]) if ended else 0) == status and bool(re.fullmatch(wanted, said))


def connected(port):
    """A connection to the port of the program, which may take a while to listen there."""
    for _ in range(200):
        try:
            return socket.create_connection(("127.0.0.1", port), timeout=10)
        except OSError:
            time.sleep(0.05)
    raise SystemExit("the program doesn't listen")


def comes_to(path, text):
    """Whether the file comes to hold this within ten seconds."""
    for _ in range(200):
        try:
            with open(path) as file:
                if file.read() == text:
                    return True
        except FileNotFoundError:
            pass
        time.sleep(0.05)
    return False


def look_at_count(program):
    """A connection that begins with a count of twenty digits is closed, and one beside it goes on. The figures as above."""
    with socket.socket() as free:
        free.bind(("127.0.0.1", 0))
        port = free.getsockname()[1]
    with tempfile.TemporaryDirectory() as folder:
        out = os.path.join(folder, "out")
        with open(os.path.join(folder, "c"), "w") as config:
            config.write(LINES.replace('file("in" flags(no-parse))', 'syslog(ip("127.0.0.1") port(%d) max-connections(2) flags(no-parse))' % port))
        start = time.monotonic()
        run = subprocess.Popen([program, "run", "c"], cwd=folder, stdout=subprocess.DEVNULL, stderr=subprocess.DEVNULL)
        try:
            with connected(port) as bad, connected(port) as good:
                good.sendall(b"5 hello")
                bad.sendall(b"99999999999999999999 x")
                before = comes_to(out, "hello\n")
                closed = bad.recv(1) == b""
                good.sendall(b"3 abc")
                right = before and closed and comes_to(out, "hello\nabc\n") and run.poll() is None
            elapsed = time.monotonic() - start
            with open("/proc/%d/status" % run.pid) as lines:
                peak = int(re.search(r"VmHWM:\s+(\d+)", lines.read())[1])
            with open("/proc/%d/stat" % run.pid) as line:
                ticks = line.read().rsplit(")", 1)[1].split()[11:13]
        finally:
            run.kill()
            run.wait()
    return elapsed, sum(map(int, ticks)) / os.sysconf("SC_CLK_TCK"), peak, "hello, abc" if right else "another end", right


def look_at_rows(program):
    """Prints the figures of each row, and tells whether all are right."""
    good = True
    print("%-32s %8s %8s %9s  %s" % ("row", "seconds", "cpu", "KiB", "said"))
    looks = [(row[0], lambda row=row: look_at_row(program, row)) for row in ROWS]
    looks.insert(3, ("a count of twenty digits", lambda: look_at_count(program)))
    for name, look in looks:
        elapsed, processor, peak, said, right = look()
        wrong = [word for word, bad in (("SLOW", processor > SECONDS), ("MEMORY", peak > ROW), ("ANSWER", not right)) if bad]
        good = good and not wrong
        print("%-32s %8.2f %8.2f %9d  %s %s" % (name, elapsed, processor, peak, said.replace("\n", " | ")[:80], " ".join(wrong)))
    return good


def measured(program, folder, make, count):
    text, wanted = make(count)
    with open(os.path.join(folder, "c"), "w") as out:
        size = out.write("@version: 4.2\n" + text + "\n")
    elapsed, processor, peak, said = run(program, folder)
    return size, elapsed, processor, peak, said, said == ("c: ok" if wanted == OK else "c:" + wanted)


def main():
    program = os.path.abspath(sys.argv[1]) if len(sys.argv) > 1 else PROGRAM
    good = look_at_rows(program)
    print()
    print("%-30s %9s %8s %8s %9s %7s %7s  %s" % ("family", "bytes", "seconds", "cpu", "KiB", "a byte", "half", "said"))
    with tempfile.TemporaryDirectory() as folder:
        base = None
        for family in FAMILIES + COPIES:
            name, make, count = family
            half = measured(program, folder, make, (count + 1) // 2)
            whole = measured(program, folder, make, count)
            size, elapsed, processor, peak, said, right = whole
            base = peak if base is None else base
            more, less = peak - base, half[3] - base
            grows = more > 3 * max(less, SLACK) or more * 1024 > BYTES * size + SLACK * 1024
            wrong = [word for word, bad in (("SLOW", processor > SECONDS), ("MEMORY", grows), ("ANSWER", not (right and half[5]))) if bad]
            good = good and (not wrong or family in COPIES and "ANSWER" not in wrong)
            rates = more * 1024 / size, less * 1024 / half[0]
            print("%-30s %9d %8.2f %8.2f %9d %7.0f %7.0f  %s %s" % (name, size, elapsed, processor, peak, *rates, said, " ".join(wrong)))
    return 0 if good else 1


if __name__ == "__main__":
    sys.exit(main())
