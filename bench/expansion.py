#!/usr/bin/env python3
"""What an expansion takes in time and memory where a text makes as much work of few bytes as it can.

    bench/expansion.py [PROGRAM]     by default the program that is proved

It makes one text for each family, runs `PROGRAM check FILE` on it, which expands it and mostly refuses it, and
prints the text's bytes, the seconds, the processor's seconds and the most memory held, as /usr/bin/time (GNU)
tells them, the memory beyond that of the first run, and what the program said. It ends with status 1 where a
family takes more than two seconds of the processor.
"""
import os
import subprocess
import sys
import tempfile

TOP = os.path.dirname(os.path.dirname(os.path.abspath(__file__)))
PROGRAM = os.path.join(TOP, "crates", "sg_top", "out", "sg_top")
SECONDS = 2.0


def variable(count):
    return '@define V "%s"\n' % ("v" * count)


def doubled(count):
    """A variable for each line, of twice the bytes of the one before, the last named V."""
    names = ["a%d" % k for k in range(count)] + ["V"]
    lines = ['@define a0 "0123456789"'] + ['@define %s "`%s``%s`"' % (name, before, before) for before, name in zip(names, names[1:])]
    return "\n".join(lines) + "\n"


def nested(count, depth):
    """Uses within the values of uses, around a variable."""
    return variable(count) + "block root a(k()) {`k`};\n" + "{a(k(" * depth + "`V`" + "))}" * depth


def open_uses(parameters, depth):
    """Uses within the first value of a use, each of which has the other parameters left."""
    block = "block root a(%s) {};\n" % " ".join("k%d(x)" % k for k in range(parameters))
    return block + "{a(k0(" * depth + "))}" * depth


def pairs(depth):
    """Blocks that use the one before twice."""
    lines = ["block root b0() {};"]
    lines += ["block root b%d() {b%d(); b%d();};" % (k, k - 1, k - 1) for k in range(1, depth + 1)]
    return "\n".join(lines) + "\nb%d();" % depth


FAMILIES = [
    ("nothing else", ""),
    ("uses in values, over 10 KB", nested(10_000, 10_250)),
    ("uses in values, over 320 KB", nested(320_000, 88_000)),
    ("uses in their own defaults", "block root a(k({a()})) {`k`};\na()"),
    ("the same, over 320 KB", variable(320_000) + "block root a(k({a()} `V`)) {`k`};\na()"),
    ("the same, 320 KB first", variable(320_000) + "block root a(k(`V` {a()})) {`k`};\na()"),
    ("the same, doubled to 320 KB", doubled(15) + "block root a(k({a()} `V`)) {`k`};\na()"),
    ("open uses, 1,000 parameters", open_uses(1_000, 2_000)),
    ("open uses, 10 parameters", open_uses(10, 60_000)),
    ("10,000 defaults of nothing", "block root a(%s) {};\n" % " ".join("k%d(@module x)" % k for k in range(10_000)) + "{a();}" * 100),
    ("defaults of directives alone", "block root a(k(%s)) {};\n" % ("@module x " * 5_000) + "{a();}" * 1_000),
    ("pairs of uses, 40 deep", pairs(40)),
    ("60,000 variables", "".join("@define a%05d 1\n" % k for k in range(60_000))),
    ("45,000 blocks", "".join("block root b%05d(){};" % k for k in range(45_000))),
    ("500,000 braces", "{" * 500_000),
    ("one variable in a string", variable(1_000) + '"' + "`V`" * 300_000 + '"'),
    ("one argument, 100,000 times", "block root a(k()) {`k`};\na(%s)" % ("k() " * 100_000)),
]


def run(program, folder):
    """The seconds, the processor's seconds, the peak in KiB, and what was said."""
    figures = os.path.join(folder, "figures")
    words = ["/usr/bin/time", "-o", figures, "-f", "%e %U %S %M", program, "check", "c"]
    said = subprocess.run(words, cwd=folder, stdout=subprocess.PIPE).stdout.decode(errors="replace").strip()
    with open(figures) as lines:
        elapsed, user, system, peak = lines.read().splitlines()[-1].split()
    return float(elapsed), float(user) + float(system), int(peak), said


def main():
    program = os.path.abspath(sys.argv[1]) if len(sys.argv) > 1 else PROGRAM
    late = False
    print("%-30s %9s %8s %8s %9s %9s  %s" % ("family", "bytes", "seconds", "cpu", "KiB", "more", "said"))
    with tempfile.TemporaryDirectory() as folder:
        base = None
        for name, text in FAMILIES:
            with open(os.path.join(folder, "c"), "w") as out:
                size = out.write("@version: 4.2\n" + text)
            elapsed, processor, peak, said = run(program, folder)
            base = peak if base is None else base
            late = late or processor > SECONDS
            print("%-30s %9d %8.2f %8.2f %9d %9d  %s" % (name, size, elapsed, processor, peak, peak - base, said))
    return 1 if late else 0


if __name__ == "__main__":
    sys.exit(main())
