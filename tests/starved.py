#!/usr/bin/env python3
"""The real program with one allocation refused in each run: the first, the second and so on, up to a run that makes fewer.

    tests/starved.py [PROGRAM]     by default the program that is proved

It does so with a run of two lines, a run of five lines through a disk-buffer, a run of four files to a destination each, whose
rounds are taken on threads, `drill 8`, and `check` of a distribution's configuration. Each run must end with status 11 and say
nothing, or end and say as it does where no allocation is refused. Where lines are moved, a run behind it, with no allocation
refused, must end with status 0, and then each line stands in its destination's file once at least, in order, and nothing else.
A run that hasn't ended after a minute is wrong. It says how many runs of each kind there were, and ends with status 1 where one
is not so. It needs a C compiler (tests/starve.c).
"""
import concurrent.futures
import os
import shutil
import subprocess
import sys
import tempfile

TOP = os.path.dirname(os.path.dirname(os.path.abspath(__file__)))
PROGRAM = os.path.join(TOP, "crates", "sg_top", "out", "sg_top")
MOST = 200_000  # allocations of a run

A = """@version: 4.2
source s { file("in" flags(no-parse)); };
destination d { file("out" template("$MSG\\n")%s); };
log { source(s); destination(d); flags(flow-control); };
"""

FOUR = "@version: 4.2\n" + "".join(
    'source s%d { file("in%d" flags(no-parse)); };\ndestination d%d { file("out%d" template("$MSG\\n")); };\n'
    "log { source(s%d); destination(d%d); flags(flow-control); };\n" % ((k,) * 6)
    for k in range(4)
)


def lines_of(k):
    return ["line %d of file %d" % (n, k) for n in range(250)]


DISTRIBUTION = """@version: 4.2
@include "scl.conf"
options { chain_hostnames(off); flush_lines(0); use_dns(no);
  use_fqdn(no); dns_cache(no); owner("root"); group("adm");
  perm(0640); stats(freq(0)); bad_hostname("^gconfd$"); };
source s_src { network(ip("127.0.0.1") port(5514)); };
destination d_auth { file("/var/log/auth.log"); };
destination d_syslog { file("/var/log/syslog"); };
destination d_error { file("/var/log/error"); };
filter f_dbg { level(debug) and not facility(auth, authpriv, news, mail); };
filter f_auth { facility(auth, authpriv) and not filter(f_dbg); };
filter f_syslog { not facility(auth, authpriv, mail) and not filter(f_dbg); };
filter f_error { level(err .. emerg); };
log { source(s_src); filter(f_auth); destination(d_auth); };
log { source(s_src); filter(f_syslog); destination(d_syslog); };
log { source(s_src); filter(f_error); destination(d_error); };
"""

# A name, the words, the files, and the lines that each destination's file gets.
CASES = [
    ("two lines", ["run", "c", "--once"], {"c": A % "", "in": "one\ntwo\n"}, {"out": ["one", "two"]}),
    (
        "five lines through a disk-buffer",
        ["run", "c", "--once"],
        {"c": A % " disk-buffer(reliable(yes) disk-buf-size(1048576))", "in": "one\ntwo\nthree\nfour\nfive\n"},
        {"out": ["one", "two", "three", "four", "five"]},
    ),
    (
        "four files to a destination each",
        ["run", "c", "--once"],
        {"c": FOUR, **{"in%d" % k: "".join(line + "\n" for line in lines_of(k)) for k in range(4)}},
        {"out%d" % k: lines_of(k) for k in range(4)},
    ),
    ("drill 8", ["drill", "8"], {}, {}),
    ("check of a distribution's configuration", ["check", "c"], {"c": DISTRIBUTION, "scl.conf": ""}, {}),
]


def run(program, words, folder, environment):
    """The exit status, what was said, and whether an allocation was refused."""
    how = {"stdin": subprocess.DEVNULL, "stdout": subprocess.PIPE, "stderr": subprocess.PIPE, "timeout": 60}
    try:
        ended = subprocess.run([program, *words], cwd=folder, env={**os.environ, **environment}, **how)
    except subprocess.TimeoutExpired as late:
        return None, b"nothing, for a minute", b"starved\n" in (late.stderr or b"")
    return ended.returncode, ended.stdout, b"starved\n" in ended.stderr


def is_whole(lines, path):
    """Whether each line stands there, the first times in order, and nothing else."""
    try:
        with open(path) as file:
            text = file.read()
    except FileNotFoundError:
        text = ""
    first = list(dict.fromkeys(text.split("\n")[:-1]))
    return (text.endswith("\n") or not text) and first == lines


def refuse(program, library, case, number, plain):
    """What comes of the allocation of that number being refused: none where the run makes fewer, and else whether memory ran out,
    and what is wrong."""
    name, words, files, lines = case
    with tempfile.TemporaryDirectory() as folder:
        for file, text in files.items():
            with open(os.path.join(folder, file), "w") as out:
                out.write(text)
        status, said, refused = run(program, words, folder, {"LD_PRELOAD": library, "STARVE": str(number)})
        if not refused:
            return None
        wrong = []
        if (status, said) not in [(11, b""), plain]:
            wrong.append("allocation %d of %s: status %d, said %r" % (number, name, status, said))
        if lines:
            status_behind, said, _ = run(program, words, folder, {})
            whole = all(is_whole(those, os.path.join(folder, out)) for out, those in lines.items())
            if status_behind != 0 or not whole:
                wrong.append("allocation %d of %s: behind status %d a run ends with %d, says %r" % (number, name, status, status_behind, said))
        return status == 11, wrong


def sweep(program, library, case):
    """What is wrong with the runs of a case."""
    name, words, files, _ = case
    with tempfile.TemporaryDirectory() as folder:
        for file, text in files.items():
            with open(os.path.join(folder, file), "w") as out:
                out.write(text)
        plain = run(program, words, folder, {})[:2]
    if plain[0] != 0:
        return ["%s: status %d, said %r" % (name, *plain)]
    runs, out_of_memory, wrong = 0, 0, []
    with concurrent.futures.ThreadPoolExecutor(os.cpu_count()) as pool:
        for first in range(1, MOST, 64):
            ends = list(pool.map(lambda number: refuse(program, library, case, number, plain), range(first, first + 64)))
            met = [end for end in ends if end is not None]
            runs += len(met)
            out_of_memory += sum(end[0] for end in met)
            wrong += [it for end in met for it in end[1]]
            if len(met) < len(ends):
                break
    print("%s: %d runs with an allocation refused, %d of them with status 11, %d wrong" % (name, runs, out_of_memory, len(wrong)))
    return wrong


def main():
    program = os.path.abspath(sys.argv[1]) if len(sys.argv) > 1 else PROGRAM
    wrong = []
    with tempfile.TemporaryDirectory() as folder:
        library = os.path.join(folder, "starve.so")
        compiler = shutil.which("cc") or shutil.which("clang")
        if not compiler:
            print("no C compiler")
            return 2
        subprocess.run([compiler, "-O2", "-shared", "-fPIC", "-o", library, os.path.join(TOP, "tests", "starve.c"), "-ldl"], check=True)
        for case in CASES:
            wrong += sweep(program, library, case)
    for it in wrong[:30]:
        print(it)
    return 1 if wrong else 0


if __name__ == "__main__":
    sys.exit(main())
