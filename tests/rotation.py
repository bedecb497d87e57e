#!/usr/bin/env python3
"""Rotations of a source while it is written and followed: no line may be missing.

tests/rotation.py [COUNT [PROGRAM]]   by default 20 rotations, by the program that is proved

A process appends lines to app.log and opens it anew at SIGHUP. Each rotation is one of logrotate's by the stanza for a source of
examples/logrotate, without its compression, where logrotate is installed, and else a rename as it makes one. Each line must be in
the destination at the end; lines of the moments between two runs may be there twice."""
import os, shutil, signal, subprocess, sys, tempfile, time

TOP = os.path.dirname(os.path.dirname(os.path.abspath(__file__)))
PROGRAM = os.path.join(TOP, "crates", "sg_top", "out", "sg_top")
CONFIG = """@version: 4.2
source s { file("app.log" flags(no-parse)); };
destination d { file("out" template("$MSG\\n")); };
log { source(s); destination(d); flags(flow-control); };
"""
WRITER = """
import os, signal, sys, time
def opened():
    return os.open("app.log", os.O_WRONLY | os.O_APPEND | os.O_CREAT, 0o600)
again, over = False, False
def on_hangup(number, frame):
    global again
    again = True
def on_end(number, frame):
    global over
    over = True
signal.signal(signal.SIGHUP, on_hangup)
signal.signal(signal.SIGTERM, on_end)
file, count = opened(), 0
while not over:
    if again:
        again = False
        os.close(file)
        file = opened()
    os.write(file, b"line %09d\\n" % count)
    count += 1
    time.sleep(0.002)
print(count)
"""


def rotate(folder, writer, run):
    """One rotation: the name, the writer, time to read, and a restart. Answers the new run."""
    if shutil.which("logrotate"):
        with open(os.path.join(folder, "rotate.conf"), "w") as file:
            file.write(f"{folder}/app.log {{\nrotate 99\nnocreate\npostrotate\nkill -HUP {writer.pid}\nsleep 1\nendscript\n}}\n")
        subprocess.run(["logrotate", "-f", "-s", os.path.join(folder, "state"), os.path.join(folder, "rotate.conf")], check=True)
    else:
        number = len([name for name in os.listdir(folder) if name.startswith("app.log.")]) + 1
        os.rename(os.path.join(folder, "app.log"), os.path.join(folder, f"app.log.{number}"))
        writer.send_signal(signal.SIGHUP)
        time.sleep(1)
    run.kill()
    run.wait()
    return start(folder)


def start(folder):
    return subprocess.Popen([PROGRAM, "run", "conf"], cwd=folder, stdout=subprocess.DEVNULL, stderr=subprocess.DEVNULL)


def main():
    global PROGRAM
    count = int(sys.argv[1]) if len(sys.argv) > 1 else 20
    PROGRAM = os.path.abspath(sys.argv[2]) if len(sys.argv) > 2 else PROGRAM
    with tempfile.TemporaryDirectory() as folder:
        with open(os.path.join(folder, "conf"), "w") as file:
            file.write(CONFIG)
        writer = subprocess.Popen([sys.executable, "-c", WRITER], cwd=folder, stdout=subprocess.PIPE)
        while not os.path.exists(os.path.join(folder, "app.log")):
            time.sleep(0.05)
        run = start(folder)
        for _ in range(count):
            time.sleep(0.5)
            run = rotate(folder, writer, run)
        writer.terminate()
        written = int(writer.communicate()[0])
        time.sleep(1)
        run.kill()
        run.wait()
        with open(os.path.join(folder, "out"), "rb") as file:
            lines = file.read().split(b"\n")[:-1]
        missing = written - len(set(lines) & {b"line %09d" % n for n in range(written)})
        others = len(set(lines)) - (written - missing)
    print(f"{count} rotations, {written} lines, {missing} missing, {len(lines) - len(set(lines))} twice, {others} others")
    sys.exit(0 if missing == 0 and others == 0 else 1)


main()
