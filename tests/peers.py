#!/usr/bin/env python3
"""The program beside peers that don't answer, don't read or read slowly, over connections of this machine.

tests/peers.py [PROGRAM]   each of them beside a path from file to file, whose time is compared; by default the program that is proved

Also a peer behind a line of 100 ms, one that takes no byte, ones that close the connection, and a connection for which there is no
memory, which needs a C compiler (tests/starve.c)."""
import collections, os, select, shutil, socket, struct, subprocess, sys, tempfile, threading, time

TOP = os.path.dirname(os.path.dirname(os.path.abspath(__file__)))
PROGRAM = os.path.join(TOP, "crates/sg_top/out/sg_top")
LINES, LINE = 600_000, b"%09d " + b"x" * 89 + b"\n"  # 60 MB
SLOWER = 1.5  # times as long as without the peer
failed = []


def check(name, good, text=""):
    print(("passed  " if good else "FAILED  ") + name + (": " + text if text else ""), flush=True)
    if not good:
        failed.append(name)


class Peer:
    """A listener, and what becomes of its connections: a function of a socket, or None where nobody accepts them."""

    def __init__(self, serve, backlog=128, room=None):
        self.listener = socket.socket()
        if room:
            self.listener.setsockopt(socket.SOL_SOCKET, socket.SO_RCVBUF, room)
        self.listener.bind(("127.0.0.1", 0))
        self.listener.listen(backlog)
        self.port = self.listener.getsockname()[1]
        self.taken = 0
        self.queue = []
        self.over = False
        if serve is None:
            self.fill()
        else:
            threading.Thread(target=self.accept, args=(serve,), daemon=True).start()

    def fill(self):
        """Connections until the queue takes no more."""
        for _ in range(1000):
            one = socket.socket()
            one.setblocking(False)
            one.connect_ex(("127.0.0.1", self.port))
            self.queue.append(one)
            if not select.select([], [one], [], 0.2)[1]:
                return

    def accept(self, serve):
        while not self.over:
            try:
                one, _ = self.listener.accept()
            except OSError:
                return
            self.queue.append(one)
            threading.Thread(target=serve, args=(self, one), daemon=True).start()

    def close(self):
        self.over = True
        self.listener.close()
        for one in self.queue:
            one.close()


def read_nothing(peer, one):
    pass


def read_slowly(peer, one):
    """40,000 bytes a second."""
    try:
        while not peer.over:
            piece = one.recv(4000)
            if not piece:
                return
            peer.taken += len(piece)
            time.sleep(0.1)
    except OSError:
        pass


def read_all(peer, one):
    try:
        while piece := one.recv(65536):
            peer.taken += len(piece)
    except OSError:
        pass


def config(folder, text):
    with open(os.path.join(folder, "conf"), "w") as file:
        file.write("@version: 4.2\n" + text)


def start(program, folder, stderr=None, words=(), environment=None):
    errors = stderr or open(os.path.join(folder, "errors"), "wb")
    how = {"env": {**os.environ, **(environment or {})}, "stdout": subprocess.DEVNULL, "stderr": errors}
    return subprocess.Popen([program, "run", "conf", *words], cwd=folder, **how)


def end(process):
    process.kill()
    process.wait()


def told(folder):
    with open(os.path.join(folder, "errors"), "rb") as file:
        return file.read().decode(errors="replace")


def wait_for(test, seconds):
    begun = time.monotonic()
    while time.monotonic() - begun < seconds:
        if test():
            return True
        time.sleep(0.02)
    return test()


def file_path(program, peer_line, stderr=None):
    """The seconds in which the lines of a file are in another one, beside a path to a peer; None where they never are."""
    with tempfile.TemporaryDirectory() as folder:
        with open(os.path.join(folder, "in"), "wb") as file:
            file.write(b"".join(LINE % n for n in range(LINES)))
        config(
            folder,
            'source s { file("in" flags(no-parse)); };\n'
            'destination f { file("out" template("$MSG\\n")); };\n'
            "log { source(s); destination(f); flags(flow-control); };\n" + peer_line,
        )
        size = os.path.getsize(os.path.join(folder, "in"))
        out = os.path.join(folder, "out")
        begun = time.monotonic()
        process = start(program, folder, stderr)
        there = wait_for(lambda: os.path.exists(out) and os.path.getsize(out) >= size, 60)
        took = time.monotonic() - begun
        end(process)
        if not there:
            return None
        with open(out, "rb") as got, open(os.path.join(folder, "in"), "rb") as wanted:
            return took if got.read() == wanted.read() else None


def peer_path(host, port):
    return (
        f'destination p {{ network("{host}" port({port}) template("$MSG\\n") time-reopen(1)); }};\n'
        "log { source(s); destination(p); };\n"
    )


def beside(program):
    """A path from file to file beside each kind of peer."""
    alone = file_path(program, "")
    check("a path alone", alone is not None, f"{alone} s")
    if alone is None:
        return
    kinds = [
        ("a peer that doesn't answer", lambda: Peer(None, 0)),
        ("a peer that reads nothing", lambda: Peer(read_nothing)),
        ("a peer that reads 40 kB a second", lambda: Peer(read_slowly)),
    ]
    for name, make in kinds:
        peer = make()
        took = file_path(program, peer_path("127.0.0.1", peer.port))
        peer.close()
        text = "never" if took is None else f"{took:.2f} s, alone {alone:.2f} s"
        check(name, took is not None and took <= SLOWER * alone + 0.3, text)
    took = file_path(program, peer_path("no-such-host.invalid", 1))
    text = "never" if took is None else f"{took:.2f} s, alone {alone:.2f} s"
    check("a host that isn't found", took is not None and took <= SLOWER * alone + 0.3, text)


def full_pipe(program):
    """Standard error is a pipe that nobody reads."""
    near, far = os.pipe()
    os.set_blocking(far, False)
    try:
        while True:
            os.write(far, b"x" * 4096)
    except BlockingIOError:
        pass
    os.set_blocking(far, True)
    with socket.socket() as free:
        free.bind(("127.0.0.1", 0))
        port = free.getsockname()[1]
    took = file_path(program, peer_path("127.0.0.1", port), far)
    check("a standard error that nobody reads", took is not None, "never" if took is None else f"{took:.2f} s")
    os.close(near)
    os.close(far)


def whole_over_line(program):
    """All that a flow-controlled path gives arrives once, in order, at a peer that reads slowly at first."""

    def serve(peer, one):
        peer.got = b""
        for _ in range(10):
            peer.got += one.recv(4096)
            time.sleep(0.05)
        while piece := one.recv(65536):
            peer.got += piece

    peer = Peer(serve)
    peer.got = b""
    with tempfile.TemporaryDirectory() as folder:
        wanted = b"".join(LINE % n for n in range(200_000))
        with open(os.path.join(folder, "in"), "wb") as file:
            file.write(wanted)
        config(
            folder,
            'source s { file("in" flags(no-parse)); };\n'
            f'destination p {{ network("127.0.0.1" port({peer.port}) template("$MSG\\n")); }};\n'
            "log { source(s); destination(p); flags(flow-control); };\n",
        )
        process = start(program, folder)
        wait_for(lambda: len(peer.got) >= len(wanted), 30)
        end(process)
        check("all lines arrive, each once", peer.got == wanted, f"{len(peer.got)} of {len(wanted)} bytes")
    peer.close()


def is_closed(one, seconds):
    """Whether the other end closes a connection in so many seconds."""
    one.settimeout(seconds)
    try:
        return one.recv(1) == b""
    except ConnectionResetError:
        return True
    except OSError:
        return False


def free_port():
    with socket.socket() as free:
        free.bind(("127.0.0.1", 0))
        return free.getsockname()[1]


def connected(port):
    for _ in range(100):
        try:
            return socket.create_connection(("127.0.0.1", port))
        except OSError:
            time.sleep(0.05)
    raise SystemExit("nobody listens")


def listeners(program):
    """Connections beyond the slots, and one whose count is none."""
    with tempfile.TemporaryDirectory() as folder:
        lines, counted = free_port(), free_port()
        config(
            folder,
            f'source s {{ network(ip("127.0.0.1") port({lines}) max-connections(2) flags(no-parse)); }};\n'
            f'source c {{ syslog(ip("127.0.0.1") port({counted})); }};\n'
            'destination f { file("out" template("$MSG\\n")); };\n'
            "log { source(s); source(c); destination(f); };\n",
        )
        process = start(program, folder)
        first, second = connected(lines), connected(lines)
        first.sendall(b"one\n")
        second.sendall(b"two\n")
        out = os.path.join(folder, "out")
        wait_for(lambda: os.path.exists(out) and os.path.getsize(out) == 8, 5)
        third, fourth = connected(lines), connected(lines)
        check("connections beyond the slots are closed", is_closed(third, 3) and is_closed(fourth, 3))
        wanted = "closed a connection of 127.0.0.1: all 2 slots are taken\n"
        check("which is told once a minute", told(folder).count(wanted) == 1, told(folder).strip())
        first.close()
        time.sleep(0.5)
        fifth = connected(lines)
        fifth.sendall(b"three\n")
        check("a slot that is free again is used", wait_for(lambda: os.path.getsize(out) == 14, 5))
        bad = connected(counted)
        bad.sendall(b"no count\n")
        check("a connection without a count is closed", is_closed(bad, 3))
        wanted = "gave up the connection of 127.0.0.1: no count stands where a message begins\n"
        check("which is told", told(folder).count(wanted) == 1, told(folder).strip())
        end(process)


def feed(folder, count):
    """A file of so many lines, which are answered."""
    wanted = b"".join(LINE % n for n in range(count))
    with open(os.path.join(folder, "in"), "wb") as file:
        file.write(wanted)
    return wanted


def sender(folder, port, options=""):
    """The configuration from the file to a peer, with flow-control."""
    config(
        folder,
        'source s { file("in" flags(no-parse) log-msg-size(1048576)); };\n'
        f'destination p {{ network("127.0.0.1" port({port}) template("$MSG\\n") time-reopen(1) {options}); }};\n'
        "log { source(s); destination(p); flags(flow-control); };\n",
    )


WINDOW, DELAY = 1 << 18, 0.1  # bytes that may be on their way, and the seconds until it is known that they are there


def behind_a_line(peer, one):
    """As over a line of 100 ms: no more bytes are taken than the window has, less those of the last 100 ms."""
    way, on_it = collections.deque(), 0
    try:
        while not peer.over:
            now = time.monotonic()
            while way and way[0][0] <= now:
                on_it -= way.popleft()[1]
            if on_it == WINDOW:
                time.sleep(max(0, way[0][0] - now))
                continue
            piece = one.recv(min(WINDOW - on_it, 65536))
            if not piece:
                return
            way.append((time.monotonic() + DELAY, len(piece)))
            on_it += len(piece)
            peer.got += piece
    except OSError:
        pass


def long_line(program):
    """A peer behind a line of 100 ms is served at the line's rate, and not with a send for each wait of a round."""
    peer = Peer(behind_a_line, room=16384)
    peer.got = bytearray()
    with tempfile.TemporaryDirectory() as folder:
        wanted = feed(folder, 100_000)
        sender(folder, peer.port)
        begun = time.monotonic()
        process = start(program, folder)
        wait_for(lambda: len(peer.got) >= len(wanted), 60)
        took, rate = time.monotonic() - begun, len(wanted) / WINDOW * DELAY
        end(process)
        text = f"{len(peer.got)} of {len(wanted)} bytes in {took:.2f} s, {rate:.2f} s at the line's rate"
        check("a peer behind a line of 100 ms", peer.got == wanted and took <= SLOWER * rate + 1, text)
    peer.close()


def no_byte(program):
    """A peer that takes no byte has failed after 60 seconds, with `--once` after 5, which is told."""
    for name, words, seconds in [("with --once", ["--once"], 5), ("without", [], 60)]:
        peer = Peer(read_nothing, room=4096)
        with tempfile.TemporaryDirectory() as folder:
            feed(folder, 100_000)
            sender(folder, peer.port)
            begun = time.monotonic()
            process = start(program, folder, words=words)
            wanted = f"destination 127.0.0.1:{peer.port}: cannot send: timed out\n"
            there = wait_for(lambda: wanted in told(folder), seconds + 10)
            took = time.monotonic() - begun
            end(process)
            check(f"a peer that takes no byte, {name}", there and took >= seconds, f"{took:.1f} s: {told(folder).strip()}")
        peer.close()


def close_hard(one):
    """Closes a connection so that what is on its way is thrown away, and the other end's next send ends in an error."""
    one.setsockopt(socket.SOL_SOCKET, socket.SO_LINGER, struct.pack("ii", 1, 0))
    one.close()


def failed_send(program):
    """No frame of a send that ends in an error counts as taken: all come over the next connection."""

    def serve(peer, one):
        number = len(peer.queue)
        if number == 1:
            one.recv(65536)
            close_hard(one)
            peer.closed.set()
        else:
            while piece := one.recv(65536):
                peer.got += piece

    peer = Peer(serve)
    peer.got, peer.closed = bytearray(), threading.Event()
    with tempfile.TemporaryDirectory() as folder:
        first = feed(folder, 1)
        sender(folder, peer.port)
        process = start(program, folder)
        closed = peer.closed.wait(20)
        time.sleep(0.2)
        rest = b"".join(LINE % n for n in range(1, 51))
        with open(os.path.join(folder, "in"), "ab") as file:
            file.write(rest)
        there = wait_for(lambda: peer.got.endswith(rest), 20)
        end(process)
        good = closed and there and bytes(peer.got) in (rest, first + rest)
        check("a send to a connection that is closed", good, f"{len(peer.got)} of {len(rest)} bytes; {told(folder).strip()}")
    peer.close()


def torn_frame(program):
    """A frame of which a part was sent when the peer closed comes whole over the next connection."""

    def serve(peer, one):
        number = len(peer.queue)
        if number == 1:
            one.recv(1000)
            time.sleep(0.5)
            close_hard(one)
        else:
            while piece := one.recv(65536):
                peer.got += piece

    peer = Peer(serve, room=4096)
    peer.got = bytearray()
    with tempfile.TemporaryDirectory() as folder:
        # each is longer than what the peer takes, and together they are more than the kernel does
        wanted = b"".join(b"%09d " % n + b"x" * 999_990 + b"\n" for n in range(12))
        with open(os.path.join(folder, "in"), "wb") as file:
            file.write(wanted)
        sender(folder, peer.port)
        process = start(program, folder)
        wait_for(lambda: peer.got.endswith(wanted[-1_000_001:]), 30)
        end(process)
        lines = bytes(peer.got).split(b"\n")
        # those that the first connection had taken whole are with it
        good = len(lines) > 2 and wanted.endswith(bytes(peer.got)) and lines[0][9:10] == b" "
        check("a frame that was torn", good, f"{len(lines) - 1} of 12 lines over the next connection; {told(folder).strip()}")
    peer.close()


def is_listening(port):
    with open("/proc/net/tcp") as file:
        return any(line.split()[1].endswith(f":{port:04X}") and line.split()[3] == "0A" for line in file.readlines()[1:])


def starved_peer(program):
    """A connection for whose peer's text there is no memory is closed, which is told, and the next one is served."""
    compiler = shutil.which("cc") or shutil.which("clang")
    if not compiler:
        print("no C compiler: a connection without memory is not tried")
        return
    refused, wrong = 0, []
    with tempfile.TemporaryDirectory() as tools:
        library = os.path.join(tools, "starve.so")
        subprocess.run([compiler, "-O2", "-shared", "-fPIC", "-o", library, os.path.join(TOP, "tests", "starve.c"), "-ldl"], check=True)
        for number in range(1, 33):
            with tempfile.TemporaryDirectory() as folder:
                port, out = free_port(), os.path.join(folder, "out")
                config(
                    folder,
                    f'source s {{ network(ip("127.0.0.1") port({port}) max-connections(2) flags(no-parse)); }};\n'
                    'destination f { file("out" template("$MSG\\n")); };\nlog { source(s); destination(f); };\n',
                )
                from_now = os.path.join(folder, "now")
                process = start(program, folder, environment={"LD_PRELOAD": library, "STARVE": str(number), "STARVE_FROM": from_now})
                wait_for(lambda: is_listening(port), 10)
                open(from_now, "w").close()
                first = connected(port)
                try:
                    first.sendall(b"first\n")
                except OSError:
                    pass
                wait_for(lambda: "starved" in told(folder) or os.path.exists(out) and os.path.getsize(out) >= 6, 10)
                closed = "cannot accept: " in told(folder) or wait_for(lambda: "cannot accept: " in told(folder), 0.3)
                if closed:
                    refused += 1
                    second = connected(port)
                    second.sendall(b"second\n")
                    served = wait_for(lambda: os.path.exists(out) and os.path.getsize(out) >= 7, 5)
                    if not is_closed(first, 2) or not served:
                        wrong.append(f"allocation {number}: {told(folder)}")
                end(process)
            if refused:
                break
    check("a connection for whose text there is no memory", refused > 0 and not wrong, f"allocation {number}; {wrong}")


if __name__ == "__main__":
    program = os.path.abspath(sys.argv[1]) if len(sys.argv) > 1 else PROGRAM
    listeners(program)
    starved_peer(program)
    failed_send(program)
    torn_frame(program)
    long_line(program)
    no_byte(program)
    whole_over_line(program)
    full_pipe(program)
    beside(program)
    print(f"{len(failed)} failed")
    sys.exit(1 if failed else 0)
