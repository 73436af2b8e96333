#!/usr/bin/env python3
"""service.py PROGRAM: serves with PROGRAM over real sockets, and compares what it answers, prints and leaves with what is written
down here. The last line is `N passed, M failed`."""
import contextlib
import os
import random
import signal
import socket
import stat
import struct
import subprocess
import sys
import tempfile
import threading

TOP = os.path.dirname(os.path.dirname(os.path.abspath(__file__)))
sys.path.insert(0, os.path.join(TOP, "share", "composecheck"))
import composecheck_client
from composecheck_client import Client
from harness import Results

PIECES = bytes.fromhex
GRAVE, ACUTE, E, X = 0xFE50, 0xFE51, 0x65, 0x78
# Two sequences with a text: the first begins with a dead key that the second table doesn't know.
OLD = b'<dead_grave> <dead_acute> <e> : "x"\n<dead_acute> <e> : "x"\n'
NEW = b'<dead_acute> <e> : "x"\n'
ITSELF = b"compose-certificate 1\nbound 2\npairs 4\n0 0\n1 1\n2 2\n3 3\ntypings 0\n"
DROPPED = b"compose-certificate 1\nbound 1\npairs 4\n0 0\n1 0\n2 1\n3 1\ntypings 0\n"
NEW_ITSELF = b"compose-certificate 1\nbound 1\npairs 2\n0 0\n1 1\ntypings 0\n"
NOTHING_FOLLOWS = b"compose-certificate 1\nbound 0\npairs 1\n0 0\ntypings 0\n"


def frame(kind, session, payload=b""):
    return struct.pack(">BII", kind, session, len(payload)) + payload


def key(session, keysym):
    return frame(2, session, struct.pack(">I", keysym))


class Serving:
    """A running service in a folder of its own. What it prints is read as it comes, or by whoever gives a file for it."""

    def __init__(self, program, table=OLD, certificate=ITSELF, connections=1, options=(), repertoire=b"", rule="", output=subprocess.PIPE, given="table.manifest", more=()):
        self.room = tempfile.TemporaryDirectory(prefix="service-")
        self.folder = self.room.name
        self.path = os.path.join(self.folder, "socket")
        listing = f"{rule}root\ttable.compose\n".encode()
        for name, content in {"table.compose": table, "table.manifest": listing, "repertoire": repertoire, "certificate": certificate, **dict(more)}.items():
            path = os.path.join(self.folder, name)
            os.makedirs(os.path.dirname(path), exist_ok=True)
            with open(path, "wb") as file:
                file.write(content)
        words = [program, "serve", *options, given, "repertoire", "certificate", "socket", str(connections)]
        self.process = subprocess.Popen(words, cwd=self.folder, stdin=subprocess.DEVNULL, stdout=output, stderr=subprocess.PIPE, text=True)
        self.printed = [self.process.stdout.readline()] if output == subprocess.PIPE else []
        # (so that a service which prints many lines need not wait)
        self.printing = threading.Thread(target=self.printed.extend, args=(self.process.stdout or [],), daemon=True)
        self.printing.start()

    def __enter__(self):
        return self

    def __exit__(self, *_):
        self.process.kill()
        self.process.wait()
        self.printing.join()
        if self.process.stdout:
            self.process.stdout.close()
        self.process.stderr.close()
        self.room.cleanup()

    def ended(self):
        """Waits for the end; returns what was printed, and the status."""
        status = self.process.wait(timeout=60)
        self.printing.join()
        return "".join(self.printed), self.process.stderr.read(), status

    def client(self):
        return Client(self.path, timeout=30)

    def exchange(self, *pieces):
        """Sends the pieces on a connection, closes the writing side, and returns all that comes back."""
        connection = socket.socket(socket.AF_UNIX, socket.SOCK_STREAM)
        connection.settimeout(60)
        with connection:
            connection.connect(self.path)
            got = bytearray()
            reader = threading.Thread(target=read_all, args=(connection, got))
            reader.start()
            with contextlib.suppress(BrokenPipeError, ConnectionResetError):
                for piece in pieces:
                    connection.sendall(piece)
                connection.shutdown(socket.SHUT_WR)
            reader.join()
        return bytes(got)


def read_all(connection, got):
    with contextlib.suppress(ConnectionResetError):
        while piece := connection.recv(65536):
            got += piece


# ---- worked streams

OPENED_7, OPEN_7 = PIECES("8100000007 00000000"), frame(1, 7)
COMPOSING_7 = PIECES("82 00000007 00000002 01 01")
MALFORMED = PIECES("ff 00000000 00000002 000a")


def refused(session, code):
    return PIECES("ff") + struct.pack(">IIH", session, 2, code)


def state(session, status, *pending):
    return frame(0x86, session, bytes([status, len(pending)]) + b"".join(struct.pack(">I", it) for it in pending))


def fed(session, status, text=b"", accepted=1):
    return frame(0x82, session, bytes([status, accepted]) + text)


def loaded(count):
    return frame(0x85, 0, struct.pack(">Q", count))


def load(table, certificate, kind=5):
    return frame(kind, 0, composecheck_client.bundle([("r", table)], certificate))


WORKED = {
    "sessions, loads and refusals": (
        OPEN_7 + key(7, GRAVE) + frame(1, 9) + load(NEW, DROPPED) + frame(6, 7) + key(7, ACUTE) + key(9, 0x61) + key(7, E)
        + load(b"", NOTHING_FOLLOWS) + frame(6, 9) + frame(1, 9) + key(8, 0x61) + key(9, 0x20000000) + frame(3, 7) + frame(4, 7) + frame(6, 7) + frame(5, 0),
        OPENED_7 + fed(7, 1) + frame(0x81, 9) + loaded(1) + state(7, 0) + fed(7, 1) + fed(9, 0, b"a") + fed(7, 2, b"x")
        + refused(0, 8) + state(9, 0) + refused(9, 1) + refused(8, 2) + refused(9, 4) + frame(0x83, 7) + frame(0x84, 7) + refused(7, 2) + refused(0, 5),
        "ended"),
    "two loads in the middle of a sequence": (
        OPEN_7 + key(7, GRAVE) + key(7, ACUTE) + load(NEW, DROPPED) + load(NEW, NEW_ITSELF) + frame(6, 7) + key(7, E),
        OPENED_7 + fed(7, 1) + fed(7, 1) + loaded(1) + loaded(2) + state(7, 1, ACUTE) + fed(7, 2, b"x"),
        "ended"),
    "a refused load leaves a session as it was": (
        OPEN_7 + key(7, GRAVE) + load(b"", NOTHING_FOLLOWS) + frame(6, 7),
        OPENED_7 + fed(7, 1) + refused(0, 8) + state(7, 1, GRAVE),
        "ended"),
    "a keysym that is dropped by one load and fresh in the next begins nothing from an old list": (
        OPEN_7 + key(7, GRAVE) + load(NEW, DROPPED)
        + load(b'<dead_acute> <e> : "x"\n<dead_grave> <d> : "y"\n', b"compose-certificate 2\nbound 1\npairs 2\n0 0\n1 2\ntypings 0\nfresh 1\nfe50\n")
        + frame(6, 7) + key(7, ACUTE) + key(7, E),
        OPENED_7 + fed(7, 1) + loaded(1) + loaded(2) + state(7, 0) + fed(7, 1) + fed(7, 2, b"x"),
        "ended"),
    "a stream that is cut in a frame": (OPEN_7 + PIECES("02 00000007 0000"), OPENED_7, "fault 3 Cut"),
    "a load that is too long": (PIECES("05 00000000 00800001"), MALFORMED, "malformed"),
    "an unknown kind": (PIECES("09"), MALFORMED, "malformed"),
    "a key of three bytes": (PIECES("02 00000007 00000003"), MALFORMED, "malformed"),
    "a load that never comes": (PIECES("05 00000000 00800000"), b"", "fault 3 Cut"),
    "a part of a head": (PIECES("02 00000007 ff"), b"", "fault 3 Cut"),
    "an ignored key": (OPEN_7 + key(7, 0xFFE1) + frame(6, 7), OPENED_7 + fed(7, 0, accepted=0) + state(7, 0), "ended"),
    "4,096 sessions and one more": (
        b"".join(frame(1, it) for it in range(4097)), b"".join(frame(0x81, it) for it in range(4096)) + refused(4096, 3), "ended"),
}


def check_worked(program, results):
    for what, (sent, wanted, end) in WORKED.items():
        with Serving(program) as service:
            results.expect(what, service.exchange(sent), wanted)
            results.expect(f"{what}: printed", service.ended(), (f"listening\nconnection 1: {end}\n", "", 0))


def check_cuts(program, results):
    """The first stream, cut into two pieces at each byte, and byte by byte."""
    sent, wanted = OPEN_7 + key(7, GRAVE) + frame(4, 7), OPENED_7 + COMPOSING_7 + frame(0x84, 7)
    with Serving(program, connections=len(sent) + 1) as service:
        for cut in range(len(sent)):
            results.expect(f"a cut at byte {cut}", service.exchange(sent[:cut], sent[cut:]), wanted)
        results.expect("a stream byte by byte", service.exchange(*(sent[at : at + 1] for at in range(len(sent)))), wanted)
        results.expect("all connections ended", service.ended()[2], 0)


def check_greatest_load(program, results):
    """The greatest load, which is no bundle, is read whole, and so is the request behind it."""
    sent = frame(7, 0, (bytes(range(251)) * 33_422)[:8_388_608]) + OPEN_7
    with Serving(program) as service:
        results.expect("the greatest load", service.exchange(sent), refused(0, 5) + OPENED_7)


def check_overlaps(program, results):
    """A load whose table has an overlap is refused, or the longer sequence counts, by the kind of the load."""
    table, fresh = b'<a> <b> : "x"\n<a> : "y"\n', b"compose-certificate 2\nbound 1\npairs 1\n0 0\ntypings 0\nfresh 1\n61\n"
    sent = load(table, fresh) + load(table, fresh, kind=7) + OPEN_7 + key(7, 0x61) + key(7, 0x62)
    with Serving(program, table=b"", certificate=NOTHING_FOLLOWS) as service:
        results.expect("loads with an overlap", service.exchange(sent), refused(0, 6) + loaded(1) + OPENED_7 + fed(7, 1) + fed(7, 2, b"x"))


def check_allowed_fresh(program, results):
    """With --fresh, a load whose certificate lists any other fresh keysym is refused as one that isn't valid, and changes nothing."""
    begins, certificate = b'<a> <b> : "x"\n', b"compose-certificate 2\nbound 1\npairs 1\n0 0\ntypings 0\nfresh 1\n61\n"
    sent = load(begins, certificate) + load(b"", NOTHING_FOLLOWS)
    for what, options, wanted in (
        ("any fresh keysym", (), loaded(1) + refused(0, 8)),
        ("the fresh keysym that is allowed", ("--fresh", "dead_grave,a"), loaded(1) + refused(0, 8)),
        ("a fresh keysym that is not allowed", ("--fresh", "dead_grave,b"), refused(0, 8) + loaded(1)),
        ("a fresh keysym where none is allowed", ("--fresh", ""), refused(0, 8) + loaded(1)),
        ("the fresh keysym beside one of --names", ("--names", "builtin", "--fresh", "dead_hook,a"), loaded(1) + refused(0, 8)),
    ):
        with Serving(program, table=b"", certificate=NOTHING_FOLLOWS, options=options) as service:
            results.expect(what, service.exchange(sent), wanted)


def check_start(program, results):
    """A certificate that isn't valid is answered as by check; a socket that can't be bound is refused."""
    with Serving(program, certificate=b"compose-certificate 1\nbound 2\npairs 0\ntypings 0\n") as service:
        results.expect("a start without the pair of the roots", service.ended(), ("no: 3 RootPairMissing\n", "", 1))
    with Serving(program, certificate=b"compose") as service:
        results.expect("a start without a certificate", service.ended(), ("", "refused: certificate: 1 NotText line=1\n", 2))
    with Serving(program, table=b"<a> ") as service:
        results.expect("a start without a table", service.ended(), ("", "refused: table: 1 Read: 3 Lex source=0 line=1: 1 BadToken at=4\n", 2))
    with Serving(program, repertoire=b"U+D800\n") as service:
        results.expect("a start without a repertoire", service.ended(), ("", "refused: repertoire: 1 BadLine line=1\n", 2))


# ---- clients that misbehave

def check_clients(program, results):
    """After each client that misbehaves the next one is served."""
    with Serving(program, connections=6) as service:
        service.exchange()
        service.exchange(random.Random(1).randbytes(5000).replace(b"\x01", b"\x00"))
        with connected(service.path) as connection:
            connection.sendall(OPEN_7 + key(7, GRAVE)[:5])
            connection.recv(len(OPENED_7))
        killed = subprocess.Popen([sys.executable, "-c", f"import socket, time\ns = socket.socket(socket.AF_UNIX)\ns.connect({service.path!r})\n"
                                   "s.sendall(b'\\x01\\0\\0')\nprint(flush=True)\ntime.sleep(60)"], stdout=subprocess.PIPE)
        killed.stdout.readline()
        killed.kill()
        killed.wait()
        with connected(service.path) as connection:
            connection.sendall(frame(6, 7) * 2000)
        with service.client() as client:
            results.expect("the session of a client that was cut off", client.ask(7), ("nothing", ()))
        printed, complained, status = service.ended()
        lines = printed.splitlines()
        results.expect("the lines of clients that misbehave", lines[:5], ["listening", "connection 1: ended", "connection 2: malformed", "connection 3: fault 3 Cut", "connection 4: fault 3 Cut"])
        results.expect("a client that reads nothing", lines[5] in ("connection 5: ended", "connection 5: fault 2 Write", "connection 5: fault 1 Read", "connection 5: fault 3 Cut"), True)
        results.expect("the last client", (lines[6:], complained, status), (["connection 6: ended"], "", 0))


@contextlib.contextmanager
def connected(path):
    connection = socket.socket(socket.AF_UNIX, socket.SOCK_STREAM)
    with connection:
        connection.connect(path)
        yield connection


# ---- the socket's file

def mode_of(path):
    return stat.S_IMODE(os.stat(path).st_mode)


def check_socket_file(program, results):
    # (whoever looks whether somebody listens is a connection too)
    with Serving(program, connections=2) as service:
        results.expect("the mode of the socket", mode_of(service.path), 0o600)
        results.expect("nothing else is left beside the socket", sorted(os.listdir(service.folder)), ["certificate", "repertoire", "socket", "table.compose", "table.manifest"])
        words = [program, "serve", "--replace", "table.manifest", "repertoire", "certificate", "socket", "1"]
        second = subprocess.run(words, cwd=service.folder, capture_output=True, text=True)
        results.expect("a socket that somebody listens on is not replaced", (second.stderr, second.returncode), ("refused: socket: socket\n", 2))
        results.expect("a socket that was only looked at still serves", service.exchange(OPEN_7), OPENED_7)
        service.process.wait(timeout=30)
        results.expect("the socket is left at the end", stat.S_ISSOCK(os.stat(service.path).st_mode), True)
        words.remove("--replace")
        third = subprocess.run(words, cwd=service.folder, capture_output=True, text=True)
        results.expect("a socket that is there is refused", (third.stderr, third.returncode), ("refused: socket: socket\n", 2))
        again = subprocess.Popen([*words[:2], "--replace", "--unlink", "--mode", "660", *words[2:]], cwd=service.folder, stdout=subprocess.PIPE, text=True)
        results.expect("a socket that nobody listens on is replaced", again.stdout.readline(), "listening\n")
        results.expect("the mode that is asked for", mode_of(service.path), 0o660)
        service.exchange()
        again.wait(timeout=30)
        results.expect("the socket is removed at the end", os.path.exists(service.path), False)
        open(service.path, "w").close()
        fourth = subprocess.run([*words[:2], "--replace", *words[2:]], cwd=service.folder, capture_output=True, text=True)
        results.expect("a file is not replaced", (fourth.stderr, fourth.returncode, os.path.exists(service.path)), ("refused: socket: socket\n", 2, True))


def check_replaced(program, results):
    """With --replace a stream socket on which nobody listens is replaced, and nothing else. Of two services that begin at once one is reachable."""
    with Serving(program) as service:
        service.process.kill()
        service.process.wait()
        words = [program, "serve", "--replace", "table.manifest", "repertoire", "certificate", "socket", "9"]

        def tried():
            """Whether a service begins there, and whether the socket stays as it is."""
            before = identity(service.path)
            ran = subprocess.Popen(words, cwd=service.folder, stdout=subprocess.PIPE, stderr=subprocess.PIPE, text=True)
            printed = ran.stdout.readline()
            ran.kill()
            _, complained = ran.communicate()
            return printed, complained, identity(service.path) == before

        kept = "", "refused: socket: socket\n", True
        for what, kind in (("stream", socket.SOCK_STREAM), ("seqpacket", socket.SOCK_SEQPACKET), ("datagram", socket.SOCK_DGRAM)):
            for is_full in (False, True):
                os.unlink(service.path)
                with socket.socket(socket.AF_UNIX, kind) as listener, contextlib.ExitStack() as clients:
                    listener.bind(service.path)
                    if kind != socket.SOCK_DGRAM:
                        listener.listen(0)
                    if is_full:
                        fill(service.path, kind, clients)
                    results.expect(f"a {what} socket of somebody is not replaced{', though its queue is full' if is_full else ''}", tried(), kept)
        os.unlink(service.path)
        os.mkfifo(service.path)
        results.expect("a pipe is not replaced", tried(), kept)
        os.unlink(service.path)
        os.symlink("table.compose", service.path)
        results.expect("a link is not replaced", tried(), kept)
        os.unlink(service.path)
        for _ in range(2):
            with contextlib.suppress(FileNotFoundError):
                os.unlink(service.path)
            with socket.socket(socket.AF_UNIX, socket.SOCK_STREAM) as stale:
                stale.bind(service.path)
            results.expect("a socket on which nobody listens is replaced", tried(), ("listening\n", "", False))
        for turn in range(10):
            both = [subprocess.Popen(words, cwd=service.folder, stdout=subprocess.PIPE, stderr=subprocess.DEVNULL, text=True) for _ in range(2)]
            begun = [it.stdout.readline() for it in both]
            with service.client() as client:
                client.open(7)
                results.expect(f"one of two services that begin at once, {turn}", ("listening\n" in begun, client.key(7, GRAVE)), (True, ("composing", True, "")))
            for it in both:
                it.kill()
                it.communicate()


def identity(path):
    """What a file that takes the place of another one has otherwise. (It may have the number of the other one.)"""
    found = os.lstat(path)
    return found.st_ino, found.st_ctime_ns


def fill(path, kind, clients):
    """Fills the queue of a socket, as far as clients can, until they are closed."""
    for _ in range(64):
        client = clients.enter_context(socket.socket(socket.AF_UNIX, kind))
        client.setblocking(False)
        try:
            client.connect(path)
            while kind == socket.SOCK_DGRAM:
                client.send(bytes(100))
        except BlockingIOError:
            return


def check_modes(program, results):
    for mode in ("600", "660", "666"):
        with Serving(program, options=("--mode", mode)) as service:
            results.expect(f"the mode of the socket with --mode {mode}", mode_of(service.path), int(mode, 8))


def check_signal(program, results):
    with Serving(program) as service:
        service.process.send_signal(signal.SIGTERM)
        results.expect("a service that is ended by a signal", service.ended()[2], -signal.SIGTERM)


def check_handed_over(program, results):
    """A socket that is handed over as systemd does it is used, and no file is made."""
    with Serving(program) as service:
        service.process.kill()
        handed = os.path.join(service.folder, "handed")
        listener = socket.socket(socket.AF_UNIX, socket.SOCK_STREAM)
        with listener:
            listener.bind(handed)
            listener.listen()
            os.unlink(service.path)
            command = f"exec 3<&{listener.fileno()}; LISTEN_PID=$$ LISTEN_FDS=1 exec {program} serve table.manifest repertoire certificate socket 1"
            handed_over = subprocess.Popen(["bash", "-c", command], cwd=service.folder, stdout=subprocess.PIPE, text=True, pass_fds=[listener.fileno()])
        results.expect("a service over a socket that is handed over", handed_over.stdout.readline(), "listening\n")
        with Client(handed, timeout=30) as client:
            client.open(7)
            results.expect("a key over a socket that is handed over", client.key(7, GRAVE), ("composing", True, ""))
        results.expect("its end", (handed_over.wait(timeout=30), os.path.exists(service.path)), (0, False))
        handed_over.stdout.close()


def check_handed_over_wrong(program, results):
    """What is handed over, but doesn't listen or is no Unix socket, is refused in words, and nothing is served in its place."""
    words = "refused: socket: descriptor 3, which LISTEN_FDS hands over, is no Unix socket that listens\n"
    with Serving(program) as service, contextlib.ExitStack() as kept:
        service.process.kill()
        service.process.wait()
        os.unlink(service.path)

        def made(family, kind):
            return kept.enter_context(socket.socket(family, kind))

        bound, datagram = made(socket.AF_UNIX, socket.SOCK_STREAM), made(socket.AF_UNIX, socket.SOCK_DGRAM)
        bound.bind(os.path.join(service.folder, "bound"))
        datagram.bind(os.path.join(service.folder, "datagram"))
        over_tcp = made(socket.AF_INET, socket.SOCK_STREAM)
        over_tcp.bind(("127.0.0.1", 0))
        over_tcp.listen()
        one_end, other_end = (kept.enter_context(it) for it in socket.socketpair())
        reading, writing = os.pipe()
        kept.callback(os.close, reading)
        kept.callback(os.close, writing)
        table = os.open(os.path.join(service.folder, "table.manifest"), os.O_RDONLY)
        kept.callback(os.close, table)
        handed = {
            "a socket that doesn't listen": f"3<&{bound.fileno()}",
            "a socket of datagrams": f"3<&{datagram.fileno()}",
            "a socket that is connected": f"3<&{one_end.fileno()}",
            "a socket that listens on TCP": f"3<&{over_tcp.fileno()}",
            "a pipe that is read": f"3<&{reading}",
            "a pipe that is written": f"3<&{writing}",
            "a file": f"3<&{table}",
            "a descriptor that is closed": "3<&-",
        }
        passed = [bound.fileno(), datagram.fileno(), one_end.fileno(), over_tcp.fileno(), reading, writing, table]
        for what, redirected in handed.items():
            command = f"exec {redirected}; LISTEN_PID=$$ LISTEN_FDS=1 exec {program} serve table.manifest repertoire certificate socket 1"
            ran = subprocess.run(["bash", "-c", command], cwd=service.folder, capture_output=True, text=True, pass_fds=passed, timeout=30)
            results.expect(f"{what} is handed over", (ran.stdout, ran.stderr, ran.returncode, os.path.exists(service.path)), ("", words, 2, False))


# ---- the client in Python, at services that hold it up

class Interrupt(BaseException):
    """What a signal raises in the middle of a call."""


@contextlib.contextmanager
def answering_late(*replies):
    """A service that answers nothing until it is released, and then each request of a key with the next reply. Yields its path and its release."""
    with tempfile.TemporaryDirectory(prefix="late-") as folder, socket.socket(socket.AF_UNIX, socket.SOCK_STREAM) as listener:
        path, release = os.path.join(folder, "socket"), threading.Event()
        listener.bind(path)
        listener.listen()

        def serve():
            connection = listener.accept()[0]
            with connection, contextlib.suppress(BrokenPipeError, ConnectionResetError):
                release.wait()
                for reply in replies:
                    if not connection.recv(len(key(7, X))):
                        break
                    connection.sendall(reply)

        serving = threading.Thread(target=serve)
        serving.start()
        try:
            yield path, release
        finally:
            release.set()
            serving.join()


def outcome(call, *arguments):
    """What a call of the client returns, or the name of what it raises."""
    try:
        return call(*arguments)
    except (Interrupt, composecheck_client.ClientError, OSError) as it:
        return type(it).__name__


def interrupt(*_):
    raise Interrupt


def check_late_replies(_, results):
    """A reply that comes after its call has ended is not taken for that to the next request: the connection is closed."""
    late, next_one = fed(7, 0, b"e"), fed(7, 0, b"x")
    with answering_late(late, next_one) as (path, release), Client(path, timeout=0.2) as client:
        results.expect("a reply that doesn't come in time", outcome(client.key, 7, E), "TimedOut")
        release.set()
        results.expect("the call after a timeout", outcome(client.key, 7, X), "ConnectionEnded")
    with answering_late(late, next_one) as (path, release), Client(path) as client:
        before = signal.signal(signal.SIGALRM, interrupt)
        signal.setitimer(signal.ITIMER_REAL, 0.2)
        results.expect("a call that a signal ends", outcome(client.key, 7, E), "Interrupt")
        signal.signal(signal.SIGALRM, before)
        release.set()
        results.expect("the call after an interrupt", outcome(client.key, 7, X), "ConnectionEnded")
    with answering_late() as (path, _), Client(path, timeout=0.2) as client:
        results.expect("a request that isn't read in time", outcome(client.load, [("r", bytes(8_000_000))], b""), "TimedOut")
        results.expect("the call after half a request", outcome(client.key, 7, X), "ConnectionEnded")
    with answering_late(late[:5]) as (path, release), Client(path) as client:
        release.set()
        results.expect("a reply that is cut", outcome(client.key, 7, E), "ConnectionEnded")
        results.expect("the call after that", outcome(client.key, 7, X), "ConnectionEnded")
    with answering_late(frame(0x81, 8), next_one) as (path, release), Client(path) as client:
        release.set()
        results.expect("a reply to another request", outcome(client.key, 7, E), "UnexpectedReply")
        results.expect("the call after a reply to another request", outcome(client.key, 7, X), "ConnectionEnded")
    with answering_late(refused(7, 2), next_one) as (path, release), Client(path) as client:
        release.set()
        results.expect("a request that is refused", outcome(client.key, 7, E), "NoSession")
        results.expect("the call after a refusal", outcome(client.key, 7, X), ("nothing", True, "x"))
        client.disconnect()
        results.expect("a call after the client has closed the connection", outcome(client.key, 7, X), "ConnectionEnded")


# ---- the commands that are clients

def ran(program, service, *words):
    """What a command prints in the folder of a service, and its status."""
    it = subprocess.run([program, *words], cwd=service.folder, stdin=subprocess.DEVNULL, capture_output=True, text=True, timeout=60)
    return it.stdout, it.stderr, it.returncode


def put_table(service, name, table, certificate, rule=""):
    """Puts a table, its manifest and a certificate into the folder of a service."""
    for path, content in {f"{name}.compose": table, f"{name}.manifest": f"{rule}root\t{name}.compose\n".encode(), f"{name}.certificate": certificate}.items():
        with open(os.path.join(service.folder, path), "wb") as file:
            file.write(content)


def check_client_commands(program, results):
    """Each command is a connection of its own; the session stays in the service between them, and a load comes in the middle of a sequence."""
    with Serving(program, connections=6) as service:
        put_table(service, "dropped", NEW, DROPPED)
        put_table(service, "empty", b"", NOTHING_FOLLOWS)
        rows = {
            "a session in the middle of a sequence": (
                ("session", "--open", "--ask", "socket", "7", "dead_grave", "dead_acute"), ('composing ""\ncomposing ""\nstate composing dead_grave dead_acute\n', "", 0)),
            "a load that is accepted": (("load", "socket", "dropped.manifest", "dropped.certificate"), ("loaded 1\n", "", 0)),
            "a load that is refused": (
                ("load", "socket", "empty.manifest", "empty.certificate"), ("refused: the certificate is not valid: the new table does not follow the one in use, more keys may be pending than its bound, its typings are not those of the repertoire, or its fresh keys may not be fresh\n", "", 1)),
            "a session in which a load came": (("session", "--ask", "socket", "7"), ("state composing dead_acute\n", "", 0)),
            "the rest of the sequence": (("session", "--close", "socket", "7", "e"), ('composed "x"\n', "", 0)),
            "a session that is not open": (("session", "socket", "7", "dead_acute", "e"), ("refused: no session with this number is open\n", "", 1)),
        }
        for what, (words, wanted) in rows.items():
            results.expect(what, ran(program, service, *words), wanted)
        results.expect("the connections of the commands", service.ended()[0], "listening\n" + "".join(f"connection {it}: ended\n" for it in range(1, 7)))
        os.unlink(service.path)
        results.expect("a load without a socket", ran(program, service, "load", "socket", "empty.manifest", "empty.certificate"), ("", "refused: socket: socket\n", 2))
        with socket.socket(socket.AF_UNIX, socket.SOCK_STREAM) as listener:
            listener.bind(service.path)
            listener.listen()
            closing = threading.Thread(target=lambda: listener.accept()[0].close())
            closing.start()
            got = ran(program, service, "session", "--open", "socket", "7")
            closing.join()
        results.expect("a service that closes the connection", got, ("", "refused: connection: closed before the reply\n", 2))


def check_sessions(program, results):
    """What `session` asks for is asked for, in the order of FORMATS.md, and nothing after a refusal: a session that a further one would
    have opened stays as it is."""
    rows = [
        (("--open", "--ask", "socket", "7", "dead_grave"), ('composing ""\nstate composing dead_grave\n', "", 0)),
        (("--open", "socket", "7", "dead_acute"), ("refused: a session with this number is open\n", "", 1)),
        (("--ask", "socket", "7"), ("state composing dead_grave\n", "", 0)),
        (("--open", "--reset", "--close", "socket", "7", "e"), ("refused: a session with this number is open\n", "", 1)),
        (("--ask", "socket", "7"), ("state composing dead_grave\n", "", 0)),
        (("--reset", "--ask", "socket", "7"), ("state nothing\n", "", 0)),
        (("--ask", "socket", "7", "dead_grave"), ('composing ""\nstate composing dead_grave\n', "", 0)),
        (("--reset", "--ask", "socket", "7", "dead_acute"), ('composing ""\nstate composing dead_acute\n', "", 0)),
        (("--close", "socket", "7"), ("", "", 0)),
        (("--ask", "socket", "7"), ("refused: no session with this number is open\n", "", 1)),
    ]
    with Serving(program, connections=len(rows)) as service:
        for number, (words, wanted) in enumerate(rows, 1):
            results.expect(f"session, run {number}: {' '.join(words)}", ran(program, service, "session", *words), wanted)


def check_names_and_rules(program, results):
    """Names that aren't among the core ones and the rule of a manifest count, of `serve`, of `load` and of `session`."""
    hook, longest = b'<dead_hook> <a> : "x"\n', b'<a> <b> : "x"\n<a> : "y"\n'
    a_is_fresh = b"compose-certificate 2\nbound 1\npairs 1\n0 0\ntypings 0\nfresh 1\n61\n"
    with Serving(program, table=hook, certificate=NEW_ITSELF, options=("--names", "builtin"), connections=4) as service:
        is_listening = service.printed[0] == "listening\n"
        results.expect("serve --names builtin knows dead_hook", is_listening, True)
        if is_listening:
            put_table(service, "again", hook, NEW_ITSELF)
            with open(os.path.join(service.folder, "names"), "wb") as file:
                file.write(b"#define XK_of_my_own 0xfe61\n")
            results.expect("a key over that table", service.exchange(OPEN_7 + key(7, 0xFE61) + key(7, 0x61)), OPENED_7 + fed(7, 1) + fed(7, 2, b"x"))
            results.expect("a load is read by the names of the service", ran(program, service, "load", "socket", "again.manifest", "again.certificate"), ("loaded 1\n", "", 0))
            got = ran(program, service, "session", "--names", "builtin", "--ask", "socket", "7", "dead_hook")
            results.expect("session --names builtin knows dead_hook", got, ('composing ""\nstate composing dead_hook\n', "", 0))
            got = ran(program, service, "session", "--names", "names", "--ask", "socket", "7", "a", "of_my_own")
            results.expect("session --names FILE knows its names", got, ('composed "x"\ncomposing ""\nstate composing of_my_own\n', "", 0))
    with Serving(program, table=longest, certificate=NEW_ITSELF, rule="overlap longest\n") as service:
        is_listening = service.printed[0] == "listening\n"
        results.expect("serve takes the rule of its manifest", is_listening, True)
        if is_listening:
            results.expect("the longer sequence", service.exchange(OPEN_7 + key(7, 0x61) + key(7, 0x62)), OPENED_7 + fed(7, 1) + fed(7, 2, b"x"))
    with Serving(program, table=b"", certificate=NOTHING_FOLLOWS, connections=3) as service:
        put_table(service, "plain", longest, a_is_fresh)
        put_table(service, "refuse", longest, a_is_fresh, rule="overlap refuse\n")
        put_table(service, "longest", longest, a_is_fresh, rule="overlap longest\n")
        for name, wanted in {"plain": ("refused: the table is refused\n", "", 1), "refuse": ("refused: the table is refused\n", "", 1), "longest": ("loaded 1\n", "", 0)}.items():
            results.expect(f"load by the rule of a manifest: {name}", ran(program, service, "load", "socket", f"{name}.manifest", f"{name}.certificate"), wanted)


def check_compose_files(program, results):
    """With `-f` a Compose file is served and loaded with what it includes, by the built-in names, and the longer of overlapping sequences
    counts; what is noted of it is printed; and a key of a session may be written as its character."""
    more = {
        "old/en/Compose": 'include "outside"\n<dead_hook> <eacute> : "x"\n<dead_hook> : "y"\n'.encode(),
        "new/en/Compose": 'include "part"\ninclude "outside"\n<dead_hook> : "y"\n'.encode(),
        "new/en/part": b'<dead_hook> <eacute> : "x"\n',
        "outside": b'<dead_hook> <slash> : "z"\n',
    }
    with Serving(program, certificate=NEW_ITSELF, options=("-f",), connections=3, given="old/en/Compose", more=more) as service:
        is_listening = service.printed[0] == "listening\n"
        results.expect("serve -f takes a Compose file", is_listening, True)
        if is_listening:
            rows = [
                ("session -f takes characters", ("session", "-f", "--open", "socket", "7", "dead_hook", "é", "dead_hook"), ('composing ""\ncomposed "x"\ncomposing ""\n', "", 0)),
                ("load -f takes a Compose file", ("load", "-f", "socket", "new/en/Compose", "certificate"), ("loaded 1\n", "note: outside lies outside of new\n", 0)),
                ("session -f after the load", ("session", "-f", "--ask", "socket", "7", "/", "dead_hook"), ('composed "z"\ncomposing ""\nstate composing dead_hook\n', "", 0)),
                ("session without -f takes names alone", ("session", "socket", "7", "é"), ("", "refused: key: é\n", 2)),
            ]
            for what, words, wanted in rows:
                results.expect(what, ran(program, service, *words), wanted)
            wanted = "listening\n" + "".join(f"connection {it}: ended\n" for it in range(1, 4)), "note: outside lies outside of old\n", 0
            results.expect("serve -f notes what lies outside of the tree", service.ended(), wanted)
    with Serving(program, certificate=NEW_ITSELF, options=("-f", "--overlap", "refuse"), given="old/en/Compose", more=more) as service:
        printed, complained, status = service.ended()
        results.expect("serve -f --overlap refuse", (printed, complained.splitlines()[:2], status),
                       ("", ["note: outside lies outside of old", "composecheck: old/en/Compose:3:1: the sequence <dead_hook> is a prefix of the sequence <dead_hook> <slash>"], 2))


def main():
    program, results = os.path.abspath(sys.argv[1]), Results()
    for check in (check_worked, check_cuts, check_greatest_load, check_overlaps, check_allowed_fresh, check_start, check_clients, check_socket_file, check_replaced, check_modes, check_signal, check_handed_over, check_handed_over_wrong, check_late_replies,
                  check_client_commands, check_sessions, check_names_and_rules, check_compose_files):
        check(program, results)
    print(f"{results.passed} passed, {results.failed} failed")
    return 1 if results.failed else 0


if __name__ == "__main__":
    sys.exit(main())
