#!/usr/bin/env python3
"""at_once.py PROGRAM: serves many connections at once with PROGRAM over real sockets, and compares what each gets with what is written down
here, or with a second reading of sessions. The last line is `N passed, M failed`."""
import array
import contextlib
import fcntl
import os
import random
import resource
import signal
import socket
import sys
import termios
import threading
import time

import service as one
from service import ACUTE, DROPPED, E, GRAVE, ITSELF, MALFORMED, NEW, OLD, OPEN_7, OPENED_7, X, Results, Serving, fed, frame, key, load, loaded, refused, state

SEED = 28
CLIENTS = 64
# So many connections may hold a large part of a load, and so large is a load of which others hold a part alone.
LARGE_AT_ONCE, LARGE = 8, 100_000
# So many loads are accepted beside the many clients.
LOADS = 40
# A client that reads nothing sends this number of requests; their replies are more than sockets hold.
UNREAD = 200_000
# A connection may be idle for this number of seconds; this number of ends of connections is more than a pipe of this number of bytes holds.
IDLE, ENDS, PIPE = 2, 400, 8192
# This number of sessions may be open, of this number of clients that are killed.
SESSIONS, KILLED = 4096, 5
# So many connections hold several loads each.
LOADING = 8
TABLE = {(GRAVE, ACUTE, E): b"x", (ACUTE, E): b"x"}
NOTHING, COMPOSING, COMPOSED, CANCELLED = range(4)


class Peer:
    """A connection whose requests are sent, and whose replies are read, by calls."""

    def __init__(self, service):
        self.connection = socket.socket(socket.AF_UNIX, socket.SOCK_STREAM)
        self.connection.settimeout(60)
        self.connection.connect(service.path)

    def __enter__(self):
        return self

    def __exit__(self, *_):
        self.connection.close()

    def send(self, sent):
        self.connection.sendall(sent)

    def read(self, size):
        """So many bytes, or fewer at the end."""
        got = bytearray()
        while len(got) < size and (piece := self.connection.recv(size - len(got))):
            got += piece
        return bytes(got)

    def waits(self, seconds=0.3):
        """Whether nothing comes for a while."""
        self.connection.settimeout(seconds)
        try:
            self.connection.recv(1, socket.MSG_PEEK)
            return False
        except TimeoutError:
            return True
        finally:
            self.connection.settimeout(60)

    def is_taken(self):
        """Whether the service has read all that was sent."""
        unread = array.array("i", [0])
        fcntl.ioctl(self.connection, termios.TIOCOUTQ, unread)
        return unread[0] == 0

    def send_until_taken(self, sent):
        self.send(sent)
        end = time.monotonic() + 60
        while not self.is_taken() and time.monotonic() < end:
            time.sleep(0.001)
        return self.is_taken()

    def ask(self, sent, wanted):
        """Sends a request and reads as many bytes as are wanted."""
        self.send(sent)
        return self.read(len(wanted))

    def finish(self):
        """Ends the writing side, and returns all that still comes."""
        self.connection.shutdown(socket.SHUT_WR)
        got = bytearray()
        one.read_all(self.connection, got)
        return bytes(got)


def at_once(count, *more):
    return ("--at-once", str(count), *more)


def check_worked(program, results):
    """Each worked stream alone, as a service that takes one connection after another answers it."""
    for what, (sent, wanted, end) in one.WORKED.items():
        for options in (at_once(8), at_once(1, "--unsent", "1")):
            with Serving(program, options=options) as service:
                results.expect(f"{what}, {' '.join(options)}", service.exchange(sent), wanted)
                results.expect(f"{what}, {' '.join(options)}: printed", service.ended(), (f"listening\nconnection 1: {end}\n", "", 0))


def check_load_beside(program, results):
    """A load on a second connection while the first stands in the middle of a sequence."""
    with Serving(program, connections=2, options=at_once(2)) as service:
        with Peer(service) as typing, Peer(service) as loading:
            results.expect("a key before the load", typing.ask(OPEN_7 + key(7, GRAVE), OPENED_7 + fed(7, 1)), OPENED_7 + fed(7, 1))
            results.expect("the load", loading.ask(load(NEW, DROPPED), loaded(1)), loaded(1))
            results.expect("where the session stands", typing.ask(frame(6, 7), state(7, 0)), state(7, 0))
            results.expect("the keys of the old sequence", typing.ask(key(7, ACUTE) + key(7, E), fed(7, 1) + fed(7, 2, b"x")), fed(7, 1) + fed(7, 2, b"x"))
            results.expect("the end of the first", typing.finish(), b"")
            results.expect("the end of the second", loading.finish(), b"")
        results.expect("both ended", sorted(service.ended()[0].splitlines()), ["connection 1: ended", "connection 2: ended", "listening"])


def check_faults_beside(program, results):
    """Half a frame holds no other connection up, and a faulty frame ends its connection alone."""
    with Serving(program, connections=3, options=at_once(3)) as service:
        with Peer(service) as half, Peer(service) as faulty, Peer(service) as typing:
            half.send(load(NEW, DROPPED)[:40])
            results.expect("a key beside half a frame", typing.ask(OPEN_7 + key(7, GRAVE), OPENED_7 + fed(7, 1)), OPENED_7 + fed(7, 1))
            faulty.send(b"\x09")
            results.expect("a faulty frame", faulty.read(100), MALFORMED)
            results.expect("a key beside a faulty frame", typing.ask(key(7, ACUTE), fed(7, 1)), fed(7, 1))
            half.send(load(NEW, DROPPED)[40:])
            results.expect("the other half", half.read(len(loaded(1))), loaded(1))
            results.expect("the end beside them", (half.finish(), typing.finish()), (b"", b""))
        lines = sorted(service.ended()[0].splitlines())
        results.expect("their ends", lines, ["connection 1: ended", "connection 2: malformed", "connection 3: ended", "listening"])


def check_unread(program, results, unsent):
    """A client that reads nothing is stopped while others go on, and gets every reply once it reads."""
    wanted = refused(5, 2) * UNREAD
    with Serving(program, connections=2, options=at_once(2, "--unsent", str(unsent))) as service:
        with Peer(service) as silent, Peer(service) as typing:
            sending = threading.Thread(target=silent.send, args=(frame(6, 5) * UNREAD,))
            sending.start()
            keys = [typing.ask(frame(1, 7), OPENED_7)] + [typing.ask(key(7, X), fed(7, 0, b"x")) for _ in range(300)]
            results.expect(f"keys beside a client that reads nothing, {unsent}", keys, [OPENED_7] + [fed(7, 0, b"x")] * 300)
            results.expect("it is stopped", sending.is_alive(), True)
            got = silent.read(len(wanted))
            sending.join()
            results.expect(f"every reply once it reads, {unsent}", (len(got), got == wanted), (len(wanted), True))
            results.expect("no further reply", (silent.finish(), typing.finish()), (b"", b""))


def check_waiting(program, results):
    """A connection past the greatest number waits, and is served once another ends."""
    with Serving(program, connections=3, options=at_once(2)) as service:
        with Peer(service) as first, Peer(service) as second, Peer(service) as third:
            third.send(frame(1, 9))
            results.expect("the first", first.ask(frame(1, 1), frame(0x81, 1)), frame(0x81, 1))
            results.expect("the second", second.ask(frame(1, 2), frame(0x81, 2)), frame(0x81, 2))
            results.expect("the third waits", third.waits(), True)
            results.expect("the end of the first", first.finish(), b"")
            results.expect("the third is served", third.read(9), frame(0x81, 9))
            results.expect("the other ends", (second.finish(), third.finish()), (b"", b""))
        results.expect("all ended", (len(service.ended()[0].splitlines()), service.process.returncode), (4, 0))


def large_load():
    """A load of the table that is there, with a long comment."""
    return load(OLD + b"#" * LARGE + b"\n", ITSELF)


def check_large_loads(program, results):
    """So many connections may hold a large part of a load and stay. A further large load waits until one of them is answered or leaves, and
    neither a key nor a small load waits."""
    sent, count = large_load(), LARGE_AT_ONCE + 3
    with Serving(program, connections=count, options=at_once(count)) as service, contextlib.ExitStack() as stack:
        *stalled, further, small, typing = (stack.enter_context(Peer(service)) for _ in range(count))
        results.expect("a large part of each", [it.send_until_taken(sent[:-1]) for it in stalled], [True] * LARGE_AT_ONCE)
        further.send(sent)
        results.expect("a key beside stalled loads", typing.ask(OPEN_7 + key(7, GRAVE), OPENED_7 + fed(7, 1)), OPENED_7 + fed(7, 1))
        results.expect("a small load beside them", small.ask(load(OLD, ITSELF), loaded(1)), loaded(1))
        results.expect("a further large load waits", (further.waits(), further.is_taken()), (True, False))
        results.expect("the rest of a large load", stalled[0].ask(sent[-1:], loaded(2)), loaded(2))
        results.expect("it waited until then", further.read(len(loaded(3))), loaded(3))
        results.expect("a large part again", stalled[0].send_until_taken(sent[:-1]), True)
        further.send(sent)
        results.expect("it waits again", (further.waits(), further.is_taken()), (True, False))
        results.expect("a connection leaves with its part", stalled[1].finish(), b"")
        results.expect("it waited until then, too", further.read(len(loaded(4))), loaded(4))
        results.expect("a key after all loads", typing.ask(key(7, ACUTE) + key(7, E), fed(7, 1) + fed(7, 2, b"x")), fed(7, 1) + fed(7, 2, b"x"))
        results.expect("nothing else comes", [it.finish() for it in (stalled[0], *stalled[2:], further, small, typing)], [b""] * (count - 1))
        ends = [f"connection {it}: {'fault 3 Cut' if it <= LARGE_AT_ONCE else 'ended'}" for it in range(1, count + 1)]
        results.expect("their ends", sorted(service.ended()[0].splitlines()), sorted(["listening", *ends]))


# ---- many clients, each with sessions of its own

class Sessions:
    """A second reading of sessions over the table, by the rules of a compose state."""

    def __init__(self):
        self.open = {}

    def key(self, session, keysym):
        if session not in self.open:
            return refused(session, 2)
        status, pending = self.open[session]
        keys = (*pending, keysym)
        if any(it[: len(keys)] == keys and it != keys for it in TABLE):
            self.open[session] = COMPOSING, keys
            return fed(session, COMPOSING)
        if keys in TABLE:
            self.open[session] = COMPOSED, ()
            return fed(session, COMPOSED, TABLE[keys])
        self.open[session] = (CANCELLED if pending else NOTHING), ()
        text = b"" if pending or keysym > 0x7E else bytes([keysym])
        return fed(session, self.open[session][0], text)

    def answer(self, kind, session, keysym):
        if kind == 2:
            return self.key(session, keysym)
        if kind == 1:
            if session in self.open:
                return refused(session, 1)
            self.open[session] = NOTHING, ()
            return frame(0x81, session)
        if session not in self.open:
            return refused(session, 2)
        if kind == 6:
            return state(session, self.open[session][0], *self.open[session][1])
        if kind == 3:
            self.open[session] = NOTHING, ()
        else:
            del self.open[session]
        return frame(0x80 + kind, session)


def stream_of(chance, first, requests=400):
    """A random stream of `requests` requests over two sessions of its own, and the replies to it."""
    sessions, sent, wanted = Sessions(), bytearray(), bytearray()
    for _ in range(requests):
        kind, session = chance.choice((1, 2, 2, 2, 2, 2, 2, 3, 4, 6)), first + chance.randrange(2)
        keysym = chance.choice((GRAVE, ACUTE, E, X))
        sent += key(session, keysym) if kind == 2 else frame(kind, session)
        wanted += sessions.answer(kind, session, keysym)
    return bytes(sent), bytes(wanted)


def check_many(program, results, unsent):
    chance = random.Random(SEED)
    streams = [stream_of(chance, 2 * it) for it in range(CLIENTS)]
    cuts = [[0, *sorted(chance.sample(range(1, len(sent)), 20)), len(sent)] for sent, _ in streams]
    got = [None] * CLIENTS
    with Serving(program, connections=CLIENTS + 1, options=at_once(CLIENTS + 1, "--unsent", str(unsent))) as service, Peer(service) as loading:
        def converse(it):
            sent = streams[it][0]
            got[it] = service.exchange(*(sent[a:b] for a, b in zip(cuts[it], cuts[it][1:])))
        clients = [threading.Thread(target=converse, args=(it,)) for it in range(CLIENTS)]
        for it in clients:
            it.start()
        answers = [loading.ask(load(OLD, ITSELF), loaded(it)) for it in range(1, LOADS + 1)]
        results.expect(f"loads beside {CLIENTS} clients, {unsent}", (answers, loading.finish()), ([loaded(it) for it in range(1, LOADS + 1)], b""))
        for it in clients:
            it.join()
        for number, (_, wanted) in enumerate(streams):
            results.expect(f"client {number} of {CLIENTS}, {unsent}", got[number], wanted)
        printed, complained, status = service.ended()
        results.expect("their ends", (sorted(printed.splitlines()), complained, status), (sorted(["listening", *(f"connection {it}: ended" for it in range(1, CLIENTS + 2))]), "", 0))


# ---- what a service runs out of

def check_few_descriptors(program, results, options):
    """Where no descriptor is left a client waits, and is served once there is one."""
    with Serving(program, connections=2, options=options) as service:
        process = service.process.pid
        _, most = resource.prlimit(process, resource.RLIMIT_NOFILE)
        with Peer(service) as first:
            results.expect(f"a client before, {options}", first.ask(OPEN_7, OPENED_7), OPENED_7)
            # once it ends its descriptor is past the limit
            resource.prlimit(process, resource.RLIMIT_NOFILE, (len(os.listdir(f"/proc/{process}/fd")) - 1, most))
            results.expect(f"its end before, {options}", first.finish(), b"")
        with Peer(service) as waiting:
            waiting.send(frame(6, 7))
            results.expect(f"a client waits for a descriptor, {options}", waiting.waits(1.5), True)
            resource.prlimit(process, resource.RLIMIT_NOFILE, (most, most))
            results.expect(f"it is served once there is one, {options}", waiting.read(len(state(7, 0))), state(7, 0))
            results.expect(f"its end, {options}", waiting.finish(), b"")
        results.expect(f"what is printed then, {options}", service.ended(), ("listening\nconnection 1: ended\nconnection 2: ended\n", "", 0))


# ---- sessions that end with their connection

def opening(service, numbers):
    """Forks a client that opens these sessions, and returns its process once all are open. It closes none, and ends by a signal alone."""
    reading, writing = os.pipe()
    process = os.fork()
    if process == 0:
        try:
            with Peer(service) as client:
                for number in numbers:
                    client.ask(frame(1, number), frame(0x81, number))
                os.write(writing, b"!")
                signal.pause()
        finally:
            os._exit(1)
    os.close(writing)
    with open(reading, "rb") as opened:
        assert opened.read(1) == b"!", "a client could not open its sessions"
    return process


def kill(process):
    os.kill(process, signal.SIGKILL)
    os.waitpid(process, 0)


def is_closed_soon(client, number):
    """Whether the session is closed within a minute."""
    end = time.monotonic() + 60
    while time.monotonic() < end:
        if client.ask(frame(6, number), refused(number, 2)) == refused(number, 2):
            return True
        client.read(len(state(number, 0)) - len(refused(number, 2)))
        time.sleep(0.01)
    return False


def check_killed(program, results):
    """Clients that are killed leave no session behind, as many as they opened, and the session of another connection stays."""
    with Serving(program, connections=KILLED + 1, options=at_once(KILLED + 1, "--own-sessions")) as service:
        with Peer(service) as staying:
            results.expect("the session of another connection", staying.ask(OPEN_7 + key(7, GRAVE), OPENED_7 + fed(7, 1)), OPENED_7 + fed(7, 1))
            numbers = list(range(100, 100 + SESSIONS - 1))
            shares = [numbers[it::KILLED] for it in range(KILLED)]
            processes = [opening(service, share) for share in shares]
            results.expect("no further session", staying.ask(frame(1, 8), refused(8, 3)), refused(8, 3))
            for process, share in zip(processes, shares):
                kill(process)
                results.expect("the last session of a client that was killed", is_closed_soon(staying, share[-1]), True)
            again = b"".join(frame(1, it) for it in numbers)
            results.expect("all can be opened again", staying.ask(again, b"".join(frame(0x81, it) for it in numbers)), b"".join(frame(0x81, it) for it in numbers))
            results.expect("the other session stays", staying.ask(frame(6, 7), state(7, 1, GRAVE)), state(7, 1, GRAVE))
            results.expect("its end", staying.finish(), b"")
        results.expect("all ended", len(service.ended()[0].splitlines()), KILLED + 2)


def check_whose(program, results):
    """A session that was closed and opened again belongs to the connection that opened it last; without the option none is closed."""
    for options, stays in ((("--own-sessions",), False), ((), True)):
        with Serving(program, connections=3, options=at_once(3, *options)) as service:
            with Peer(service) as first, Peer(service) as second, Peer(service) as third:
                results.expect("two sessions", first.ask(frame(1, 8) + frame(1, 9), frame(0x81, 8) + frame(0x81, 9)), frame(0x81, 8) + frame(0x81, 9))
                results.expect("one is closed by another client", second.ask(frame(4, 9), frame(0x84, 9)), frame(0x84, 9))
                results.expect("and opened by it", second.ask(frame(1, 9), frame(0x81, 9)), frame(0x81, 9))
                results.expect("the first ends", first.finish(), b"")
                wanted = state(8, 0) if stays else refused(8, 2)
                results.expect(f"its session, {options}", third.ask(frame(6, 8), wanted), wanted)
                results.expect(f"that of the second, {options}", third.ask(frame(6, 9), state(9, 0)), state(9, 0))
                results.expect("the second ends", second.finish(), b"")
                wanted = state(9, 0) if stays else refused(9, 2)
                results.expect(f"its session, {options}", third.ask(frame(6, 9), wanted), wanted)
                results.expect("the third ends", third.finish(), b"")
            results.expect("all three end", service.ended()[2], 0)


def check_own_sessions_one_by_one(program, results):
    """Without --at-once, too: the next client finds the session of the one before closed."""
    for options, wanted in ((("--own-sessions",), refused(7, 2)), ((), state(7, 0))):
        with Serving(program, connections=2, options=options) as service:
            with Peer(service) as first:
                results.expect("the first", first.ask(OPEN_7, OPENED_7), OPENED_7)
                results.expect("its end", first.finish(), b"")
            with Peer(service) as second:
                results.expect(f"the session then, {options}", second.ask(frame(6, 7), wanted), wanted)
                results.expect("the end of the second", second.finish(), b"")
            results.expect("both end", service.ended(), ("listening\nconnection 1: ended\nconnection 2: ended\n", "", 0))


# ---- connections that send nothing

def check_idle(program, results):
    """A connection that sends nothing is ended, in the middle of a frame too, and one that sends is not."""
    with Serving(program, connections=3, options=at_once(3, "--idle", str(IDLE))) as service:
        with Peer(service) as silent, Peer(service) as half, Peer(service) as typing:
            results.expect("before it is idle", silent.ask(OPEN_7 + key(7, GRAVE), OPENED_7 + fed(7, 1)), OPENED_7 + fed(7, 1))
            half.send(load(NEW, DROPPED)[:40])
            got = []
            for _ in range(6 * IDLE):
                got.append(typing.ask(frame(6, 7), state(7, 1, GRAVE)))
                time.sleep(0.25)
            results.expect("a connection that sends beside those that are idle", got, [state(7, 1, GRAVE)] * (6 * IDLE))
            results.expect("those that are idle are ended", (silent.read(1), half.read(1), typing.finish()), (b"", b"", b""))
        lines = sorted(service.ended()[0].splitlines())
        results.expect("what is printed of them", lines, ["connection 1: idle", "connection 2: idle", "connection 3: ended", "listening"])


def check_stopped(program, results):
    """A service that is stopped for longer than a connection may be idle reads what came in the meantime before it ends anybody."""
    with Serving(program, connections=2, options=at_once(2, "--idle", "1")) as service:
        with Peer(service) as typing, Peer(service) as silent:
            results.expect("before it stops", (typing.ask(OPEN_7, OPENED_7), silent.ask(frame(6, 7), state(7, 0))), (OPENED_7, state(7, 0)))
            time.sleep(0.3)
            os.kill(service.process.pid, signal.SIGSTOP)
            time.sleep(0.5)
            typing.send(key(7, GRAVE))
            time.sleep(1.5)
            os.kill(service.process.pid, signal.SIGCONT)
            results.expect("the key that came while it was stopped", typing.read(len(fed(7, 1))), fed(7, 1))
            results.expect("who sent nothing is ended", silent.read(1), b"")
            results.expect("and so is the other one, later", typing.read(1), b"")
        results.expect("what is printed after a stop", sorted(service.ended()[0].splitlines()), ["connection 1: idle", "connection 2: idle", "listening"])


def check_idle_one_by_one(program, results):
    """Without --at-once a client waits until the one before it was idle for so long."""
    with Serving(program, connections=2, options=("--idle", "1")) as service:
        with Peer(service) as silent, Peer(service) as waiting:
            results.expect("the first alone", silent.ask(OPEN_7, OPENED_7), OPENED_7)
            results.expect("the second once the first was idle", waiting.ask(frame(6, 7), state(7, 0)), state(7, 0))
            results.expect("both end", (silent.read(1), waiting.finish()), (b"", b""))
        results.expect("what is printed, one after another", service.ended(), ("listening\nconnection 1: idle\nconnection 2: ended\n", "", 0))


# ---- standard output that takes nothing

def wait_for(path):
    """Waits until there is a file at the path."""
    end = time.monotonic() + 60
    while not os.path.exists(path) and time.monotonic() < end:
        time.sleep(0.01)


def read_to_count(lines):
    """The lines up to that of how many ends were not printed, and how many these were."""
    printed = []
    for line in lines:
        if line.startswith("ends not printed: "):
            return printed, int(line.rpartition(" ")[2])
        printed.append(line)
    return printed, None


def check_unread_output(program, results, options):
    """Where nobody reads what is printed, everybody is served, and how many ends were not printed is printed once somebody reads."""
    reading, writing = os.pipe()
    fcntl.fcntl(writing, fcntl.F_SETPIPE_SZ, PIPE)
    with open(reading, encoding="ascii") as lines, Serving(program, connections=ENDS + 1, options=options, output=writing) as service:
        os.close(writing)
        wait_for(service.path)
        got = [service.exchange(frame(6, 7)) for _ in range(ENDS)]
        results.expect(f"replies while nobody reads what is printed, {options}", got, [refused(7, 2)] * ENDS)
        printed, count = read_to_count(lines)
        wanted = ["listening\n", *(f"connection {it}: ended\n" for it in range(1, len(printed)))]
        results.expect(f"what a pipe held, {options}", (printed, 100 < len(printed) < ENDS), (wanted, True))
        results.expect(f"a client after that, {options}", service.exchange(frame(6, 7)), refused(7, 2))
        wanted = [f"connection {it}: ended\n" for it in range(len(printed) + count, ENDS + 2)]
        results.expect(f"the ends that were counted, and no others, {options}", (list(lines), count > 100), (wanted, True))
        results.expect(f"the end after that, {options}", service.ended(), ("", "", 0))


def check_closed_output(program, results, options):
    """Where nobody can read what is printed, everybody is served; the status says that lines are missing."""
    reading, writing = os.pipe()
    with Serving(program, connections=3, options=options, output=writing) as service:
        os.close(writing)
        results.expect(f"before it is closed, {options}", os.read(reading, 100), b"listening\n")
        os.close(reading)
        got = [service.exchange(frame(6, 7)) for _ in range(3)]
        results.expect(f"replies where what is printed is closed, {options}", got, [refused(7, 2)] * 3)
        results.expect(f"the end where it is closed, {options}", service.ended(), ("", "", 2))


# ---- turns

def check_turns(program, results):
    """Where each of some connections holds several loads, each answers one before any answers its second."""
    with Serving(program, connections=LOADING + 1, options=at_once(LOADING + 1)) as service, contextlib.ExitStack() as stack:
        *loading, last = (stack.enter_context(Peer(service)) for _ in range(LOADING + 1))
        results.expect("all are served", [it.ask(frame(6, 5), refused(5, 2)) for it in (*loading, last)], [refused(5, 2)] * (LOADING + 1))
        os.kill(service.process.pid, signal.SIGSTOP)
        for it in loading:
            it.send(load(OLD, ITSELF) * 3)
        last.send(load(OLD, ITSELF))
        os.kill(service.process.pid, signal.SIGCONT)
        counts = [[it.read(len(loaded(1)))[-8:] for _ in range(3)] for it in loading] + [[last.read(len(loaded(1)))[-8:]]]
        counts = [[int.from_bytes(count, "big") for count in each] for each in counts]
        results.expect("all loads are counted", sorted(sum(counts, [])), list(range(1, 3 * LOADING + 2)))
        for turn in range(3):
            ranks = [each[turn] for each in counts if turn < len(each)]
            results.expect(f"loads {turn + 1} of each come together", max(ranks) - min(ranks) < LOADING + 1, True)


def main():
    program, results = os.path.abspath(sys.argv[1]), Results()
    assert OLD.count(b"\n") == len(TABLE)
    for check in (check_worked, check_load_beside, check_faults_beside, check_waiting, check_large_loads):
        check(program, results)
    for options in ((), at_once(4)):
        check_few_descriptors(program, results, options)
        check_unread_output(program, results, options)
        check_closed_output(program, results, options)
    check_idle(program, results)
    check_stopped(program, results)
    check_idle_one_by_one(program, results)
    check_killed(program, results)
    check_whose(program, results)
    check_own_sessions_one_by_one(program, results)
    check_turns(program, results)
    for unsent in (65_536, 1):
        check_unread(program, results, unsent)
        check_many(program, results, unsent)
    print(f"{results.passed} passed, {results.failed} failed")
    return 1 if results.failed else 0


if __name__ == "__main__":
    sys.exit(main())
