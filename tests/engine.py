#!/usr/bin/env python3
"""engine.py PROGRAM [CHECK..]: what the input methods do with keys, without a desktop: several requests in one write (composecheck_client.py), a session
that survives a lost connection (composecheck_typing.py); and of the classes that the engines of IBus and fcitx5 share, compiled here where there is
a compiler of C++ (engine/probe.cpp), what is taken, passed, committed, shown and logged, and what can follow, also on random keys beside second
readings. With names of checks only those are made. PROGRAM serves. The last line is `N passed, M failed`."""
import concurrent.futures
import contextlib
import logging
import os
import random
import re
import shutil
import socket
import struct
import subprocess
import sys
import tempfile
import threading
import time
import unicodedata
from typing import NamedTuple

from harness import CLIENT_LIBRARY, LIBRARY, Results
from typing_service import TypingService

TOP = os.path.dirname(os.path.dirname(os.path.abspath(__file__)))
sys.path.insert(0, os.path.join(TOP, "share", "composecheck"))
from composecheck_client import Client, Fed, Full, NoSession, Request, SessionTaken, State, TimedOut, UnexpectedReply
from composecheck_typing import Service, Typed, Typing

GRAVE, ACUTE, CARON, MULTI, BACKSPACE, ESCAPE, RETURN, SHIFT = 0xFE50, 0xFE51, 0xFE5A, 0xFF20, 0xFF08, 0xFF1B, 0xFF0D, 0xFFE1
APOSTROPHE, MINUS, A, B, C, E, X = map(ord, "'-abcex")
PAGE_UP, PAGE_DOWN = 0xFF55, 0xFF56
# In seconds: for a service that answers, however slow the machine is; and for one that hangs.
AMPLE, PATIENCE, PAUSE = 30, 1, 0.5


class Settings(NamedTuple):
    """What people may choose."""

    keep_accents: bool = True
    commit_plain: bool = True


class Answer(NamedTuple):
    """Whether a key is taken, and the text that is committed before."""

    taken: bool
    text: str = ""


class Place(NamedTuple):
    """Where something listens that is no service of these tests."""

    socket: str


class Row(NamedTuple):
    """A key that can follow, and what it gives."""

    key: str
    gives: str


KEEPS_NOTHING = Settings(keep_accents=False, commit_plain=False)


# ---- several requests in one write

def check_exchange(service, results):
    service.start("old")
    with Client(service.socket, timeout=30) as client:
        got = client.exchange([Request.open(7), Request.key(7, ACUTE), Request.ask(7), Request.key(7, E), Request.reset(7), Request.close(7)])
        results.expect("replies in order", got, [None, Fed("composing", True, ""), State("composing", (ACUTE,)), Fed("composed", True, "é"), None, None])
        got = client.exchange([Request.key(7, E), Request.open(7), Request.open(7), Request.key(7, E)], within=30)
        results.expect("a refusal among replies", [type(got[0]), got[1], type(got[2]), got[3]], [NoSession, None, SessionTaken, Fed("nothing", True, "e")])
        results.expect("no request", client.exchange([]), [])
        got = client.exchange([Request.key(7, E)] * 20_000, within=60)
        results.expect("more requests than are sent before replies are read", (len(got), {*got}), (20_000, {Fed("nothing", True, "e")}))
        results.expect("a call after them", client.ask(7), State("nothing", ()))


def answers_slowly(listener, reply, pause):
    """Sends the bytes of a reply one by one."""
    connection = listener.accept()[0]
    with connection, contextlib.suppress(OSError):
        for it in reply:
            connection.sendall(bytes([it]))
            time.sleep(pause)


@contextlib.contextmanager
def listening(serve, *arguments):
    """A listener that misbehaves, which `serve` is; its path."""
    with tempfile.TemporaryDirectory(prefix="engine-") as folder, socket.socket(socket.AF_UNIX) as listener:
        path = os.path.join(folder, "socket")
        listener.bind(path)
        listener.listen()
        serving = threading.Thread(target=serve, args=(listener, *arguments), daemon=True)
        serving.start()
        yield path
        serving.join()


def raised(call, *arguments, **named):
    """The class of what a call raises, and how long it took."""
    began, failure = time.monotonic(), None
    try:
        call(*arguments, **named)
    except Exception as it:  # (whatever it is, it is compared)
        failure = type(it)
    return failure, time.monotonic() - began


def check_deadline(_, results):
    """A service that sends a byte now and then goes on all the time, and takes too long all the same."""
    fed = struct.pack(">BII", 0x82, 7, 257) + b"\2\1" + b"a" * 255
    with listening(answers_slowly, fed, 0.1) as path, Client(path, timeout=30) as client:
        failure, took = raised(client.exchange, [Request.key(7, E)], within=0.35)
        results.expect("a slow reply within a time", (failure, took < 10), (TimedOut, True))
    for what, reply in {
        "a reply that is too long": struct.pack(">BII", 0x82, 7, 258), "a reply of an unknown kind": struct.pack(">BII", 0x90, 7, 0),
        "a status that there is not": struct.pack(">BIIBB", 0x82, 7, 2, 4, 1), "a text that is no UTF-8": struct.pack(">BIIBBB", 0x82, 7, 3, 2, 1, 0xFF),
    }.items():
        with listening(answers_slowly, reply, 0) as path, Client(path, timeout=30) as client:
            results.expect(what, raised(client.key, 7, E)[0], UnexpectedReply)


def check_document(service, results):
    """The example of docs/PROTOCOL.md prints what stands there."""
    with open(os.path.join(TOP, "docs", "PROTOCOL.md"), encoding="utf-8") as file:
        code, printed = re.search(r"^```python\n(from composecheck_client import Client, Request\n.*?)^```$.*?^```\n(.*?)^```$", file.read(), re.M | re.S).groups()
    service.start("old")
    code = code.replace("compose.socket", service.socket)
    ran = subprocess.run([sys.executable, "-B", "-c", code], capture_output=True, text=True, timeout=60, env={**os.environ, "PYTHONPATH": sys.path[0]})
    results.expect("the example of several requests", (ran.stdout, ran.stderr), (printed, ""))


# ---- a session

@contextlib.contextmanager
def session(service, table="old", patience=AMPLE):
    """The way to a service that has just started, and a session of it."""
    service.start(table)
    way = Service(service.socket, patience, PAUSE)
    typing = Typing(way)
    yield way, typing
    service.go_on()
    typing.close()
    way.disconnect()


def check_session(service, results):
    with session(service) as (_, typing):
        got = [typing.key(it) for it in (X, ACUTE, SHIFT, E)]
        results.expect("keys", got, [Typed("nothing", True, "x", ()), Typed("composing", True, "", (ACUTE,)), Typed("composing", False, "", (ACUTE,)), Typed("composed", True, "é", ())])
        for it in (MULTI, APOSTROPHE, MINUS):
            typing.key(it)
        results.expect("the last key is taken back", (typing.erase(), typing.pending, typing.key(E)), (True, (MULTI, APOSTROPHE), Typed("composed", True, "ⓔ", ())))
        typing.key(ACUTE)
        typing.reset()
        results.expect("after a reset", typing.key(E), Typed("nothing", True, "e", ()))
        typing.key(ACUTE)
        other = Typing(typing._service)
        results.expect("another place", other.key(E), Typed("nothing", True, "e", ()))
        other.close()
        results.expect("this place", typing.key(E), Typed("composed", True, "é", ()))
        number = typing._number
        typing.close()
        with Client(service.socket, timeout=30) as client:
            results.expect("a session that was closed", raised(client.ask, number)[0], NoSession)


def check_loads(service, results):
    with session(service) as (_, typing):
        for it in (MULTI, APOSTROPHE):
            typing.key(it)
        service.load("old", "new")
        results.expect("a load in the middle of a sequence", typing.key(A), Typed("composed", True, "ⓐ", ()))
    service.write_table("detour", '<dead_grave> <dead_acute> <e> : "é"\n<dead_acute> <e> : "é"\n')
    service.write_table("direct", '<dead_acute> <e> : "é"\n')
    for old, new in (("detour", "detour"), ("detour", "direct")):
        service.certify(old, new)
    with session(service, "detour") as (_, typing):
        typing.key(GRAVE)
        typing.key(ACUTE)
        service.load("detour", "direct")
        results.expect("what is pending is what the new table has", typing.key(SHIFT), Typed("composing", False, "", (ACUTE,)))
        results.expect("nothing is left to take back", (typing.erase(), typing.pending), (True, ()))
    with session(service, "detour") as (_, typing):
        typing.key(GRAVE)
        typing.key(ACUTE)
        service.load("detour", "direct")
        results.expect("a key is taken back before a load was seen", (typing.erase(), typing.pending), (True, ()))


def check_lost_connections(service, results):
    with session(service) as (way, typing):
        for it in (MULTI, APOSTROPHE):
            typing.key(it)
        service.start("old")
        results.expect("a restart in the middle of a sequence", typing.key(E), Typed("composed", True, "ⓔ", ()))
        typing.key(ACUTE)
        with Client(service.socket, timeout=30) as other:
            other.key(typing._number, E)
        way.lost(ConnectionResetError())
        results.expect("a key whose reply is lost counts once", typing.key(E), Typed("composed", True, "é", ()))
        typing.key(ACUTE)
        with Client(service.socket, timeout=30) as other:
            other.close_session(typing._number)
        results.expect("a session that another client closed", typing.key(E), Typed("composed", True, "é", ()))
        typing.key(ACUTE)
        service.end()
        results.expect("without a service", ([typing.key(E), typing.key(E)], typing.pending), ([None, None], ()))
        service.start("old")
        results.expect("the service is back", [typing.key(it) for it in (ACUTE, E)][-1], Typed("composed", True, "é", ()))


def check_silence(service, results):
    with session(service, patience=PATIENCE) as (_, typing):
        typing.key(ACUTE)
        service.stop()
        began = time.monotonic()
        results.expect("keys pass a service that hangs", {typing.key(E) for _ in range(100)}, {None})
        results.expect("and wait once", PATIENCE <= time.monotonic() - began < 3 * PATIENCE, True)
        service.go_on()
        time.sleep(PAUSE)
        results.expect("it goes on", [typing.key(it) for it in (ACUTE, E)][-1], Typed("composed", True, "é", ()))


def check_full(service, results):
    with session(service) as (_, typing), Client(service.socket, timeout=30) as other:
        other.exchange(Request.open(it) for it in range(4096))
        results.expect("all sessions are open", typing.key(ACUTE), None)
        other.close_session(0)
        results.expect("one is closed", typing.key(ACUTE), Typed("composing", True, "", (ACUTE,)))


def answers_as_another(listener):
    """What listens is no service of this protocol."""
    connection = listener.accept()[0]
    with connection:
        connection.recv(100)
        connection.sendall(b"HTTP/1.1 400 Bad Request\r\n\r\n")


def check_others(_, results):
    with listening(answers_as_another) as path:
        way = Service(path, PATIENCE, PAUSE)
        results.expect("keys pass what is no service", (Typing(way).key(E), Typing(way).key(E)), (None, None))


# ---- what is logged

class Lines(logging.Handler):
    """Keeps what is logged."""

    def __init__(self):
        super().__init__()
        self.lines = []

    def emit(self, record):
        self.lines.append((record.levelname, record.getMessage()))


@contextlib.contextmanager
def logged():
    """What is logged meanwhile."""
    log, lines = logging.getLogger("composecheck"), Lines()
    log.addHandler(lines)
    yield lines.lines
    log.removeHandler(lines)


def check_log(service, results):
    with logged() as lines, session(service, patience=PATIENCE) as (_, typing):
        typing.key(ACUTE)
        service.end()
        for _ in range(3):
            typing.key(E)
        service.start("old")
        typing.key(E)
        service.stop()
        typing.key(E)
        typing.key(E)
    results.expect("the levels of what is logged, once while it lasts", [level for level, _ in lines], ["WARNING", "INFO", "WARNING"])
    results.expect("what is logged", [text.split(service.socket)[0] for _, text in lines], ["nobody listens on ", "", "no reply from "])


# ---- the classes in C++

SOURCES = [os.path.join(TOP, it) for it in ("typing/client.cpp", "typing/typing.cpp", "typing/keys.cpp", "typing/following.cpp", "ibus/journal.cpp")]


def sanitizers(folder):
    """The flags that find what is read or written outside, or is not defined; none where the compiler has no library for them."""
    words = ["-fsanitize=address,undefined", "-fno-sanitize-recover=all"]
    made = subprocess.run(["c++", *words, "-x", "c++", "-", "-o", os.path.join(folder, "empty")], input="int main() {}", capture_output=True, text=True)
    return [] if made.returncode else words


def compiled(folder, results, name="probe", sources=(), flags=()):
    """The path of a probe, which looks for its libraries in its folder; or None where it isn't compiled. What another one has too is compiled once."""
    probe, checked = os.path.join(folder, name), sanitizers(folder)
    for it in (CLIENT_LIBRARY, LIBRARY):
        if not os.path.lexists(os.path.join(folder, os.path.basename(it))):
            os.symlink(it, os.path.join(folder, os.path.basename(it)))
    files = {os.path.join(folder, f"{os.path.basename(it)}.o"): it for it in (os.path.join(TOP, "tests", "engine", f"{name}.cpp"), *SOURCES, *sources)}
    words = ["c++", "-std=c++17", "-g", "-Wall", "-Wextra", "-Werror", *checked, *(f"-I{TOP}/{it}" for it in ("lib", "typing", "ibus")), *(it for it in flags if it[:2] not in ("-l", "-L"))]
    with concurrent.futures.ThreadPoolExecutor(os.cpu_count()) as pool:
        made = [*pool.map(lambda it: run_quietly(*words, "-c", files[it], "-o", it), (it for it in files if not os.path.exists(it)))]
    # (a library of the sanitizers that calls dlopen itself sees no RUNPATH, but the RPATH of the program)
    if not any(status for status, _ in made):
        made.append(run_quietly("c++", *checked, f"-Wl,--disable-new-dtags,-rpath,{folder}", "-o", probe, *files, CLIENT_LIBRARY, *flags))
    results.expect(f"the classes in C++ are compiled ({name})", [it for it in made if it != (0, "")], [])
    return probe if os.path.exists(probe) else None


def run_quietly(*words):
    """The status of a command, and what it prints on standard error."""
    ran = subprocess.run(words, stdout=subprocess.DEVNULL, stderr=subprocess.PIPE, text=True)
    return ran.returncode, ran.stderr


# How the probes ended that didn't end well.
ended = []


class Probe:
    """A probe that runs, and answers a line at a time; at the end `said` is what it logged."""

    def __init__(self, *words):
        pipe, self.errors = subprocess.PIPE, tempfile.TemporaryFile("w+", encoding="utf-8")
        self.process = subprocess.Popen(words, stdin=pipe, stdout=pipe, stderr=self.errors, text=True, bufsize=1)

    def __enter__(self):
        return self

    def __exit__(self, *_):
        self.process.stdin.close()
        self.process.stdout.close()
        status = self.process.wait(60)
        self.errors.seek(0)
        self.said = self.errors.read()
        if status:
            ended.append((status, self.said))
        self.errors.close()

    def ask(self, *words):
        self.process.stdin.write(" ".join(map(str, words)) + "\n")
        return self.process.stdout.readline().rstrip("\n").split(" ")


def text_of(hexadecimal):
    return bytes.fromhex(hexadecimal).decode()


class Keys(Probe):
    """The keys of a place where somebody types. Without a patience it is the engines' own."""

    def __init__(self, probe, service, patience=AMPLE, what="press"):
        super().__init__(probe, what, service.socket, *([str(int(patience * 1000))] if patience else []))
        self.shown = ""

    def press(self, keysym, settings=Settings(), is_text_field=True):
        taken, text, shown = self.ask(keysym, *map(int, settings), int(is_text_field))
        self.shown = text_of(shown)
        return Answer(taken == "1", text_of(text))

    def drop(self):
        self.press(0)

    def close(self):
        self.press(0xFFFFFFFF)


class Listing(Probe):
    """What can follow in a place where somebody types, by a stored table: `rows` and `place` are what is listed."""

    def __init__(self, probe, table):
        super().__init__(probe, "list", table)

    def look_up(self, *pending):
        self.take(self.ask("look", *pending))
        return self.rows

    def turn(self, keysym):
        return self.take(self.ask("turn", keysym))

    def take(self, answer):
        turned, place, *rows = answer
        self.place, self.rows = text_of(place), [Row(*map(text_of, it.split("="))) for it in rows]
        return turned == "1"


# ---- where its messages go, and where the table is

def check_journal(probe, _, results):
    with tempfile.TemporaryDirectory(prefix="engine-") as folder, socket.socket(socket.AF_UNIX, socket.SOCK_DGRAM) as journal:
        path = os.path.join(folder, "journal")
        journal.bind(path)
        journal.settimeout(30)
        with Probe(probe, "write", path) as engine:
            engine.ask("keys pass for 2 s|and then")
            results.expect("a message to the journal", journal.recv(1000), b"PRIORITY=4\nSYSLOG_IDENTIFIER=ibus-engine-composecheck\nMESSAGE=keys pass for 2 s and then\n")
            journal.close()
            engine.ask("keys pass")
    results.expect("without a journal a message goes to standard error", engine.said, "ibus-engine-composecheck: keys pass\n")


def check_state_folder(probe, _, results):
    """Where a table is looked for: as `update` does."""
    for changes, wanted in (({"XDG_STATE_HOME": "/s"}, "/s/composecheck/table"), ({"XDG_STATE_HOME": "", "HOME": "/h"}, "/h/.local/state/composecheck/table")):
        # (it ends without a look at standard input, which may then be written to no more)
        asked = subprocess.run([probe, "stored"], capture_output=True, text=True, env={**os.environ, **changes})
        results.expect(f"the stored table with {changes}", (asked.stdout, asked.stderr), (f"{wanted}\n", ""))


def check_socket_path(probe, _, results):
    """Where the service is looked for: as docs/PROTOCOL.md says; an empty variable is none."""
    for changes, wanted in (
        ({"COMPOSECHECK_SOCKET": "/a", "XDG_RUNTIME_DIR": "/r"}, "/a"), ({"COMPOSECHECK_SOCKET": "", "XDG_RUNTIME_DIR": "/r"}, "/r/composecheck.socket"),
        ({"XDG_RUNTIME_DIR": "/r"}, "/r/composecheck.socket"), ({}, "/run/composecheck.socket"),
    ):
        env = {name: value for name, value in os.environ.items() if name not in ("COMPOSECHECK_SOCKET", "XDG_RUNTIME_DIR")}
        asked = subprocess.run([probe, "socket"], capture_output=True, text=True, env={**env, **changes})
        results.expect(f"the socket with {changes}", (asked.stdout, asked.stderr), (f"{wanted}\n", ""))


# ---- keys

# For each: the keys, the settings, whether it is a text field; and the answers, each with what is shown after it.
ROWS = {
    "a dead key and a letter": ((ACUTE, E), Settings(), True, [(Answer(True), "´"), (Answer(True, "é"), "")]),
    "Multi_key and two keys": ((MULTI, APOSTROPHE, E), Settings(), True, [(Answer(True), "·"), (Answer(True), "·'"), (Answer(True, "ⓔ"), "")]),
    "a plain key in a text field": ((X,), Settings(), True, [(Answer(True, "x"), "")]),
    "a plain key elsewhere": ((X,), Settings(), False, [(Answer(False), "")]),
    "a plain key that is not to be committed": ((X,), Settings(commit_plain=False), True, [(Answer(False), "")]),
    "keys that type nothing pass": ((RETURN, 0xFF51, 0xFF09, 0xFFFF), Settings(), True, [(Answer(False), "")] * 4),
    "a Shift in a sequence passes": ((MULTI, SHIFT, APOSTROPHE), Settings(), True, [(Answer(True), "·"), (Answer(False), "·"), (Answer(True), "·'")]),
    "a cancelled dead key becomes an accent": ((ACUTE, X, X), Settings(commit_plain=False), True, [(Answer(True), "´"), (Answer(True, "´x"), ""), (Answer(False), "")]),
    "two of them": ((GRAVE, ACUTE, X), Settings(), True, [(Answer(True), "`"), (Answer(True), "`´"), (Answer(True, "`´x"), "")]),
    "a cancelled dead key is lost": ((ACUTE, X, SHIFT, X), KEEPS_NOTHING, True, [(Answer(True), "´"), (Answer(True), ""), (Answer(False), ""), (Answer(False), "")]),
    "the cancelling key begins a sequence": ((ACUTE, GRAVE, A), Settings(), True, [(Answer(True), "´"), (Answer(True, "´"), "`"), (Answer(True, "à"), "")]),
    "the cancelling key is none of a text": ((ACUTE, RETURN), Settings(), True, [(Answer(True), "´"), (Answer(False, "´"), "")]),
    "Escape drops a sequence": ((ACUTE, ESCAPE, ESCAPE), Settings(), True, [(Answer(True), "´"), (Answer(True), ""), (Answer(False), "")]),
    "of Multi_key nothing is kept": ((MULTI, APOSTROPHE, X), Settings(), True, [(Answer(True), "·"), (Answer(True), "·'"), (Answer(True, "x"), "")]),
    "a dead key that the table doesn't have is taken": ((CARON, C), Settings(), True, [(Answer(True), ""), (Answer(True, "c"), "")]),
    "BackSpace in a sequence": (
        (MULTI, APOSTROPHE, BACKSPACE, APOSTROPHE, E), Settings(), True,
        [(Answer(True), "·"), (Answer(True), "·'"), (Answer(True), "·"), (Answer(True), "·'"), (Answer(True, "ⓔ"), "")]),
    "BackSpace at rest passes": ((BACKSPACE,), Settings(), True, [(Answer(False), "")]),
}


def check_keys(probe, service, results):
    service.start("old")
    with Keys(probe, service) as keys:
        for what, (keysyms, settings, is_text_field, wanted) in ROWS.items():
            results.expect(what, [(keys.press(it, settings, is_text_field), keys.shown) for it in keysyms], wanted)
            keys.drop()
        keys.press(ACUTE)
        keys.drop()
        results.expect("what is dropped is not shown", (keys.shown, keys.press(E)), ("", Answer(True, "e")))
        keys.press(ACUTE)
        service.end()
        results.expect("a sequence whose service has gone", (keys.press(E), keys.shown), (Answer(True, "´e"), ""))
        results.expect("a key after it", keys.press(E), Answer(False))
        results.expect("a dead key without a service is the toolkit's", keys.press(ACUTE), Answer(False))
        service.start("old")
        results.expect("the service is back", keys.press(E), Answer(True, "e"))
    results.expect("what is logged, once while it lasts", keys.said, f"nobody listens on {service.socket}; keys pass\n{service.socket} answers\n")


def check_patience(probe, service, results):
    """However a service answers, no key waits longer than the patience, and after one that did none waits."""
    service.start("old")
    with Keys(probe, service, PATIENCE) as keys:
        keys.press(ACUTE)
        service.stop()
        for what, keysym in {"a key": X, "BackSpace": BACKSPACE}.items():
            began = time.monotonic()
            keys.press(keysym)
            results.expect(f"{what} waits no longer than the patience", time.monotonic() - began < 2 * PATIENCE, True)
    with Keys(probe, service, PATIENCE) as keys:
        began = time.monotonic()
        results.expect("keys pass a service that hangs", {keys.press(E) for _ in range(50)}, {Answer(False)})
        results.expect("and wait once", time.monotonic() - began < 3 * PATIENCE, True)
        service.go_on()
    results.expect("that is logged once", (keys.said.count("no reply from "), keys.said.count("\n")), (1, 1))


def check_own_patience(probe, service, results):
    """The engines wait half a second for a key, and pass keys for two seconds then."""
    service.start("old")
    with Keys(probe, service, None) as keys:
        keys.press(ACUTE)
        service.stop()
        began = time.monotonic()
        keys.press(X)
        waited = time.monotonic() - began
        results.expect("a key waits half a second", 0.45 < waited < 3, True)
        service.go_on()
        results.expect("keys pass after it", keys.press(E), Answer(False))
    results.expect("that is logged", keys.said, f"no reply from {service.socket}; keys pass for 2 s\n")


def check_signals(probe, service, results):
    """A signal while a reply is waited for loses nothing."""
    service.start("old")
    with Keys(probe, service, AMPLE, "signals") as keys:
        for keysym, wanted in ((ACUTE, Answer(True)), (E, Answer(True, "é"))):
            service.stop()
            later = threading.Timer(0.3, service.go_on)
            later.start()
            results.expect("a key while signals come", keys.press(keysym), wanted)
            later.join()
    results.expect("and nothing is logged", keys.said, "")


def check_close(probe, service, results):
    """A place that is closed leaves its session to others, and so does one that ends. (A service has room for 4,096.)"""
    service.start("old")
    with Client(service.socket, timeout=30) as other:
        other.exchange(Request.open(it) for it in range(4095))
        with Keys(probe, service) as keys:
            keys.press(ACUTE)
            results.expect("all sessions are open", type(other.exchange([Request.open(4095)])[0]), Full)
            keys.close()
            results.expect("one is closed", other.exchange([Request.open(4095), Request.close(4095)]), [None, None])
            results.expect("a key opens another one", keys.press(ACUTE), Answer(True))
        results.expect("a place that has ended", other.exchange([Request.open(4095)]), [None])


def replies(session, text):
    """The replies to the first key of a session that is new on its connection: it composes the text."""
    return [struct.pack(">BII", 0x81, session, 0), struct.pack(">BII", 0x83, session, 0) + struct.pack(">BIIBB", 0x82, session, 2 + len(text), 2, 1) + text
            + struct.pack(">BIIBB", 0x86, session, 2, 2, 0)]


def session_of(connection):
    """The session that the next request on the connection opens."""
    return struct.unpack(">xI", connection.recv(1000)[:5])[0]


def answers_with_more(listener):
    """Answers a key, and sends with that what would be the answer to a key on the next connection; refuses a second session; and has a next connection."""
    listener.settimeout(AMPLE)
    with contextlib.suppress(OSError, struct.error), listener.accept()[0] as connection:
        opened, answered = replies(session_of(connection), b"one")
        connection.sendall(opened)
        connection.recv(1000)
        # (more than the library of clients keeps itself)
        connection.sendall(answered + 20 * (opened + answered))
        connection.sendall(struct.pack(">BIIH", 0xFF, session_of(connection), 2, 3))
        with listener.accept()[0] as following:
            opened, answered = replies(session_of(following), b"two")
            following.sendall(opened)
            following.recv(1000)
            following.sendall(answered)
            following.recv(1000)


def check_older_bytes(probe, _, results):
    """What came on a connection that another place gave up answers nothing on the next one."""
    with listening(answers_with_more) as path:
        with Keys(probe, Place(path), AMPLE) as keys:
            results.expect("a key on the first connection", keys.press(E), Answer(True, "one"))
            results.expect("a key of another place, whose session is refused", keys.press(E, is_text_field=2), Answer(False))
            results.expect("a key on the next connection", keys.press(E), Answer(True, "two"))
    results.expect("what is logged of them", keys.said, f"the service refuses the session; keys pass\n{path} answers\n")


def check_long_path(probe, _, results):
    """A path that no socket can have is nobody's, however long it is."""
    for length in (107, 108, 109, 110, 5000):
        path = "/" + "x" * (length - 1)
        with Keys(probe, Place(path), PATIENCE) as keys:
            results.expect(f"a path of {length} bytes", keys.press(E), Answer(False))
        results.expect(f"is logged, with its {length} bytes", keys.said, f"nobody listens on {path}; keys pass\n")


# The keys of a second reading, and the accents of those among them that are dead.
PROBED = [GRAVE, ACUTE, CARON, MULTI, APOSTROPHE, MINUS, A, B, E, X, SHIFT, BACKSPACE, ESCAPE, RETURN, 0xE9, 0x1000101, 0xFE60]
ACCENTS = {GRAVE: "`", ACUTE: "´", CARON: "ˇ", 0xFE60: "\u00a0\u0323"}


def pressed(typing, keysym, settings, is_text_field):
    """What docs/PROTOCOL.md says of a key ("What a client does with a reply"), on the client in Python."""
    pending = typing.pending
    if keysym == BACKSPACE and pending:
        typing.erase()
        return Answer(True)
    accents, typed = "", typing.key(keysym)
    if typed.accepted and typed.status == "cancelled":
        if keysym == ESCAPE or not settings.keep_accents:
            return Answer(True)
        accents, typed = "".join(ACCENTS.get(it, "") for it in pending), typing.key(keysym)
    is_printed = typed.text.isprintable() and typed.text != ""
    if not typed.accepted:
        return Answer(False, accents)
    if typed.status != "nothing" or (is_printed and (accents or (settings.commit_plain and is_text_field))):
        return Answer(True, accents + typed.text)
    return Answer(not typed.text and (keysym in ACCENTS or keysym == MULTI), accents)


def check_random_keys(probe, service, results):
    chance, shown = random.Random(5), {**ACCENTS, MULTI: "·", 0x1000101: "ā"}
    with session(service) as (_, typing), Keys(probe, service) as keys:
        got, wanted = [], []
        for _ in range(4000):
            keysym, settings, is_text_field = chance.choice(PROBED), Settings(*chance.choices((False, True), k=2)), chance.random() < 0.5
            got.append((keysym, keys.press(keysym, settings, is_text_field), keys.shown))
            wanted.append((keysym, pressed(typing, keysym, settings, is_text_field), "".join(shown.get(it) or chr(it) for it in typing.pending)))
        differ = [it for it in zip(got, wanted) if it[0] != it[1]]
        results.expect("4,000 random keys, as a second reading has them", differ, [])


# ---- what can follow

# Keysyms of tables: with signs, of which some look alike, and with names alone.
FOLLOWED = {"a": A, "e": E, "slash": 0x2F, "space": 0x20, "dead_acute": ACUTE, "dead_stroke": 0xFE63, "Multi_key": MULTI, "Left": 0xFF51, "KP_1": 0xFFB1,
            "eacute": 0xE9, "U0101": 0x1000101, **{it: ord(it) for it in "bcdfghij"}}
LETTERS = {ord(it): it for it in "abcdefghij"}
SIGNS = {**LETTERS, ACUTE: "´", 0xFE63: "/", MULTI: "·", 0x2F: "/", 0xFFB1: "1", 0xE9: "é", 0x1000101: "ā"}


def check_following(probe, service, results):
    none, unreadable = service.path("none"), service.path("unreadable")
    for path in (none, unreadable):
        with Listing(probe, path) as listing:
            results.expect("without a table nothing follows", (listing.look_up(ACUTE), listing.look_up(GRAVE)), ([], []))
        results.expect("and that is logged once", listing.said, f"the keys that can follow are not listed: there is no table in {path}\n")
        service.write("unreadable", "compose")
    with Listing(probe, service.store_anew("old")) as listing:
        for pending, wanted in {
            (MULTI,): [("'", "…")], (MULTI, APOSTROPHE): [("e", "ⓔ"), ("-", "…")], (GRAVE,): [("a", "à"), ("´", "…")], (X,): [], (MULTI, X): [], (ACUTE, E): [],
        }.items():
            results.expect(f"what follows {pending}", listing.look_up(*pending), [Row(*it) for it in wanted])
        service.store_anew("new")
        results.expect("the table is read again", listing.look_up(ACUTE), [Row("a", "á"), Row("e", "é")])
        service.write("shown.compose", '<a> <space> : "x"\n<a> <Left> : "y"\n<a> <1> : "1"\n<a> <KP_1> : "1"\n<a> <b> : "\\n"\n')
        service.store_anew("shown")
        wanted = [Row("b", "•"), Row("1", "1"), Row("0x20", "x"), Row("0xff51", "y")]
        results.expect("letters first, and keys without a sign behind the others, by their names", listing.look_up(A), wanted)
        check_stored_forms(listing, service, results)


def check_stored_forms(listing, service, results):
    """The file of the table with names that are kept in it, and in the forms of earlier versions."""
    path = service.store_anew("old")
    with open(path, "rb") as file:
        payload = file.read().partition(b"\0\5names\0\0\0\0\0\5fresh\0\0\0\0")[2]
    for form, before in ("1", b"\0\1\0\x1ccomposecheck-table 1 longest\0\0\0\0"), ("before", b""):
        os.remove(path)
        with open(path, "wb") as file:
            file.write(before + (payload if before else payload[4:]))
        results.expect(f"what follows in a table of form {form}", listing.look_up(MULTI, APOSTROPHE), [Row("e", "ⓔ"), Row("-", "…")])
    service.write("own.h", "#define XK_own_key 0x10081fff\n")
    service.write("named.compose", '<own_key> <a> : "own"\n')
    service.store_anew("named", "--names", "builtin", "--names", os.path.join(service.folder, "own.h"))
    results.expect("names that are kept with the table are read", listing.look_up(0x10081FFF), [Row("a", "own")])


# Which character stands for a dead key, by its name in Unicode; those of letters and of marks follow by rule.
ACCENT_NAMES = {
    "grave": "GRAVE ACCENT", "acute": "ACUTE ACCENT", "circumflex": "CIRCUMFLEX ACCENT", "tilde": "TILDE", "macron": "MACRON", "breve": "BREVE",
    "abovedot": "DOT ABOVE", "diaeresis": "DIAERESIS", "abovering": "RING ABOVE", "doubleacute": "DOUBLE ACUTE ACCENT", "caron": "CARON",
    "cedilla": "CEDILLA", "ogonek": "OGONEK", "iota": "GREEK YPOGEGRAMMENI", "voiced_sound": "KATAKANA-HIRAGANA VOICED SOUND MARK",
    "semivoiced_sound": "KATAKANA-HIRAGANA SEMI-VOICED SOUND MARK", "belowdot": "COMBINING DOT BELOW", "hook": "COMBINING HOOK ABOVE",
    "horn": "COMBINING HORN", "stroke": "SOLIDUS", "abovecomma": "GREEK PSILI", "abovereversedcomma": "GREEK DASIA",
    "doublegrave": "COMBINING DOUBLE GRAVE ACCENT", "belowring": "MODIFIER LETTER LOW RING", "belowmacron": "MODIFIER LETTER LOW MACRON",
    "belowcircumflex": "COMBINING CIRCUMFLEX ACCENT BELOW", "belowtilde": "MODIFIER LETTER LOW TILDE", "belowbreve": "COMBINING BREVE BELOW",
    "belowdiaeresis": "COMBINING DIAERESIS BELOW", "invertedbreve": "COMBINING INVERTED BREVE", "belowcomma": "COMMA", "currency": "CURRENCY SIGN",
    "schwa": "LATIN SMALL LETTER SCHWA", "SCHWA": "LATIN CAPITAL LETTER SCHWA", "greek": "MICRO SIGN", "hamza": "ARABIC HAMZA ABOVE",
    "lowline": "LOW LINE", "aboveverticalline": "MODIFIER LETTER VERTICAL LINE", "belowverticalline": "MODIFIER LETTER LOW VERTICAL LINE",
    "longsolidusoverlay": "COMBINING LONG SOLIDUS OVERLAY",
}
# Other names of some of them, in keysymdef.h.
SAME_KEYS = {"perispomeni": "tilde", "psili": "abovecomma", "dasia": "abovereversedcomma", "small_schwa": "schwa", "capital_schwa": "SCHWA"}


def accent_of(name):
    """The sign of a dead key: a letter is its own, and a mark that has no form of its own stands on a no-break space."""
    sign = name if len(name) == 1 else unicodedata.lookup(ACCENT_NAMES[SAME_KEYS.get(name, name)])
    return "\u00a0" + sign if unicodedata.combining(sign) else sign


def check_accents(probe, service, results):
    """Each dead key that has a name is shown by its accent."""
    with open(os.path.join(TOP, "crates", "builtin_names", "src", "lines.rt"), encoding="utf-8") as file:
        names = {int(number, 16): name for name, number in re.findall(r"^#define XK_dead_(\w+) (0x\w+)", file.read(), re.M)}
    service.write("dead.compose", "".join(f'<Multi_key> <dead_{it}> : "{it}"\n' for it in names.values()))
    with Listing(probe, service.store_anew("dead")) as listing:
        rows = listing.look_up(MULTI)
        for _ in range(len(names) // 10):
            listing.turn(PAGE_DOWN)
            rows += listing.rows
    results.expect("the accent of each dead key", {it.gives: it.key for it in rows}, {it: accent_of(it) for it in names.values()})


def check_many(probe, service, results):
    """A thousand keys are listed, and no more."""
    service.write("many.compose", "".join(f'<Multi_key> <U{0x4E00 + it:04X}> : "x"\n' for it in range(1001)))
    with Listing(probe, service.store_anew("many")) as listing:
        listing.look_up(MULTI)
        results.expect("the first of a thousand", listing.place, "1–10 / 1000")
        listing.turn(PAGE_UP)
        results.expect("the last of a thousand", (listing.place, len(listing.rows)), ("991–1000 / 1000", 10))


def check_pages(probe, service, results):
    service.write("pages.compose", "".join(f'<Multi_key> <{it}> : "{it}"\n' for it in "abcdefghijklmnopqrstuvwxy"))
    with Listing(probe, service.store_anew("pages")) as listing:
        seen = lambda: ("".join(it.key for it in listing.rows), listing.place)
        listing.look_up(MULTI)
        results.expect("the first page", seen(), ("abcdefghij", "1–10 / 25"))
        results.expect("another key doesn't turn it", (listing.turn(X), seen()), (False, ("abcdefghij", "1–10 / 25")))
        results.expect("the next page", (listing.turn(PAGE_DOWN), seen()), (True, ("klmnopqrst", "11–20 / 25")))
        results.expect("the last page", (listing.turn(PAGE_DOWN), seen()), (True, ("uvwxy", "21–25 / 25")))
        results.expect("the first one again", (listing.turn(PAGE_DOWN), seen()), (True, ("abcdefghij", "1–10 / 25")))
        results.expect("backwards", (listing.turn(PAGE_UP), seen()), (True, ("uvwxy", "21–25 / 25")))
        listing.look_up()
        results.expect("of no keys nothing is listed", (seen(), listing.turn(PAGE_DOWN)), (("", ""), False))


def check_without_library(probe, service, results):
    """This comes last, as the probe's library is gone then."""
    library = os.path.join(os.path.dirname(probe), os.path.basename(LIBRARY))
    os.remove(library)
    with open(library, "wb"), Listing(probe, service.path("old")) as listing:
        results.expect("without the library nothing follows", (listing.look_up(ACUTE), listing.look_up(ACUTE)), ([], []))
    results.expect("and that is logged once", listing.said, "the keys that can follow are not listed: there is no libcomposecheck.so.1\n")


def random_table(chance):
    """Random sequences by their keysyms, each with its text; and the Compose file of them."""
    drawn = [[chance.choice(list(FOLLOWED)) for _ in range(chance.randrange(1, 5))] for _ in range(300)]
    lines = {tuple(FOLLOWED[it] for it in names): (names, chance.choice("xyz")) for names in drawn}
    text = "".join("".join(f"<{it}> " for it in names) + f': "{text}"\n' for names, text in lines.values())
    return {keysyms: text for keysyms, (_, text) in lines.items()}, text


def rows_after(table, pending):
    """What follows these keysyms, by a second reading."""
    size = len(pending) + 1
    gives = {it[-1]: text for it, text in table.items() if it[:-1] == pending}
    gives.update((it[size - 1], "…") for it in table if len(it) > size and it[:size - 1] == pending)
    found = sorted(gives, key=lambda it: (it not in LETTERS, it not in SIGNS, it))
    # (two keys may look alike)
    return list(dict.fromkeys(Row(SIGNS.get(it, hex(it)), gives[it]) for it in found))


def check_random_following(probe, service, results):
    chance = random.Random(6)
    table, text = random_table(chance)
    service.write("random.compose", text)
    every = sorted({it[:size] for it in table for size in range(1, 5)})
    with Listing(probe, service.store_anew("random")) as listing:
        got, wanted = [], []
        for pending in [*every, *((*it, chance.choice([*FOLLOWED.values()])) for it in every)]:
            rows, page, turns = rows_after(table, pending), 0, chance.randrange(4)
            listing.look_up(*pending)
            for _ in range(turns):
                keysym = chance.choice((PAGE_UP, PAGE_DOWN))
                listing.turn(keysym)
                page = (page + (1 if keysym == PAGE_DOWN else -1)) % max(-(-len(rows) // 10), 1)
            got.append((pending, listing.rows))
            wanted.append((pending, rows[10 * page: 10 * (page + 1)]))
    results.expect("what follows each beginning of random sequences, on any page", got, wanted)
    results.expect("nothing is logged", listing.said, "")


# ---- the engine of IBus

# The modifiers with which a key is a command, and the others (ibustypes.h).
CONTROL, ALT, MOD4, SUPER, HYPER, META = 1 << 2, 1 << 3, 1 << 6, 1 << 26, 1 << 27, 1 << 28
SHIFTED, LOCKED, NUM_LOCK, MOD3, ALT_GR, RELEASED = 1 << 0, 1 << 1, 1 << 4, 1 << 5, 1 << 7, 1 << 30
F1, F2 = 0xFFBE, 0xFFBF
IBUS_SOURCES = [os.path.join(TOP, it) for it in ("ibus/engine.cpp", "ibus/choices.cpp")]


class Engine(Probe):
    """An engine of IBus, without a daemon: what a call answers, and what would be sent."""

    def call(self, *words):
        taken, *sent = self.ask(*words)
        return taken == "1", [(name, self.content(value)) for name, _, value in (it.partition("=") for it in sent)]

    def content(self, value):
        if ":" in value:
            return [Row(*map(text_of, it.split(":"))) for it in value.split(",") if it]
        return text_of(value)

    def press(self, keysym, modifiers=0):
        return self.call("key", keysym, modifiers)


def compiled_for_ibus(folder, results):
    """The path of the engine's probe and its environment, or None where IBus's library isn't installed."""
    flags = subprocess.run(["pkg-config", "--cflags", "--libs", "ibus-1.0"], capture_output=True, text=True) if shutil.which("pkg-config") else None
    if not flags or flags.returncode:
        print("no libibus-1.0-dev here: the engine of IBus is not tried")
        return None
    program = compiled(folder, results, "ibus", IBUS_SOURCES, flags.stdout.split())
    if program and shutil.which("glib-compile-schemas"):
        subprocess.run(["glib-compile-schemas", f"--targetdir={folder}", os.path.join(TOP, "ibus")], check=True)
    return program


def check_commands(program, service, results):
    """With Ctrl, Alt, Super, Hyper or Meta a key is a command, and passes, also in a sequence; other modifiers change nothing."""
    with Engine(program, service.socket, service.path("none")) as engine:
        results.expect("a dead key", engine.press(ACUTE), (True, [("shown", "´")]))
        for modifier in (CONTROL, ALT, MOD4, SUPER, HYPER, META):
            results.expect(f"a command with {modifier:#x}", engine.press(E, modifier), (False, []))
        results.expect("a key that is released", engine.press(E, RELEASED), (False, []))
        results.expect("the sequence goes on", engine.press(E, SHIFTED | LOCKED | NUM_LOCK | MOD3 | ALT_GR), (True, [("hidden", ""), ("commit", "é")]))
        results.expect("a plain key where nobody edits text", engine.press(X), (False, []))


def check_drops(program, service, results):
    """What is pending is dropped where the application, the focus or the daemon wants it."""
    with Engine(program, service.socket, service.path("none")) as engine:
        for call in ("reset", "focus-out", "disable"):
            engine.press(ACUTE)
            results.expect(call, (engine.call(call), engine.press(E)), ((False, [("hidden", "")]), (False, [])))


def check_list(program, service, results):
    """The list that a key shows and hides, and its pages."""
    service.write("pages.compose", "".join(f'<Multi_key> <{it}> : "{it}"\n' for it in "abcdefghijklmnopqrstuvwxy"))
    pages = [[Row(it, it) for it in part] for part in ("abcdefghij", "klmnopqrst", "uvwxy")]
    stored = service.store_anew("pages")
    service.start("old")
    with Engine(program, service.socket, stored) as engine:
        results.expect("nothing is listed at first", engine.press(MULTI), (True, [("shown", "·")]))
        results.expect("the key that shows the list", engine.press(F1), (True, [("listed", pages[0])]))
        results.expect("the next page, by the panel", engine.call("page-down"), (False, [("listed", pages[1])]))
        results.expect("the one before, by the panel", engine.call("page-up"), (False, [("listed", pages[0])]))
        results.expect("the one before, by a key", engine.press(PAGE_UP), (True, [("listed", pages[2])]))
        results.expect("the next page, by a key", engine.press(PAGE_DOWN), (True, [("listed", pages[0])]))
        results.expect("the key that hides the list", engine.press(F1), (True, [("listed", "")]))
        engine.call("set", "list-key", "F2")
        results.expect("the key that was chosen in its place", engine.press(F2), (True, [("listed", pages[0])]))
        results.expect("a reset hides the list", engine.call("reset"), (False, [("hidden", ""), ("listed", "")]))
        results.expect("at rest the key passes", engine.press(F2), (False, []))
    results.expect("nothing is logged", engine.said, "")


def check_ibus(folder, service, results):
    checks = [it for it in (check_commands, check_drops, check_list) if is_chosen(it)]
    program = compiled_for_ibus(folder, results) if checks else None
    if not program:
        return
    if check_list in checks and not (os.path.exists(os.path.join(folder, "gschemas.compiled")) and os.path.exists(LIBRARY)):
        print("no glib-compile-schemas or no libcomposecheck here: the list of the engine of IBus is not tried")
        checks.remove(check_list)
    # (the choices are in memory, and nobody's)
    os.environ.update(GSETTINGS_SCHEMA_DIR=folder, GSETTINGS_BACKEND="memory", IBUS_ADDRESS="unix:path=/nonexistent", ASAN_OPTIONS="detect_leaks=0")
    for check in checks:
        service.start("old")
        check(program, service, results)


def is_chosen(check):
    return not sys.argv[2:] or check.__name__.removeprefix("check_") in sys.argv[2:]


def check_classes(service, results):
    checks = [check_journal, check_state_folder, check_socket_path, check_keys, check_patience, check_own_patience, check_signals, check_close,
              check_older_bytes, check_long_path, check_random_keys]
    if os.path.exists(LIBRARY):
        checks += [check_following, check_accents, check_many, check_pages, check_random_following]
    else:
        print("no libcomposecheck here: what can follow is not tried")
    with tempfile.TemporaryDirectory(prefix="engine-") as folder:
        probe = compiled(folder, results) if any(map(is_chosen, [*checks, check_without_library])) else None
        for check in filter(is_chosen, checks if probe else []):
            check(probe, service, results)
        check_ibus(folder, service, results)
        if probe and is_chosen(check_without_library):
            check_without_library(probe, service, results)
    results.expect("how the probes ended", ended, [])


def main():
    logging.getLogger("composecheck").addHandler(logging.NullHandler())
    logging.getLogger("composecheck").setLevel(logging.INFO)
    results = Results()
    with TypingService(sys.argv[1]) as service:
        checks = check_exchange, check_document, check_deadline, check_session, check_loads, check_lost_connections, check_silence, check_full, check_others, check_log
        for check in filter(is_chosen, checks):
            check(service, results)
        if shutil.which("c++"):
            check_classes(service, results)
        else:
            print("no c++ here: the classes in C++ are not tried")
    return results.end()


if __name__ == "__main__":
    sys.exit(main())
