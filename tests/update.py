#!/usr/bin/env python3
"""update.py PROGRAM [PART..]: `composecheck update`, `status`, and `serve --state`, the service that owns the folder of the table in use.

A table that changes nobody's typing takes the place of the one in use, in a running service too; one that does is refused, and all stays as it
is. An update and a service are ended before each of their calls, one after another, and a disk is full (cut.c): what is kept is then the old
table or the new one, whole, and the next update goes through. Each new table here has new nodes before the old ones, so that a certificate
that was made for another table than the one that is served isn't valid by luck. With PARTs, names of functions below without `try_`, only
these are tried. The last line is `N passed, M failed`."""
import concurrent.futures
import contextlib
import fcntl
import json
import os
import re
import shutil
import signal
import socket
import struct
import subprocess
import sys
import tempfile
import threading
import time

TOP = os.path.dirname(os.path.dirname(os.path.abspath(__file__)))
sys.path.insert(0, os.path.join(TOP, "share", "composecheck"))
from composecheck_client import Client, ConnectionEnded, NoMemory, NoSession, TimedOut, bundle
from harness import Results

OLD = '<Multi_key> <apostrophe> <e> : "ⓔ"\n<dead_acute> <e> : "é"\n'
FOLLOWS = OLD + '<Multi_key> <apostrophe> <a> : "ⓐ"\n'
OTHER = OLD.replace("ⓔ", "ê")
# An upgrade that takes a sequence away, changes one, and adds two: one of them begins with a new key.
UPGRADE = '<Multi_key> <apostrophe> <e> : "ê"\n<Multi_key> <apostrophe> <a> : "ⓐ"\n<dead_caron> <c> : "č"\n'
STARTS = OLD + '<dead_caron> <c> : "č"\n'
BEHIND = '<Multi_key> <plus> : "±"\n'
MULTI_KEY, UNICODE = 0xFF20, 0x1000000
MEANT = "note: typing changes as it is meant to\n"
TAKEN = "note: typing changes as it is meant to; the running service has taken the table, and its sessions begin anew\n"
STORED = re.compile(r"loaded \d+\nstored\n")
REPERTOIRE = "keys 0x20 0x7e\nkeys 0xff20 0xff20\nU+0078\n"
LAST = 0x9FFF
# An update with --timeout 1 that takes so many seconds doesn't keep to it, also on a machine that is busy.
LATE = 8


def table(count, text="x", more=""):
    """A Compose file of so many sequences. One with a greater count follows it, and has a node more before the others, so that these have
    other numbers: in the order of the file, and in that of the keysyms."""
    first = "".join(f'<Multi_key> <U{LAST - it:04X}> <0> : "{it}"\n' for it in range(count - 1, 0, -1))
    return f'{more}{first}<Multi_key> <U{LAST:04X}> <b> : "{text}"\n'


def sources_in(data):
    """The sources of a bundle by name, and what follows them."""
    count, at, sources = struct.unpack(">H", data[:2])[0], 2, {}
    for _ in range(count):
        size = struct.unpack(">H", data[at : at + 2])[0]
        name = data[at + 2 : at + 2 + size].decode()
        at += 2 + size
        size = struct.unpack(">I", data[at : at + 4])[0]
        sources[name] = data[at + 4 : at + 4 + size].decode(errors="surrogateescape")
        at += 4 + size
    size = struct.unpack(">I", data[at : at + 4])[0]
    if len(data) != at + 4 + size:
        raise ValueError("the bytes are no bundle")
    return sources, data[at + 4 :]


def read(path):
    with open(path, "rb") as file:
        return file.read()


def write(folder, name, text):
    with open(os.path.join(folder, name), "w", encoding="utf-8") as file:
        file.write(text)


def found(call, *arguments):
    """What a call returns, or the name of what it raises."""
    try:
        return call(*arguments)
    except (ConnectionEnded, NoMemory, NoSession, TimedOut, OSError) as error:
        return type(error).__name__


class Room:
    """A folder for files, with the folder `state` of the table in use, a program, and a service if one runs."""

    def __init__(self, program):
        self.program, self.process, self.count = program, None, 0
        self.folder = tempfile.mkdtemp(prefix="update-")
        for name, text in {"old": OLD, "follows": FOLLOWS, "other": OTHER, "starts": STARTS, "behind": OLD + 'include "more"\n', "more": BEHIND, "faulty": '<nosuch> : "x"\n'}.items():
            self.write(name, text)

    def __enter__(self):
        return self

    def __exit__(self, *_):
        self.end()
        shutil.rmtree(self.folder)

    def path(self, *names):
        return os.path.join(self.folder, *names)

    def write(self, name, text):
        write(self.folder, name, text)

    # ---- what is kept

    def kept_in(self, name):
        """The table in a file of the folder, as its rule, its repertoire and its sources; `broken`; or None if there is none."""
        try:
            data = read(self.path("state", name))
        except FileNotFoundError:
            return None
        try:
            (first, repertoire), *more = sources_in(data)[0].items()
            rule = re.fullmatch(r"composecheck-table 2 (longest|refuse)", first)
            sources, certificate = sources_in(sources_in(data)[1])
        except (ValueError, struct.error):
            return "broken"
        is_whole = rule and [it[0] for it in more] == ["names", "fresh"] and certificate.startswith(b"compose-certificate")
        return (rule[1], repertoire, list(sources.values())) if is_whole else "broken"

    def kept_names(self, name="table"):
        """The lines of the names that are kept in a file of the folder, and the fresh keysyms."""
        sources = sources_in(read(self.path("state", name)))[0]
        fresh = sources["fresh"].encode(errors="surrogateescape")
        return sources["names"], [it for (it,) in struct.iter_unpack(">I", fresh)]

    def kept(self, name="table"):
        """The texts of the table's files that are kept, or what `kept_in` says instead."""
        kept = self.kept_in(name)
        return kept[2] if isinstance(kept, tuple) else kept

    def all_bytes(self):
        """Everything that the folder has, with times."""
        names = sorted(os.listdir(self.path("state"))) if os.path.exists(self.path("state")) else []
        states = [(name, os.stat(self.path("state", name))) for name in names]
        return [(name, read(self.path("state", name)), it.st_mtime_ns, it.st_mode, it.st_ino) for name, it in states]

    # ---- the program

    def run(self, *words, pass_to=None, folder=None, **environment):
        """The status of the program, and what it prints to standard output and standard error."""
        given = {"PATH": os.environ["PATH"], **environment}
        ran = subprocess.run([self.program, *words], cwd=folder or self.folder, env=given, pass_fds=[pass_to] if pass_to else [], capture_output=True, text=True, timeout=120)
        return ran.returncode, ran.stdout, ran.stderr

    def update(self, *words, **environment):
        """The same of an update, which knows the socket of the service if one runs."""
        running = ["--socket", "socket"] if self.process else []
        return self.run("update", "--state", "state", *running, *words, **environment)

    def status(self, folder=None, *words):
        """The same of `status`, which runs in this folder."""
        running = ["--socket", self.path("socket")] if self.process and folder else ["--socket", "socket"] if self.process else []
        return self.run("status", "--state", self.path("state") if folder else "state", *running, *words, folder=folder)

    # ---- tables, one after another

    def next_table(self, text="x", more=""):
        """Writes the file `table`, which follows the one before, and returns its text."""
        self.count += 1
        written = table(self.count, text, more)
        self.write("table", written)
        return written

    def grown(self):
        """Whether an update of a table that follows goes through, and is what is kept and, if a service runs, what is served."""
        written = self.next_table()
        got = self.update("table")
        if self.process is None:
            return got == (0, "stored\n", "") and self.kept() == [written] or got
        is_taken = got[0] == 0 and STORED.fullmatch(got[1]) and got[2] == ""
        served = found(self.typed, UNICODE + LAST - self.count + 1, 0x30)
        return bool(is_taken and self.kept() == [written] and served == str(self.count - 1)) or (got, self.kept() == [written], served)

    # ---- the service

    def start(self, *options, state="state", pass_to=None, **environment):
        """Starts the service. Returns whether it serves."""
        self.end()
        command = [self.program, "serve", "-v", "--at-once", "16", "--own-sessions", "--replace", *options, "--state", state, "socket"]
        with open(self.path("printed"), "w") as printed, open(self.path("complained"), "w") as complained:
            self.process = subprocess.Popen(command, cwd=self.folder, env={"PATH": os.environ["PATH"], **environment}, stdout=printed, stderr=complained, pass_fds=[pass_to] if pass_to else [])
        self.waited_for(lambda: "\ntable: " in self.printed() or self.process.poll() is not None)
        if self.process.poll() is None:
            return True
        self.ended = self.process.wait()
        self.process = None
        return False

    def waited_for(self, condition, seconds=30):
        """Whether a condition holds in time."""
        until = time.monotonic() + seconds
        while not condition():
            if time.monotonic() > until:
                return False
            time.sleep(0.01)
        return True

    def printed(self):
        with open(self.path("printed"), encoding="utf-8") as file:
            return file.read()

    def complained(self):
        with open(self.path("complained"), encoding="utf-8") as file:
            return file.read()

    def lines(self):
        """What the service printed about its table."""
        return [line for line in self.printed().splitlines() if not line.startswith("connection ")]

    def is_running(self):
        return self.process is not None and self.process.poll() is None

    def end(self):
        if self.process:
            self.process.send_signal(signal.SIGCONT)
            self.process.kill()
            self.process.wait()
            self.process = None

    def client(self):
        return Client(self.path("socket"), timeout=30)

    def typed(self, *keysyms):
        """What the service types for Multi_key and these keysyms."""
        with self.client() as client:
            client.open(7)
            return "".join(client.key(7, it).text for it in (MULTI_KEY, *keysyms))


def compile_library(folder):
    library = os.path.join(folder, "cut.so")
    subprocess.run(["cc", "-shared", "-fPIC", "-o", library, os.path.join(TOP, "tests", "cut.c"), "-ldl"], check=True)
    return library


# ---- what takes the place of what

def try_decisions(program, tell):
    with Room(program) as room:
        tell.expect("a table that is refused is not kept", room.update("faulty")[0], 2)
        tell.expect("nothing is kept yet", room.kept(), None)
        tell.expect("the first table is stored", room.update("old"), (0, "stored\n", ""))
        tell.expect("its source is kept", room.kept_in("table"), ("longest", "", [OLD]))
        tell.expect("no table is kept from before", room.kept("previous"), None)
        different = (1, "keys Multi_key apostrophe e\nkind text\nold \"ⓔ\"\nnew \"ê\"\n", "")
        tell.expect("another text is refused", room.update("other"), different)
        tell.expect("a new start is refused", room.update("starts")[0], 1)
        tell.expect("the first table is still kept", room.kept(), [OLD])
        tell.expect("the same table", room.update("old"), (0, "unchanged\n", ""))
        tell.expect("a follower is stored", room.update("follows"), (0, "stored\n", ""))
        tell.expect("its source is kept then", room.kept(), [FOLLOWS])
        tell.expect("and the one before it", room.kept("previous"), [OLD])
        tell.expect("the table before it is refused", room.update("old")[0], 1)
        tell.expect("the table before it is taken back", room.update("--back"), (0, "stored\n", MEANT))
        tell.expect("it is kept", (room.kept(), room.kept("previous")), ([OLD], [FOLLOWS]))
        tell.expect("and back once more", (room.update("--back"), room.kept()), ((0, "stored\n", MEANT), [FOLLOWS]))
        tell.expect("nothing else is left", sorted(os.listdir(room.path("state"))), ["lock", "previous", "table"])
    with Room(program) as room:
        os.mkdir(room.path("state"))
        tell.expect("nothing to take back", room.update("--back"), (2, "", "refused: state: state: no table is kept from before\n"))


def try_repertoires(program, tell):
    """The repertoire is kept, and counts for later updates without one."""
    with Room(program) as room:
        room.write("a", "keys 0x20 0x7e\nkeys 0xff20 0xff20\nU+24D4\n")
        room.write("b", "keys 0x20 0x7e\nU+2260\n")
        room.write("without", '<dead_acute> <e> : "é"\n')
        tell.expect("a table with a repertoire", room.update("old", "--repertoire", "a"), (0, "stored\n", ""))
        tell.expect("the repertoire is kept", room.kept_in("table"), ("longest", "keys 0x20 0x7e\nkeys 0xff20 0xff20\nU+24D4\n", [OLD]))
        tell.expect("the same files and repertoire", room.update("old", "--repertoire", "a"), (0, "unchanged\n", ""))
        tell.expect("the same files alone", room.update("old"), (0, "unchanged\n", ""))
        tell.expect("a table that follows, without the option", room.update("follows"), (0, "stored\n", ""))
        tell.expect("the repertoire is still kept", room.kept_in("table")[1], "keys 0x20 0x7e\nkeys 0xff20 0xff20\nU+24D4\n")
        tell.expect("a character that can't be typed", room.update("follows", "--repertoire", "b"), (1, "unreachable U+2260\n", ""))
        room.write("c", "keys 0x20 0x7e\nkeys 0xff20 0xff20\nU+24D0\n")
        tell.expect("another repertoire is meant", room.update("follows", "--repertoire", "c"), (0, "stored\n", MEANT))
        tell.expect("and is kept", room.kept_in("table")[1], "keys 0x20 0x7e\nkeys 0xff20 0xff20\nU+24D0\n")


def try_meant(program, tell):
    """A table that changes typing, where the changes are meant."""
    with Room(program) as room:
        room.update("old")
        line = 'changed: <Multi_key> <apostrophe> <e> "ⓔ" "ê"'
        room.write("none", "")
        status, out, err = room.update("other", "--accept", "none")
        tell.expect("a change that is not meant", (status, out.startswith(line + " "), err), (1, True, ""))
        tell.expect("its count", out.splitlines()[-2], "diff: 1 kept, 1 changed, 0 waiting, 0 removed, 0 new starts, 0 added, 0 accepted; 1 text lost")
        tell.expect("what a merge would have", out.splitlines()[-1], "merge: would keep 2 of OLD's sequences and add 0 of NEW's")
        tell.expect("the table in use is still kept", room.kept(), [OLD])
        room.write("stale", line.replace("ê", "e") + "\n")
        status, out, err = room.update("other", "--accept", "stale")
        refusal = "composecheck: stale:1:1: no change of these tables is named by the line\n"
        tell.expect("a line that names no change", (status, out, err), (2, "", refusal))
        room.write("meant", line + "\n")
        tell.expect("a change that is meant", room.update("other", "--accept", "meant"), (0, "stored\n", MEANT))
        tell.expect("its table is kept", room.kept(), [OTHER])
        tell.expect("a table that is in use needs no list", room.update("other", "--accept", "meant"), (0, "unchanged\n", ""))
        tell.expect("a list that is not there", room.update("other", "--accept", "nosuch")[0], 2)


def try_fresh(program, tell):
    """New starts that are allowed, and includes."""
    with Room(program) as room:
        room.update("old")
        tell.expect("a fresh keysym may begin a sequence", room.update("starts", "--fresh", "dead_caron"), (0, "stored\n", MEANT))
        tell.expect("a name that is none", room.update("follows", "--fresh", "nosuch")[0], 2)
    with Room(program) as room:
        tell.expect("a table with an include", room.update("behind"), (0, "stored\n", ""))
        tell.expect("both files are kept", sorted(room.kept()), sorted([OLD + 'include "more"\n', BEHIND]))


def merged(room):
    """The table of `old` with `upgrade` merged into it, as `merge` prints it."""
    kept = f'<dead_acute> <e> : "é"  # {room.path(".", "old")}:2\n<Multi_key> <apostrophe> <e> : "ⓔ"  # {room.path(".", "old")}:1\n'
    return kept + '<Multi_key> <apostrophe> <a> : "ⓐ"  # upgrade:2\n'


def try_merge(program, tell):
    """What an upgrade adds is taken, and what would change typing is left out, with a note."""
    with Room(program) as room:
        room.write("upgrade", UPGRADE)
        room.write("less", '<dead_acute> <e> : "é"\n')
        tell.expect("the first table is taken as it is", (room.update("old", "--merge"), room.kept()), ((0, "stored\n", ""), [OLD]))
        tell.expect("the same table once more", room.update("old", "--merge"), (0, "unchanged\n", ""))
        other = f'left out: <Multi_key> <apostrophe> <e> "ê" upgrade:1: it has another text, "ⓔ" {room.path(".", "old")}:1\n'
        start = 'left out: <dead_caron> <c> "č" upgrade:3: dead_caron begins nothing in OLD\n'
        notes = start + other + "merge: 2 kept, 1 taken, 2 left out; --fresh dead_caron takes 1 more\n"
        before = room.all_bytes()
        tell.expect("--dry-run", room.update("upgrade", "--merge", "--dry-run"), (0, "would be stored\n", notes))
        tell.expect("a table that takes away everything", room.update("less", "--merge"), (0, "unchanged\n", "merge: 2 kept, 0 taken, 0 left out\n"))
        tell.expect("a refused table, in the same words", room.update("faulty", "--merge"), room.update("faulty"))
        tell.expect("a key that isn't fresh", room.update("upgrade", "--merge", "--fresh", "dead_acute"), room.update("upgrade", "--fresh", "dead_acute"))
        tell.expect("--accept is another wish", room.update("upgrade", "--merge", "--accept", "/dev/null")[0], 2)
        tell.expect("nothing has changed", room.all_bytes(), before)
        tell.expect("an upgrade is merged", room.update("upgrade", "--merge"), (0, "stored\n", notes))
        tell.expect("the merged table and the upgrade are kept", (room.kept(), room.kept("previous")), ([merged(room), UPGRADE], [OLD]))
        tell.expect("the same upgrade once more", (room.update("upgrade", "--merge"), room.kept()), ((0, "unchanged\n", ""), [merged(room), UPGRADE]))
        tell.expect("without the option it is refused", room.update("upgrade")[0], 1)
        room.write("upgrade", UPGRADE + "\n")
        said = [it for it in room.status()[1].splitlines() if not it.startswith(("stored", "before", "names"))]
        wanted = [f"in use: {room.path('upgrade')} (merged)", "sequences: 3", "files: 1", f"changed since: {room.path('upgrade')}", "service: none runs"]
        tell.expect("status", said, wanted)
        room.write("later", '<Multi_key> <apostrophe> <b> : "ⓑ"\ninclude "more"\n')
        status, out, err = room.update("later", "--merge")
        tell.expect("a later one", (status, out, err), (0, "stored\n", "merge: 3 kept, 2 taken, 0 left out\n"))
        tell.expect("its files are kept behind it", (len(room.kept()), "files: 2\n" in room.status()[1], room.kept()[0].count("\n")), (3, True, 5))
        tell.expect("the table before it", (room.update("--back"), room.kept()[1:]), ((0, "stored\n", MEANT), [UPGRADE]))
    with Room(program) as room:
        room.write("upgrade", UPGRADE)
        room.update("old")
        notes = f'left out: <Multi_key> <apostrophe> <e> "ê" upgrade:1: it has another text, "ⓔ" {room.path(".", "old")}:1\nmerge: 2 kept, 2 taken, 1 left out\n'
        tell.expect("with a fresh key", room.update("upgrade", "--merge", "--fresh", "dead_caron"), (0, "stored\n", notes + MEANT))
        tell.expect("its sequence is taken", '<dead_caron> <c> : "č"  # upgrade:3\n' in room.kept()[0], True)
        room.write("a", "keys 0x20 0x7e\nkeys 0xff20 0xff20\nU+2260\n")
        tell.expect("a character that can't be typed", room.update("old", "--merge", "--repertoire", "a")[:2], (1, "unreachable U+2260\n"))
    with Room(program) as room:
        os.makedirs(room.path("system", "en"))
        room.write(os.path.join("system", "en", "Compose"), UPGRADE)
        room.write("upgrade", UPGRADE)
        room.update("old")
        words = ["sh", os.path.join(TOP, "share", "composecheck", "update.sh")]
        environment = {"PATH": os.environ["PATH"], "COMPOSECHECK": program}
        for file, status, kept in (("upgrade", 1, 1), ("system/en/Compose", 0, 2)):
            ran = subprocess.run([*words, file, "--state", "state", "--system", "system"], cwd=room.folder, env=environment, capture_output=True, text=True, timeout=120)
            tell.expect(f"update.sh of {file}", (ran.returncode, len(room.kept())), (status, kept))


def try_merge_beside(program, tell):
    """A service takes a merged table while a sequence is typed."""
    with Room(program) as room:
        room.write("upgrade", UPGRADE)
        room.update("old")
        room.start("--fresh", "")
        client = pend(room)
        client.key(9, 0x27)
        status, out, err = room.update("upgrade", "--merge")
        tell.expect("a merge beside a service", (status, bool(STORED.fullmatch(out)), err.splitlines()[-1:]), (0, True, ["merge: 2 kept, 1 taken, 2 left out; --fresh dead_caron takes 1 more"]))
        tell.expect("it is stored by the service", room.kept(), [merged(room), UPGRADE])
        tell.expect("a sequence that had begun", client.key(9, 0x65).text, "ⓔ")
        client.disconnect()
        tell.expect("a new one", room.typed(0x27, 0x61), "ⓐ")
        tell.expect("its line", room.lines()[2:], [f"loaded: 3 sequences, 2 before; from {room.path('upgrade')} (merged)"])
        tell.expect("the same upgrade once more", room.update("upgrade", "--merge"), (0, "unchanged\n", ""))
        tell.expect("a restart types it", (room.start("--fresh", ""), room.typed(0x27, 0x61)), (True, "ⓐ"))


def try_places(program, tell):
    """Where the table in use is kept, if no option says it, or an empty one."""
    for name, environment in {"states": "XDG_STATE_HOME", "home": "HOME"}.items():
        with Room(program) as room:
            path = room.path(name, "composecheck" if name == "states" else ".local/state/composecheck")
            tell.expect(f"by {environment}", (room.run("update", "old", **{environment: room.path(name)})[0], os.path.exists(os.path.join(path, "table"))), (0, True))
            tell.expect(f"the folder by {environment}", (os.stat(path).st_mode & 0o777, os.stat(os.path.join(path, "table")).st_mode & 0o777), (0o700, 0o600))
            tell.expect(f"status by {environment}", room.run("status", **{environment: room.path(name)})[0], 0)
            os.rename(path, room.path("state"))
            os.symlink(room.path("state"), path)
            is_started = room.start(state="", **{environment: room.path(name)})
            tell.expect(f"a service by {environment}", is_started and room.lines(), ["listening", f"table: 2 sequences, from {room.path('old')}"])
    with Room(program) as room:
        neither = (2, "", "refused: state: neither XDG_STATE_HOME nor HOME is set\n")
        tell.expect("by nothing", room.run("update", "old"), neither)
        tell.expect("status by nothing", room.run("status"), neither)
        tell.expect("a service by nothing", room.run("serve", "--state", "", "socket"), neither)


def try_locales(program, tell):
    """The folder of the system and the locale that are given are those of the includes."""
    with Room(program) as room:
        for system, text in {"one": "1", "two": "2"}.items():
            for locale in ("en", "de"):
                os.makedirs(room.path(system, locale))
                room.write(os.path.join(system, locale, "Compose"), f'<Multi_key> <plus> <{locale[0]}> : "{text}"\n')
            room.write(os.path.join(system, "compose.dir"), "en/Compose: en_US.UTF-8\nde/Compose: de_DE.UTF-8\n")
            room.write(os.path.join(system, "locale.alias"), "")
        room.write("own", 'include "%L"\n')
        room.write("of_system", 'include "%S/en/Compose"\n')
        for name, system, locale, wanted in (
            ("own", "one", "en_US.UTF-8", '<Multi_key> <plus> <e> : "1"\n'),
            ("own", "two", "de_DE.UTF-8", '<Multi_key> <plus> <d> : "2"\n'),
            ("of_system", "two", "en_US.UTF-8", '<Multi_key> <plus> <e> : "2"\n'),
        ):
            got = room.update("--system", system, "--locale", locale, name)
            tell.expect(f"{name} by --system {system} --locale {locale}", (got, sorted(room.kept() or [])), ((0, "stored\n", ""), sorted([read(room.path(name)).decode(), wanted])))
            shutil.rmtree(room.path("state"))


# ---- who may read the folder, and what can't be read

def modes(room):
    return {name: os.stat(room.path("state", name)).st_mode & 0o777 for name in (".", *sorted(os.listdir(room.path("state"))))}


def try_modes(program, tell):
    """The folder is its user's alone, also one that is there already."""
    private = {".": 0o700, "lock": 0o600, "previous": 0o600, "table": 0o600}
    with Room(program) as room:
        os.chmod(room.path("old"), 0o600)
        room.update("old")
        room.update("follows")
        tell.expect("modes of a new folder", modes(room), private)
        os.chmod(room.path("state"), 0o755)
        for name in ("table", "previous", "lock"):
            os.chmod(room.path("state", name), 0o644)
        tell.expect("an update in an old folder", room.update("behind", "--accept", "/dev/null")[0], 1)
        tell.expect("the mode of an old folder", modes(room)["."], 0o700)
        room.count = 0
        room.update("--back")
        tell.expect("the mode of a table that was stored in it", modes(room)["table"], 0o600)
        os.chmod(room.path("state"), 0o755)
        room.start()
        tell.expect("the mode of an old folder that is served", modes(room)["."], 0o700)
    with Room(program) as room:
        room.update("old")
        for name in ("table.new", "previous.new", "next.new"):
            room.write(os.path.join("state", name), "left by an update that was cut off")
            os.chmod(room.path("state", name), 0o644)
        room.update("follows")
        tell.expect("the mode of a table, though its new file was left with another one", modes(room)["table"], 0o600)


def try_unreadable(program, tell):
    """A table that can't be read is never replaced, by `update`, by a service, or by what `--back` brings."""
    def damaged(room):
        room.write(os.path.join("state", "table"), "x")

    def emptied(room):
        room.write(os.path.join("state", "table"), "")

    def cut(room):
        data = read(room.path("state", "table"))
        with open(room.path("state", "table"), "wb") as file:
            file.write(data[:-1])

    def folder(room):
        os.unlink(room.path("state", "table"))
        os.mkdir(room.path("state", "table"))

    form, is_folder = "refused: state: 1 Form\n", "composecheck: state/table: is a directory\n"
    for what, change, said in (("damaged", damaged, form), ("empty", emptied, form), ("cut", cut, form), ("a folder", folder, is_folder)):
        with Room(program) as room:
            room.update("old")
            change(room)
            before = room.all_bytes() if what != "a folder" else None
            tell.expect(f"an update beside a table that is {what}", room.update("follows"), (2, "", said))
            tell.expect(f"also if it is meant: {what}", room.update("follows", "--accept", "/dev/null")[0], 2)
            tell.expect(f"a service of a table that is {what}", room.start(), False)
            tell.expect(f"its status: {what}", room.ended, 2)
            tell.expect(f"status of a table that is {what}", room.status()[0], 2)
            tell.expect(f"nothing is replaced: {what}", room.all_bytes() if before else os.listdir(room.path("state", "table")), before or [])
    if os.geteuid() != 0:
        return
    with Room(program) as room:
        room.update("old")
        os.chmod(room.folder, 0o755)
        os.chmod(room.path("state", "table"), 0)
        for path in (room.path("state"), *(room.path("state", it) for it in os.listdir(room.path("state")))):
            os.chown(path, 65534, 65534)
        before = [it[1:] for it in room.all_bytes()]
        program_there = room.path("program")
        shutil.copy(program, program_there)
        other = ["setpriv", "--reuid", "65534", "--regid", "65534", "--clear-groups", program_there]
        ran = subprocess.run([*other, "update", "--state", "state", "follows"], cwd=room.folder, capture_output=True, text=True, timeout=120)
        tell.expect("an update of one who may not read the table", (ran.returncode, ran.stdout, ran.stderr), (2, "", "composecheck: state/table: permission denied\n"))
        ran = subprocess.run([*other, "serve", "-v", "--state", "state", "socket"], cwd=room.folder, capture_output=True, text=True, timeout=120)
        tell.expect("a service of one who may not read the table", (ran.returncode, ran.stdout), (2, ""))
        tell.expect("nothing is replaced: a table of mode 000", [it[1:] for it in room.all_bytes()], before)


def part(name, content):
    """A source of a bundle."""
    return struct.pack(">H", len(name)) + name + struct.pack(">I", len(content)) + content


def parts_file(payload, *sources):
    """The file of a table: a bundle of these sources, with a payload in the place of the certificate."""
    return struct.pack(">H", len(sources)) + b"".join(part(*it) for it in sources) + struct.pack(">I", len(payload)) + payload


def try_older_form(program, tell):
    """The files of older versions, which are a bundle alone or have no names, are read, and become ones of the new form."""
    with Room(program) as room:
        room.next_table()
        room.update("table")
        (bare,) = [sources_in(read(room.path("state", "table")))[1]]
        first = parts_file(bare, (b"composecheck-table 1 longest", b"keys 0x20 0x7e\n"))
        for older, repertoire in ((bare, ""), (first, "keys 0x20 0x7e\n")):
            for is_served in (False, True):
                room.end()
                with open(room.path("state", "table"), "wb") as file:
                    file.write(older)
                room.count = 1
                tell.expect("a service of the older form", room.start() if is_served else True, True)
                room.write("table", table(1))
                tell.expect("the same table in the older form", room.update("table"), (0, "unchanged\n", ""))
                tell.expect("a table that follows one in the older form", room.grown(), True)
                tell.expect("it has the new form, and the repertoire", (room.kept_in("table") or "none")[:2], ("longest", repertoire))
                tell.expect("the built-in names, and no fresh keys", room.kept_names(), ("", []))


def try_parts(program, tell):
    """A file of a table that is cut off anywhere, or has a bad part, is refused by its name, and never replaced."""
    with Room(program) as room:
        room.update("old")
        whole = read(room.path("state", "table"))
        payload = sources_in(whole)[1]
        mark, names, fresh = (b"composecheck-table 2 longest", b""), (b"names", b""), (b"fresh", b"")
        cut = [(f"cut at {at}", whole[:at], "1 Form") for at in (1, 2, 40, len(whole) // 2, len(whole) - 1)]
        parts = [
            ("no fresh keys", (mark, names), "4 Parts"),
            ("no names", (mark, fresh), "4 Parts"),
            ("another order", (mark, fresh, names), "4 Parts"),
            ("a part too many", (mark, names, fresh, (b"x", b"")), "4 Parts"),
            ("part of a keysym", (mark, names, (b"fresh", b"\0\0\xfe")), "5 Fresh"),
            ("a number that is no keysym", (mark, names, (b"fresh", b"\xff\0\0\0")), "5 Fresh"),
        ]
        for what, data, fault in (*cut, *((what, parts_file(payload, *sources), fault) for what, sources, fault in parts)):
            with open(room.path("state", "table"), "wb") as file:
                file.write(data)
            before = room.all_bytes()
            tell.expect(f"an update beside a file with {what}", room.update("follows"), (2, "", f"refused: state: {fault}\n"))
            tell.expect(f"a service of a file with {what}", (room.start(), room.ended, room.complained()), (False, 2, f"refused: state: state/table: {fault}\n"))
            tell.expect(f"status of a file with {what}", room.status(), (2, "", f"refused: state: state/table: {fault}\n"))
            tell.expect(f"nothing is replaced: {what}", room.all_bytes(), before)
        with open(room.path("state", "table"), "wb") as file:
            file.write(parts_file(payload, mark, (b"names", b"#define XK_x y\n"), fresh))
        said = "refused: state: state/table: names: 2 BadLine line=1\n"
        tell.expect("names that are none", (room.start(), room.ended, room.complained()), (False, 2, said))


# ---- names and fresh keys

# A name that is not built in, and one that is, as in the header of a newer X11.
MINE = 0xFE9F
HEADER = "#define XK_dead_mine 0xfe9f\n#define XK_dead_hamza 0xfe8d\n"
NAMED = OLD + '<dead_mine> <a> : "أ"\n'


def try_names(program, tell):
    """The names with which a table was taken are kept: a start has them, and an update reads the next table by them."""
    names = ("--names", "builtin", "--names", "new.h")
    with Room(program) as room:
        room.write("new.h", HEADER)
        room.write("named", NAMED)
        room.write("named_more", NAMED + '<dead_mine> <e> : "إ"\n')
        room.write("named_follows", NAMED + '<Multi_key> <apostrophe> <a> : "ⓐ"\n')
        hint = "composecheck: hint: `--names builtin --names FILE` adds the names of a header of your own\n"
        status, out, err = room.update("named")
        tell.expect("a name that is not built in", (status, out, err.startswith("composecheck: named:3:1: "), err.endswith(hint)), (2, "", True, True))
        tell.expect("it is read by the names of a file", room.update("named", *names), (0, "stored\n", ""))
        lines = room.kept_names()[0]
        tell.expect("the names are kept", (lines.endswith(HEADER), "XK_Multi_key" in lines), (True, True))
        tell.expect("the same names", room.update("named", *names), (0, "unchanged\n", ""))
        tell.expect("the kept names", room.update("named"), (0, "unchanged\n", ""))
        tell.expect("a table that follows, by the kept names", (room.update("named_follows"), room.kept_names()[0]), ((0, "stored\n", ""), lines))
        tell.expect("a table that doesn't follow", room.update("named_more", "--accept", "/dev/null")[0], 1)
        count = sum(line.startswith("#define") for line in lines.splitlines())
        tell.expect("status", [it for it in room.status()[1].splitlines() if it.startswith("names: ")], [f"names: {count}, of files"])
        tell.expect("a service of the table", (room.start(), room.lines()), (True, ["listening", f"table: 4 sequences, from {room.path('named_follows')}"]))
        tell.expect("it types by the names", room.typed(0x27, 0x61), "ⓐ")
        with room.client() as client:
            # (another session than the one that typed, which the service may not have closed yet)
            client.open(8)
            tell.expect("also the new key", [client.key(8, it).text for it in (MINE, 0x61)], ["", "أ"])
        room.write("named_longer", read(room.path("named_follows")).decode() + '<Multi_key> <apostrophe> <b> : "ⓑ"\n')
        got = room.update("named_longer")
        tell.expect("an update beside the service, by the kept names", (got[0], bool(STORED.fullmatch(got[1])), got[2], room.kept_names()[0]), (0, True, "", lines))
        unread = "composecheck: the table in use can't be read by the names that are given: give those that it was read by too\n"
        tell.expect("names by which the table in use can't be read", room.update("old", "--names", "builtin"), (2, "", unread))
        room.start(*names)
        tell.expect("a service that is given the same names", room.is_running(), True)
        tell.expect("a restart has the names", (room.start(), room.typed(0x27, 0x62)), (True, "ⓑ"))
        before = room.all_bytes()
        other = "refused: state: state: the table in use has other names than those of --names: leave the option out, or `composecheck update --names FILE.. TABLE` takes a table with these\n"
        tell.expect("a service that is given other names", (room.start("--names", "builtin"), room.ended, room.complained()), (False, 2, other))
        tell.expect("nothing changes", room.all_bytes(), before)
    with Room(program) as room:
        room.write("new.h", HEADER)
        room.write("named", NAMED)
        room.update("old")
        tell.expect("the built-in names are kept as no lines", (room.kept_names(), room.update("old", "--names", "builtin")), (("", []), (0, "unchanged\n", "")))
        tell.expect("status of the built-in names", "names: built in\n" in room.status()[1], True)
        room.start()
        patient = ("--timeout", "120")
        tell.expect("other names alone are meant", room.update("old", *names, *patient), (0, "stored\n", TAKEN))
        tell.expect("they are kept", room.kept_names()[0].endswith(HEADER), True)
        tell.expect("dry-run", room.update("old", "--names", "builtin", "--dry-run"), (0, "would be stored, and sessions would begin anew\n", ""))
        tell.expect("a table with the new names", room.update("named", "--fresh", "dead_mine", *patient), (0, "stored\n", TAKEN))
        with room.client() as client:
            client.open(7)
            tell.expect("the new key types", [client.key(7, it).text for it in (MINE, 0x61)], ["", "أ"])
        tell.expect("the table before it has the names too", (room.update("--back", *patient), room.kept(), room.kept_names()[0].endswith(HEADER)), ((0, "stored\n", TAKEN), [OLD], True))
        tell.expect("--back takes no names", room.update("--back", "--names", "builtin")[0], 2)


def try_fresh_kept(program, tell):
    """The keysyms that a load may list as fresh are kept: a start without --fresh has them."""
    with Room(program) as room:
        room.next_table()
        room.update("table")
        room.next_table()
        room.write("repertoire", "")
        room.write("before", table(1))
        room.write("table", '<dead_caron> <c> : "č"\n' + table(1))
        for name in ("table", "before"):
            room.write(f"{name}.manifest", f"overlap longest\nroot\t{name}\n")
        made = room.run("make", "--names", "builtin", "--fresh", "dead_caron", "-o", "certificate", "before.manifest", "table.manifest", "repertoire")
        tell.expect("a certificate with a fresh key", made[0], 0)
        load = ("load", "socket", "table.manifest", "certificate")
        room.start()
        tell.expect("without the option a load may list none", (room.run(*load)[0], room.kept_names()), (1, ("", [])))
        tell.expect("nothing is said of it", room.complained(), "")
        room.update("--back")
        note = "note: --fresh names other keys than the folder kept; it keeps these from now on\n"
        room.start("--fresh", "dead_caron")
        tell.expect("other keys are kept, and that is said", (room.kept_names(), room.complained()), (("", [0xFE5A]), note))
        room.start("--fresh", "dead_caron")
        tell.expect("the same keys", room.complained(), "")
        tell.expect("a start without the option has them", (room.start(), room.run(*load)), (True, (0, "loaded 1\n", "")))
        tell.expect("they are kept with the table of the load", room.kept_names(), ("", [0xFE5A]))
        room.end()
        room.write("table", '<dead_caron> <c> : "č"\n' + table(2))
        tell.expect("and with that of an update", (room.update("table"), room.kept_names()), ((0, "stored\n", ""), ("", [0xFE5A])))
        before = room.kept("previous")
        room.start("--fresh", "")
        tell.expect("none any more", (room.kept_names(), room.complained(), room.kept("previous")), (("", []), note, before))


# ---- beside a service

def try_running(program, tell):
    """What a running service takes is stored by it, and what it refuses isn't."""
    with Room(program) as room:
        tell.expect("a service of nothing", room.start(), False)
        tell.expect("why", (room.ended, room.complained()), (2, "refused: state: state: no table is stored: `composecheck update FILE` stores one\n"))
        room.next_table()
        room.update("table")
        tell.expect("a service of the table", room.start("--fresh", ""), True)
        tell.expect("what it prints", room.lines(), ["listening", f"table: 1 sequences, from {room.path('table')}"])
        tell.expect("the same table", room.update("table"), (0, "unchanged\n", ""))
        tell.expect("a table that follows", room.grown(), True)
        tell.expect("its line", room.lines()[2:], [f"loaded: 2 sequences, 1 before; from {room.path('table')}"])
        before = room.all_bytes()
        room.write("changed", table(2, "y"))
        tell.expect("a table that changes typing", room.update("changed")[0], 1)
        tell.expect("what was stored stays", room.all_bytes(), before)
        payload = bundle([("r", table(1).encode())], b"compose-certificate 1\nbound 2\npairs 1\n0 0\ntypings 0\n")
        with contextlib.closing(socket.socket(socket.AF_UNIX)) as connection:
            connection.connect(room.path("socket"))
            connection.sendall(struct.pack(">BII", 7, 0, len(payload)) + payload)
            tell.expect("a load that the service refuses", connection.recv(100).hex(), "ff00000000000000020008")
        tell.expect("its line then", [it.split(":")[:2] for it in room.lines()[3:]], [["load refused", " the certificate is not valid"]])
        tell.expect("what was stored stays then", room.all_bytes(), before)
        tell.expect("a table that follows goes through", room.grown(), True)
        again = room.run("serve", "--state", "state", "other_socket")
        tell.expect("a second service of the folder", again, (2, "", "refused: state: state: another service serves it\n"))
        tell.expect("the first one goes on", room.grown(), True)
        room.start()
        tell.expect("after a restart", room.grown(), True)


def try_loads(program, tell):
    """Loads that are no update's: what is served and what is stored are one."""
    with Room(program) as room:
        room.next_table()
        room.update("table")
        room.start("--fresh", "")
        written = room.next_table()
        room.write("table.before", table(1))
        room.write("repertoire", "")
        for name in ("table", "table.before"):
            room.write(f"{name}.manifest", f"overlap longest\nroot\t{name}\n")
        made = room.run("make", "--names", "builtin", "-o", "certificate", "table.before.manifest", "table.manifest", "repertoire")
        tell.expect("a certificate", made[0], 0)
        tell.expect("a load in between", room.run("load", "socket", "table.manifest", "certificate"), (0, "loaded 1\n", ""))
        tell.expect("it is stored", room.kept(), [written])
        tell.expect("an update of the same file", (room.update("table"), room.kept()), ((0, "loaded 2\nstored\n", ""), [written]))
        tell.expect("an update after a load", room.grown(), True)
        room.start("--fresh", "")
        tell.expect("an update after a load and a restart", room.grown(), True)


def pend(room):
    """A client with a session in the middle of a sequence."""
    client = room.client()
    client.open(9)
    client.key(9, MULTI_KEY)
    return client


def try_meant_beside(program, tell):
    """A change that is meant, beside a service: its sessions begin anew, and later updates go through without a restart."""
    with Room(program) as room:
        room.write("repertoire", REPERTOIRE)
        room.next_table()
        room.update("table")
        room.start("--fresh", "")
        room.grown()
        trials = {
            "--accept": lambda: (room.next_table("y"), ["--accept", "meant"]),
            "--fresh": lambda: (room.next_table("x", '<dead_caron> <c> : "č"\n'), ["--fresh", "dead_caron"]),
            "--repertoire": lambda: (table(room.count), ["--repertoire", "repertoire"]),
        }
        room.write("meant", f'changed: <Multi_key> <U{LAST:04X}> <b> "x" "y"\n')
        grown = {"--accept": ("y", ""), "--fresh": ("x", '<dead_caron> <c> : "č"\n'), "--repertoire": ("x", "")}
        for what, trial in trials.items():
            room.end()
            shutil.rmtree(room.path("state"))
            room.count = 0
            room.next_table()
            room.update("table")
            room.start("--fresh", "")
            tell.expect(f"before {what}", room.grown(), True)
            client = pend(room)
            written, options = trial()
            room.write("table", written)
            tell.expect(f"{what} beside a service", room.update("table", *options), (0, "stored\n", TAKEN))
            tell.expect(f"{what}: it is stored", (room.kept(), os.path.exists(room.path("state", "next"))), ([written], False))
            tell.expect(f"{what}: the connection ended", found(client.key, 9, LAST), "ConnectionEnded")
            client.disconnect()
            with room.client() as again:
                tell.expect(f"{what}: the session is gone", found(again.key, 9, MULTI_KEY), "NoSession")
                again.open(9)
                again.key(9, MULTI_KEY)
                again.key(9, UNICODE + LAST)
                tell.expect(f"{what}: typing goes on", again.key(9, 0x62).text, grown[what][0])
            tell.expect(f"{what}: its lines", room.lines()[3:], ["next: taken, sessions closed: 1", f"table: {written.count(':')} sequences, from {room.path('table')}"])
            text, more = grown[what]
            for _ in range(2):
                follower = room.next_table(text, more)
                got = room.update("table")
                tell.expect(f"an update after {what}", (got[0], bool(STORED.fullmatch(got[1])), got[2], room.kept()), (0, True, "", [follower]))
            tell.expect(f"taken back after {what}", room.update("--back"), (0, "stored\n", TAKEN))
            room.count -= 1
            follower = room.next_table(text, more)
            got = room.update("table")
            tell.expect(f"an update after --back and {what}", (got[0], bool(STORED.fullmatch(got[1])), got[2], room.kept()), (0, True, "", [follower]))
            tell.expect(f"{what}: the service is the same", room.is_running(), True)


def try_next(program, tell):
    """The file `next`: one that is damaged, and one that was left while no service ran."""
    with Room(program) as room:
        room.next_table()
        room.update("table")
        room.start()
        room.grown()
        with pend(room) as client:
            room.write(os.path.join("state", "next"), "x")
            room.client().disconnect()
            tell.expect("a damaged table is removed", room.waited_for(lambda: not os.path.exists(room.path("state", "next"))), True)
            tell.expect("why", room.complained(), "composecheck: next is refused: state/next: 1 Form\n")
            tell.expect("the connections ended", found(client.key, 9, UNICODE + LAST), "ConnectionEnded")
        tell.expect("an update after it", room.grown(), True)
        room.end()
        room.write(os.path.join("state", "next"), "x")
        tell.expect("a start with a damaged table", room.start(), True)
        tell.expect("which is removed", (os.path.exists(room.path("state", "next")), room.complained()), (False, "composecheck: next is refused: state/next: 1 Form\n"))
        tell.expect("an update after that start", room.grown(), True)
        room.end()
        kept = read(room.path("state", "table"))
        room.next_table("y")
        room.write("all", f'changed: <Multi_key> <U{LAST:04X}> <b> "x" "y"\n')
        room.update("table", "--accept", "all")
        os.rename(room.path("state", "table"), room.path("state", "next"))
        with open(room.path("state", "table"), "wb") as file:
            file.write(kept)
        os.chmod(room.path("state", "next"), 0o600)
        tell.expect("status tells of a table that waits", room.status()[1].splitlines()[-2:], ["next: a table waits for the service", "service: none runs"])
        tell.expect("a start with a table that waits", room.start(), True)
        tell.expect("it is in use", (room.kept(), room.kept("previous"), room.kept("next")), ([table(room.count, "y")], [table(room.count - 1)], None))
        follower = room.next_table("y")
        got = room.update("table")
        tell.expect("an update after it then", (got[0], bool(STORED.fullmatch(got[1])), room.kept()), (0, True, [follower]))
        room.end()
        shutil.copy(room.path("state", "table"), room.path("state", "next"))
        later = room.next_table("y")
        tell.expect("an update while a table waits and no service runs", room.update("table"), (0, "stored\n", ""))
        tell.expect("what was stored last is served", (room.start(), room.kept(), room.kept("next")), (True, [later], None))


def try_handed_over(program, tell):
    """A socket that is handed over as systemd does it is served on after a table that is meant, too."""
    with Room(program) as room, socket.socket(socket.AF_UNIX) as listener:
        room.next_table()
        room.update("table")
        listener.bind(room.path("socket"))
        listener.listen()
        command = f"exec 3<&{listener.fileno()}; LISTEN_PID=$$ LISTEN_FDS=1 exec {program} serve --at-once 4 --own-sessions --state state elsewhere"
        with open(room.path("printed"), "w") as printed:
            room.process = subprocess.Popen(["bash", "-c", command], cwd=room.folder, stdout=printed, pass_fds=[listener.fileno()])
        tell.expect("a service on a socket that is handed over", room.waited_for(lambda: "\ntable: " in room.printed()), True)
        tell.expect("an update of it", room.grown(), True)
        room.write("meant", f'changed: <Multi_key> <U{LAST:04X}> <b> "x" "y"\n')
        written = room.next_table("y")
        tell.expect("a table that is meant", (room.update("table", "--accept", "meant"), room.kept()), ((0, "stored\n", TAKEN), [written]))
        follower = room.next_table("y")
        got = room.update("table")
        tell.expect("an update after it", (bool(STORED.fullmatch(got[1])) or got, room.kept()), (True, [follower]))
        tell.expect("no other socket is made", os.path.exists(room.path("elsewhere")), False)


# ---- a service or another update that holds an update up

def timed(call, *arguments):
    before = time.monotonic()
    return call(*arguments), time.monotonic() - before


def try_hanging(program, tell):
    """A service that hangs makes an update end in time; once it goes on, updates go through."""
    with Room(program) as room:
        room.next_table()
        room.update("table")
        room.start()
        room.grown()
        before = room.all_bytes()
        room.next_table()
        room.process.send_signal(signal.SIGSTOP)
        got, seconds = timed(room.update, "table", "--timeout", "1")
        tell.expect("a load into a service that hangs", (got, seconds < LATE), ((2, "", "refused: connection: no reply in 1 seconds\n"), True))
        room.process.send_signal(signal.SIGCONT)
        tell.expect("it may be taken later", room.waited_for(lambda: room.update("table")[1] == "unchanged\n"), True)
        room.next_table("y")
        room.write("all", f'changed: <Multi_key> <U{LAST:04X}> <b> "x" "y"\n')
        room.process.send_signal(signal.SIGSTOP)
        got, seconds = timed(room.update, "table", "--accept", "all", "--timeout", "1")
        waits = "composecheck: the running service has not taken the table yet: it does so at its next connection\n"
        tell.expect("a change that is meant in a service that hangs", (got, seconds < LATE), ((2, "", waits), True))
        full = []
        for _ in range(5000):
            one = socket.socket(socket.AF_UNIX)
            one.setblocking(False)
            full.append(one)
            try:
                one.connect(room.path("socket"))
            except BlockingIOError:
                break
        got, seconds = timed(room.update, "table", "--accept", "all", "--timeout", "1")
        tell.expect("a service with a full queue", (got[0], seconds < LATE), (2, True))
        for one in full:
            one.close()
        room.process.send_signal(signal.SIGCONT)
        tell.expect("the change is taken later", room.waited_for(lambda: not os.path.exists(room.path("state", "next"))), True)
        tell.expect("it is in use then", room.kept(), [table(room.count, "y")])
        follower = room.next_table("y")
        got = room.update("table")
        tell.expect("an update after it", (got[0], bool(STORED.fullmatch(got[1])), room.kept()), (0, True, [follower]))
    with Room(program) as room:
        room.next_table()
        room.update("table")
        room.start()
        room.grown()
        clients = [room.client() for _ in range(16)]
        for number, client in enumerate(clients):
            client.open(number)
        room.next_table()
        got, seconds = timed(room.update, "table", "--timeout", "1")
        tell.expect("a service all of whose connections are taken", (got, seconds < LATE), ((2, "", "refused: connection: no reply in 1 seconds\n"), True))
        for client in clients:
            client.disconnect()
        tell.expect("once they are free", room.waited_for(lambda: room.update("table")[0] == 0), True)
        tell.expect("a table that follows then", room.grown(), True)
    with Room(program) as room:
        room.update("old")
        before = room.all_bytes()
        with open(room.path("state", "lock"), "ab") as file:
            fcntl.flock(file, fcntl.LOCK_EX)
            got, seconds = timed(room.update, "follows", "--timeout", "1")
            in_use = "refused: state: state: in use, and no service listens on a socket\n"
            tell.expect("a lock that another one has", (got, 1 <= seconds < LATE), ((2, "", in_use), True))
            tell.expect("status then", room.status()[1].splitlines()[-1], "service: runs, and can't be reached")
        tell.expect("once it is free", room.update("follows"), (0, "stored\n", ""))


def try_lost(program, tell):
    """A service that ends each connection: its update is refused, and nothing is stored past it."""
    with Room(program) as room, socket.socket(socket.AF_UNIX) as listener:
        room.write("meant", f'changed: <Multi_key> <U{LAST:04X}> <b> "x" "y"\n')
        room.next_table()
        room.update("table")
        before = room.all_bytes()
        listener.bind(room.path("socket"))
        listener.listen()

        def serve():
            with contextlib.suppress(OSError):
                while True:
                    listener.accept()[0].close()

        serving = threading.Thread(target=serve)
        serving.start()
        with open(room.path("state", "lock"), "ab") as file:
            fcntl.flock(file, fcntl.LOCK_EX)
            room.next_table()
            got = room.update("table", "--socket", "socket", "--timeout", "2")
            tell.expect("an update whose connection is lost", got, (2, "", "refused: connection: closed before the reply\n"))
            tell.expect("nothing is stored then", room.all_bytes(), before)
            room.next_table("y")
            got = room.update("table", "--socket", "socket", "--timeout", "2", "--accept", "meant")
            tell.expect("a table that is meant and isn't taken", got[0], 2)
            tell.expect("the table in use stays", room.kept(), [table(1)])
        listener.shutdown(socket.SHUT_RDWR)
        serving.join()


def try_no_service(program, tell):
    """A socket that is given, where nobody listens: nothing is stored."""
    with Room(program) as room:
        nobody = (2, "", "composecheck: nosuch: no such file\n")
        tell.expect("a socket that is not there", room.update("old", "--socket", "nosuch"), nobody)
        tell.expect("nothing is stored", room.kept(), None)
        room.update("old")
        before = room.all_bytes()
        tell.expect("a socket that is not there, later", room.update("follows", "--socket", "nosuch"), nobody)
        with contextlib.closing(socket.socket(socket.AF_UNIX)) as stale:
            stale.bind(room.path("stale"))
        tell.expect("a socket on which nobody listens", room.update("follows", "--socket", "stale"), (2, "", "composecheck: stale: nobody listens there\n"))
        tell.expect("also to take a table back", room.update("--back", "--socket", "stale")[0], 2)
        tell.expect("nothing is stored then", room.all_bytes(), before)
        tell.expect("nobody on the socket of the environment", room.update("follows", XDG_RUNTIME_DIR=room.folder), (0, "stored\n", ""))


def try_dry_runs(program, tell):
    """--dry-run says what would become of a table, and changes nothing."""
    with Room(program) as room:
        tell.expect("the first table", room.update("old", "--dry-run"), (0, "would be stored\n", ""))
        tell.expect("no folder is made", os.path.exists(room.path("state")), False)
        room.write("meant", f'changed: <Multi_key> <U{LAST:04X}> <b> "x" "y"\n')
        room.next_table()
        room.update("table")
        room.write("changed", table(1, "y"))
        room.next_table()
        room.update("table")
        room.write("same", "")
        rows = {
            "a table that follows": (["follower"], (0, "would be stored\n", "")),
            "the same table": (["table"], (0, "unchanged\n", "")),
            "a table that is meant": (["changed2", "--accept", "meant"], (0, "would be stored, and sessions would begin anew\n", "")),
            "a table that changes typing": (["changed2"], (1, None, "")),
            "the table before": (["--back"], (0, "would be stored, and sessions would begin anew\n", "")),
        }
        room.write("follower", table(3))
        room.write("changed2", table(2, "y"))
        for is_served in (False, True):
            if is_served:
                room.start()
            before = room.all_bytes()
            for what, (words, wanted) in rows.items():
                got = room.update(*words, "--dry-run")
                tell.expect(f"{what}{', beside a service' if is_served else ''}", (got[0], got[1] if wanted[1] else None, got[2]), wanted)
                tell.expect(f"nothing changes: {what}{', beside a service' if is_served else ''}", room.all_bytes(), before)
            if is_served:
                tell.expect("the service has loaded nothing", room.lines(), ["listening", f"table: 2 sequences, from {room.path('table')}"])


def try_two(program, tell):
    """Two updates at once, with and without a service: each ends well, one after the other."""
    for is_served in (False, True):
        with Room(program) as room:
            room.next_table()
            room.update("table")
            if is_served:
                room.start()
            for turn in range(5):
                room.next_table()
                words = [room.program, "update", "--state", "state", *(["--socket", "socket"] if is_served else []), "table"]
                both = [subprocess.Popen(words, cwd=room.folder, env={"PATH": os.environ["PATH"]}, stdout=subprocess.PIPE, stderr=subprocess.STDOUT, text=True) for _ in range(2)]
                ended = [(it.communicate(timeout=60)[0], it.returncode) for it in both]
                name = f"two updates at once{', beside a service' if is_served else ''}, {turn}"
                tell.expect(name, [it for it in ended if it[1] != 0], [])
                tell.expect(f"{name}: what is kept", room.kept(), [table(room.count)])
            tell.expect(f"a table that follows{', beside a service' if is_served else ''}", room.grown(), True)
            for turn in range(5):
                name = f"two updates at once that are meant{', beside a service' if is_served else ''}, {turn}"
                old, new = ("x", "y") if turn % 2 == 0 else ("y", "x")
                room.write("meant", f'changed: <Multi_key> <U{LAST:04X}> <b> "{old}" "{new}"\n')
                written = room.next_table(new)
                words = [room.program, "update", "--state", "state", *(["--socket", "socket"] if is_served else []), "--accept", "meant", "table"]
                both = [subprocess.Popen(words, cwd=room.folder, env={"PATH": os.environ["PATH"]}, stdout=subprocess.PIPE, stderr=subprocess.STDOUT, text=True) for _ in range(2)]
                ended = [(it.communicate(timeout=60)[0], it.returncode) for it in both]
                tell.expect(name, [it for it in ended if it[1] != 0], [])
                tell.expect(f"{name}: what is kept", (room.kept(), room.kept("next"), room.complained() if is_served else ""), ([written], None, ""))


def lines_of_status(status):
    """The lines that `status` prints for people, of what it prints as JSON (names of files that are no text for a terminal are none here)."""
    lines, used, before = ["in use: none"], status["in_use"], status["before"]
    if used:
        names = "built in" if used["names"] is None else f"{used['names']}, of files"
        lines = [f"in use: {used['origin']}", f"stored: {used['stored']}", f"sequences: {used['sequences']}", f"files: {used['files']}", f"names: {names}"]
    lines += [f"{'gone' if it['gone'] else 'changed'} since: {it['path']}" for it in status["changes"]]
    lines += [f"before it: {before['origin']}, stored {before['stored']}"] if before else []
    lines += ["next: a table waits for the service"] if status["next"] else []
    service = {"none": "none runs", "serves": f"serves it on {status['socket']}", "unreached": "runs, and can't be reached"}[status["service"]]
    return "\n".join([*lines, f"service: {service}", ""])


def try_status(program, tell):
    """What `status` prints in each situation."""
    with Room(program) as room:
        tell.expect("no folder", room.status(), (1, "in use: none\nservice: none runs\n", ""))
        tell.expect("none is made", os.path.exists(room.path("state")), False)
        room.update("behind")
        day = r"\d{4}-\d\d-\d\dT\d\d:\d\d:\d\dZ"
        behind, more = room.path("behind"), room.path("more")
        first = rf"in use: {behind}\nstored: {day}\nsequences: 3\nfiles: 2\nnames: built in\n"

        def is_said(what, wanted, folder=None):
            status, out, err = room.status(folder)
            tell.expect(what, (status, bool(re.fullmatch(wanted, out)) or out, err), (0, True, ""))
            status, told, err = room.status(folder, "--format", "json")
            tell.expect(f"{what}, as JSON", (status, lines_of_status(json.loads(told)), told.count("\n"), err), (0, out, 1, ""))

        is_said("a table", first + "service: none runs\n")
        is_said("a table, from another folder", first + "service: none runs\n", "/")
        os.utime(room.path("state", "table"), (86400 * 365, 86400 * 365))
        tell.expect("its date", room.status()[1].splitlines()[1], "stored: 1971-01-01T00:00:00Z")
        room.write("more", BEHIND + '<Multi_key> <0> <0> : "0"\n')
        is_said("an include that has changed", first + f"changed since: {more}\nservice: none runs\n")
        is_said("the same from another folder", first + f"changed since: {more}\nservice: none runs\n", "/")
        os.unlink(room.path("more"))
        is_said("an include that is gone", first + f"gone since: {more}\nservice: none runs\n")
        os.rename(room.path("behind"), room.path("moved"))
        is_said("both are gone", first + f"gone since: {behind}\ngone since: {more}\nservice: none runs\n")
        os.rename(room.path("moved"), room.path("behind"))
        room.write("more", BEHIND + '<Multi_key> <0> <0> : "0"\n')
        room.update("behind")
        second = first.replace("sequences: 3", "sequences: 4")
        is_said("a table after another", second + rf"before it: {behind}, stored {day}\nservice: none runs\n")
        room.start()
        is_said("a service", second + rf"before it: {behind}, stored {day}\nservice: serves it on socket\n")
        os.unlink(room.path("socket"))
        is_said("a service whose socket is gone", second + rf"before it: {behind}, stored {day}\nservice: runs, and can't be reached\n")
        room.end()
        before = room.all_bytes()
        room.status()
        tell.expect("status changes nothing", room.all_bytes(), before)


def try_paths(program, tell):
    """Files are found from other folders than the one in which they were given; messages have the path as it was given."""
    with Room(program) as room:
        os.mkdir(room.path("elsewhere"))
        room.update("behind")
        tell.expect("the same table from another folder", room.run("update", "--state", "../state", "../behind", folder=room.path("elsewhere")), (0, "stored\n", ""))
        said = [it for it in room.status("/")[1].splitlines() if "since" in it or "in use" in it]
        tell.expect("its include is found beside it", said, [f"in use: {room.path('elsewhere', '..', 'behind')}"])
        room.write("more", BEHIND + "# changed\n")
        tell.expect("and has changed", f"changed since: {room.path('elsewhere', '..', 'more')}" in room.status("/")[1].splitlines(), True)
        room.write("more", BEHIND)
        tell.expect("a path that goes up", room.run("update", "--state", "../state", "../old", folder=room.path("elsewhere")), (1, room.update("old")[1], ""))
        room.write("follower", OLD + BEHIND + '<Multi_key> <0> <0> : "0"\n')
        tell.expect("an absolute path that follows", (room.update(room.path("follower")), room.status()[1].splitlines()[0]), ((0, "stored\n", ""), f"in use: {room.path('follower')}"))
        tell.expect("a path that is given is what a message has", room.update("faulty")[2].startswith("composecheck: faulty:1:1: "), True)
        room.start("--fresh", "")
        room.write("loaded", OLD + BEHIND + '<Multi_key> <0> <0> : "0"\n<Multi_key> <0> <1> : "1"\n')
        room.write("manifest", "loaded\tloaded\n")
        room.write("before", "follower\tfollower\n")
        room.write("needed", "keys 0x20 0x7e\n")
        room.write("certificate", room.run("make", "before", "manifest", "needed")[1])
        tell.expect("a client loads a table", room.run("load", "socket", "manifest", "certificate"), (0, "loaded 1\n", ""))
        tell.expect("its relative paths are not looked at", [it for it in room.status("/")[1].splitlines() if "since" in it or "in use" in it], ["in use: loaded"])


def try_unsynced(program, tell):
    """The folder can't be synced after a table was renamed: it is in use, and the operator is told."""
    with tempfile.TemporaryDirectory() as folder, Room(program) as room:
        library, words = compile_library(folder), ": if the power fails now, the table before may be in use again\n"
        room.write("full", "")
        failing = {"LD_PRELOAD": library, "FAIL": "fsync of a folder", "FULL": room.path("full")}
        written = room.next_table()
        status, out, err = room.update("table", **failing)
        tell.expect("an update", (status, out, err.startswith("note: state: ") and err.endswith(words) or err, room.kept()), (0, "stored\n", True, [written]))
        room.start("--fresh", "", **failing)
        written = room.next_table()
        status, out, err = room.update("table")
        tell.expect("an update beside a service", (status, bool(STORED.fullmatch(out)), err, room.kept()), (0, True, "", [written]))
        told = room.complained()
        tell.expect("what the service says", told.startswith("composecheck: state: ") and told.endswith(words) or told, True)
        os.unlink(room.path("full"))
        tell.expect("the next update", (room.grown(), room.complained()), (True, told))


def try_script(program, tell):
    """update.sh looks at the file once more if it changes while `update` runs, as the unit of its path doesn't see that."""
    with Room(program) as room:
        room.write("slow", f'#!/bin/sh\necho >> runs\n{program} "$@"\ntest -e changed || echo "# changed" >> table\ntouch changed\n')
        os.chmod(room.path("slow"), 0o755)
        room.write("table", OLD)
        words = ["sh", os.path.join(TOP, "share", "composecheck", "update.sh"), "table", "--state", "state"]
        ran = subprocess.run(words, cwd=room.folder, env={"PATH": os.environ["PATH"], "COMPOSECHECK": "./slow"}, capture_output=True, text=True, timeout=120)
        tell.expect("it has run twice", (ran.returncode, read(room.path("runs"))), (0, b"\n\n"))
        tell.expect("what came last is kept", room.kept(), [f"{OLD}# changed\n"])


# ---- cuts, and a full disk

def try_cuts(program, tell):
    """An update without a service that is cut off before each of its calls."""
    with tempfile.TemporaryDirectory() as folder:
        library = compile_library(folder)
        with Room(program) as room:
            room.next_table()
            room.update("table")
            for number in range(1, 200):
                before, after = room.kept(), [room.next_table()]
                status, _, _ = room.update("table", LD_PRELOAD=library, CUT=str(number))
                tell.expect(f"cut before call {number}", (status in (0, 137), room.kept() in (before, after)), (True, True))
                got = room.update("table")
                tell.expect(f"the same update after call {number} was cut", (got in ((0, "stored\n", ""), (0, "unchanged\n", "")), room.kept()), (True, after))
                tell.expect(f"the next update after call {number} was cut", room.grown(), True)
                if status == 0:
                    break
            tell.expect("an update has calls", number > 10, True)


def try_cuts_beside(program, tell):
    """An update beside a service that is cut off before each of its calls: the next one goes through, without a restart."""
    with tempfile.TemporaryDirectory() as folder:
        library = compile_library(folder)
        with Room(program) as room:
            room.next_table()
            room.update("table")
            room.start("--fresh", "")
            for number in range(1, 200):
                before, after = room.kept(), [room.next_table()]
                status, _, _ = room.update("table", LD_PRELOAD=library, CUT=str(number))
                tell.expect(f"beside a service, cut before call {number}", (status in (0, 137), room.kept() in (before, after)), (True, True))
                got = room.update("table")
                tell.expect(f"beside a service, the same update after call {number} was cut",
                            (got if got[1] != "unchanged\n" and not STORED.fullmatch(got[1]) else "goes through", room.kept()), ("goes through", after))
                tell.expect(f"beside a service, the next update after call {number} was cut", room.grown(), True)
                if status == 0:
                    break
            tell.expect("an update beside a service has calls", number > 10, True)


def try_cuts_meant(program, tell):
    """The same of an update that hands a table over."""
    with tempfile.TemporaryDirectory() as folder:
        library = compile_library(folder)
        with Room(program) as room:
            room.next_table()
            room.update("table")
            room.start("--fresh", "")
            texts = "xy"
            for number in range(1, 400):
                old, new = texts[(number - 1) % 2], texts[number % 2]
                room.write("meant", f'changed: <Multi_key> <U{LAST:04X}> <b> "{old}" "{new}"\n')
                before, after = room.kept(), [room.next_table(new)]
                status, _, _ = room.update("table", "--accept", "meant", LD_PRELOAD=library, CUT=str(number))
                tell.expect(f"a table that is meant, cut before call {number}", (status in (0, 137), room.kept() in (before, after)), (True, True))
                got = room.update("table", "--accept", "meant")
                tell.expect(f"the same once more, after call {number} was cut", (got if got not in ((0, "stored\n", TAKEN), (0, "unchanged\n", "")) else "goes through", room.kept()), ("goes through", after))
                follower = room.next_table(new)
                got = room.update("table")
                tell.expect(f"the next update after a table that is meant was cut before call {number}", (bool(STORED.fullmatch(got[1])) or got, room.kept()), (True, [follower]))
                if status == 0:
                    break
            tell.expect("an update that hands a table over has calls", number > 10, True)


def cut_service(program, library, number, is_meant):
    """What is checked of a service that is cut off before this call, at its start, or while it takes a load or a table that is meant: rows of
    what, got and wanted; and whether it came to that call."""
    rows = []
    at = f"a service that was cut before call {number}, {'at a table that is meant' if is_meant else 'at a load'}"
    text, options = ("y", ["--accept", "meant"]) if is_meant else ("x", [])
    with Room(program) as room:
        room.write("meant", f'changed: <Multi_key> <U{LAST:04X}> <b> "x" "y"\n')
        before = [room.next_table()]
        room.update("table")
        is_started = room.start("--fresh", "", LD_PRELOAD=library, CUT=str(number))
        after = [room.next_table(text)]
        if is_started:
            room.update("table", "--timeout", "1", *options)
        is_cut = not is_started or not room.is_running()
        rows.append((f"{at}: what is kept", room.kept() in (before, after), True))
        rows.append((f"{at}: it starts again", room.start("--fresh", ""), True))
        rows.append((f"{at}: with the old table or the new one", room.kept() in (before, after), True))
        rows.append((f"{at}: and types it", found(room.typed, UNICODE + LAST, 0x62), "x" if room.kept() == before else text))
        got = room.update("table", *options)
        wanted = TAKEN if is_meant and got[1] == "stored\n" else ""
        is_said = got[1] in ("unchanged\n", "stored\n") or bool(STORED.fullmatch(got[1]))
        rows.append((f"{at}: the same update", (got[0], is_said, got[2], room.kept()), (0, True, wanted, after)))
        follower = room.next_table(text)
        got = room.update("table")
        rows.append((f"{at}: the next update", (bool(STORED.fullmatch(got[1])) or got, room.kept()), (True, [follower])))
    return rows, is_cut


def try_cuts_of_services(program, tell):
    """A service that is cut off before each of its calls, at its start, while it takes a load, and while it takes a table that is meant: it
    starts with the old table or the new one, and the next update goes through."""
    with tempfile.TemporaryDirectory() as folder, concurrent.futures.ThreadPoolExecutor(4) as pool:
        library = compile_library(folder)
        for is_meant in (False, True):
            started, taken = count_service_calls(program, library, is_meant)
            tell.expect("a service has calls at its start, and while it takes a table", (started > 5, taken > started + 10), (True, True))
            tried = list(pool.map(lambda number: cut_service(program, library, number, is_meant), range(1, taken + 1)))
            for rows, _ in tried:
                for row in rows:
                    tell.expect(*row)
            # (how often it is connected to differs from run to run, so the last calls may not come)
            tell.expect("most services came to the call before which they are cut", sum(is_cut for _, is_cut in tried) > started + (taken - started) // 2, True)


def count_service_calls(program, library, is_meant):
    """How many calls a service does until it serves, and until it has taken a table."""
    with Room(program) as room, tempfile.TemporaryFile() as counted:
        def count():
            return struct.unpack("l", os.pread(counted.fileno(), 8, 0))[0]

        room.write("meant", f'changed: <Multi_key> <U{LAST:04X}> <b> "x" "y"\n')
        room.next_table()
        room.update("table")
        room.start("--fresh", "", pass_to=counted.fileno(), LD_PRELOAD=library, COUNT_TO=str(counted.fileno()))
        started = count()
        room.next_table("y" if is_meant else "x")
        room.update("table", *(["--accept", "meant"] if is_meant else []))
        return started, count()


def try_full_disk(program, tell):
    """A load that can't be stored is refused, and the service types its table; with room again it goes through. So it is of a table that is
    meant, and of an update without a service."""
    space = (2, "", "composecheck: state/table: can't be written: no space left\n")
    with tempfile.TemporaryDirectory() as folder:
        library = compile_library(folder)
        for call in ("open", "write", "fsync", "rename"):
            with Room(program) as room:
                given = {"LD_PRELOAD": library, "FAIL": call, "FULL": room.path("full")}
                if call != "fsync":
                    room.write("full", "")
                    room.write("none", "")
                    made = room.run("make", "-f", "-o", "certificate", "old", "follows", "none", **given)
                    tell.expect(f"a certificate that can't be written: {call}", made, (2, "", "composecheck: certificate: can't be written: no space left\n"))
                    tell.expect(f"no part of it is left: {call}", [it for it in os.listdir(room.folder) if it.startswith("certificate")], [])
                    os.unlink(room.path("full"))
                room.next_table()
                room.update("table")
                room.start("--fresh", "", **given)
                room.grown()
                kept = room.kept()
                room.write("full", "")
                room.next_table()
                tell.expect(f"a load that can't be stored: {call}", room.update("table")[0], 1)
                tell.expect(f"its line: {call}", room.lines()[-1], "load refused: it can't be stored: no storage space")
                tell.expect(f"what is kept then: {call}", room.kept(), kept)
                tell.expect(f"what is typed then: {call}", found(room.typed, UNICODE + LAST, 0x62), "x")
                os.unlink(room.path("full"))
                room.count -= 1
                tell.expect(f"with room again: {call}", room.grown(), True)
                room.next_table("y")
                room.write("meant", f'changed: <Multi_key> <U{LAST:04X}> <b> "x" "y"\n')
                room.write("full", "")
                kept = room.kept()
                if call != "fsync":
                    got = room.update("table", "--accept", "meant", **given)
                    tell.expect(f"a table that is meant can't be written: {call}", got, (2, "", "composecheck: state/next: can't be written: no space left\n"))
                tell.expect(f"the table in use stays: {call}", (room.kept(), room.is_running()), (kept, True))
                os.unlink(room.path("full"))
                tell.expect(f"a table that is meant, with room again: {call}", room.update("table", "--accept", "meant"), (0, "stored\n", TAKEN))
                room.end()
                room.next_table("y")
                room.write("full", "")
                kept = room.kept()
                tell.expect(f"without a service: {call}", room.update("table", **given), space)
                tell.expect(f"the table in use stays without a service: {call}", room.kept(), kept)
                os.unlink(room.path("full"))
                tell.expect(f"without a service, with room again: {call}", room.update("table"), (0, "stored\n", ""))


def try_order(program, tell):
    """What is written is on the disk before it takes the place of what was there, and that is on the disk before it is answered."""
    stores = ["open state/table.new", "write", "fsync", "link", "rename", "rename", "fsync"]
    hands_over = ["open state/next.new", "write", "fsync", "rename", "fsync"]
    with tempfile.TemporaryDirectory() as folder, tempfile.TemporaryFile() as traced, Room(program) as room:
        library, number, seen = compile_library(folder), str(traced.fileno()), 0

        def calls(*others):
            """The calls since the last time that change files, and these others."""
            nonlocal seen
            data = os.pread(traced.fileno(), 1 << 20, seen)
            seen += len(data)
            lines = [it.strip() for it in data.decode().splitlines()]
            return [it for it in lines if it.split()[0] in ("write", "fsync", "link", "rename", *others) or it.startswith("open state/") and it.endswith(".new")]

        room.write("meant", f'changed: <Multi_key> <U{LAST:04X}> <b> "x" "y"\n')
        room.next_table()
        room.update("table")
        room.next_table()
        room.update("table", pass_to=traced.fileno(), LD_PRELOAD=library, TRACE_TO=number)
        tell.expect("the calls of an update", calls(), [*stores, "write"])
        room.start(pass_to=traced.fileno(), LD_PRELOAD=library, TRACE_TO=number)
        calls()
        room.next_table()
        room.update("table")
        sent = calls("send")
        tell.expect("the calls of a service that takes a load", [it for it in sent[: sent.index("send") + 1] if it != "write"], [it for it in [*stores, "send"] if it != "write"])
        room.start()
        calls()
        room.next_table("y")
        room.update("table", "--accept", "meant", pass_to=traced.fileno(), LD_PRELOAD=library, TRACE_TO=number)
        tell.expect("the calls of an update that hands a table over", calls()[: len(hands_over)], hands_over)


def try_no_previous(program, tell):
    """A table that can't be kept as the one before the next is no reason to refuse the next; none is kept then."""
    with tempfile.TemporaryDirectory() as folder, Room(program) as room:
        library = compile_library(folder)
        for _ in range(2):
            room.next_table()
            room.update("table")
        room.start(LD_PRELOAD=library, FAIL="link", FULL=room.path("full"))
        room.write("full", "")
        tell.expect("a load where no link can be made", room.grown(), True)
        tell.expect("no older table is taken for the one before", (room.kept("previous"), room.update("--back")[0]), (None, 2))
        os.unlink(room.path("full"))
        tell.expect("a load where one can be made", (room.grown(), room.kept("previous")), (True, [table(3)]))


def main():
    program, all_of_them = os.path.abspath(sys.argv[1]), Results()
    parts = [it for name, it in globals().items() if name.startswith("try_") and (name.removeprefix("try_") in sys.argv[2:] or not sys.argv[2:])]

    def tried(part):
        tell = Results()
        part(program, tell)
        return tell

    with concurrent.futures.ThreadPoolExecutor(4) as pool:
        for tell in pool.map(tried, parts):
            all_of_them.passed += tell.passed
            all_of_them.failed += tell.failed
    return all_of_them.end()


if __name__ == "__main__":
    sys.exit(main())
