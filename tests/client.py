#!/usr/bin/env python3
"""client.py PROGRAM: the C library of clients: its example, compiled here where there is a compiler, types by a service that is started again
in the middle of a sequence; replies that come in pieces of any size; clients of any numbers. PROGRAM serves. The last line is `N passed, M failed`."""
import ctypes
import os
import random
import shutil
import struct
import subprocess
import sys
import tempfile

from harness import CLIENT_LIBRARY, TOP, Results
from typing_service import TypingService

sys.path[:0] = [os.path.join(TOP, "share", "composecheck"), os.path.join(TOP, "lib")]
import build_library
import composecheck_typing as binding

ACUTE, MULTI, APOSTROPHE, SHIFT, E, X = 0xFE51, 0xFF20, 0x27, 0xFFE1, 0x65, 0x78
FIRST = "press", "connected", "lose", "time_out", "erase", "close"
SEED = 7


# ---- the example

def compiled(folder):
    """The example as a program."""
    program = os.path.join(folder, "client")
    words = [*build_library.WARNINGS, f"-I{TOP}/lib", f"{TOP}/lib/examples/client.c", CLIENT_LIBRARY, f"-Wl,-rpath,{os.path.dirname(CLIENT_LIBRARY)}", "-o", program]
    subprocess.run([build_library.compiler(), *words], check=True)
    return program


def check_example(service, results):
    if not shutil.which(build_library.compiler()):
        print("no C compiler here: the example is not tried")
        return
    with tempfile.TemporaryDirectory(prefix="client-") as folder:
        program = compiled(folder)
        ran = subprocess.run([program, os.path.join(folder, "none"), hex(E)], capture_output=True, text=True, timeout=60)
        results.expect("without a service", (ran.stdout, ran.stderr), ('pass ""\n', ""))
        service.start("old")
        keysyms = [hex(it) for it in (ACUTE, SHIFT, E, X, MULTI, APOSTROPHE, E, ACUTE, X)]
        ran = subprocess.run([program, service.socket, *keysyms], capture_output=True, text=True, timeout=60)
        wanted = ["take", "pass", "commit", "pass", "take", "take", "commit", "take", "take"]
        results.expect("the verdicts of the example", ([it.split()[0] for it in ran.stdout.splitlines()], ran.stderr), (wanted, ""))
        results.expect("its texts", [it.split()[1] for it in ran.stdout.splitlines() if it.startswith("commit")], ['"é"', '"ⓔ"'])


# ---- the library alone

class Machine:
    """A client of the library, and its action at each event."""

    def __init__(self):
        self.library = binding._library
        self.client, self.action, self.answer = binding._Client(), binding._Action(), binding._Answer()

    def event(self, name, *words):
        getattr(self.library, f"composecheck_client_{name}")(self.client, *words, self.action)
        return self.read_action()

    def receive(self, piece):
        """Its action at each reply that the piece makes whole."""
        used, actions = ctypes.c_size_t(), []
        while self.library.composecheck_client_receive(self.client, piece, len(piece), used, self.action, self.answer):
            piece = piece[used.value:]
            actions.append(self.read_action())
            if self.action.kind in (binding.ABANDON, binding.CLOSE):
                return actions, b""
        return actions, piece[used.value:]

    def read_action(self):
        action = self.action
        content = bytes(action.bytes[: action.byte_count]) if action.kind == binding.SEND else b""
        if action.kind == binding.VERDICT:
            content = (action.verdict, bytes(action.text[: action.text_length]) if action.verdict == 2 else b"")
        return action.kind, content

    def pending(self):
        keysyms = (ctypes.c_uint32 * 31)()
        return keysyms[: self.library.composecheck_client_pending(self.client, keysyms)]


def frame(kind, session, payload=b""):
    return struct.pack(">BII", kind, session, len(payload)) + payload


# The replies to a dead key and a letter in session 9, and what is done at each of them.
REPLIES = [frame(0x81, 9), frame(0x83, 9), frame(0x82, 9, b"\1\1"), frame(0x86, 9, b"\1\1" + struct.pack(">I", ACUTE)), frame(0x82, 9, b"\2\1" + "é".encode()), frame(0x86, 9, b"\2\0")]
RESET = frame(3, 9)


def key(keysym):
    return frame(2, 9, struct.pack(">I", keysym)) + frame(6, 9)


def check_pieces(results):
    """However the bytes are cut, the actions at each reply are the same."""
    chance = random.Random(SEED)
    for count in range(300):
        machine, actions = Machine(), []
        actions += [machine.event("press", ACUTE), machine.event("connected", 9)]
        for replies in (REPLIES[:4], REPLIES[4:]):
            left = b"".join(replies)
            while left:
                size = len(left) if count == 0 else chance.randrange(1, 12)
                got, rest = machine.receive(left[:size])
                actions, left = actions + got, left[size:]
                if rest:
                    results.expect("bytes that were not taken", rest, b"")
            actions.append(machine.event("press", E))
        wanted = [(2, b""), (1, frame(1, 9)), (1, RESET + key(ACUTE)), (0, b""), (0, b""), (3, (1, b"")), (1, key(E)), (0, b""), (3, (2, "é".encode())), (1, key(E))]
        if actions != wanted or count == 0:
            results.expect("the actions at replies in pieces", actions, wanted)


def check_lost(results):
    """A key whose connection is lost after any of its replies counts once: its session is reset before."""
    for read in range(2):
        machine = Machine()
        machine.event("press", ACUTE)
        machine.event("connected", 9)
        machine.receive(b"".join(REPLIES[:4]))
        machine.event("press", E)
        machine.receive(b"".join(REPLIES[4 : 4 + read]))
        actions = [machine.event("lose"), machine.event("connected", 10), *machine.receive(frame(0xFF, 9, b"\0\1"))[0]]
        results.expect("what is sent after a lost connection", actions, [(2, b""), (1, frame(1, 9)), (1, RESET + key(ACUTE)[:13] + key(E))])
        results.expect("a second loss", (machine.event("lose"), machine.pending()), ((4, b""), []))


def check_closed(results):
    """A session that another client closed is opened again, with what was pending."""
    machine = Machine()
    machine.event("press", ACUTE)
    machine.event("connected", 9)
    machine.receive(b"".join(REPLIES[:4]))
    machine.event("press", E)
    actions = [*machine.receive(frame(0xFF, 9, b"\0\2"))[0], machine.event("connected", 10), *machine.receive(REPLIES[0])[0]]
    results.expect("a session that is not open", actions, [(2, b""), (1, frame(1, 9)), (1, RESET + key(ACUTE)[:13] + key(E))])


def check_any_numbers(results):
    """Any numbers are a client, and any bytes may come."""
    chance, wrong = random.Random(SEED), 0
    for _ in range(3000):
        machine = Machine()
        size = ctypes.sizeof(machine.client)
        ctypes.memmove(ctypes.byref(machine.client), chance.randbytes(size), size)
        machine.client.stage.number = chance.randrange(9)
        if chance.random() < 0.5:
            machine.client.held_count, machine.client.count = chance.randrange(268), chance.randrange(33)
        for _ in range(5):
            name = chance.choice(FIRST)
            machine.event(name, *([chance.getrandbits(32)] if name in FIRST[:2] else []))
            machine.receive(chance.choice([chance.randbytes(chance.randrange(700)), *REPLIES]))
            machine.library.composecheck_client_drop(machine.client)
            wrong += len(machine.pending()) > 31 or machine.action.kind > 5
    results.expect("clients of any numbers", wrong, 0)


def main():
    results = Results()
    for check in (check_pieces, check_lost, check_closed, check_any_numbers):
        check(results)
    with TypingService(sys.argv[1]) as service:
        check_example(service, results)
    return results.end()


if __name__ == "__main__":
    sys.exit(main())
