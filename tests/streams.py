#!/usr/bin/env python3
"""streams.py PROGRAM [COUNT]: random streams over the socket of `composecheck serve`, against a second reading of the frames.

A stream is frames, damaged frames and noise, each sent over a connection of its own and cut into pieces by chance. The service has an
empty table, so what it answers is worked out here in a few lines: keys give their own text, and only loads of an empty table are
accepted: a bundle is whole or not one. COUNT is 5,000 if none is given; `make real` sends 100,000. The last line is `N passed, M failed`."""
import os
import random
import socket
import struct
import subprocess
import sys
import tempfile
import threading
import time

from reference import own_text

SEED = 20
MOST_CONNECTIONS = 65_535
MOST_PAYLOAD = 8_388_608
CERTIFICATE = b"compose-certificate 1\nbound 0\npairs 1\n0 0\ntypings 0\n"
BUNDLE = b"\x00\x01\x00\x01r" + bytes(4) + struct.pack(">I", len(CERTIFICATE)) + CERTIFICATE
IGNORED = [*range(0xFE01, 0xFE14), 0xFF7E, 0xFF7F, *range(0xFFE1, 0xFFEF)]
# Keys of each kind: those of Latin-1, of the keypad and by a character's number, ignored ones, a dead key, and any number.
KEYSYMS = [range(0x20, 0x100), range(0xFF80, 0xFFC0), range(0x1000000, 0x1120000), IGNORED, [0xFE51], range(1 << 32)]
OPEN, KEY, RESET, CLOSE, LOAD, ASK, LOAD_LONGEST = range(1, 8)


def frame(kind, session, payload=b""):
    return struct.pack(">BII", kind, session, len(payload)) + payload


def refused(session, code):
    return frame(0xFF, session, struct.pack(">H", code))


class Service:
    """The service machine on an empty table: no session ever composes or cancels."""

    def __init__(self):
        self.sessions = set()
        self.loads = 0

    def key(self, session, keysym):
        if keysym > 0x1FFFFFFF:
            return refused(session, 4)
        if keysym in IGNORED:
            return frame(0x82, session, b"\x00\x00")
        return frame(0x82, session, b"\x00\x01" + own_text(keysym).encode())

    def load(self, session, payload):
        if payload != BUNDLE:
            return refused(session, 5)
        self.loads += 1
        return frame(0x85, session, struct.pack(">Q", self.loads))

    def answer(self, kind, session, payload):
        if kind in (LOAD, LOAD_LONGEST):
            return self.load(session, payload)
        if kind == OPEN:
            if session in self.sessions:
                return refused(session, 1)
            if len(self.sessions) >= 4096:
                return refused(session, 3)
            self.sessions.add(session)
            return frame(0x81, session)
        if session not in self.sessions:
            return refused(session, 2)
        if kind == KEY:
            return self.key(session, struct.unpack(">I", payload)[0])
        if kind == CLOSE:
            self.sessions.remove(session)
        return {RESET: frame(0x83, session), CLOSE: frame(0x84, session), ASK: frame(0x86, session, b"\x00\x00")}[kind]


def is_faulty(stream):
    """Whether the next frame of these bytes is faulty."""
    if stream and stream[0] not in range(1, 8):
        return True
    if len(stream) < 9:
        return False
    kind, _, size = struct.unpack(">BII", stream[:9])
    return size > MOST_PAYLOAD if kind in (LOAD, LOAD_LONGEST) else size != (4 if kind == KEY else 0)


def expected(service, stream):
    """The bytes of all replies, and how the stream ends."""
    replies = []
    while stream:
        if is_faulty(stream):
            return b"".join(replies) + refused(0, 10), "malformed"
        kind, session, size = struct.unpack(">BII", stream[:9]) if len(stream) >= 9 else (0, 0, 0)
        if len(stream) < 9 + size:
            return b"".join(replies), "fault 3 Cut"
        replies.append(service.answer(kind, session, stream[9:9 + size]))
        stream = stream[9 + size:]
    return b"".join(replies), "ended"


def random_frame(chance):
    session = chance.randrange(6)
    kind = chance.randrange(1, 8)
    if kind == KEY:
        keysym = chance.choice(chance.choice(KEYSYMS))
        return frame(kind, session, struct.pack(">I", keysym))
    if kind in (LOAD, LOAD_LONGEST):
        cut = chance.choice([len(BUNDLE), chance.randrange(len(BUNDLE)), 0])
        return frame(kind, session, BUNDLE[:cut] + chance.choice([b"", b"", b"\n"]))
    return frame(kind, session)


def random_stream(chance):
    """Some frames, at times with noise after them, cut, or with a byte changed outside of a bundle."""
    stream, places = bytearray(), []
    for _ in range(chance.randrange(12)):
        sent = random_frame(chance)
        size = 9 if sent[0] in (LOAD, LOAD_LONGEST) else len(sent)
        places += range(len(stream), len(stream) + size)
        stream += sent
    damage = chance.randrange(5)
    if damage == 0:
        stream += chance.randbytes(chance.randrange(20))
    if damage == 1 and stream:
        stream[chance.choice(places)] = chance.randrange(256)
    if damage == 2 and stream:
        del stream[chance.randrange(len(stream)):]
    return bytes(stream)


def connect(path):
    for _ in range(1000):
        connection = socket.socket(socket.AF_UNIX, socket.SOCK_STREAM)
        try:
            connection.connect(path)
            return connection
        except OSError:
            connection.close()
            time.sleep(0.01)
    raise SystemExit("no socket")


def cut_by_chance(stream, chance):
    """The stream in pieces, cut by chance."""
    pieces = []
    while stream:
        size = chance.randrange(1, len(stream) + 1)
        pieces.append(stream[:size])
        stream = stream[size:]
    return pieces


def converse(path, pieces):
    """Sends the pieces of a stream, ends its side, and gives what comes back. A faulty frame may end the connection early."""
    got = []
    with connect(path) as connection:
        try:
            for piece in pieces:
                connection.sendall(piece)
            connection.shutdown(socket.SHUT_WR)
        except OSError:
            pass
        try:
            while piece := connection.recv(65_536):
                got.append(piece)
        except ConnectionResetError:
            pass
    return b"".join(got)


def check_all(path, chance, count):
    """How many streams got other replies, and how each of them should end."""
    service = Service()
    failed, ends = 0, []
    for number in range(count):
        stream = random_stream(chance)
        replies, end = expected(service, stream)
        ends.append(end)
        got = converse(path, cut_by_chance(stream, chance))
        if got != replies:
            failed += 1
            print(f"stream {number}: sent {stream.hex()}, got {got.hex()}, not {replies.hex()}")
    return failed, ends


def serve(program, chance, count):
    """Starts the program for this many connections, and how many of them go wrong."""
    with tempfile.TemporaryDirectory() as folder:
        files = {"table": b"r\tempty\n", "empty": b"", "repertoire": b"", "certificate": CERTIFICATE}
        for name, content in files.items():
            with open(os.path.join(folder, name), "wb") as file:
                file.write(content)
        words = [program, "serve", "table", "repertoire", "certificate", "socket", str(count)]
        with subprocess.Popen(words, cwd=folder, stdout=subprocess.PIPE, text=True) as child:
            assert child.stdout.readline() == "listening\n"
            # (a line for each connection is more than a pipe holds)
            printed = []
            printing = threading.Thread(target=printed.extend, args=(child.stdout,))
            printing.start()
            failed, ends = check_all(os.path.join(folder, "socket"), chance, count)
            printing.join()
    wanted = [f"connection {number}: {end}\n" for number, end in enumerate(ends, 1)]
    wrong = [f"printed {line!r}, not {want!r}" for line, want in zip(printed, wanted) if line != want]
    print("".join(f"{it}\n" for it in wrong), end="")
    return failed + len(wrong) + abs(len(printed) - len(wanted))


def main():
    chance = random.Random(SEED)
    left = int(sys.argv[2]) if len(sys.argv) > 2 else 5_000
    total, failed = left, 0
    while left:
        count = min(left, MOST_CONNECTIONS)
        failed += serve(os.path.abspath(sys.argv[1]), chance, count)
        left -= count
    print(f"{total - min(failed, total)} passed, {failed} failed")
    return 1 if failed else 0


if __name__ == "__main__":
    sys.exit(main())
