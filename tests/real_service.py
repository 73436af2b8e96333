#!/usr/bin/env python3
"""real_service.py PROGRAM [SEED]: serves the table of en_US.UTF-8 that Debian ships to sessions of random keys, and loads other tables
while many of them stand in the middle of a sequence (not part of the gate).

Every text is compared with what libxkbcommon types with the first table, which it is promised to be. The seed is printed, so that a run
can be made again. It needs libx11-data and libxkbcommon0. The last line is `N passed, M failed`."""
import collections
import ctypes
import os
import random
import subprocess
import sys
import tempfile
import time

import key_streams
import reference
import real
from service import Serving, composecheck_client

SESSIONS, KEYS_BETWEEN_LOADS, MOST_SESSIONS = 1_000, 40, 4_096
GREEK = os.path.join(real.LOCALES, "el_GR.UTF-8", "Compose")
# A dead key that no sequence of the first table begins with or holds.
NEW_KEY, NEW_KEY_NAME = 0xFE90, "dead_lowline"
MULTI_KEY, F1, F2 = 0xFF20, 0xFFBE, 0xFFBF
LETTERS = "abcdefghijklmnopqrst"


def read(path):
    with open(path, "rb") as file:
        return file.read()


class Library:
    """libxkbcommon with one table."""

    def __init__(self, text):
        self.code = ctypes.CDLL("libxkbcommon.so.0")
        for name in ("xkb_context_new", "xkb_compose_table_new_from_buffer", "xkb_compose_state_new"):
            getattr(self.code, name).restype = ctypes.c_void_p
        context = ctypes.c_void_p(self.code.xkb_context_new(0))
        self.table = ctypes.c_void_p(self.code.xkb_compose_table_new_from_buffer(context, text, ctypes.c_size_t(len(text)), b"en_US.UTF-8", 1, 0))
        assert self.table.value, "libxkbcommon refuses the table"

    def typist(self):
        return Typist(self)


class Typist:
    """A compose state of libxkbcommon."""

    def __init__(self, library):
        self.code = library.code
        self.state = ctypes.c_void_p(self.code.xkb_compose_state_new(library.table, 0))
        self.room = ctypes.create_string_buffer(256)

    def feed(self, keysym):
        """Whether the key was accepted, the status, and the text of a sequence that ended."""
        accepted = self.code.xkb_compose_state_feed(self.state, ctypes.c_uint32(keysym)) == 1
        status = composecheck_client.STATUSES[self.code.xkb_compose_state_get_status(self.state)]
        text = ""
        if accepted and status == "composed":
            self.code.xkb_compose_state_get_utf8(self.state, self.room, ctypes.c_size_t(len(self.room)))
            text = self.room.value.decode()
        return accepted, status, text

    def reset(self):
        self.code.xkb_compose_state_reset(self.state)


class Tables:
    """Tables as files, and the certificates that the program makes for loads of them."""

    def __init__(self, program):
        self.program, self.room = program, tempfile.TemporaryDirectory()
        self.write("names", read(reference.HEADER) + read(real.SHORT_NAMES))
        self.write("repertoire", b"")

    def write(self, name, content):
        with open(os.path.join(self.room.name, name), "wb") as file:
            file.write(content)

    def manifest(self, name, text):
        self.write(name, text)
        self.write(f"{name}.manifest", f"root\t{name}\n".encode())
        return f"{name}.manifest"

    def certificate(self, old, new, *options):
        """The certificate for a load of one table where the other one is in use."""
        words = [self.program, "make", "--names", "names", *options, self.manifest("old", old), self.manifest("new", new), "repertoire"]
        made = subprocess.run(words, cwd=self.room.name, capture_output=True)
        assert made.returncode == 0, made.stdout.decode() + made.stderr.decode()
        return made.stdout

    def serve(self, table):
        """A service that begins with the table."""
        return Serving(self.program, table=table, certificate=self.certificate(table, table), options=["--names", f"{self.room.name}/names"])


def lines(*events_and_texts):
    return "".join(f'{events} : "{text}"\n' for events, text in events_and_texts).encode()


def with_key(table, name):
    """The table with twenty more sequences, all of which go through a key at which it cancels."""
    return table + lines(*((f"<Multi_key> <{name}> <{letter}>", f"{name}{letter}") for letter in LETTERS))


def with_new_key(table):
    """The table with twenty more sequences that begin with a key which it does not know."""
    return table + lines(*((f"<{NEW_KEY_NAME}> <{letter}>", f"{letter}\u0332") for letter in LETTERS))


def fed(client, session, keysyms):
    """The texts of the keys, joined."""
    return "".join(client.key(session, it).text for it in keysyms)


# ---- sessions of random keys

class Crowd:
    """Sessions that type random keys, each beside libxkbcommon."""

    def __init__(self, client, library, parts, results):
        self.client, self.parts, self.results = client, parts, results
        self.given = real.header_characters()
        self.typists = [library.typist() for _ in range(SESSIONS)]
        self.left = [collections.deque() for _ in range(SESSIONS)]
        self.counts = collections.Counter()
        for session in range(SESSIONS):
            client.open(session)

    def press(self, session):
        """Types one key: the wrong answer, if there is one. A session whose typist cancelled is put to rest: nothing is promised of it."""
        while not self.left[session]:
            self.left[session].extend(next(self.parts))
        keysym = self.left[session].popleft()
        accepted, status, text = self.typists[session].feed(keysym)
        got = self.client.key(session, keysym)
        self.counts[status] += 1
        if status == "cancelled":
            self.typists[session].reset()
            self.client.reset(session)
            return None
        if accepted and status == "nothing":
            text = real.own_text(keysym, self.given)
        right = got.text == text and got.accepted == accepted and (got.status == "composing") == (status == "composing")
        return None if right else (session, hex(keysym), got, (accepted, status, text))

    def type(self, what, chance):
        """Every session types some keys, in an order of chance."""
        order = [session for session in range(SESSIONS) for _ in range(KEYS_BETWEEN_LOADS)]
        chance.shuffle(order)
        wrong = [it for it in map(self.press, order) if it]
        self.results.expect(f"{len(order)} keys {what}", not wrong, wrong[:3])

    def asked(self):
        return [self.client.ask(session) for session in range(SESSIONS)]

    def in_the_middle(self):
        return sum(1 for it in self.asked() if it.pending)


def check_refusal(crowd, certificate):
    """The Greek table types other texts: no load of it is accepted, and every session stays where it is."""
    before = crowd.asked()
    try:
        answer = crowd.client.load([("root", read(GREEK))], certificate)
    except composecheck_client.VerdictNo:
        answer = "refused"
    crowd.results.expect("the Greek table is refused", answer == "refused", answer)
    after = crowd.asked()
    crowd.results.expect("each session stays as it was", after == before, [pair for pair in zip(before, after) if pair[0] != pair[1]][:3])


def check_load(crowd, what, count, table, certificate):
    """A load in the middle of sequences is accepted."""
    middle = crowd.in_the_middle()
    crowd.results.expect(f"many sessions in the middle of a sequence before {what}", middle > SESSIONS // 10, middle)
    print(f"{what}: {middle} of {SESSIONS} sessions in the middle of a sequence")
    crowd.results.expect(what, crowd.client.load([("root", table)], certificate) == count, "another number")


def check_crowd(tables, library, chance, results):
    """Three loads of greater tables, one of them by a new key, and one of a table that differs, while a thousand sessions type."""
    first = read(real.ENGLISH)
    second = with_key(first, "F1")
    third = with_key(second, "F2")
    fourth = with_new_key(third)
    itself = tables.certificate(first, first)
    parts = key_streams.random_parts(reference.sequences(real.ENGLISH, reference.header_values()), chance)
    with tables.serve(first) as service, service.client() as client:
        crowd = Crowd(client, library, parts, results)
        crowd.type("before any load", chance)
        check_load(crowd, "a load of twenty more sequences", 1, second, tables.certificate(first, second))
        crowd.type("after a load", chance)
        check_refusal(crowd, itself)
        crowd.type("after a refused load", chance)
        check_load(crowd, "a load of twenty others", 2, third, tables.certificate(second, third))
        crowd.type("after two loads", chance)
        check_load(crowd, "a load of twenty that begin with a new key", 3, fourth, tables.certificate(third, fourth, "--fresh", NEW_KEY_NAME))
        crowd.type("after three loads", chance)
        client.open(SESSIONS)
        for place, letter in enumerate(LETTERS):
            keysyms = ([MULTI_KEY, F1, ord(letter)], [MULTI_KEY, F2, ord(letter)], [NEW_KEY, ord(letter)])
            texts = [fed(client, SESSIONS, it) for it in keysyms]
            results.expect(f"the new sequences of place {place}", texts == [f"F1{letter}", f"F2{letter}", f"{letter}\u0332"], texts)
    print("keys by what libxkbcommon said: " + ", ".join(f"{count} {status}" for status, count in sorted(crowd.counts.items())))


# ---- a load in the middle of a sequence

def check_sequences(tables, library, chance, results):
    """As many sessions as there can be, each in the middle of another sequence of the table, when twenty more sequences are loaded."""
    first = read(real.ENGLISH)
    more = with_key(first, "F1")
    every = [it for it in reference.sequences(real.ENGLISH, reference.header_values()) if len(it) > 1]
    chosen = chance.sample(every, min(MOST_SESSIONS, len(every)))
    cuts = [chance.randrange(1, len(keysyms)) for keysyms in chosen]
    with tables.serve(first) as service, service.client() as client:
        for session, (keysyms, cut) in enumerate(zip(chosen, cuts)):
            client.open(session)
            fed(client, session, keysyms[:cut])
        certificate = tables.certificate(first, more)
        start = time.monotonic()
        results.expect("a load in the middle of all these", client.load([("root", more)], certificate) == 1, "another number")
        print(f"a load with {len(chosen)} sessions in the middle of a sequence: {(time.monotonic() - start) * 1000:.1f} ms")
        wrong = []
        for session, (keysyms, cut) in enumerate(zip(chosen, cuts)):
            typist = library.typist()
            wanted = "".join(typist.feed(it)[2] for it in keysyms)
            got = fed(client, session, keysyms[cut:])
            if got != wanted or not wanted:
                wrong.append((list(map(hex, keysyms)), cut, got, wanted))
        results.expect(f"the texts of {len(chosen)} sequences with a load in their middle", not wrong, wrong[:3])
        for letter in LETTERS:
            results.expect(f"the new sequence of {letter}", fed(client, 0, [MULTI_KEY, F1, ord(letter)]) == f"F1{letter}", letter)


def main():
    if not os.path.exists(real.ENGLISH):
        print(f"{real.ENGLISH} is missing: install it with `apt-get install libx11-data`")
        return 2
    seed = int(sys.argv[2]) if len(sys.argv) > 2 else random.randrange(1 << 32)
    print(f"seed {seed}")
    results, tables, library = real.Results(), Tables(os.path.abspath(sys.argv[1])), Library(read(real.ENGLISH))
    check_crowd(tables, library, random.Random(seed), results)
    check_sequences(tables, library, random.Random(seed), results)
    print(f"{results.passed} passed, {results.failed} failed")
    return 1 if results.failed else 0


if __name__ == "__main__":
    sys.exit(main())
