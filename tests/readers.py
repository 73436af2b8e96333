#!/usr/bin/env python3
"""readers.py PROGRAM [TABLES] [KEYS] [SEED]: types in other readers of Compose files, and compares what they make of tables with what the program types
and what `lint` says of them (not part of the gate).

On each UTF-8 table of the system libX11 types KEYS random keys, 50,000 if none are given, and has to do what `type` does; GTK 3, GTK 4 and IBus type each
sequence from rest. What `lint` says that GTK loses it has to lose; what it loses beyond that is counted. On TABLES random changed tables, 100,000 if none
are given, libxkbcommon and libX11 have to type what the table gives without the lines that `lint` calls lost, and with the texts that it calls other ones;
that is worked out here, and on some of the tables compared with `type`. On a tenth as many tables with faulty lines libxkbcommon has to type what
`type --skip-faulty` does. The seed is printed.

Each reader is a program in C (`readers/`). One whose packages aren't there is skipped. The last line is `N passed, M failed`, and what was skipped."""
import collections
import contextlib
import os
import random
import re
import shutil
import subprocess
import sys
import tempfile

import changed
import key_streams
import real
import reference
import skipping
from harness import Results

SOURCES = os.path.join(os.path.dirname(os.path.abspath(__file__)), "readers")
SEED = 7
# This number of random tables is typed at once; of this number of tables one is compared with `type`; and this number of random keys is pressed on each.
BATCH, CHECKED, KEYS_A_TABLE = 500, 100, 40
# Of tables with faulty lines one of this number is compared with `type`.
FAULTY_CHECKED = 5
# As many keys are given to one run of `type`.
PART = 25_000
# The program of each reader, the names by which pkg-config knows its libraries, and the packages that it needs.
PROGRAMS = {"libX11": "x11", "libxkbcommon": "xkbcommon", "gtk3": "gtk3", "gtk4": "gtk4", "ibus": "ibus"}
LIBRARIES = {"libX11": ["x11"], "libxkbcommon": ["xkbcommon"], "gtk3": ["gtk+-3.0"], "gtk4": ["gtk4", "x11"], "ibus": ["ibus-1.0"]}
PACKAGES = {"libX11": "libx11-dev", "libxkbcommon": "libxkbcommon-dev", "gtk3": "libgtk-3-dev", "gtk4": "libgtk-4-dev", "ibus": "libibus-1.0-dev"}
ON_DISPLAY = {"libX11", "gtk3", "gtk4"}
# What libX11 does where `type` has this status.
WORDS = {"ignored": "passed", "nothing": "passed", "composing": "filtered", "cancelled": "filtered", "composed": "committed"}
FOUND = re.compile(r"(.*):(\d+):1: (libX11|libxkbcommon|gtk3|gtk4): (.*)")
LETTER = "of the escapes \\n, \\r and \\t the letter is typed"
CUT = "the text is cut, as it has a byte 0"


def pkg_config(*words):
    """What pkg-config prints, or nothing where it fails or isn't there."""
    if shutil.which("pkg-config") is None:
        return ""
    return subprocess.run(["pkg-config", *words], stdout=subprocess.PIPE, stderr=subprocess.DEVNULL, text=True, check=False).stdout.strip()


def missing_packages(name):
    """The packages that a reader needs and that aren't there."""
    missing = [] if pkg_config("--modversion", *LIBRARIES[name]) else [PACKAGES[name]]
    return missing + ["xvfb"] if name in ON_DISPLAY and shutil.which("Xvfb") is None else missing


class Readers:
    """The programs of the readers that are there, on a display of their own."""

    def __init__(self, folder, display_name):
        self.folder, self.display, self.skipped, self.built = folder, display_name, [], {}
        for name in PROGRAMS:
            missing = missing_packages(name)
            if missing:
                print(f"{name} is skipped: install {' and '.join(missing)}", flush=True)
                self.skipped.append(name)
            else:
                self.build(name)

    def build(self, name):
        """Builds the program of a reader."""
        self.built[name] = os.path.join(self.folder, PROGRAMS[name])
        flags = pkg_config("--cflags", "--libs", *LIBRARIES[name]).split()
        subprocess.run(["cc", "-O2", "-o", self.built[name], os.path.join(SOURCES, f"{PROGRAMS[name]}.c"), *flags], check=True)
        print(f"{name} {pkg_config('--modversion', LIBRARIES[name][0])}", flush=True)

    def type(self, name, steps):
        """What a reader makes of the keys of these steps: a word and a text for each."""
        environment = {"PATH": os.environ["PATH"], "HOME": self.folder, "XDG_CACHE_HOME": self.folder, "LANG": "C.UTF-8", "GDK_BACKEND": "x11"}
        environment |= {"DISPLAY": self.display or "", "NO_AT_BRIDGE": "1", "GTK_A11Y": "none", "GSK_RENDERER": "cairo"}
        ran = subprocess.run([self.built[name]], input="".join(it + "\n" for it in steps).encode(), env=environment, capture_output=True, check=True)
        return [tuple(line.split(b" ", 1)) for line in ran.stdout.split(b"\n")[:-1]]


@contextlib.contextmanager
def display():
    """The name of the display of an X server without a screen, or nothing where there is no server."""
    if shutil.which("Xvfb") is None:
        yield None
        return
    reading, writing = os.pipe()
    command = ["Xvfb", "-displayfd", str(writing), "-screen", "0", "64x64x8", "-nolisten", "tcp", "-noreset"]
    with subprocess.Popen(command, pass_fds=[writing], stdout=subprocess.DEVNULL, stderr=subprocess.DEVNULL) as server:
        os.close(writing)
        try:
            with open(reading, encoding="ascii") as printed:
                yield ":" + printed.readline().strip()
        finally:
            server.terminate()


def press(keys):
    """The steps that press these keys."""
    return [f"{key:x}" for key in keys]


# ---- the program


def typed(program, path, keys):
    """The status at each key on a table, and the text that a sequence commits there, in quotes."""
    with tempfile.NamedTemporaryFile("w", suffix=".manifest") as manifest:
        printed = subprocess.run([program, "manifest", "--system", real.LOCALES, "--locale", "en_US.UTF-8", path], capture_output=True, text=True, check=True)
        manifest.write(f"overlap longest\n{printed.stdout}")
        manifest.flush()
        command = [program, "type", "--names", "builtin", manifest.name, *(f"0x{key:x}" for key in keys)]
        ran = subprocess.run(command, capture_output=True, check=True)
    for line in ran.stdout.split(b"\n")[:-1]:
        status, text = line.split(b" ", 1)
        yield status.decode(), text if status == b"composed" else b'""'


def typed_skipping(program, path, keys):
    """The status at each key on a table that is read with `--skip-faulty`, and the text that a sequence commits there, in quotes."""
    command = [program, "type", "-f", "--skip-faulty", "--names", "builtin", path, *(f"0x{key:x}" for key in keys)]
    ran = subprocess.run(command, capture_output=True, check=True)
    for line in ran.stdout.split(b"\n")[:-1]:
        status, text = line.split(b" ", 1)
        yield status.decode(), text if status == b"composed" else b'""'


def lint(program, readers, paths, *options):
    """What `lint` says of lines for these readers: the file, the line and the reader, each with the sentences; and the faults that it prints."""
    words = [*options, *(it for name in readers for it in ("--reader", name))]
    command = [program, "lint", "--system", real.LOCALES, "--locale", "en_US.UTF-8", *words, *paths]
    ran = subprocess.run(command, capture_output=True, text=True, errors="replace", check=False)
    said = collections.defaultdict(set)
    for line in ran.stdout.split("\n"):
        found = FOUND.fullmatch(line)
        if found:
            said[found[1], int(found[2]), found[3]].add(found[4])
    return said, [line for line in ran.stdout.split("\n") if re.search(r":\d+:\d+: fault: ", line)] + ran.stderr.splitlines()


# ---- the tables of the system


def system_tables():
    """The path of each UTF-8 table."""
    return {name: os.path.join(real.LOCALES, name, "Compose") for name in real.locales()}


def definitions(path, names):
    """The lines that define sequences, with those that a table of the system includes: path, number and keysyms."""
    with open(path, "rb") as file:
        lines = changed.lines_of(file.read())
    for number, line in enumerate(lines, 1):
        parts = reference.read_line(line)
        if isinstance(parts, bytes):
            yield from definitions(parts.decode().replace("%L", real.ENGLISH).replace("%S", real.LOCALES), names)
        elif parts:
            yield path, number, changed.defined(parts, False, number, names)


def check_libx11(program, readers, results, names, count):
    """libX11 does at each of many random keys what `type` does on the tables of the system."""
    for name, path in system_tables().items():
        sequences = [list(it.keysyms) for _, _, it in definitions(path, names)]
        keys = key_streams.random_keys(sequences, count, name)
        differ = 0
        for start in range(0, count, PART):
            part = keys[start : start + PART]
            pairs = zip(typed(program, path, part), readers.type("libX11", [f"table {path}", *press(part)]), strict=True)
            differ += sum(1 for ours, theirs in pairs if not is_as_in_libx11(ours, theirs))
        print(f"libX11: {name}: {count} keys, {differ} differ", flush=True)
        results.expect(f"libX11 on {name}", differ, 0)


def is_as_in_libx11(ours, theirs):
    """Whether libX11 did what is typed here: its text counts where it commits one."""
    (status, text), (word, its_text) = ours, theirs
    return word.decode() == WORDS[status] and (status != "composed" or its_text == text)


def is_as_in_libxkbcommon(ours, theirs):
    """Whether libxkbcommon did the same: its text counts where it composed one."""
    (status, text), (word, its_text) = ours, theirs
    return word.decode() == status and (status != "composed" or its_text == text)


SAME = {"libX11": is_as_in_libx11, "libxkbcommon": is_as_in_libxkbcommon}


def committed(answers):
    """What the keys of a sequence committed, the last of them and all before it."""
    texts = [text if word == b"committed" else None for word, text in answers]
    return texts[-1] if not any(texts[:-1]) else None


def from_rest(readers, name, path, sequences):
    """What a reader commits at the last key of each of these sequences and at no other, each typed from rest."""
    steps = [f"table {path}"] + [it for keys in sequences for it in (*press(keys), "-")]
    answers = iter(readers.type(name, steps))
    return [committed([next(answers) for _ in keys]) for keys in sequences]


class SystemTable:
    """A table of the system: its sequences, without those that longer ones begin with, the text of each in quotes, and where it is defined."""

    def __init__(self, path, names):
        self.path = path
        self.places = {it.keysyms: (file, number) for file, number, it in definitions(path, names)}
        typing = changed.Typing((it.keysyms, it.text) for _, _, it in definitions(path, names))
        self.sequences = sorted(typing.texts.keys() - typing.begun)
        self.texts = {keys: reference.quote(typing.texts[keys]) for keys in self.sequences}

    def given(self, readers, name, path):
        """The sequences that a reader types as here, with the table at a path."""
        answers = from_rest(readers, name, path, self.sequences)
        return {keys for keys, text in zip(self.sequences, answers, strict=True) if text == self.texts[keys]}

    def lost(self, program, name):
        """The sequences that a reader loses, as `lint` says."""
        lines = {(file, number) for file, number, _ in lint(program, [name], [self.path])[0]}
        return {keys for keys in self.sequences if self.places[keys] in lines}


def different_tables():
    """The tables of the system, of those that are the same byte by byte the first one."""
    seen = set()
    for name, path in system_tables().items():
        with open(path, "rb") as file:
            content = file.read()
        if content not in seen:
            seen.add(content)
            yield name, path


def check_toolkit(program, readers, results, names, name):
    """A toolkit types each sequence of each table of the system from rest, with the table and with an empty one."""
    empty = os.path.join(readers.folder, "empty")
    open(empty, "w", encoding="ascii").close()
    for locale, path in different_tables():
        table = SystemTable(path, names)
        given = table.given(readers, name, path)
        lost = table.lost(program, name) if name in ("gtk3", "gtk4") else set()
        without = table.given(readers, name, empty) if lost else set()
        counts = f"{len(given)} of {len(table.sequences)} typed, {len(lost)} called lost, {len(lost & given)} of them typed without the table too"
        print(f"{name}: {locale}: {counts}, {len(table.sequences) - len(given | lost)} more not typed", flush=True)
        results.expect(f"what lint says that {name} loses of {locale}", sorted((lost & given) - without), [])


# ---- random tables


class Batch:
    """Some random tables, the keys that are pressed on each, and what `lint` says of them."""

    def __init__(self, program, folder, chance, names):
        self.paths, self.tables, self.keys = [], [], []
        for index in range(BATCH):
            path = os.path.join(folder, str(index))
            table = changed.random_table(chance, path + ".more", names)
            with open(path, "wb") as file:
                file.write(table.content)
            if table.included is not None:
                with open(path + ".more", "wb") as file:
                    file.write(table.included)
            self.paths.append(path)
            self.tables.append(table)
            self.keys.append(changed.random_keys(chance, table, KEYS_A_TABLE))
        self.said, self.faults = lint(program, ["libX11", "libxkbcommon"], self.paths)

    def steps(self):
        """What is to be done on all tables."""
        return [step for path, keys in zip(self.paths, self.keys) for step in (f"table {path}", *press(keys))]

    def sentences(self, index, number, is_included, reader):
        """What `lint` says of a line of a table for a reader."""
        return self.said.get((self.paths[index] + (".more" if is_included else ""), number, reader), set())

    def left_by(self, index, reader):
        """The definitions of a table that a reader takes, as `lint` says of it, with their texts."""
        for it in self.tables[index].visits:
            said = self.sentences(index, it.number, it.is_included, reader)
            if it.including is not None:
                said = said | self.sentences(index, it.including, False, reader)
            if said <= {LETTER, CUT}:
                text = reference.read_text(with_letters(it.raw)) if LETTER in said else it.text
                yield it, text.partition(b"\0")[0] if CUT in said else text

    def read_by(self, index, reader):
        """The same as sequences and texts, and by what docs/READERS.md has no class for: in libxkbcommon a keysym alone leaves the string that the
        sequence has."""
        strings = {}
        for it, text in self.left_by(index, reader):
            if it.raw is not None:
                strings[it.keysyms] = text
            yield it.keysyms, strings.get(it.keysyms, text) if reader == "libxkbcommon" else text

    def typed(self, index, definitions):
        """What these definitions type on the keys of a table: status and text of each key."""
        typing = changed.Typing(definitions)
        return [(status, reference.quote(text)) for status, text in map(typing.press, self.keys[index])]


class FaultyBatch(Batch):
    """The same of random tables with lines that have a fault here, without those that libxkbcommon reads otherwise than `--skip-faulty`."""

    def __init__(self, program, folder, chance, names, is_old):  # pylint: disable=super-init-not-called
        self.paths = [os.path.join(folder, str(index)) for index in range(BATCH)]
        self.tables = [skipping.random_table(chance, names, is_old) for _ in self.paths]
        for path, table in zip(self.paths, self.tables, strict=True):
            with open(path, "wb") as file:
                file.write(table.content)
        self.keys = [changed.random_keys(chance, table, KEYS_A_TABLE) for table in self.tables]
        self.said, _ = lint(program, ["libxkbcommon"], self.paths, "--skip-faulty")


def with_letters(raw):
    """What a string holds, with the letter in the place of each escape of a control."""
    return re.sub(rb"\\(.)", lambda found: found[1] if found[1] in b"nrt" else found[0], raw, flags=re.S)


def check_batch(program, readers, results, batch, number):
    """The readers type on each table what `lint` leaves of it, and the program what is read here."""
    results.expect(f"faults in batch {number}", batch.faults, [])
    for reader in (it for it in SAME if it in readers.built):
        answers = iter(readers.type(reader, batch.steps()))
        for index, keys in enumerate(batch.keys):
            wanted = batch.typed(index, batch.read_by(index, reader))
            got = [next(answers) for _ in keys]
            table = batch.tables[index]
            differ = [it for it in zip(map(hex, keys), wanted, got) if not SAME[reader](*it[1:])]
            results.expect(f"{reader} on {table.content!r} and {table.included!r}: keys, what is left, what it does", differ, [])
    for index in range(number % CHECKED, BATCH, CHECKED):
        wanted = batch.typed(index, [(it.keysyms, it.text) for it in batch.tables[index].visits])
        results.expect(f"type on {batch.tables[index].content!r}", [*typed(program, batch.paths[index], batch.keys[index])], wanted)


def check_random_tables(program, readers, results, names, count, seed):
    """What `lint` says of random tables, and what libxkbcommon and libX11 type on them, agree."""
    print(f"{count} random tables, with the seed {seed}", flush=True)
    for number in range(-(-count // BATCH)):
        with tempfile.TemporaryDirectory() as folder:
            batch = Batch(program, folder, random.Random(f"{seed} {number}"), names)
            check_batch(program, readers, results, batch, number)


def check_faulty_tables(program, readers, results, names, count, seed):
    """On random tables with faulty lines `--skip-faulty` types what is read here, and libxkbcommon too, as `lint` says of the lines without a fault."""
    is_old = [int(it) for it in pkg_config("--modversion", "xkbcommon").split(".")[:2]] < [1, 7]
    print(f"{count} random tables with faulty lines, with the seed {seed}", flush=True)
    for number in range(-(-count // BATCH)):
        with tempfile.TemporaryDirectory() as folder:
            batch = FaultyBatch(program, folder, random.Random(f"faulty {seed} {number}"), names, is_old)
            answers = iter(readers.type("libxkbcommon", batch.steps()))
            for index, keys in enumerate(batch.keys):
                wanted = batch.typed(index, batch.read_by(index, "libxkbcommon"))
                got = [next(answers) for _ in keys]
                differ = [it for it in zip(map(hex, keys), wanted, got) if not is_as_in_libxkbcommon(*it[1:])]
                results.expect(f"libxkbcommon on {batch.tables[index].content!r}: keys, what is read, what it does", differ, [])
            for index in range(0, BATCH, FAULTY_CHECKED):
                wanted = batch.typed(index, [(it.keysyms, it.text) for it in batch.tables[index].visits])
                results.expect(f"type --skip-faulty on {batch.tables[index].content!r}", [*typed_skipping(program, batch.paths[index], batch.keys[index])], wanted)


def main():
    program = os.path.abspath(sys.argv[1])
    count, keys, seed = [int(it) for it in (*sys.argv[2:5], *[100_000, 50_000, SEED][len(sys.argv) - 2 :])]
    values = {"NoSymbol": 0, "XF86AudioPlay": 0x1008FF14, **reference.header_values(real.SHORT_NAMES), **reference.header_values()}
    names = changed.Names(values, real.header_characters())
    results = Results()
    with tempfile.TemporaryDirectory() as folder, display() as display_name:
        readers = Readers(folder, display_name)
        if "libX11" in readers.built:
            check_libx11(program, readers, results, names, keys)
        for toolkit in ("gtk3", "gtk4", "ibus"):
            if toolkit in readers.built:
                check_toolkit(program, readers, results, names, toolkit)
        check_random_tables(program, readers, results, names, count, seed)
        if "libxkbcommon" in readers.built:
            check_faulty_tables(program, readers, results, names, count // 10, seed)
    return results.end(f"skipped: {', '.join(readers.skipped)}" if readers.skipped else "")


if __name__ == "__main__":
    sys.exit(main())
