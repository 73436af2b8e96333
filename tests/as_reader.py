#!/usr/bin/env python3
"""as_reader.py READER [TABLES] [SEED]: compares what READER, the built program `compose_as_reader`, says that libxkbcommon makes of tables with libxkbcommon
(not part of the gate).

The tables are all of the system's, and TABLES random ones, 5,000 if none are given (`readers/random_tables.py`); the seed is printed. Each table that the
library reads has to have the same sequences with the same texts, and each that it refuses has to be refused. Then each sequence, one with a key more, and one
with another last key are typed from rest, and at each key the library has to do what the sequences say. Of each line that isn't empty or a comment the
program has to say something, and without the lines that aren't taken a table has to be the same.

The version is that of the installed library: 1.5's table is read out of its memory, and a later one's by its iterator. The library of another release, whose
packages (libxkbcommon0, libc6) are unpacked in ROOT, is taken by `ROOT/usr/lib/x86_64-linux-gnu/ld-linux-x86-64.so.2 --library-path
ROOT/usr/lib/x86_64-linux-gnu:/usr/lib/x86_64-linux-gnu /usr/bin/python3 tests/as_reader.py ..`. The last line is `N passed, M failed`, and what was skipped."""
import ctypes
import ctypes.util
import glob
import os
import random
import subprocess
import sys
import tempfile

from harness import Results

HERE = os.path.dirname(os.path.abspath(__file__))
SYSTEM = "/usr/share/X11/locale"
LOCALE = b"en_US.UTF-8"
SEED = 78
# of this many tables one is read again without the lines that aren't taken
EMPTIED = 10
WORDS = ("passed", "swallowed", "typed", "swallowed")


class Array(ctypes.Structure):
    """An array of libxkbcommon 1.5 (src/darray.h)."""

    _fields_ = [("item", ctypes.c_void_p), ("size", ctypes.c_uint), ("alloc", ctypes.c_uint)]


class Table(ctypes.Structure):
    """A table of libxkbcommon 1.5 (src/compose/table.h)."""

    _fields_ = [
        *((name, ctypes.c_int) for name in ("ref", "format", "flags")),
        ("ctx", ctypes.c_void_p),
        ("locale", ctypes.c_char_p),
        *((name, Array) for name in ("utf8", "nodes")),
    ]


class Node(ctypes.Structure):
    """A node of such a table: of a leaf, the place of its string and its keysym."""

    _fields_ = [("keysym", ctypes.c_uint32), ("lower", ctypes.c_uint16), ("higher", ctypes.c_uint16), ("first", ctypes.c_uint32), ("second", ctypes.c_uint32)]


class Library:
    """The installed libxkbcommon."""

    def __init__(self):
        name = ctypes.util.find_library("xkbcommon") or "libxkbcommon.so.0"
        self.xkb, self.libc = ctypes.CDLL(name), ctypes.CDLL(None)
        self.libc.fopen.restype = ctypes.c_void_p
        self.libc.fclose.argtypes = [ctypes.c_void_p]
        for function in ("xkb_context_new", "xkb_compose_table_new_from_file", "xkb_compose_state_new"):
            getattr(self.xkb, function).restype = ctypes.c_void_p
        self.has_iterator = hasattr(self.xkb, "xkb_compose_table_iterator_new")
        self.version = "1.7" if self.has_iterator else "1.5"
        self.context = ctypes.c_void_p(self.xkb.xkb_context_new(0))
        self.xkb.xkb_context_set_log_level(self.context, 0)
        self.buffer = ctypes.create_string_buffer(4096)

    def load(self, path):
        """The table of a file, or None if the library refuses it."""
        file = self.libc.fopen(os.fsencode(path), b"rb")
        if not file:
            return None
        table = self.xkb.xkb_compose_table_new_from_file(self.context, ctypes.c_void_p(file), LOCALE, 1, 0)
        self.libc.fclose(file)
        return ctypes.c_void_p(table) if table else None

    def text_of(self, keysym):
        """The text of a keysym."""
        size = self.xkb.xkb_keysym_to_utf8(ctypes.c_uint32(keysym), self.buffer, ctypes.c_size_t(64))
        return self.buffer.value if size > 0 else b""

    def sequences(self, table):
        """The text of each sequence of a table."""
        return self.by_iterator(table) if self.has_iterator else self.by_memory(table)

    def by_memory(self, table):
        """The same out of the memory of libxkbcommon 1.5, whose nodes are trees of keysyms."""
        is_at = ctypes.cast(table, ctypes.POINTER(Table)).contents
        nodes = ctypes.cast(is_at.nodes.item, ctypes.POINTER(Node))
        found = {}
        todo = [(1, ())] if is_at.nodes.size > 1 else []
        while todo:
            index, before = todo.pop()
            if not index:
                continue
            node = nodes[index]
            todo += [(node.lower, before), (node.higher, before)]
            keys = (*before, node.keysym)
            if not node.first >> 31:
                todo.append((node.second & 0xFFFF, keys))
            elif node.first & 0x7FFFFFFF:
                found[keys] = ctypes.string_at(is_at.utf8.item + (node.first & 0x7FFFFFFF))
            else:
                found[keys] = self.text_of(node.second) if node.second else b""
        return found

    def by_iterator(self, table):
        """The same by the iterator, which libxkbcommon has from 1.6 on. An empty string beside a keysym looks there as no string does, so it is typed; None
        where that can't be, as a key of the sequence is passed over."""
        xkb = self.xkb
        xkb.xkb_compose_table_iterator_new.restype = xkb.xkb_compose_table_iterator_next.restype = ctypes.c_void_p
        xkb.xkb_compose_table_entry_sequence.restype = ctypes.POINTER(ctypes.c_uint32)
        xkb.xkb_compose_table_entry_utf8.restype = ctypes.c_char_p
        iterator = ctypes.c_void_p(xkb.xkb_compose_table_iterator_new(table))
        found = {}
        count = ctypes.c_size_t()
        while entry := xkb.xkb_compose_table_iterator_next(iterator):
            entry = ctypes.c_void_p(entry)
            keys = xkb.xkb_compose_table_entry_sequence(entry, ctypes.byref(count))
            keysym = xkb.xkb_compose_table_entry_keysym(entry)
            text = xkb.xkb_compose_table_entry_utf8(entry)
            found[tuple(keys[: count.value])] = text or (keysym if keysym else b"")
        xkb.xkb_compose_table_iterator_free(iterator)
        state = ctypes.c_void_p(xkb.xkb_compose_state_new(table, 0))
        for keys in [keys for keys, text in found.items() if isinstance(text, int)]:
            word, found[keys] = self.typed(state, keys)[-1]
            found[keys] = found[keys] if word == "typed" else None
        xkb.xkb_compose_state_unref(state)
        return found

    def typed(self, state, keys):
        """What happens at each of these keys, from rest."""
        answers = []
        self.xkb.xkb_compose_state_reset(state)
        for key in keys:
            if not self.xkb.xkb_compose_state_feed(state, ctypes.c_uint32(key)):
                answers.append(("ignored", b""))
                continue
            status = self.xkb.xkb_compose_state_get_status(state)
            size = self.xkb.xkb_compose_state_get_utf8(state, self.buffer, ctypes.c_size_t(4096)) if status == 2 else 0
            answers.append((WORDS[status], self.buffer.raw[:size]))
        return answers


class Typing:
    """What the sequences of a table say that each key does."""

    def __init__(self, sequences, version):
        self.sequences, self.last = sequences, 0xFE13 if version == "1.7" else 0xFE0F
        self.begun = {keys[:count] for keys in sequences for count in range(1, len(keys))}

    def is_ignored(self, key):
        return 0xFFE1 <= key <= 0xFFEE or 0xFE01 <= key <= self.last or key in (0xFF7E, 0xFF7F)

    def typed(self, keys):
        answers, pending = [], ()
        for key in keys:
            went = (*pending, key)
            if self.is_ignored(key):
                answers.append(("ignored", b""))
            elif went in self.sequences:
                answers.append(("typed", self.sequences[went]))
                pending = ()
            elif went in self.begun:
                answers.append(("swallowed", b""))
                pending = went
            else:
                answers.append(("swallowed" if pending else "passed", b""))
                pending = ()
        return answers


class Said:
    """What the program says of a table."""

    def __init__(self, lines):
        self.refusal = lines[-1].partition(": ")[2] if lines[-1].startswith("refused") else None
        rows = [line[4:].split(" =") for line in lines if line.startswith("seq ")]
        self.sequences = {tuple(int(key, 16) for key in keys.split()): bytes.fromhex(text) for keys, text in rows}
        self.rows = len(rows)
        told = [line.split(" ", 2) for line in lines if line[0].isdigit()]
        self.told = [(int(file), int(line), fate) for file, line, fate in told]


def said(program, version, home, paths):
    """What the program says of these tables."""
    with tempfile.NamedTemporaryFile("w", suffix=".list") as listed:
        listed.write("".join(f"{path}\n" for path in paths))
        listed.flush()
        words = [program, version, home, SYSTEM, f"{SYSTEM}/en_US.UTF-8/Compose", listed.name]
        ran = subprocess.run(words, capture_output=True, text=True, check=True, cwd=home)
    return [Said(part.splitlines()) for part in ran.stdout.split("table\n")[1:]]


def lines_of(path, version):
    """The lines of a file that aren't empty or a comment for libxkbcommon."""
    with open(path, "rb") as file:
        data = file.read()
    data = data.removeprefix(b"\xef\xbb\xbf") if version == "1.7" else data
    lines = data.removesuffix(b"\n").split(b"\n") if data else []
    return {number for number, line in enumerate(lines, 1) if line.strip(b" \t\v\f\r") and not line.strip(b" \t\v\f\r").startswith(b"#")}


def without(path, kept):
    """The bytes of a file in which all lines but these are empty."""
    with open(path, "rb") as file:
        lines = file.read().split(b"\n")
    return b"\n".join(line if number in kept else b"" for number, line in enumerate(lines, 1))


class Comparison:
    """Compares the program with the library on tables."""

    def __init__(self, program, folder, results, seed):
        self.program, self.folder, self.results = program, folder, results
        self.library, self.random = Library(), random.Random(seed)
        self.count = self.refused = self.sequences = self.keys = self.emptied = 0

    def compare(self, paths):
        """Compares on these tables."""
        answers = said(self.program, self.library.version, self.folder, paths)
        self.results.expect("a table for each path", len(answers), len(paths))
        for index, (path, answer) in enumerate(zip(paths, answers)):
            self.count += 1
            self.compare_table(path, answer, index % EMPTIED == 0)

    def compare_table(self, path, answer, is_emptied):
        table = self.library.load(path)
        self.results.expect(f"{path}: refused", answer.refusal is not None, table is None)
        if table is None or answer.refusal is not None:
            self.refused += 1
            return
        sequences = {keys: answer.sequences.get(keys) if text is None else text for keys, text in self.library.sequences(table).items()}
        self.sequences += len(sequences)
        differing = {keys for keys in sequences | answer.sequences if sequences.get(keys) != answer.sequences.get(keys)}
        here, there = ({keys: table.get(keys) for keys in sorted(differing)} for table in (answer.sequences, sequences))
        self.results.expect(f"{path}: the sequences", here, there)
        self.results.expect(f"{path}: each sequence once", answer.rows, len(answer.sequences))
        self.compare_typing(path, table, answer)
        told = {line for file, line, _ in answer.told if file == 0}
        self.results.expect(f"{path}: the lines of which something is said", told, lines_of(path, self.library.version))
        if is_emptied:
            self.compare_emptied(path, answer, sequences)
        self.library.xkb.xkb_compose_table_unref(table)

    def compare_typing(self, path, table, answer):
        typing = Typing(answer.sequences, self.library.version)
        state = ctypes.c_void_p(self.library.xkb.xkb_compose_state_new(table, 0))
        symbols = sorted({key for keys in answer.sequences for key in keys}) or [0x61]
        differing = []
        for keys in sorted(answer.sequences):
            for tried in (keys, (*keys, self.random.choice(symbols)), (*keys[:-1], self.random.choice(symbols))):
                self.keys += len(tried)
                if self.library.typed(state, tried) != typing.typed(tried):
                    differing.append(tried)
        self.results.expect(f"{path}: typed otherwise", differing[:3], [])
        self.library.xkb.xkb_compose_state_unref(state)

    def compare_emptied(self, path, answer, sequences):
        """A line of which nothing is taken isn't needed. (A line that has a definition that is taken stays, with all that stands in it.)"""
        kept = {line for file, line, fate in answer.told if file == 0 and fate in ("taken", "include")}
        other = os.path.join(self.folder, "emptied")
        with open(other, "wb") as file:
            file.write(without(path, kept))
        table = self.library.load(other)
        self.emptied += 1
        # (a file of which nothing is left is empty for no reader: its newlines stay)
        if os.path.getsize(other):
            left = {keys: sequences.get(keys) if text is None else text for keys, text in (self.library.sequences(table) if table else {}).items()}
            self.results.expect(f"{path}: without what isn't taken", left, sequences)


def main():
    program, *given = sys.argv[1:]
    count, seed = [*given, "5000", str(SEED)][:2] if len(given) != 1 else (given[0], str(SEED))
    program = os.path.abspath(program)
    results = Results()
    with tempfile.TemporaryDirectory(prefix="as-reader-") as folder:
        os.environ["HOME"] = folder
        os.chdir(folder)
        try:
            comparison = Comparison(program, folder, results, seed)
        except OSError:
            return results.end("skipped libxkbcommon: it isn't installed (libxkbcommon0)")
        print(f"libxkbcommon {comparison.library.version}, seed {seed}", flush=True)
        system = [path for path in sorted(glob.glob(f"{SYSTEM}/*/Compose")) if ".UTF-8" in path]
        comparison.compare(system)
        print(f"the system's tables: {comparison.count}, {comparison.sequences} sequences, {comparison.keys} keys", flush=True)
        subprocess.run([sys.executable, os.path.join(HERE, "readers", "random_tables.py"), folder, count, seed], check=True)
        comparison.compare([os.path.join(folder, str(index)) for index in range(int(count))])
        counts = f"{comparison.count} tables, {comparison.refused} refused, {comparison.sequences} sequences, {comparison.keys} keys"
        print(f"{counts}, {comparison.emptied} again without what isn't taken")
    return results.end()


if __name__ == "__main__":
    sys.exit(main())
