#!/usr/bin/env python3
"""lex_reference.py PROGRAM: a plain second reading of the lines of a Compose file, compared with the program.

Some thousand lines are built at random (from a fixed seed) out of tokens and near-tokens. Each is read here by the
rules of reference.py, apart from the program, and the program has to agree: right lines are together in one table, whose
sequences are typed and have to give the texts read here; each faulty line is the last of a table of its own, and has
to be refused with the fault read here. Prints `lexer: N lines agree`, or each difference, with status 1.
"""

import os
import random
import re
import subprocess
import sys
import tempfile

from reference import Fault, quote, read_line, read_text

SEED = 20231
LINES = 6000
FAULTY_RUNS = 500
OWN_KEYS = [b"U%04X" % (0x4E00 + number) for number in range(LINES)]  # the first key of each right line
FIRST_KEYS = frozenset(OWN_KEYS)
INCLUDED_KEY = 0x3400  # that of each source that may be included, from here on

# names of the program that need no header, and the text of each
NAMES = {
    b"b": "b",
    b"c": "c",
    b"z": "z",
    b"1": "1",
    b"apostrophe": "'",
    b"eacute": "é",
    b"KP_5": "5",
    b"Multi_key": "",
    b"dead_acute": "",
}
INCLUDED = [b"one", b"%L", b"a b", b'a\\"b', "é/ñ".encode(), b"\\n", b"x\\\\"]


# ---- names


def text_of(name):
    """The text of a named keysym, or None where the name is unknown."""
    if name in NAMES:
        return NAMES[name].encode()
    if re.fullmatch(rb"U[0-9A-Fa-f]{4,6}", name):
        code = int(name[1:], 16)
        is_control = code < 0x20 or 0x7F <= code < 0xA0
        is_none = is_control or 0xD800 <= code < 0xE000 or code > 0x10FFFF
        return None if is_none else chr(code).encode()
    return None


def read(line):
    """What is refused of a line, or None; and what the line says."""
    try:
        said = read_line(line)
        if said is None or isinstance(said, bytes):
            return None, said
        events, raw, name = said
        for index, event in enumerate(events):
            if text_of(event) is None:
                return "4 UnknownKeysym source=0 line=%%d index=%d" % index, None
        text = None if raw is None else read_text(raw)
        if name is not None and text_of(name) is None:
            return "4 UnknownKeysym source=0 line=%%d index=%d" % len(events), None
        return None, (events, text if text is not None else text_of(name))
    except Fault as fault:
        return "3 Lex source=0 line=%%d: %s" % fault, None


# ---- lines at random


def some_blanks(rng):
    return rng.choice([b"", b"", b" ", b" ", b"\t", b"  ", b" \r"])


def some_inside(rng):
    """What stands between the quotes of a string, right or not."""
    parts = [b"x", b"S", b"#", b":", b"<a>", b" ", b"\t", b"4", b"1", "é".encode(), "漢".encode(), "😀".encode()]
    parts += [b"\\n", b"\\r", b"\\t", b"\\\\", b'\\"', b"\\101", b"\\7", b"\\x41", b"\\X4a", b"\\303\\251", b"\\xc3\\xA9"]
    if rng.random() < 0.15:
        parts += [b"\\q", b"\\x", b"\\0", b"\\000", b"\\400", b"\\xff", b"\\xg", b"\\8", "\\é".encode(), b"\\X00"]
    count = rng.choice([0, 1, 1, 1, 2, 3, 5]) if rng.random() < 0.98 else rng.randrange(240, 270)
    return b"".join(rng.choice(parts) for _ in range(count))


def some_name(rng):
    return rng.choice(list(NAMES) + [b"U0101", b"U1F600"]) if rng.random() < 0.97 else rng.choice([b"nosuch", b"b_1", b"include"])


def some_tokens(rng, number):
    """The tokens of a line of the grammar."""
    kind = rng.random()
    if kind < 0.05:
        return []
    if kind < 0.1:
        return [b"include", b'"' + rng.choice(INCLUDED) + b'"']
    count = rng.choice([1, 1, 2, 2, 3, 4]) if rng.random() < 0.97 else rng.randrange(30, 35)
    tokens = [b"<", OWN_KEYS[number], b">"]
    for _ in range(count - 1):
        tokens += [b"<", some_name(rng), b">"]
    tokens.append(b":")
    form = rng.random()
    if form < 0.8:
        tokens.append(b'"' + some_inside(rng) + b'"')
    if form > 0.5:
        tokens.append(some_name(rng))
    return tokens


def some_line(rng, number):
    """A line, often with one token changed, left out or put in."""
    tokens = some_tokens(rng, number)
    stray = [b"<", b">", b":", b'"', b"!", b"~", b"Ctrl", b"include", b"includes", b"#", b"-", b"b", b"\\", "é".encode(), b"\0"]
    stray += [b'"x"', b"<b>", b"_"]
    if rng.random() < 0.45:
        place = rng.randrange(len(tokens) + 1)
        change = rng.random()
        if change < 0.4:
            tokens.insert(place, rng.choice(stray))
        elif change < 0.7:
            tokens[place : place + 1] = []
        elif change < 0.9:
            tokens[place : place + 1] = [rng.choice(stray)]
        else:
            del tokens[place:]
    line = some_blanks(rng) + b"".join(token + some_blanks(rng) for token in tokens)
    if rng.random() < 0.25:
        line += rng.choice([b"#", b'# "x', b"# <b> : c", "#é".encode()])
    return line


# ---- the program


class Tables:
    """A folder with a table, and the program's `type` over it."""

    def __init__(self, program, folder):
        self.program = os.path.abspath(program)
        self.folder = folder
        rows = [b"root\troot.compose"]
        for number, name in enumerate(INCLUDED):
            with open(os.path.join(folder, "included%d.compose" % number), "wb") as file:
                file.write(b'<U%04X> : "i%d"\n' % (INCLUDED_KEY + number, number))
            rows.append(name + b"\tincluded%d.compose" % number)
        with open(os.path.join(folder, "table"), "wb") as file:
            file.write(b"".join(row + b"\n" for row in rows))

    def type(self, lines, keys):
        """The status, what was printed and what was refused."""
        with open(os.path.join(self.folder, "root.compose"), "wb") as file:
            file.write(b"".join(line + b"\n" for line in lines))
        run = subprocess.run(
            [self.program, "type", "table"] + keys, cwd=self.folder, stdin=subprocess.DEVNULL, capture_output=True, check=False
        )
        return run.returncode, run.stdout, run.stderr


def typed(said):
    """The keys of a right line, and what typing them prints."""
    if said is None:
        return [], []
    if isinstance(said, bytes):
        number = INCLUDED.index(said)
        return ["U%04X" % (INCLUDED_KEY + number)], [b'composed "i%d"' % number]
    events, text = said
    printed = [b'composing ""'] * (len(events) - 1) + [b"composed " + quote(text)]
    return [event.decode() for event in events], printed


def check_right(tables, right):
    """The differences of the right lines, all in one table."""
    keys, printed, owners = [], [], []
    for line, said in right:
        more, shown = typed(said)
        keys += more
        printed += shown
        owners += [line] * len(shown)
    status, out, err = tables.type([line for line, _ in right], keys)
    if status != 0:
        place = re.search(rb"line=(\d+)", err)
        line = right[int(place.group(1)) - 1][0] if place else b"?"
        return ["%r: none expected, got %r" % (line, err)]
    given = out.split(b"\n")[:-1]
    if len(given) != len(printed):
        return ["%d lines printed, %d expected" % (len(given), len(printed))]
    return ["%r: %r expected, got %r" % row for row in zip(owners, printed, given) if row[1] != row[2]]


def check_faulty(tables, rng, line, fault):
    """The difference of one faulty line, after a few comments."""
    before = [b"# %d" % number for number in range(rng.randrange(3))]
    wanted = b"refused: table: 1 Read: " + (fault % (len(before) + 1)).encode() + b"\n"
    status, out, err = tables.type(before + [line], ["b"])
    if (status, out, err) == (2, b"", wanted):
        return []
    return ["%r: %r expected, got %r, status %d" % (line, wanted, out + err, status)]


def spread(faulty, count):
    """This many of the faulty lines, each kind of fault as evenly as may be."""
    kinds = {}
    for line, fault in faulty:
        kinds.setdefault(re.sub(r"(at|index)=\d+", "", fault), []).append((line, fault))
    chosen = []
    for turn in range(count):
        chosen += [rows[turn] for rows in kinds.values() if turn < len(rows)]
    return chosen[:count]


def stands_alone(said):
    """Whether a right line can stand in one table with the others: a source answers its include, or no other line's
    sequence begins with its first key."""
    if isinstance(said, bytes):
        return said in INCLUDED
    return said is None or said[0][0] in FIRST_KEYS


def main():
    if len(sys.argv) != 2:
        sys.exit("usage: lex_reference.py PROGRAM")
    rng = random.Random(SEED)
    lines = [some_line(rng, number) for number in range(LINES)]
    read_lines = [(line,) + read(line) for line in lines]
    right = [(line, said) for line, fault, said in read_lines if fault is None]
    right = [row for row in right if stands_alone(row[1])]
    faulty = [(line, fault) for line, fault, _ in read_lines if fault is not None]
    chosen = spread(faulty, FAULTY_RUNS)
    with tempfile.TemporaryDirectory() as folder:
        tables = Tables(sys.argv[1], folder)
        differences = check_right(tables, right)
        for line, fault in chosen:
            differences += check_faulty(tables, rng, line, fault)
    if differences:
        print("\n".join(differences))
        sys.exit(1)
    print("lexer: %d lines agree" % (len(right) + len(chosen)))


if __name__ == "__main__":
    main()
