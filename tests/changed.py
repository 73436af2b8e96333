"""Random tables for `tests/readers.py`: Compose files of a few lines that are changed at random, and what they mean, read a second time.

Nothing here comes from the program: the lines are read by `reference.py`, and what typing does is worked out from them as lists."""
import re

import reference

SHORT_KEYS = ["a", "b", "c", "A", "eacute", "dead_acute", "Multi_key", "U0061", "U00e9", "0x62", "U01EB", "Greek_alpha", "F1", "NoSymbol"]
TEXTS = ["x", "y", "é", "xy", r"p\nq", r"\t", r"\\n", r"\"", r"\101", r"\x41", r"\r\r", "x" * 254, "y" * 255]
NAMES = ["x", "eacute", "U20AC", "Greek_alpha", "1", "2x", "3270_Quit"]
NAMES_ALONE = ["x", "eacute", "U20AC", "Greek_alpha", "1", "dead_acute"]
COMMENTS = ["# X", "# E WITH ACUTE", '# "x"', "#"]
BLANKS = [" ", " ", " ", "", "\t", "  ", "\r"]
CHANGES = '<>":#\\ \t\r\n\0abx10U_n'
MARK = b"\xef\xbb\xbf"
# a byte 0 that libX11 passes over, so that it doesn't cut the text
PASSED_OVER = re.compile(rb"\\(?:[0-7]{1,3}|[xX][0-9A-Fa-f]{1,2})\0")
SHIFT = 0xFFE1


class Table:
    """A table and the file that it includes, if it does, as bytes; and the lines of both that define something, in the order in which they are read."""

    def __init__(self, content, included, visits):
        self.content, self.included, self.visits = content, included, visits


class Definition:
    """A line that defines a sequence: whether it stands in the included file, its number, its keysyms, what its string holds, and its text; and
    the number of the line that includes it."""

    def __init__(self, is_included, number, keysyms, raw, text):
        self.is_included, self.number = is_included, number
        self.keysyms, self.raw, self.text = keysyms, raw, text
        self.including = None


class NotTaken(Exception):
    """A line isn't taken here: it has a fault."""


# ---- how they are written


def random_line(chance):
    """A line that defines a sequence."""
    count = chance.choice([1, 1, 2, 2, 2, 3, 3, 4]) if chance.random() < 0.9 else chance.choice([9, 10, 11, 12])
    spaced = lambda name: f"<{name}>" if chance.random() < 0.97 else f"<{chance.choice(BLANKS)}{name}{chance.choice(BLANKS)}>"
    keys = chance.choice(BLANKS).join(spaced(chance.choice(SHORT_KEYS[: chance.choice([3, 8, 14])])) for _ in range(count))
    text = f'"{chance.choice(TEXTS)}"' if chance.random() < 0.85 else ""
    name = "" if text and chance.random() < 0.7 else chance.choice(NAMES if text else NAMES_ALONE)
    comment = chance.choice(COMMENTS) if chance.random() < 0.3 else ""
    blanks = [chance.choice(BLANKS) for _ in range(4)]
    return f"{blanks[0] if chance.random() < 0.2 else ''}{keys}{blanks[1]}:{blanks[2]}{text} {name}{blanks[3]}{comment}"


def random_file(chance, includes):
    """Some lines, among them one for each of these includes, as bytes."""
    lines = [random_line(chance) for _ in range(chance.randint(1, 6))]
    for path in includes:
        lines.insert(chance.randint(0, len(lines)), f'include "{path}"')
    end = chance.choice(["\n", "\n", "\n", "\n", "\n", "\r\n"])
    content = end.join(lines) + (end if chance.random() < 0.9 else "")
    return (MARK if chance.random() < 0.06 else b"") + content.encode()


def changed(chance, content):
    """The bytes with none to three of them changed, left out or added."""
    content = bytearray(content)
    for _ in range(chance.choice([0, 1, 1, 2, 3])):
        at, byte = chance.randrange(len(content) + 1), ord(chance.choice(CHANGES))
        content[at : at + chance.choice([0, 1])] = chance.choice([b"", bytes([byte]), bytes([byte])])
    return bytes(content)


def random_table(chance, path, names):
    """A table that is taken here, which may include the file at this path, and has no byte 0 that libX11 passes over."""
    while True:
        includes = [path] if chance.random() < 0.15 else []
        content = changed(chance, random_file(chance, includes))
        included = changed(chance, random_file(chance, [])) if includes else None
        try:
            visits = [*read(content, False, names, path, included)]
        except NotTaken:
            continue
        if not PASSED_OVER.search(content + (included or b"")):
            return Table(content, included, visits)


# ---- what they mean


class Names:
    """The keysyms of names, and the characters of keysyms that are not those of their numbers."""

    def __init__(self, values, characters):
        self.values, self.characters = values, characters

    def keysym(self, name):
        """The keysym of a name in any of its forms."""
        found = reference.keysym(name, self.values)
        if found is None and re.fullmatch(r"0x[0-9A-Fa-f]{1,8}", name):
            found = int(name, 16)
        if found is None or found > 0x1FFFFFFF:
            raise NotTaken
        return found

    def text(self, name):
        """The text of the keysym of a name."""
        return reference.own_text(self.keysym(name), self.characters).encode()


def is_modifier(key):
    """Whether a compose state passes over the key."""
    return key in range(0xFFE1, 0xFFEF) or key in range(0xFE01, 0xFE14) or key in (0xFF7E, 0xFF7F)


def defined(parts, is_included, number, names):
    """What a line of these parts defines."""
    events, raw, name = parts
    keysyms = tuple(names.keysym(it.decode()) for it in events)
    own = None if name is None else names.text(name.decode())
    if any(map(is_modifier, keysyms)):
        raise NotTaken
    try:
        return Definition(is_included, number, keysyms, raw, own if raw is None else reference.read_text(raw))
    except reference.Fault:
        raise NotTaken from None


def lines_of(content):
    """The lines of a file, without a byte order mark."""
    lines = content.removeprefix(MARK).split(b"\n")
    return lines[:-1] if lines[-1] == b"" else lines


def read_line(line):
    """The parts of a line, as `reference.read_line` has them."""
    try:
        line.decode()
        return reference.read_line(line)
    except (reference.Fault, UnicodeDecodeError):
        raise NotTaken from None


def read(content, is_included, names, path, included):
    """What the lines of a file define, and those that it includes, in the order in which they are read."""
    for number, line in enumerate(lines_of(content), 1):
        parts = read_line(line)
        if isinstance(parts, tuple):
            yield defined(parts, is_included, number, names)
        elif parts is not None:
            yield from read_included(parts, is_included, number, names, path, included)


def read_included(name, is_included, number, names, path, included):
    """What the lines of the included file define, if the file has this name and may be included."""
    if included is None or is_included or name != path.encode():
        raise NotTaken
    for definition in read(included, True, names, path, None):
        definition.including = number
        yield definition


class Typing:
    """What typing does by these sequences and their texts: of each two that begin alike the longer one counts."""

    def __init__(self, definitions):
        self.texts = {}
        for keys, text in definitions:
            self.texts[keys] = text
        self.begun = {keys[:count] for keys in self.texts for count in range(1, len(keys))}
        self.waiting = ()

    def press(self, key):
        """The status after a key, and the text that a sequence commits there."""
        if is_modifier(key):
            return "ignored", b""
        keys = (*self.waiting, key)
        self.waiting = ()
        if keys in self.begun:
            self.waiting = keys
            return "composing", b""
        if keys in self.texts:
            return "composed", self.texts[keys]
        return ("cancelled" if len(keys) > 1 else "nothing"), b""


def random_keys(chance, table, count):
    """Keys to press on a table: its sequences, parts of them, and any keys."""
    sequences = [it.keysyms for it in table.visits] or [(0x61,)]
    pool = sorted({key for sequence in sequences for key in sequence} - {0}) + [0x61, 0x62, 0x7A, 0xFF20, SHIFT]
    keys = []
    while len(keys) < count:
        sequence = [key for key in chance.choice(sequences) if key]
        what = chance.random()
        keys += sequence if what < 0.5 else sequence[: chance.randrange(len(sequence) + 1)] if what < 0.75 else [chance.choice(pool)]
    return keys[:count]
