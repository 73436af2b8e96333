"""Random tables with lines that have a fault here, for `tests/readers.py`, and what `--skip-faulty` makes of them, read a second time.

libxkbcommon reads many of these lines. What it reads in one is worked out here from its grammar, by regular expressions, and not by the program."""
import re

import changed
import reference

MODIFIERS = ["Ctrl", "Lock", "Caps", "Shift", "Alt", "Meta"]
OTHER_MODIFIERS = ["None", "Control", "none", "~", "!"]
KEYS = changed.SHORT_KEYS[:13] + ["UE9", "U61", "U000001eb", "U1F", "XF86_AudioPlay", "XF86_Nothing", "nothing"]
TEXTS = ["x", "é", "", r"\q", r"\ü", r"p\nq", r"\x", r"\xg", r"\x4", r"\101", r"\7", r"\\\"", r"\303\251", r"\351", "y z"]
NAMES = ["x", "U226", "U7a", "XF86_AudioPlay", "Greek_alpha", "nothing"]
BEHIND = ["# comment", '"y"', "<b>", ": x", "!", "z", "Ctrl <c>", "é", ">", "\\"]
BLANKS = [" ", " ", " ", "", "\t", "\v", "\f", "\r"]

SPACE = rb"[ \t\v\f\r]*"
WORD = rb"[A-Za-z_][A-Za-z0-9_]*"
LIST = rb"(?:None(?![A-Za-z0-9_])|(?:!%s)?(?:(?:~%s)?(?:Ctrl|Lock|Caps|Shift|Alt|Meta)(?![A-Za-z0-9_])%s)*)" % (SPACE, SPACE, SPACE)
KEY = rb"%s%s%s<([A-Za-z0-9_]+)>" % (SPACE, LIST, SPACE)
STRING = rb'"((?:[^"\\]|\\.)*)"'
KEY_AT = re.compile(KEY)
LINE = re.compile(rb"((?:%s){1,10})%s:%s(?:%s%s(?:(%s)|(?=#|\Z))|(%s))(.*)" % (KEY, SPACE, SPACE, STRING, SPACE, WORD, WORD), re.S)
PIECE = re.compile(rb'\\([\\"])|\\[xX]([0-9A-Fa-f]{0,2})|\\([0-7]{1,3})|\\|(.)', re.S)
SHORT_FORM = re.compile(rb"U([0-9A-Fa-f]{1,8})")


class Left(Exception):
    """The table isn't compared, since libxkbcommon does something with it that docs/READERS.md names."""


# ---- how they are written


def modifiers(chance):
    """A list of modifiers, or nothing, or something that is none."""
    if chance.random() < 0.5:
        return ""
    listed = [chance.choice(["", "", "~", "~ "]) + chance.choice(MODIFIERS) for _ in range(chance.choice([0, 1, 1, 2]))]
    return " ".join([*chance.choice([[], [], ["!"]]), *listed, *([chance.choice(OTHER_MODIFIERS)] if chance.random() < 0.15 else [])])


def random_line(chance):
    """A line that defines a sequence, perhaps by libxkbcommon alone."""
    if chance.random() < 0.3:
        return changed.random_line(chance)
    blank = lambda: chance.choice(BLANKS)
    keys = "".join(f"{modifiers(chance)}{blank()}<{chance.choice(KEYS[: chance.choice([3, 20])])}>{blank()}" for _ in range(chance.choice([1, 1, 2, 2, 3])))
    text = f'"{chance.choice(TEXTS)}"' if chance.random() < 0.85 else ""
    name = chance.choice(NAMES) if not text or chance.random() < 0.4 else ""
    behind = chance.choice(BEHIND) if chance.random() < 0.4 else ""
    return f"{blank()}{keys}{blank()}:{blank()}{text} {name} {behind}"


def random_table(chance, names, is_old):
    """A table, and what its lines define, of which some have a fault. `is_old`: for libxkbcommon before version 1.7."""
    while True:
        lines = [random_line(chance) for _ in range(chance.randint(1, 6))]
        content = changed.changed(chance, "".join(it + "\n" for it in lines).encode())
        try:
            visits, faulty = read(content, names, is_old)
        except Left:
            continue
        if faulty:
            return changed.Table(content, None, visits)


# ---- what they mean


def keysym(name, names):
    """The keysym of a name in libxkbcommon, other than 0."""
    try:
        found = names.keysym(name.decode())
    except changed.NotTaken:
        short = SHORT_FORM.fullmatch(name)
        if name.startswith(b"XF86_"):
            return keysym(b"XF86" + name[5:], names)
        character = int(short[1], 16) if short else 0
        if character < 0x20 or 0x7E < character < 0xA0 or character > 0x10FFFF:
            raise
        found = character if character < 0x100 else 0x1000000 + character
    if found == 0:
        raise changed.NotTaken
    return found


def typed(raw, is_old):
    """What a string types in libxkbcommon."""
    text = bytearray()
    for found in PIECE.finditer(raw):
        mark, hexadecimal, octal, other = found.groups()
        if hexadecimal or octal:
            code = int(hexadecimal, 16) if hexadecimal else int(octal, 8)
            if is_old and not 0 < code < 256:
                raise Left
            text += bytes([code]) if 0 < code < 256 else b""
        else:
            text += mark or other or b""
    return bytes(text)


def defined(line, number, names, is_old):
    """What libxkbcommon reads in a line, if it is a definition there."""
    found = LINE.match(line)
    if not found:
        raise changed.NotTaken
    keys, raw, behind = found[1], found[3], found[6]
    name = found[4] or found[5]
    keysyms = tuple(keysym(it, names) for it in KEY_AT.findall(keys))
    result = keysym(name, names) if name is not None else None
    if any(map(changed.is_modifier, keysyms)) or (name is not None and LINE.match(behind)):
        raise Left
    text = reference.own_text(result, names.characters).encode() if raw is None else typed(raw, is_old)
    try:
        text.decode()
    except UnicodeDecodeError:
        raise changed.NotTaken from None
    if is_old and len(text) == 255:
        raise Left
    if len(text) > 255:
        raise changed.NotTaken
    return changed.Definition(False, number, keysyms, raw, text)


def read(content, names, is_old):
    """What the lines of a table define, by this program's grammar or else by that of libxkbcommon, and the numbers of those with a fault."""
    if b"\0" in content or b"XF86__" in content or not content.endswith(b"\n") or content.startswith(changed.MARK):
        raise Left
    visits, faulty = [], []
    for number, line in enumerate(changed.lines_of(content), 1):
        try:
            parts = changed.read_line(line)
            if isinstance(parts, bytes):
                raise Left
            if parts is not None:
                visits.append(changed.defined(parts, False, number, names))
        except changed.NotTaken:
            faulty.append(number)
            try:
                visits.append(defined(line, number, names, is_old))
            except changed.NotTaken:
                pass
    return visits, faulty
