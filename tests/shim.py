#!/usr/bin/env python3
"""shim.py [ROUNDS]: libxkbcommon's calls over the C library beside libxkbcommon's own, in one process: which file of the user is read, by random files
and environments; random tables with includes, resets and numbers above every keysym; faulty lines that are left out; the texts of all keysyms, beside
xkb_keysym_to_utf8. Without libxkbcommon.so.0 nothing is compared.

It reads libcomposecheck-xkb.so and libcomposecheck.so.1 in the folder $COMPOSECHECK_BUILT, or in build/lib. The last line is `N passed, M failed`."""
import ctypes
import os
import random
import sys
import tempfile

TOP = os.path.dirname(os.path.dirname(os.path.abspath(__file__)))
sys.path[:0] = [f"{TOP}/share/composecheck"]
from harness import LIBRARY, Results

SEED = 79
# The variables that decide which file is read.
VARIABLES = ("XCOMPOSEFILE", "XDG_CONFIG_HOME", "HOME", "XLOCALEDIR", "COMPOSECHECK_SHIM_SKIP")
KEYS = {"a": 0x61, "b": 0x62, "Multi_key": 0xFF20, "dead_acute": 0xFE51, "U0300": 0x1000300, "0x1fffffff": 0x1FFFFFFF}
IGNORED = [0xFFE1, 0xFE03]
ABOVE = [0x20000000, 0xFFFFFFFF]
FAULTY = ['<nosuch> : "x"', '<a : "x"', "nothing of Compose", '<a> : "x', '<a> <Shift_L> <nosuch> : "x"', '<a> "x"', 'include "x', "<a> : nosuch"]
# As libxkbcommon does: with an eleventh faulty line there is no table.
MOST_LEFT_OUT = 10


class Xkb:
    """The calls of one of the two libraries."""

    def __init__(self, path, has_context):
        self.library, self.buffer = ctypes.CDLL(path), ctypes.create_string_buffer(256)
        pointer, text, number = ctypes.c_void_p, ctypes.c_char_p, ctypes.c_int
        for name, result, arguments in (
            ("table_new_from_locale", pointer, (pointer, text, number)),
            ("table_new_from_buffer", pointer, (pointer, text, ctypes.c_size_t, text, number, number)),
            ("table_unref", None, (pointer,)), ("state_new", pointer, (pointer, number)), ("state_unref", None, (pointer,)),
            ("state_reset", None, (pointer,)), ("state_feed", number, (pointer, ctypes.c_uint32)), ("state_get_status", number, (pointer,)),
            ("state_get_utf8", number, (pointer, text, ctypes.c_size_t)), ("state_get_one_sym", ctypes.c_uint32, (pointer,)),
        ):
            function = getattr(self.library, f"xkb_compose_{name}")
            function.restype, function.argtypes = result, arguments
        if has_context:
            self.library.xkb_context_new.restype, self.library.xkb_context_unref.argtypes = pointer, (pointer,)
        self.has_context = has_context

    def typed(self, keys, locale, text=None):
        """What these keys give by the table of the locale, or of this text; None resets. No table: None."""
        context = self.library.xkb_context_new(1) if self.has_context else None
        if text is None:
            table = self.library.xkb_compose_table_new_from_locale(context, locale, 0)
        else:
            table = self.library.xkb_compose_table_new_from_buffer(context, text, len(text), locale, 1, 0)
        steps = self.steps(table, keys) if table else None
        self.library.xkb_compose_table_unref(table)
        if self.has_context:
            self.library.xkb_context_unref(context)
        return steps

    def entries(self, text):
        """The sequences of the table of this text, each with its text and its keysym (of libxkbcommon 1.6)."""
        library, count = self.library, ctypes.c_size_t()
        for name, result in (("table_iterator_new", ctypes.c_void_p), ("table_iterator_next", ctypes.c_void_p), ("table_iterator_free", None),
                             ("table_entry_sequence", ctypes.POINTER(ctypes.c_uint32)), ("table_entry_keysym", ctypes.c_uint32), ("table_entry_utf8", ctypes.c_char_p)):
            getattr(library, f"xkb_compose_{name}").restype = result
        table = ctypes.c_void_p(library.xkb_compose_table_new_from_buffer(None, text, len(text), b"C", 1, 0))
        iterator, entries = ctypes.c_void_p(library.xkb_compose_table_iterator_new(table)), []
        while entry := ctypes.c_void_p(library.xkb_compose_table_iterator_next(iterator)):
            keys = tuple(library.xkb_compose_table_entry_sequence(entry, ctypes.byref(count))[: count.value])
            entries.append((keys, library.xkb_compose_table_entry_utf8(entry), library.xkb_compose_table_entry_keysym(entry)))
        library.xkb_compose_table_iterator_free(iterator)
        library.xkb_compose_table_unref(table)
        return entries

    def steps(self, table, keys):
        library, state = self.library, self.library.xkb_compose_state_new(table, 0)
        steps = []
        for key in keys:
            fed = library.xkb_compose_state_reset(state) if key is None else library.xkb_compose_state_feed(state, key)
            length = library.xkb_compose_state_get_utf8(state, self.buffer, len(self.buffer))
            steps.append((fed, library.xkb_compose_state_get_status(state), length, self.buffer.value, library.xkb_compose_state_get_one_sym(state)))
        library.xkb_compose_state_unref(state)
        return steps


def write(path, text):
    os.makedirs(os.path.dirname(path), exist_ok=True)
    with open(path, "wb") as file:
        file.write(text if isinstance(text, bytes) else text.encode())


def random_line(chance, seen, is_whole=False):
    """A line of a table. (What is read in another way is not among them, see docs/LIBRARY.md: a string of one character alone, and of one sequence
    a string and a keysym on different lines.)"""
    names = tuple(chance.choice(list(KEYS)) for _ in range(chance.randrange(1, 5)))
    keys, text, keysym = " ".join(f"<{it}>" for it in names), chance.choice(["é", "€", "😀", "\\\\", '\\"', "x", "ab", "\\101\\x42"]), f"F{chance.randrange(1, 9)}"
    forms = [f'{keys} : "{text}" {keysym}', f'\t{keys}:"{text}"\t{keysym}  # more']
    if not is_whole and names not in seen:
        forms += [f'{keys} : "x{text}"', f"{keys} : {keysym} ", f"{keys} : eacute"]
    seen.add(names)
    return chance.choice(forms)


def random_text(chance, seen, count, is_whole=False):
    return [random_line(chance, seen, is_whole) for _ in range(count)]


def random_keys(chance, count):
    return [chance.choice([*KEYS.values()] * 4 + IGNORED + ABOVE + [None]) for _ in range(count)]


def compare(results, what, mine, theirs, *words):
    got, wanted = mine.typed(*words), theirs.typed(*words)
    if got != wanted:
        results.expect(f"{what}, of {words!r:.600}", [it for it in zip(got or [None], wanted or [None]) if it[0] != it[1]][:3], [])
    return got == wanted, wanted is not None


# ---- tables

def check_tables(results, mine, theirs, chance, rounds, room):
    """Random tables with an include of the locale's, of home's and of one another."""
    same = made = 0
    os.environ.update(HOME=f"{room}/home", XLOCALEDIR=f"{room}/system")
    for _ in range(rounds):
        seen = set()
        for path in (f"{room}/system/en_US.UTF-8/Compose", f"{room}/home/mine"):
            write(path, "".join(it + "\n" for it in random_text(chance, seen, 3, is_whole=True)))
        lines = random_text(chance, seen, chance.randrange(12))
        for include in ('include "%L"', ' include  "%H/mine"  ', 'include "%S/en_US.UTF-8/Compose" # once more', 'include "%H/none"'):
            if chance.random() < 0.15:
                lines.insert(chance.randrange(len(lines) + 1), include)
        is_same, is_made = compare(results, "a random table", mine, theirs, random_keys(chance, 120), b"en_US.UTF-8", "\n".join([*lines, ""]).encode())
        same, made = same + is_same, made + is_made
    results.expect("random tables that type as libxkbcommon's", same, rounds)
    results.expect("most of them are tables", made > rounds // 2, True)


def check_entries(results, mine, chance, rounds):
    """The sequences that are listed: those of the lines which are no beginning of another one's, in rising order, each with what it types."""
    wrong = 0
    for _ in range(rounds):
        seen = set()
        text = "\n".join([*random_text(chance, seen, chance.randrange(12)), ""]).encode()
        lines = {tuple(KEYS[it] for it in names) for names in seen}
        entries = mine.entries(text)
        wanted = sorted(it for it in lines if not any(other[: len(it)] == it for other in lines - {it}))
        wrong += [keys for keys, _, _ in entries] != wanted
        wrong += any(mine.typed(keys, b"C", text)[-1][3:] != (given, keysym) for keys, given, keysym in entries)
    results.expect("tables whose sequences are listed otherwise", wrong, 0)


def check_left_out(results, mine, theirs, chance, rounds):
    """Faulty lines are left out, up to ten, and no line beside them."""
    same = made = 0
    os.environ["COMPOSECHECK_SHIM_SKIP"] = "1"
    for _ in range(rounds):
        lines = random_text(chance, set(), chance.randrange(1, 16))
        for _ in range(chance.choice([1, 2, 3, 9, MOST_LEFT_OUT, MOST_LEFT_OUT + 1])):
            lines.insert(chance.randrange(len(lines) + 1), chance.choice(FAULTY))
        is_same, is_made = compare(results, "faulty lines", mine, theirs, random_keys(chance, 120), b"C", "\n".join([*lines, ""]).encode())
        same, made = same + is_same, made + is_made
    del os.environ["COMPOSECHECK_SHIM_SKIP"]
    results.expect("tables with faulty lines that type as libxkbcommon's", same, rounds)
    results.expect("with ten faulty lines there is a table, with eleven none", rounds // 2 < made < rounds, True)
    results.expect("a faulty line refuses the table where none is left out", mine.typed([0x61], b"C", b'<a> : "xx"\n<nosuch> : "x"\n'), None)


# ---- the user's file

def random_environment(chance, room, beginnings):
    """Writes some of the files that a user may have, each of which types its own text for a key, with one of these beginnings, and sets the variables."""
    places = {
        "given": f"{room}/given", "config": f"{room}/config/XCompose", "relative": f"{room}/relative/XCompose",
        "home-config": f"{room}/home/.config/XCompose", "home": f"{room}/home/.XCompose",
    }
    for name, path in places.items():
        if os.path.exists(path):
            os.remove(path)
        if chance.random() < 0.5:
            write(path, f'{chance.choice(beginnings)}<a> : "of {name}"\n')
    for name, values in {
        "XCOMPOSEFILE": [None, None, places["given"], "", f"{room}/none"],
        "XDG_CONFIG_HOME": [None, f"{room}/config", "relative", "", f"{room}/none"],
        "HOME": [f"{room}/home", f"{room}/home", None, f"{room}/none"],
    }.items():
        value = chance.choice(values)
        os.environ.pop(name, None) if value is None else os.environ.update({name: value})


def check_environments(results, mine, theirs, chance, rounds, room):
    """Which file is read. (The folder is the one below which a relative $XDG_CONFIG_HOME would be.)"""
    same, seen, before = 0, set(), os.getcwd()
    os.chdir(room)
    os.environ.update(XLOCALEDIR=f"{room}/system", COMPOSECHECK_SHIM_SKIP="1")
    write(f"{room}/system/en_US.UTF-8/Compose", '<a> : "of the locale"\n<b> : "bb"\n')
    for _ in range(rounds):
        locale = chance.choice([b"C", b"en_US.UTF-8", b"en", b"xx", b""])
        # (an include of a locale's file that isn't known refuses the table here, see docs/LIBRARY.md)
        random_environment(chance, room, ["", "", "<a : x\n"] if locale in (b"xx", b"") else ["", "", "<a : x\n", 'include "%L"\n'])
        same += compare(results, "a random environment", mine, theirs, [0x61, 0x62], locale)[0]
        seen.add((mine.typed([0x61], locale) or [(0, 0, 0, b"no table")])[0][3])
    os.chdir(before)
    results.expect("environments in which the same file is read as by libxkbcommon", same, rounds)
    wanted = {b"of given", b"of config", b"of home-config", b"of home", b"of the locale", b"no table"}
    results.expect("each file is read in some of them, but for that of a relative folder", seen, wanted)


# ---- what differs

NOTHING, EMPTY = (0, "", 0), (2, "", 0)
# The table of docs/LIBRARY.md: what stands in a file, the keys, and what libxkbcommon 1.5 and the library make of it: a status, a text and a keysym, or
# no table.
DIFFERENCES = [
    ("a sequence of eleven keys", "<a> " * 11 + ': "x"\n', [0x61] * 11, NOTHING, (2, "x", 0x78)),
    ("a string of 255 bytes", f'<a> : "{"x" * 255}"\n', [0x61], NOTHING, (2, "x" * 255, 0)),
    ("an empty string", '<a> : ""\n', [0x61], EMPTY, NOTHING),
    ("a line feed", '<a> : "x\\ny"\n', [0x61], (2, "xny", 0), (2, "x\ny", 0)),
    ("another letter after a backslash", '<a> : "x\\qy"\n', [0x61], (2, "xqy", 0), NOTHING),
    ("the byte 0", '<a> : "\\0x"\n', [0x61], EMPTY, NOTHING),
    ("a modifier list", 'Ctrl <a> : "xx"\n', [0x61], (2, "xx", 0), NOTHING),
    ("words after a result", '<a> : "x" F1 more\n', [0x61], (2, "x", 0xFFBE), NOTHING),
    ("a number as a result", "<a> : 0x41\n", [0x61], NOTHING, (2, "A", 0x41)),
    ("NoSymbol as a key", '<NoSymbol> : "xx"\n', [0], NOTHING, (2, "xx", 0)),
    ("a number above every keysym, which is not NoSymbol", '<NoSymbol> : "xx"\n', [0x20000000], NOTHING, NOTHING),
    ("NoSymbol as a result", "<a> : NoSymbol\n", [0x61], NOTHING, EMPTY),
    ("a string and then a keysym", '<a> : "xx"\n<a> : F1\n', [0x61], (2, "xx", 0xFFBE), (2, "", 0xFFBE)),
    ("a keysym and then a string", '<a> : F1\n<a> : "xx"\n', [0x61], (2, "xx", 0xFFBE), (2, "xx", 0)),
    ("a last line without a newline", '<a> : "xx"', [0x61], NOTHING, (2, "xx", 0)),
    ("a string of one character", '<a> : "é"\n', [0x61], (2, "é", 0), (2, "é", 0xE9)),
    ("eleven lines without a result", "<b> :\n" * 11 + '<a> : "xx"\n', [0x61], (2, "xx", 0), None),
    ("eleven lines without keys", ': "x"\n' * 11 + '<a> : "xx"\n', [0x61], (2, "xx", 0), None),
    ("an include of what isn't known", 'include "%L"\n<a> : "xx"\n', [0x61], (2, "xx", 0), None),
]


def check_differences(results, mine, theirs, room):
    """Each line of the document's table says what both do."""
    os.environ.update(COMPOSECHECK_SHIM_SKIP="1", XLOCALEDIR=f"{room}/system")
    for what, text, keys, wanted, wanted_here in DIFFERENCES:
        for which, library, expected in (("libxkbcommon", theirs, wanted), ("the shim", mine, wanted_here)):
            steps = library.typed(keys, b"xx", text.encode())
            got = steps and (steps[-1][1], steps[-1][3].decode(), steps[-1][4])
            results.expect(f"{what}, by {which}", got, expected)
    os.environ.update(XCOMPOSEFILE=room)
    got = [library.typed([0x61], b"C") is not None for library in (theirs, mine)]
    results.expect("a folder in the place of a file", got, [False, True])
    del os.environ["XCOMPOSEFILE"]


# ---- texts of keys

# Keysyms that have a text by libxkbcommon and none here: surrogates are no characters, and numbers of Unicode begin at 0x1000100.
SURROGATES, LATIN = range(0x100D800, 0x100E000), range(0x1000001, 0x1000100)
# Those of which keysymdef.h says no character, and, with another text here, those of which it says another one.
CONTROLS = {"BackSpace": "\b", "Tab": "\t", "Linefeed": "\n", "Clear": "\v", "Return": "\r", "Escape": "\x1b", "Delete": "\x7f", "KP_Tab": "\t", "KP_Enter": "\r"}
KEYPAD = {"Space": " ", "Multiply": "*", "Add": "+", "Separator": ",", "Subtract": "-", "Decimal": ".", "Divide": "/", "Equal": "="}
BRACKETS = {"leftanglebracket": ("\u2329", "\u27e8"), "rightanglebracket": ("\u232a", "\u27e9")}
OTHER_TEXTS = {
    **{f"XK_{name}": ("", text) for name, text in CONTROLS.items()}, **{f"XK_KP_{name}": ("", text) for name, text in KEYPAD.items()},
    **{f"XK_{name}": texts for name, texts in BRACKETS.items()},
}


def all_keysyms(names):
    """The keysyms that may have a text: those with two bytes, of Unicode, with a name, and some beside them."""
    return sorted({*range(0x10000), *range(0x1000000, 0x1110010), *names, *(it + 1 for it in names), 0x1FFFFFFF, 0x20000000, 0xFFFFFFFF})


def check_texts(results, xkb):
    import composecheck as library

    length = ctypes.c_size_t()
    header = ctypes.string_at(library._library.composecheck_builtin_names(length), length.value).decode()
    names = {int(it.split()[2], 16): it.split()[1] for it in header.splitlines() if it.startswith("#define XK_") or it.startswith("#define XF86XK_")}
    function, buffer = xkb.library.xkb_keysym_to_utf8, ctypes.create_string_buffer(8)
    function.argtypes = (ctypes.c_uint32, ctypes.c_char_p, ctypes.c_size_t)
    keysyms = all_keysyms(names)
    differ = {}
    for keysym, text in zip(keysyms, library.texts(keysyms)):
        theirs = buffer.value.decode(errors="surrogateescape") if function(keysym, buffer, len(buffer)) > 0 else ""
        if theirs != text:
            differ[keysym] = (text, theirs)
    print(f"shim.py: {len(keysyms)} keysyms, of which {len(differ)} have another text by libxkbcommon")
    results.expect("surrogates and numbers below 0x1000100 have no text", {text for it, (text, _) in differ.items() if it in SURROGATES or it in LATIN}, {""})
    rest = {names.get(it, hex(it)): texts for it, texts in differ.items() if it not in SURROGATES and it not in LATIN}
    results.expect("other keysyms whose text differs", rest, OTHER_TEXTS)
    one, room = library._library.composecheck_key_text, ctypes.create_string_buffer(5)
    one.restype, one.argtypes = ctypes.c_size_t, (ctypes.c_uint32, ctypes.c_char_p)
    chosen = [it for it in keysyms if it in names][::7] + [0x1010000, 0x101F600, 0x110FFFF, *LATIN[::50], *SURROGATES[::500]]
    got = [(one(it, room), room.value) for it in chosen]
    results.expect("the texts of single keys", got, [(len(it.encode()), it.encode()) for it in library.texts(chosen)])


def main():
    results, chance = Results(), random.Random(SEED)
    rounds = int(sys.argv[1]) if len(sys.argv) > 1 else 300
    try:
        theirs = Xkb("libxkbcommon.so.0", True)
    except OSError:
        print("shim.py: without libxkbcommon.so.0 nothing is compared")
        return results.end()
    os.environ.setdefault("COMPOSECHECK_LIBRARY", LIBRARY)
    mine, kept = Xkb(f"{os.path.dirname(LIBRARY)}/libcomposecheck-xkb.so", False), {it: os.environ.pop(it, None) for it in VARIABLES}
    # (both print why a table is refused)
    errors = os.dup(2)
    os.dup2(os.open(os.devnull, os.O_WRONLY), 2)
    with tempfile.TemporaryDirectory(prefix="shim-") as room:
        write(f"{room}/system/compose.dir", "en_US.UTF-8/Compose: en_US.UTF-8\n")
        write(f"{room}/system/locale.alias", "en: en_US.UTF-8\n")
        write(f"{room}/system/en_US.UTF-8/Compose", "")
        os.environ["XLOCALEDIR"] = f"{room}/system"
        check_tables(results, mine, theirs, chance, rounds, room)
        check_entries(results, mine, chance, rounds // 3)
        check_left_out(results, mine, theirs, chance, rounds)
        check_environments(results, mine, theirs, chance, rounds, room)
        check_differences(results, mine, theirs, room)
        check_texts(results, theirs)
    os.dup2(errors, 2)
    os.environ.update({name: value for name, value in kept.items() if value is not None})
    return results.end()


if __name__ == "__main__":
    sys.exit(main())
