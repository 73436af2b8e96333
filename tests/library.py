#!/usr/bin/env python3
"""library.py: tests the C library: builds it of the proved static library, runs its examples and what docs/LIBRARY.md pastes, types random keys
on random tables beside a second reading of them, and, where libxkbcommon.so.0 is there, on a table of the system beside that; the user's table;
the packages for Rust and Go, where these are installed; threads; states, arrays, rooms and lines of any numbers, clauses of the headers, and each
allocation refused, the C of it compiled with -fsanitize=address,undefined, and under valgrind where that is there.

  library.py          20,000 keys on the table of en_US.UTF-8: for the gate; it takes seconds, once crates/compose_c is proved
  library.py COUNT    COUNT keys on each table of the system in UTF-8: for `make real`
  library.py PART..   only these of its parts, which are functions below, or the programs of tests/library

The last line is `N passed, M failed`."""
import ctypes
import os
import platform
import random
import re
import shutil
import subprocess
import sys
import tempfile

TOP = os.path.dirname(os.path.dirname(os.path.abspath(__file__)))
sys.path[:0] = [f"{TOP}/tests", f"{TOP}/lib", f"{TOP}/share/composecheck"]
import build_library
import key_streams
import packages as packages_test
import reference

SEED = 22
LOCALES = "/usr/share/X11/locale"
KEYS = [0x61, 0x62, 0x63, 0xFF20, 0x1000300, 0x1FFFFFFF]
IGNORED = [0xFE03, 0xFF7E, 0xFFE1]
BLOCK = re.compile(r"^```(\w*)\n(.*?)^```$", re.M | re.S)
CERTIFICATE = "compose-certificate 1\nbound 1\npairs 2\n0 0\n1 1\ntypings 0\n"


class Results:
    def __init__(self):
        self.passed = self.failed = 0

    def expect(self, holds, what):
        self.passed += bool(holds)
        self.failed += not holds
        if not holds:
            print(f"FAILED: {what}", flush=True)


# ---- a second reading


class Reading:
    """A table as a dict from sequences to texts, of which the later ones and the longer ones count, and a state on it."""

    def __init__(self, lines):
        rows = dict(lines)
        self.rows = {keys: text for keys, text in rows.items() if not any(is_prefix(keys, other) for other in rows)}

    def fed(self, pending, status, key):
        if key in IGNORED:
            return pending, status, None
        keys = (*pending, key)
        if any(is_prefix(keys, other) for other in self.rows):
            return keys, "composing", ""
        if keys in self.rows:
            return (), "composed", self.rows[keys]
        return (), "cancelled" if pending else "nothing", ""

    def loaded(self, pending, status):
        after = ()
        for key in pending:
            after, _, _ = self.fed(after, "", key)
        return after, "composing" if after else "nothing" if status == "composing" else status

    def following(self, pending, status):
        keys = sorted({keys[len(pending)] for keys in self.rows if is_prefix(pending, keys)})
        return [(key, *self.fed(pending, status, key)[1:]) for key in keys]


def is_prefix(keys, other):
    return len(keys) < len(other) and other[: len(keys)] == keys


def random_lines(chance):
    return [
        (tuple(chance.choice(KEYS) for _ in range(chance.randrange(1, 5))), "".join(chance.choice('xé"\\\n€😀') for _ in range(chance.randrange(1, 6))))
        for _ in range(chance.randrange(12))
    ]


def written(lines):
    def text_of(text):
        return text.replace("\\", "\\\\").replace('"', '\\"').replace("\n", "\\n")

    return "".join("".join(f"<{key:#x}> " for key in keys) + f': "{text_of(text)}"\n' for keys, text in lines)


def random_keys(results, library):
    """Types on random tables, of which now and then another one takes the place."""
    chance, wrong = random.Random(SEED), 0
    for _ in range(300):
        lines = random_lines(chance)
        table, reading = library.Table({"r": written(lines)}), Reading(lines)
        state, pending, status = library.State(), (), "nothing"
        wrong += table.is_table() != 1
        for _ in range(100):
            if chance.random() < 0.03:
                lines = random_lines(chance)
                table, reading = library.Table({"r": written(lines)}), Reading(lines)
                state.refeed(table)
                pending, status = reading.loaded(pending, status)
            key = chance.choice(KEYS + IGNORED)
            wrong += list(state.following(table)) != reading.following(pending, status)
            wrong += list(table.following(pending)) != reading.following(pending, status)
            text = state.feed(table, key)
            pending, status, wanted = reading.fed(pending, status, key)
            wrong += (text, state.status, tuple(state.pending)) != (wanted, status, pending)
    results.expect(wrong == 0, f"random keys: {wrong} times something else than by a second reading")


# ---- refusals and loads


def refusal(call):
    """Returns the fault with which the call is refused, and its sentence."""
    try:
        call()
    except Exception as refused:
        return refused.fault, str(refused)
    return None, ""


def refusals(results, library):
    for text, wanted in {
        '<a> : "x"\n  <nosuch> : "x"\n': ((3, 4, 0, 2, 3), 'no keysym has the name "nosuch"'),
        '<a> : "x\n': ((3, 3, 3, 1, 7), "the string is not closed"),
        '"é" <a>': ((3, 3, 1, 1, 1), None),
        'include "other"\n': ((3, 6, 0, 1, 9), None),
        '<Shift_L> : "x"\n': ((3, 5, 0, 1, 1), None),
    }.items():
        fault, said = refusal(lambda: library.Table({"r": text}))
        got = fault and (fault.part, fault.code, fault.lexical, fault.line, fault.column)
        results.expect(got == wanted[0] and wanted[1] in (None, said), f"the refusal of {text!r} is {got}, {said!r}")
    overlap = '<a> : "x"\n<a> <b> : "y"\n'
    fault, said = refusal(lambda: library.Table({"r": overlap}, longest=False))
    results.expect(fault and fault.part == 4 and said == "the sequence <a> is a prefix of the sequence <a> <b>", f"an overlap: {said!r}")
    fault, _ = refusal(lambda: library.Table({"r": overlap}, header="#define XK_x 0xffffffff\n"))
    results.expect(fault and (fault.part, fault.code, fault.line) == (1, 3, 1), "the header's fault")
    fault, _ = refusal(lambda: library.Table({}))
    results.expect(fault and (fault.part, fault.code) == (2, 1), "no source at all")


def loads(results, library):
    old = library.Table({"r": '<a> <b> : "x"\n'})
    good, bad = {"r": '<a> <b> : "x"\n<a> <c> : "y"\n'}, {"r": '<a> <b> : "z"\n'}
    loaded = old.load(good, CERTIFICATE, "")
    state = library.State()
    state.feed(old, 0x61)
    state.refeed(loaded)
    results.expect(state.feed(loaded, 0x63) == "y", "a sequence that a load brought")
    fault, _ = refusal(lambda: old.load(bad, CERTIFICATE, ""))
    results.expect(fault and (fault.part, fault.code, fault.at, fault.value) == (9, 7, 1, 0x62), "a load that changes a text is refused")
    fault, _ = refusal(lambda: old.load(good, CERTIFICATE[:-1], ""))
    results.expect(fault and (fault.part, fault.code, fault.line) == (8, 1, 6), "a certificate that is cut is refused")
    fault, _ = refusal(lambda: old.load(good, CERTIFICATE, "nothing"))
    results.expect(fault and (fault.part, fault.code, fault.line) == (7, 1, 1), "a repertoire of another form is refused")
    for what, certificate, part in (("another certificate's bundle", CERTIFICATE, 9), ("a bundle without a certificate", "", 8)):
        bundle = library.find("/r", look=looking({"/r": bad["r"]}, []), certificate=certificate)
        fault, _ = refusal(lambda: library.Table({}, repertoire="", bundle=bundle, in_use=old))
        results.expect(fault and fault.part == part, f"{what} is refused")
    results.expect(refusal(lambda: old.check(loaded, CERTIFICATE, ""))[0] is None, "a valid certificate")
    fault, _ = refusal(lambda: old.check(loaded, CERTIFICATE, "U+00E9\n"))
    results.expect(fault and (fault.part, fault.value) == (9, 0xE9), "a certificate without a typing of the repertoire's character")
    fault, _ = refusal(lambda: old.check(library.Table(bad), CERTIFICATE, ""))
    results.expect(fault and fault.part == 9, "a certificate for another table")


RESULTS = """<a> : "x" F1
<b> : "é"
<c> : "xyz"
<d> : Left
<e> : eacute
<f> <a> : "x" F2
<f> <a> : "z" F3
<f> <b> : "α"
<h> : "xyz" eacute
<i> : "\\001"
<j> : "0"
"""


def result_keysyms(results, library):
    """The keysym that the line names which counts, else the least one of the text's character (keysymdef.h has the numbers)."""
    table, state = library.Table({"r": RESULTS}), library.State()
    wanted = {"a": 0xFFBE, "b": 0xE9, "c": 0, "d": 0xFF51, "e": 0xE9, "f": 0, "g": 0, "h": 0xE9, "i": 0, "j": 0x30}
    got = {key: state.result(table, ord(key)) for key in wanted}
    results.expect(got == wanted, f"the result keysyms {got}")
    state.feed(table, ord("f"))
    got = [state.result(table, keysym) for keysym in (0x61, 0x62, 0x63, 0xFFE1, 0x20000000)]
    results.expect(got == [0xFFC0, 0x7E1, 0, 0, 0], f"the result keysyms behind f are {got}")
    results.expect(state.pending == [0x66] and state.status == "composing", "the state stays as it is")
    certificate = "compose-certificate 1\nbound 0\npairs 1\n0 0\ntypings 0\n"
    loaded = library.Table({"r": '<a> : "x" F1\n'}).load({"r": '<a> : "x" F2\n'}, certificate, "")
    results.expect(library.State().result(loaded, 0x61) == 0xFFBF, "the result keysym of a table that was loaded")


def key_texts(results, library):
    """The texts of keys: keysymdef.h has the numbers, and the character of Greek_alpha in its comment."""
    keysyms = [0x61, 0xE9, 0x7E1, 0x10020AC, 0xFFB3, 0xFF20, 0x1FFFFFFF, 0x20000000, 0xFFFFFFFF, 0x1F600 + 0x1000000]
    got = library.texts(keysyms)
    results.expect(got == ["a", "é", "α", "€", "3", "", "", "", "", "😀"], f"the texts of keys are {got}")
    results.expect(library.texts([0x7E1], "") == [""], "a keysym whose character the header doesn't give")
    results.expect(library.texts([0x1234, 0x41], "#define XK_made_up 0x1234 /* U+00DF LATIN SMALL LETTER SHARP S */\n") == ["ß", "A"], "a character of the header")
    fault, _ = refusal(lambda: library.texts([0x61], "#define XK_x 0xffffffff\n"))
    results.expect(fault and (fault.part, fault.code, fault.line) == (1, 3, 1), "a header that is refused")
    results.expect(library.texts([]) == [], "no keys")


# ---- files


FILES = {
    "/r/root": 'include "%L"\n\ninclude "%S/s"\n  include "%H/h"\ninclude "../r/beside"\n<x> : "x"\n',
    "/locale": '<a> : "L"\n',
    "/system/s": 'include "%L"\n<b> : "S"\n',
    "/home/h": '<c> : "H"\n',
    "/r/../r/beside": '<d> : "B"\n',
    "/chroot/system/s": '<b> : "below"\n',
}
PLACES = {"system": "/system", "locale": "/locale", "home": "/home"}


def looking(files, asked):
    """Returns a function that looks for a path among these files, and notes each path that it is asked for."""

    def look(path):
        asked.append(path.decode())
        found = files.get(path.decode())
        return found.encode() if isinstance(found, str) else found

    return look


def stopped(library, root, files, **places):
    """Returns the numbers of the fault with which a search is refused, and the path of the answer that it names."""
    asked = []
    fault, _ = refusal(lambda: library.find(root, look=looking(files, asked), **places))
    return fault and (fault.part, fault.code, fault.lexical, fault.line, fault.column, asked[fault.source] if fault.source < len(asked) else "")


def searches(results, library):
    """Searches for files: what is asked for, in which order, what is found, and each fault."""
    asked = []
    table = library.Table.from_file("/r/root", look=looking(FILES, asked), **PLACES)
    typed = [library.State().feed(table, ord(key)) for key in "abcdx"]
    results.expect(typed == list("LSHBx"), f"the files of a table type {typed}")
    wanted = ["/r/root", "/locale", "/system/s", "/home/h", "../r/beside", "/r/../r/beside"]
    results.expect(asked == wanted, f"the paths that are asked for: {asked}")
    asked.clear()
    table = library.Table.from_file("/r/root", look=looking(FILES, asked), sysroot="/chroot", **PLACES)
    results.expect(library.State().feed(table, 0x62) == "below" and asked[1] == "/chroot/locale", f"below a sysroot: {asked}")
    deep = {f"/{n}": f'include "/{n + 1}"\n' for n in range(10)}
    many = {"/r": "".join(f'include "/{n}"\n' for n in range(64)), **{f"/{n}": "" for n in range(64)}}
    for root, files, places, numbers in (
        ("/nothing", {}, {}, (10, 2, 0, 0, 0, "/nothing")),
        ("/r", {"/r": '# é\n "é" \n include  "é/x"\n'}, {}, (10, 3, 0, 3, 11, "/r")),
        ("/r", {"/r": 'include "s"\n', "/s": '\ninclude "t"\n'}, {}, (10, 3, 0, 2, 9, "/s")),
        ("/r", {"/r": 'include "é\\q"\n'}, {}, (10, 4, 4, 1, 11, "/r")),
        ("/r", {"/r": 'include "%x"\n'}, {}, (10, 5, 0, 1, 9, "/r")),
        ("/r", {"/r": 'include "%L"\n'}, {}, (10, 6, 0, 1, 9, "/r")),
        ("/r", {"/r": 'include "%H"\n'}, {}, (10, 7, 0, 1, 9, "/r")),
        ("/a/r", {"/a/r": 'include "x"\ninclude "/b/s"\n', "/a/x": "", "/b/s": 'include "x"\n', "/b/x": ""}, {}, None),
        ("/r", many, {}, (10, 9, 0, 64, 9, "/r")),
        ("/0", deep, {}, (10, 10, 0, 1, 9, "/8")),
        (b"/\xff", {}, {}, (10, 1, 0, 0, 0, "")),
        ("/r", {"/r": ""}, {"home": b"\xff"}, (10, 1, 0, 0, 0, "")),
        ("/r", {"/r": b"x" * 9_000_000}, {}, (2, 2, 0, 0, 0, "/r")),
    ):
        got = stopped(library, root, files, **places)
        if numbers is None:
            results.expect(got and got[:2] == (10, 8), f"one text that leads to two files: {got}")
        else:
            results.expect(got == numbers, f"the search from {root!r} is refused with {got}, not with {numbers}")
    circle = {"/a": 'include "b"\n', "/b": 'include "a"\n'}
    fault, _ = refusal(lambda: library.Table.from_file("/a", look=looking(circle, [])))
    results.expect(fault and (fault.part, fault.code) == (3, 7), "a circle of includes is found, and refused by reading")
    bundle = library.find("/r", look=looking({"/r": '<a> <b> : "x"\n'}, []), certificate=CERTIFICATE)
    loaded = library.Table({}, repertoire="", bundle=bundle, in_use=library.Table({"r": '<a> <b> : "x"\n'}))
    results.expect(loaded.is_table() == 1, "a load with the certificate of a search")
    directory = b"en_US.UTF-8/Compose: en_US.UTF-8\n/abs/Compose\tde_DE\n"
    got = [library.locale_file(it, "/f", directory, "de: de_DE\n") for it in ("en_US.UTF-8", "de", "de_DE", "xx", b"\xff")]
    results.expect(got == ["/f/en_US.UTF-8/Compose", "/abs/Compose", "/abs/Compose", None, None], f"the tables of locales are {got}")
    long = "x" * 5000
    results.expect(library.locale_file("l", "/f", f"{long}: l\n", "") == f"/f/{long}", "a long path of a locale's table")


# ---- the user's table


VARIABLES = ("XCOMPOSEFILE", "XDG_CONFIG_HOME", "HOME", "XLOCALEDIR", "LC_ALL", "LC_CTYPE", "LANG")


def user_tables(results, library):
    """Which file is the user's, what is left out of it, and what is reported."""
    kept = {it: os.environ.pop(it) for it in VARIABLES if it in os.environ}
    with tempfile.TemporaryDirectory(prefix="library-") as room:
        def write(name, text):
            os.makedirs(os.path.dirname(f"{room}/{name}"), exist_ok=True)
            with open(f"{room}/{name}", "wb") as file:
                file.write(text.encode())

        def typed(locale=None, **options):
            reports = []
            try:
                table = library.Table.from_locale(locale, lambda fault, said: reports.append((fault.part, fault.line, said.replace(room, ""))), system, **options)
            except library.Refused as refused:
                return (refused.fault.part, refused.fault.code, str(refused).replace(room, "")), reports
            return library.State().feed(table, 0x61), reports

        system = f"{room}/system"
        write("system/compose.dir", "en/Compose: en_US.UTF-8\nde/Compose: de_DE.UTF-8\nnone/Compose: fr\n")
        write("system/locale.alias", "german: de_DE.UTF-8\n")
        write("system/en/Compose", '<a> : "en"\n')
        write("system/de/Compose", '<a> : "de"\n')
        for locale, wanted in (("en_US.UTF-8", "en"), ("C", "en"), (None, "en"), ("german", "de")):
            results.expect(typed(locale) == (wanted, []), f"the table of the locale {locale}: {typed(locale)}")
        for locale in ("xx", "fr", "POSIX"):
            results.expect(typed(locale) == ((10, 2, f"there is no Compose file for the locale {locale}"), []), f"no table for {locale}: {typed(locale)}")
        for name, locale, wanted in (("LANG", "de_DE.UTF-8", "de"), ("LC_CTYPE", "en_US.UTF-8", "en"), ("LC_ALL", "german", "de"), ("LC_ALL", "", "en")):
            os.environ[name] = locale
            results.expect(typed() == (wanted, []), f"the locale by {name}={locale}: {typed()}")
        os.environ.update(HOME=f"{room}/home", XLOCALEDIR="/nowhere")
        write("home/.XCompose", 'include "%L"\n<b> : "b"\n')
        results.expect(typed("german") == ("de", []), f"a file of the user that includes the locale's: {typed('german')}")
        write("home/.config/XCompose", '<a> : "x"\n<nosuch> : "y"\n <b : "z"\n<a> : "of config"\n')
        reported = [(3, 2, '/home/.config/XCompose:2:1: no keysym has the name "nosuch"'), (3, 3, '/home/.config/XCompose:3:5: expected ">", found ":"')]
        results.expect(typed() == ("of config", reported), f"faulty lines are left out and reported: {typed()}")
        results.expect(typed(strict=True) == ((3, 4, reported[0][2]), []), f"a strict table is refused: {typed(strict=True)}")
        os.environ["XCOMPOSEFILE"] = room
        results.expect(typed()[0] == "of config", f"a folder is no file: {typed()}")
        write("given", "<nosuch> : x\n" * 10 + '<a> : "given"\n')
        os.environ["XCOMPOSEFILE"] = f"{room}/given"
        results.expect((typed()[0], len(typed()[1])) == ("given", 10), f"ten faulty lines are left out: {typed()}")
        write("given", "<nosuch> : x\n" * 11)
        results.expect(typed()[0] == (3, 4, '/given:11:1: no keysym has the name "nosuch"'), f"the eleventh refuses the table: {typed()}")
        write("given", 'include "%H/none"\n')
        results.expect(typed() == ((10, 3, "/given:1:9: the file of the include isn't there"), []), f"no file of an include: {typed()}")
    for it in VARIABLES:
        os.environ.pop(it, None)
    os.environ.update(kept)


# ---- tables as bytes, and cached tables


def blocks(results, library):
    """The bytes of a table are a table elsewhere, and other bytes are refused."""
    table = library.Table({"r": RESULTS})
    block = bytes(table)
    copy = library.Table.from_bytes(block)
    results.expect(bytes(copy) == block and copy.is_table() == 1, "a copy of a table has its bytes")
    results.expect([library.State().feed(copy, ord(key)) for key in "ach"] == ["x", "xyz", "xyz"], "a copy types as its table")
    results.expect(library.State().result(copy, 0x61) == 0xFFBE, "a copy has the result keysyms")
    for what, other, code in (("no bytes", b"", 1), ("a cut table", block[:-8], 1), ("a longer one", block + bytes(8), 1), ("other nodes", block[:120] + b"\1" + block[121:], 2)):
        fault, said = refusal(lambda: library.Table.from_bytes(other))
        results.expect(fault and (fault.part, fault.code, said) == (11, code, "the bytes are no table"), f"{what}: {said}")
    results.expect(bytes(library.Table.from_bytes(bytearray(block))) == block, "a table of a buffer")


class Cached:
    """A folder with the files of a user and a cache, in which tables of locales are opened."""

    def __init__(self, library, room):
        self.library, self.room = library, room
        self.write("system/compose.dir", "en/Compose: en_US.UTF-8\n")
        self.write("system/locale.alias", "en: en_US.UTF-8\n")
        self.write("system/en/Compose", '<a> : "en"\n')
        os.environ.update(HOME=f"{room}/home", XDG_CACHE_HOME=f"{room}/cache")

    def write(self, name, text):
        os.makedirs(os.path.dirname(f"{self.room}/{name}"), exist_ok=True)
        with open(f"{self.room}/{name}", "wb") as file:
            file.write(text if isinstance(text, bytes) else text.encode())

    def opened(self, locale="en", cached=True, **options):
        """What the key `a` types on the table."""
        table = self.library.Table.from_locale(locale, None, f"{self.room}/system", cached=cached, **options)
        return self.library.State().feed(table, 0x61)

    def files(self, folder="cache/composecheck"):
        """The files of the cache, with what shows that one was written."""
        place = f"{self.room}/{folder}"
        return {it: (os.lstat(f"{place}/{it}").st_ino, os.lstat(f"{place}/{it}").st_mtime_ns) for it in sorted(os.listdir(place))} if os.path.isdir(place) else {}

    def name(self):
        """The file of the cache for the locale en and this home."""
        texts = f"\1en\0\1{self.room}/system\0\1{self.room}/home\0\0\0".encode()
        return next(it for it in self.files() if texts in read(f"{self.room}/cache/composecheck/{it}"))

    def is_taken(self, wanted, **how):
        """Whether the table is that, and is taken from the cache: nothing is written."""
        before = self.files()
        return self.opened(**how) == wanted and self.files() == before

    def is_made(self, wanted, **how):
        """Whether the table is that, and is made of its files, kept, and then taken from the cache."""
        before = self.files()
        return self.opened(**how) == wanted and self.files() != before and self.is_taken(wanted, **how)

    def is_not_kept(self, wanted, **how):
        """Whether the table is that, and the cache stays as it is, in which it is not."""
        before = self.files()
        return self.opened(**how) == wanted and self.files() == before and self.opened(**how) == wanted and self.files() == before


def cached_tables(results, library):
    """Tables are taken from the cache while all files are the same, and no file of the cache does harm."""
    kept = {it: os.environ.pop(it) for it in (*VARIABLES, "XDG_CACHE_HOME") if it in os.environ}
    with tempfile.TemporaryDirectory(prefix="library-") as room:
        user = Cached(library, room)
        cached_files(results, user)
        damaged_caches(results, user)
        places_of_caches(results, user)
    for it in (*VARIABLES, "XDG_CACHE_HOME"):
        os.environ.pop(it, None)
    os.environ.update(kept)


def cached_files(results, user):
    room = user.room
    results.expect(user.is_not_kept("en", cached=False) and not os.path.exists(f"{room}/cache"), "nothing is kept unasked")
    results.expect(user.is_made("en") and len(user.files()) == 1, f"a table is kept: {user.files()}")
    modes = [oct(os.stat(it).st_mode & 0o777) for it in (f"{room}/cache", f"{room}/cache/composecheck", f"{room}/cache/composecheck/{list(user.files())[0]}")]
    results.expect(modes == ["0o700", "0o700", "0o600"], f"nobody else may read it: {modes}")
    results.expect(user.is_taken("en", strict=True), "a table without faults is that of strict reading too")
    for what, name, text, typed in (
        ("a table that changes within its length", "system/en/Compose", '<a> : "EN"\n', "EN"),
        ("one that grows", "system/en/Compose", '<a> : "EN"\n<b> : "b"\n', "EN"),
        ("a file of the user that comes to be", "home/.XCompose", 'include "%L"\n', "EN"),
        ("an include that changes", "system/en/Compose", '<a> : "in"\n', "in"),
        ("a file that comes before it", "home/.config/XCompose", 'include "%H/more"\n', None),
        ("its include that comes to be", "home/more", '<a> : "more"\n', "more"),
        ("an alias that changes", "system/locale.alias", "en: en_US.UTF-8\nxx: yy\n", "more"),
        ("a list of locales that changes", "system/compose.dir", "en/Compose: en_US.UTF-8\nde/Compose: de\n", "more"),
    ):
        times = os.stat(f"{room}/{name}") if os.path.exists(f"{room}/{name}") else None
        user.write(name, text)
        if times:
            os.utime(f"{room}/{name}", ns=(times.st_atime_ns, times.st_mtime_ns))
        if typed is None:
            results.expect(refusal(user.opened)[0].part == 10 and refusal(user.opened)[0].code == 3, "an include that isn't there is said, though a table is kept")
        else:
            results.expect(user.is_made(typed), f"{what}: {user.opened()}")
    os.remove(f"{room}/home/.config/XCompose")
    results.expect(user.is_made("in"), "a file that goes away")
    results.expect(user.is_made("in", locale="C") and len(user.files()) == 2, "another locale has a file of its own")
    os.environ["HOME"] = f"{room}/other"
    results.expect(user.is_made("in") and len(user.files()) == 3, "another home has a file of its own")
    os.environ.update(HOME=f"{room}/home", XCOMPOSEFILE=f"{room}/own")
    user.write("own", '<a> : "own"\n<nosuch> : "x"\n')
    results.expect(user.is_not_kept("own"), "a table of which a line is left out isn't kept, so that it is said each time")
    os.remove(f"{room}/own")
    os.mkfifo(f"{room}/own")
    for text in ("one", "two"):
        writer = subprocess.Popen(["sh", "-c", f"""printf '<a> : "{text}"\n' > '{room}/own'"""])
        results.expect(user.opened() == text and writer.wait(10) == 0, "a pipe has its bytes once")
    os.environ.pop("XCOMPOSEFILE")
    results.expect(not [it for it in user.files() if "." in it], f"no other file is left: {user.files()}")
    shim = compose_calls(f"{os.path.dirname(os.environ['COMPOSECHECK_LIBRARY'])}/libcomposecheck-xkb.so")
    for variable, count in ((None, 0), ("COMPOSECHECK_SHIM_CACHE", 1)):
        os.environ.update({"XLOCALEDIR": f"{room}/system", "XDG_CACHE_HOME": f"{room}/shim", **({variable: "1"} if variable else {})})
        table = shim.xkb_compose_table_new_from_locale(None, b"en", 0)
        results.expect(table and len(user.files("shim/composecheck")) == count, f"the shim caches tables if {variable} is set")
        shim.xkb_compose_table_unref(table)
    os.environ.pop("COMPOSECHECK_SHIM_CACHE")
    os.environ.pop("XLOCALEDIR")
    os.environ["XDG_CACHE_HOME"] = f"{room}/cache"


def damaged_caches(results, user):
    """Whatever the cache's file holds, the table is that of its files, and the file is a right one after that."""
    results.expect(user.opened() == "in", "a table before its cache is damaged")
    place = f"cache/composecheck/{user.name()}"
    path = f"{user.room}/{place}"
    good, wrong = read(path), []
    for at in range(0, len(good), 3):
        user.write(place, good[:at] + bytes([good[at] ^ (1 << at % 8)]) + good[at + 1 :])
        wrong += [at] if user.opened() != "in" or read(path) != good else []
    results.expect(not wrong, f"a byte of the cache's file that is another one, at {wrong[:5]}")
    for length in range(0, len(good), 23):
        user.write(place, good[:length])
        wrong += [length] if user.opened() != "in" or read(path) != good else []
    user.write(place, good + bytes(8))
    results.expect(not wrong and user.opened() == "in" and read(path) == good, f"a file of the cache that is cut, at {wrong[:5]}, or longer")
    other = bytes(user.library.Table({"r": '<a> : "no"\n'}))
    at = good.index(b"compose\0")
    user.write(place, good[:at] + other + good[at + len(other) :])
    results.expect(len(other) == len(good) - at and user.opened() == "in", "another table in the cache's file")


def read(path):
    with open(path, "rb") as file:
        return file.read()


def places_of_caches(results, user):
    """Files and folders that are not the user's own are not used, and where there is no place nothing is kept."""
    room, folder = user.room, f"{user.room}/cache/composecheck"
    results.expect(user.is_taken("in"), "a table before its cache is another one's")
    name = user.name()
    os.chmod(f"{folder}/{name}", 0o666)
    results.expect(user.is_made("in") and os.stat(f"{folder}/{name}").st_mode & 0o777 == 0o600, "a file that others may write is not used")
    os.rename(f"{folder}/{name}", f"{room}/moved")
    os.symlink(f"{room}/moved", f"{folder}/{name}")
    results.expect(user.is_made("in") and not os.path.islink(f"{folder}/{name}"), "a link is not followed")
    if os.geteuid() == 0:
        os.chown(f"{folder}/{name}", 65534, 65534)
        results.expect(user.is_made("in") and os.stat(f"{folder}/{name}").st_uid == 0, "a file of another user is not used")
    shutil.rmtree(folder)
    os.mkdir(folder, 0o777)
    os.chmod(folder, 0o777)
    results.expect(user.is_not_kept("in") and not user.files(), "nothing is kept in a folder that others may write")
    shutil.rmtree(f"{room}/cache")
    user.write("cache", "a file")
    results.expect(user.opened() == "in" and user.opened() == "in", "no folder can be made")
    os.environ["XDG_CACHE_HOME"] = "relative"
    results.expect(user.opened() == "in" and len(user.files("home/.cache/composecheck")) == 1, "a relative folder is no place for caches, and the one of home is")
    os.environ.pop("HOME")
    results.expect(user.opened() == "in" and not os.path.exists("relative"), "without a home nothing is kept")


# ---- beside libxkbcommon


def compose_calls(path):
    """Returns the library at the path, by libxkbcommon's names, or None where it isn't there."""
    try:
        library = ctypes.CDLL(path)
    except OSError:
        return None
    pointer, text = ctypes.c_void_p, ctypes.c_char_p
    for name, result, arguments in (
        ("table_new_from_file", pointer, (pointer, pointer, text, ctypes.c_int, ctypes.c_int)),
        ("table_new_from_locale", pointer, (pointer, text, ctypes.c_int)),
        ("table_unref", None, (pointer,)),
        ("state_new", pointer, (pointer, ctypes.c_int)),
        ("state_unref", None, (pointer,)),
        ("state_reset", None, (pointer,)),
        ("state_feed", ctypes.c_int, (pointer, ctypes.c_uint32)),
        ("state_get_status", ctypes.c_int, (pointer,)),
        ("state_get_utf8", ctypes.c_int, (pointer, text, ctypes.c_size_t)),
    ):
        function = getattr(library, f"xkb_compose_{name}")
        function.restype, function.argtypes = result, arguments
    return library


class Typed:
    """A state of one of the two libraries, over the table of a locale."""

    def __init__(self, library, context, locale):
        self.library, self.buffer = library, ctypes.create_string_buffer(256)
        self.table = library.xkb_compose_table_new_from_locale(context, locale.encode(), 0)
        self.state = self.table and library.xkb_compose_state_new(self.table, 0)

    def feed(self, key):
        fed = self.library.xkb_compose_state_feed(self.state, key)
        length = self.library.xkb_compose_state_get_utf8(self.state, self.buffer, len(self.buffer))
        return fed, self.library.xkb_compose_state_get_status(self.state), length, self.buffer.value

    def end(self):
        if self.state:
            self.library.xkb_compose_state_unref(self.state)
            self.library.xkb_compose_table_unref(self.table)


def differences(mine, theirs, keys):
    """How many of the keys are answered in another way; both are put at rest now and then."""
    wrong = 0
    for index, key in enumerate(keys):
        wrong += mine.feed(key) != theirs.feed(key)
        if index % 997 == 0:
            for it in (mine, theirs):
                it.library.xkb_compose_state_reset(it.state)
    return wrong


def beside(results, folder, count, locales):
    """Types on the tables of these locales by the shim, beside libxkbcommon."""
    theirs, mine = compose_calls("libxkbcommon.so.0"), compose_calls(f"{folder}/lib/libcomposecheck-xkb.so")
    values = reference.header_values(f"{TOP}/crates/builtin_names/src/lines.rt")
    os.environ.update(HOME="/nonexistent", XDG_CONFIG_HOME="/nonexistent")
    for locale in locales:
        path = f"{LOCALES}/{locale}/Compose"
        if not theirs or not os.path.exists(path):
            print(f"library.py: without libxkbcommon.so.0 or {path} nothing is compared on it")
            continue
        theirs.xkb_context_new.restype = ctypes.c_void_p
        both = Typed(mine, None, locale), Typed(theirs, theirs.xkb_context_new(1), locale)
        if not all(it.state for it in both):
            results.expect(not both[0].state and not both[1].state, f"{locale}: a table by one of the two alone")
        else:
            keys = reference.sequences(path, values) or [[0x61]]
            wrong = differences(*both, [*key_streams.stream(keys, count // 2, SEED), *key_streams.random_keys(keys, count // 2, SEED)])
            results.expect(wrong == 0, f"{locale}: {wrong} of {count} keys are answered in another way than by libxkbcommon")
        for it in both:
            it.end()


# ---- C


def compiled(folder, source, *words):
    target = os.path.join(folder, os.path.basename(source)[:-2])
    command = [build_library.compiler(), *build_library.WARNINGS, f"-I{TOP}/lib", source, *words, "-o", target]
    subprocess.run(command, check=True)
    return target


CHECKED = ["-g", "-O1", "-fsanitize=address,undefined", "-fno-sanitize-recover=all"]
WRAPPED = [f"-Wl,--wrap={it}" for it in ("malloc", "calloc", "realloc", "free")]


def ran_well(results, what, *command):
    ran = subprocess.run(command, stdout=subprocess.PIPE, stderr=subprocess.STDOUT, text=True, errors="replace", timeout=120)
    results.expect(ran.returncode == 0, f"{what}: {ran.stdout}")
    return ran.stdout


def c_programs(results, folder):
    """Programs in C, with the C of the library and of the shim compiled to find what is read or written outside; two of them under valgrind too."""
    names = [it for it in ("hostile", "threads", "blocks", "clauses", "memory", "shim") if is_chosen(it)]
    if names:
        build_library.build(f"{folder}/checked", CHECKED)
        os.mkdir(f"{folder}/files")
    if "shim" in names and not has_shim_header(folder):
        print("library.py: without libxkbcommon-dev the calls of the shim are not tried")
        names.remove("shim")
    for name in names:
        words = {"memory": ["-D_GNU_SOURCE", *WRAPPED], "shim": [f"{folder}/checked/xkb_shim.o"]}.get(name, [])
        program = compiled(folder, f"{TOP}/tests/library/{name}.c", *CHECKED, *words, f"{folder}/checked/libcomposecheck.a", "-lpthread")
        ran_well(results, name, program, f"{folder}/files")
    if not shutil.which("valgrind"):
        print("library.py: without valgrind nothing is run under it")
        return
    for name in set(names) & {"clauses", "shim"} if is_chosen("valgrind") else ():
        words = [f"{folder}/plain/xkb_shim.o"] if name == "shim" else []
        program = compiled(f"{folder}/plain", f"{TOP}/tests/library/{name}.c", "-g", *words, f"{folder}/plain/libcomposecheck.a")
        ran_well(results, f"{name} under valgrind", "valgrind", "--quiet", "--leak-check=full", "--error-exitcode=9", program, f"{folder}/files")


def has_shim_header(folder):
    """Whether the header of libxkbcommon's calls is there."""
    words = [build_library.compiler(), "-E", "-x", "c", "-", "-o", f"{folder}/header"]
    return subprocess.run(words, input="#include <xkbcommon/xkbcommon-compose.h>\n", text=True, stderr=subprocess.DEVNULL).returncode == 0


def secure(results, folder):
    """A program with more rights than its user reads none of his variables. (Root can make one, in a folder where such programs may run.)"""
    if os.geteuid() != 0 or not has_shim_header(folder) or os.statvfs(folder).f_flag & os.ST_NOSUID:
        print("library.py: it isn't root here, or such programs don't run in the folder, or libxkbcommon-dev isn't there: programs with more rights are not tried")
        return
    program = compiled(folder, f"{TOP}/tests/library/secure.c", f"{folder}/plain/xkb_shim.o", f"{folder}/plain/libcomposecheck.a")
    with open(f"{folder}/own", "w", encoding="utf-8") as file:
        file.write('<Multi_key> <apostrophe> <e> : "own"\n')
    env = {**os.environ, "XCOMPOSEFILE": f"{folder}/own", "HOME": folder, "XDG_CACHE_HOME": f"{folder}/caches"}
    os.chmod(folder, 0o755)
    wanted = 'plain "own" "own"\n'
    said = subprocess.run([program], env=env, stdout=subprocess.PIPE, text=True).stdout
    results.expect(said == wanted and os.path.exists(f"{folder}/caches"), f"a program with its user's rights prints {said!r}, and caches its table")
    shutil.rmtree(f"{folder}/caches", ignore_errors=True)
    os.chown(program, 65534, 65534)
    os.chmod(program, 0o6755)
    said = subprocess.run([program], env=env, stdout=subprocess.PIPE, text=True).stdout
    typed = "é" if os.path.exists(f"{LOCALES}/en_US.UTF-8/Compose") else ""
    results.expect(said == f'secure "{typed}" "{typed}"\n' and not os.path.exists(f"{folder}/caches"), f"a program with more rights prints {said!r}, and caches nothing")


def all_keysyms(results, folder):
    """The texts of all 536,870,912 keysyms beside libxkbcommon's, and how many differ by each rule of docs/LIBRARY.md."""
    if not compose_calls("libxkbcommon.so.0"):
        print("library.py: without libxkbcommon.so.0 the texts of keysyms are not compared")
        return
    program = compiled(folder, f"{TOP}/tests/library/keys.c", "-O2", f"{folder}/lib/libcomposecheck.a", "-l:libxkbcommon.so.0")
    said = ran_well(results, "the texts of all keysyms", program)
    wanted = "1115092 have a text; 2048 surrogates; 255 numbers of Unicode below 0x1000100; 19 listed keys; 0 others\n"
    results.expect(said == wanted, f"the texts of all keysyms: {said}")


def symbols(results, folder):
    """The shared libraries show their own names alone."""
    for name, prefix, count in (
        ("libcomposecheck.so.1", "composecheck_", None), ("libcomposecheck-xkb.so", "xkb_compose_", 20), ("libcomposecheck-client.so.0", "composecheck_client_", 11),
    ):
        said = subprocess.run(["nm", "-D", "--defined-only", f"{folder}/{name}"], stdout=subprocess.PIPE, text=True, check=True).stdout
        found = [it.split()[-1].split("@")[0] for it in said.splitlines() if " A " not in it]
        results.expect(all(it.startswith(prefix) for it in found) and count in (None, len(found)), f"{name} shows {found}")


def stand_in(folder):
    """A program in the place of the proved one, for packages of the libraries: it says its version."""
    program = f"{folder}/program"
    with open(program, "w", encoding="utf-8") as file:
        file.write("#!/bin/sh\necho composecheck 0.0.0\n")
    os.chmod(program, 0o755)
    return program


def packages(results, folder):
    """A program is built with the Debian packages, and runs."""
    if not shutil.which("dpkg-deb") or not shutil.which("pkg-config"):
        print("library.py: without dpkg-deb and pkg-config no packages are made")
        return
    program, root = stand_in(folder), f"{folder}/root"
    command = [sys.executable, f"{TOP}/packaging/package.py", "library", program, folder]
    made = subprocess.run(command, stdout=subprocess.PIPE, text=True, check=True).stdout.split()
    names = [os.path.basename(it).split("_")[0] for it in made]
    results.expect(names == ["libcomposecheck1", "libcomposecheck-client0", "libcomposecheck-dev"], f"the packages {made}")
    said = packages_test.told(made)
    results.expect(not said, f"lintian says of the packages: {said}")
    for path in made:
        subprocess.run(["dpkg-deb", "-x", path, root], check=True)
    found = subprocess.run(["dpkg-deb", "-I", made[0], "shlibs", "triggers"], stdout=subprocess.PIPE, text=True, check=True).stdout
    results.expect(found == "libcomposecheck 1 libcomposecheck1 (>= 0.0.0)\nactivate-noawait ldconfig\n", f"what the library declares is {found!r}")
    place = f"{root}/usr/lib/{platform.machine()}-linux-gnu"
    env = {**os.environ, "PKG_CONFIG_PATH": f"{place}/pkgconfig", "PKG_CONFIG_SYSROOT_DIR": root, "LD_LIBRARY_PATH": place}
    flags = subprocess.run(["pkg-config", "--cflags", "--libs", "composecheck"], env=env, stdout=subprocess.PIPE, text=True, check=True).stdout.split()
    subprocess.run([build_library.compiler(), f"{root}/usr/share/doc/libcomposecheck-dev/examples/type.c", *flags, "-o", f"{folder}/typed"], check=True)
    with open(f"{folder}/table", "w", encoding="utf-8") as file:
        file.write('<a> : "é"\n')
    ran = subprocess.run([f"{folder}/typed", f"{folder}/table", "0x61"], env=env, stdout=subprocess.PIPE, text=True)
    results.expect(ran.stdout == 'composed "é"\n', f"a program built with the packages prints {ran.stdout!r}")


def installed(folder):
    """The environment in which programs find the library that is installed in the folder, and tools of languages write there alone."""
    places = {"LD_LIBRARY_PATH": f"{folder}/lib", "PKG_CONFIG_PATH": f"{folder}/lib/pkgconfig", "CARGO_TARGET_DIR": f"{folder}/cargo"}
    return {**os.environ, **places, "GOCACHE": f"{folder}/go", "GOPATH": f"{folder}/gopath", "GOPROXY": "off", "GOFLAGS": "-mod=mod"}


# The command of each language, what tests its package, and where that is.
LANGUAGES = {"cargo": ("lib/rust", "test", "-q", "--offline"), "go": ("lib/go/composecheck", "test", "./...")}


def has_language(tool):
    works = shutil.which(tool) and subprocess.run([tool, "version"], stdout=subprocess.DEVNULL, stderr=subprocess.DEVNULL).returncode == 0
    return bool(works and shutil.which("pkg-config"))


def languages(results, folder):
    """The packages for other languages: each one's own tests, where the language is installed."""
    for tool, (place, *words) in LANGUAGES.items():
        if not has_language(tool):
            print(f"library.py: without {tool} and pkg-config {place} is not tried")
            continue
        copied = shutil.copytree(f"{TOP}/{place}", f"{folder}/{tool}-sources", ignore=shutil.ignore_patterns("target"))
        ran = subprocess.run([tool, *words], cwd=copied, env=installed(folder), stdout=subprocess.PIPE, stderr=subprocess.STDOUT, text=True, timeout=600)
        results.expect(ran.returncode == 0, f"{place}: {ran.stdout}")


# The first clang that reads the modules of the kit's one.
LEAST_CLANG = 19


def clang_of_modules():
    """The name of a clang that reads the modules, or None."""
    for name in ("clang", *(f"clang-{number}" for number in range(LEAST_CLANG, 30))):
        said = subprocess.run([name, "--version"], stdout=subprocess.PIPE, text=True).stdout if shutil.which(name) else ""
        found = re.search(r"version (\d+)", said)
        if found and int(found[1]) >= LEAST_CLANG:
            return name
    return None


def release(results, folder):
    """What `make release` makes, but for the engines: its sums, the list that apt reads, and, where there are modules and a clang that reads them, the
    archive of modules, built in a folder of its own without the kit."""
    if not all(map(shutil.which, ("dpkg-deb", "dpkg-scanpackages", "pkg-config"))):
        print("library.py: without dpkg-deb, dpkg-scanpackages and pkg-config no release is made")
        return
    static, program, made = os.environ.get("COMPOSECHECK_STATIC"), stand_in(folder), f"{folder}/release"
    modules = [static] if static and os.path.exists(f"{static}/compose_c.ll") and os.path.exists(f"{static}/compose_typing_c.ll") else []
    command = [sys.executable, f"{TOP}/packaging/release.py", program, made, *modules]
    ran = subprocess.run(command, env={**os.environ, "PKG_CONFIG_LIBDIR": "/nonexistent"}, stdout=subprocess.PIPE, stderr=subprocess.STDOUT, text=True)
    results.expect(ran.returncode == 0, f"the release: {ran.stdout}")
    results.expect(subprocess.run(["sha256sum", "--check", "--quiet", "SHA256SUMS"], cwd=made).returncode == 0, "the sums of the release")
    with open(f"{made}/apt/Packages", encoding="utf-8") as file:
        listed = re.findall(r"^Filename: \./(.*)$", file.read(), re.M)
    results.expect(sorted(listed) == sorted(it for it in os.listdir(f"{made}/apt") if it.endswith(".deb")) and len(listed) == 4, f"what apt reads: {listed}")
    clang = clang_of_modules()
    if not modules or not clang:
        print(f"library.py: without modules beside the static libraries, and clang {LEAST_CLANG}, the archive of modules is not built")
        return
    build_modules(results, f"{made}/composecheck-0.0.0-modules.tar.gz", clang, folder)


def build_modules(results, archive, clang, folder):
    """Builds the archive of modules in a folder of its own, with nothing of the kit, and types with what it installs."""
    subprocess.run(["tar", "-xf", archive, "-C", folder], check=True)
    top, env = f"{folder}/composecheck-0.0.0-modules", {"PATH": "/usr/bin:/bin", "HOME": folder}
    ran = subprocess.run(["make", f"CLANG={clang}", f"PREFIX={folder}/placed", "check", "install"], cwd=top, env=env, stdout=subprocess.PIPE, stderr=subprocess.STDOUT, text=True)
    results.expect(ran.returncode == 0, f"the archive of modules: {ran.stdout[-2000:]}")
    typed = compiled(folder, f"{TOP}/lib/examples/type.c", f"-L{folder}/placed/lib", "-lcomposecheck")
    with open(f"{folder}/table", "w", encoding="utf-8") as file:
        file.write('<a> : "é"\n')
    said = subprocess.run([typed, f"{folder}/table", "0x61"], env={"LD_LIBRARY_PATH": f"{folder}/placed/lib"}, stdout=subprocess.PIPE, text=True).stdout
    results.expect(said == 'composed "é"\n', f"a program on the library of modules prints {said!r}")
    client = compiled(folder, f"{TOP}/lib/examples/client.c", f"-L{folder}/placed/lib", "-lcomposecheck-client")
    said = subprocess.run([client, "nowhere", "0xfe51"], env={"LD_LIBRARY_PATH": f"{folder}/placed/lib"}, stdout=subprocess.PIPE, text=True).stdout
    results.expect(said == 'pass ""\n', f"a client on the library of modules prints {said!r}")


def documents(results, folder):
    """Pastes the blocks of docs/LIBRARY.md, in a folder with the installed library, and compares what is printed."""
    with open(f"{TOP}/docs/LIBRARY.md", encoding="utf-8") as file:
        blocks = BLOCK.findall(file.read())
    env, missing = installed(folder), [it for it in LANGUAGES if not has_language(it)]
    with tempfile.TemporaryDirectory(prefix="library-") as room:
        for name in ("lib", "share"):
            os.symlink(f"{TOP}/{name}", f"{room}/{name}")
        for (kind, pasted), after in zip(blocks, [*blocks[1:], ("", "")]):
            lacks = [it for it in missing if f" {it} run" in pasted]
            if lacks:
                print(f"library.py: without {lacks[0]} and pkg-config a block of docs/LIBRARY.md is not run")
            elif kind == "sh":
                ran = subprocess.run(["bash", "-e"], cwd=room, input=pasted, env=env, stdout=subprocess.PIPE, stderr=subprocess.STDOUT, text=True, timeout=600)
                wanted = after[1] if after[0] == "" else ""
                results.expect(ran.returncode == 0 and ran.stdout == wanted, f"docs/LIBRARY.md:\n{pasted}printed\n{ran.stdout}")


PARTS = {it for it in sys.argv[1:] if not it.isdigit()}


def is_chosen(part):
    return not PARTS or part in PARTS


def main():
    results = Results()
    count, locales = 20_000, ["en_US.UTF-8"]
    if len(sys.argv) > 1 and not PARTS:
        count, locales = int(sys.argv[1]), sorted(it for it in os.listdir(LOCALES) if it.endswith(".UTF-8"))
    for proved in (build_library.PROVED, build_library.PROVED_CLIENT):
        if not os.path.exists(proved) and "COMPOSECHECK_STATIC" not in os.environ:
            subprocess.run(["make", "-s", os.path.relpath(proved, TOP)], cwd=TOP, check=True, stdout=sys.stderr)
    with tempfile.TemporaryDirectory(prefix="library-") as folder:
        subprocess.run([sys.executable, f"{TOP}/lib/install_library.py", folder, folder], check=True)
        os.environ["COMPOSECHECK_LIBRARY"] = f"{folder}/lib/libcomposecheck.so.1"
        import composecheck as library

        if is_chosen("secure") or is_chosen("valgrind"):
            build_library.build(f"{folder}/plain")
        for test in (refusals, loads, result_keysyms, key_texts, searches, user_tables, blocks, cached_tables, random_keys):
            if is_chosen(test.__name__):
                test(results, library)
        if is_chosen("beside"):
            beside(results, folder, count, locales)
        for test in (documents, languages, packages, release, c_programs, secure, all_keysyms):
            if is_chosen(test.__name__) or test is c_programs:
                test(results, folder)
        if is_chosen("symbols"):
            symbols(results, f"{folder}/lib")
    print(f"{results.passed} passed, {results.failed} failed")
    return 1 if results.failed else 0


if __name__ == "__main__":
    sys.exit(main())
