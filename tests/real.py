#!/usr/bin/env python3
"""real.py PROGRAM TRIALS: runs the program, and `compose_trials`, on the files that Debian ships (not part of the gate).

The names file is keysymdef.h with our header of short names; the tables are the UTF-8 tables of libx11-data, and one of a user
that includes the table of the locale, each by the manifest that `composecheck manifest` prints for it. Typing is compared with
libxkbcommon at each of 300,000 random keys a table, and so is each sequence that `list` prints. The last line is `N passed, M failed`."""
import array
import itertools
import json
import os
import re
import subprocess
import sys
import tempfile
import time
import unicodedata

import findings
import key_streams
import reference
from reference import HEADER, own_text

TOP = os.path.dirname(os.path.dirname(os.path.abspath(__file__)))
SHORT_NAMES = os.path.join(TOP, "share", "composecheck", "short-unicode-names.h")
REPERTOIRES = os.path.join(TOP, "share", "composecheck", "repertoires")
LOCALES = "/usr/share/X11/locale"
ENGLISH = os.path.join(LOCALES, "en_US.UTF-8", "Compose")
XKB_HEADER = "/usr/include/xkbcommon/xkbcommon-compose.h"
PACKAGES = {ENGLISH: "libx11-data", XKB_HEADER: "libxkbcommon-dev"}
EMPTY_REPERTOIRE = "repertoire"
# the table of a user: sequences of its own, one that the table of the locale has too, and one that goes on from one of its sequences
USER = ".XCompose"
USER_TABLE = """include "%L"
<Multi_key> <h> <o> <m> <e> : "⌂" U2302
<Multi_key> <apostrophe> <e> : "é!"
<dead_acute> <a> <a> : "áá"
"""
KEYS = 300_000
KEYS_A_PROCESS = 30_000
TEXTS_A_PROCESS = 500


class Results:
    """Counts what passed and prints what failed."""

    def __init__(self):
        self.passed = self.failed = 0

    def expect(self, what, holds, got):
        if holds:
            self.passed += 1
        else:
            self.failed += 1
            print(f"FAILED {what}: {got!r:.300}")


def run(program, folder, *args):
    return subprocess.run([program, *args], cwd=folder, capture_output=True, text=True)


def locales():
    return sorted(name for name in os.listdir(LOCALES) if name.endswith(".UTF-8") and os.path.exists(os.path.join(LOCALES, name, "Compose")))


def tables(folder):
    """The path of each table by its name."""
    return {name: os.path.join(LOCALES, name, "Compose") for name in locales()} | {USER: os.path.join(folder, USER)}


def write_manifests(program, folder, results):
    """The manifest that is printed for each table, under either rule."""
    with open(os.path.join(folder, USER), "w", encoding="utf-8") as table:
        table.write(USER_TABLE)
    for name, path in tables(folder).items():
        ran = run(program, folder, "manifest", "--system", LOCALES, "--locale", "en_US.UTF-8", path)
        results.expect(f"the manifest of {name}", ran.returncode == 0, ran.stderr)
        for rule in ["refuse", "longest"]:
            with open(os.path.join(folder, f"{name}.{rule}"), "w") as manifest:
                manifest.write(f"overlap {rule}\n{ran.stdout}")
    with open(os.path.join(folder, "names"), "w") as names:
        names.write(open(HEADER).read() + open(SHORT_NAMES).read())
    with open(os.path.join(folder, "nothing"), "w") as manifest:
        manifest.write(f"root\t{EMPTY_REPERTOIRE}\n")
    open(os.path.join(folder, EMPTY_REPERTOIRE), "w").close()


def check_tables(program, folder, results):
    """Each table is read, pt_BR by the longer of two overlapping sequences alone."""
    for name, rule in itertools.product(locales(), ["refuse", "longest"]):
        ran = run(program, folder, "type", "--names", "names", f"{name}.{rule}", "Multi_key", "apostrophe", "e")
        refused = name.startswith("pt_BR") and rule == "refuse"
        results.expect(f"{name} by {rule}", ran.returncode == (2 if refused else 0), ran.stdout + ran.stderr)
    ran = run(program, folder, "type", "--names", "names", "en_US.UTF-8.refuse", "Multi_key", "apostrophe", "e")
    results.expect("typing e acute", ran.stdout == 'composing ""\ncomposing ""\ncomposed "é"\n', ran.stdout)


def header_characters():
    """The character that the header gives to each value, by a comment that begins with its number: any but a control character."""
    given = {}
    with open(HEADER, encoding="utf-8") as file:
        for line in file:
            found = re.match(r"#define XK_\w+\s+0x([0-9a-fA-F]+)\s*/\*\s*\(?U\+([0-9a-fA-F]{4,6})\b", line)
            if found and unicodedata.category(chr(int(found[2], 16))) != "Cc":
                given.setdefault(int(found[1], 16), chr(int(found[2], 16)))
    return given


def check_findings(program, results):
    """`lint` finds in each table what a second reading of its lines finds, and in all of them no more than tests/findings.txt lists."""
    values = reference.header_values() | reference.header_values(SHORT_NAMES)
    given, everything = header_characters(), set()
    for name in locales():
        path = os.path.join(LOCALES, name, "Compose")
        ran = run(program, LOCALES, "lint", "--system", LOCALES, "--locale", "en_US.UTF-8", path)
        printed = [(file, int(number), word) for file, number, word in re.findall(r"^(.*):(\d+):\d+: (\w+): ", ran.stdout, re.M)]
        wanted = list(findings.found(path, LOCALES, values, lambda keysym: own_text(keysym, given)))
        results.expect(f"lint of {name}", printed == wanted and ran.returncode == 1, printed[:5] + [ran.stderr])
        everything |= {f"{os.path.relpath(file, LOCALES)}:{number}: {word}" for file, number, word in printed}
    with open(os.path.join(TOP, "tests", "findings.txt"), encoding="utf-8") as file:
        listed = set(file.read().splitlines())
    results.expect("what lint finds in all tables", everything == listed, sorted(everything ^ listed)[:5])


def is_modifier(keysym):
    """Whether a compose state passes over the key."""
    return keysym in range(0xFFE1, 0xFFEF) or keysym in range(0xFE01, 0xFE14) or keysym in (0xFF7E, 0xFF7F)


def check_header(program, folder, results):
    """The header is accepted as it stands: all its names and one core name are keysyms, and each types its character."""
    values = {"NoSymbol": 0, **reference.header_values()}
    given = header_characters()
    results.expect("names of keysymdef.h and the core", len(values) == 2112, len(values))
    results.expect("characters of keysymdef.h", len(given) == 1668, len(given))
    ran = run(program, folder, "type", "--names", HEADER, "nothing", *values)
    lines = ran.stdout.splitlines()
    results.expect("all names are keysyms", len(lines) == len(values), ran.stderr)
    built_in = run(program, folder, "type", "--names", "builtin", "nothing", *values)
    results.expect("the names that are built in are those of keysymdef.h", built_in.stdout == ran.stdout, built_in.stderr)
    for (name, keysym), line in zip(values.items(), lines):
        text = re.sub(r'(["\\])', r"\\\1", own_text(keysym, given))
        expected = 'ignored ""' if is_modifier(keysym) else f'nothing "{text}"'
        results.expect(f"typing {name}", line == expected, line)


def is_whole(first, every):
    """Whether these are all differences with their count, the first one at the beginning; or both say that the new table follows."""
    if first == "follows\n":
        return every == first
    *differences, counted = every.split("\n\n")
    total, *kinds = [int(number) for number in re.findall(r"\d+", counted)]
    return first == differences[0] + "\n" and total == len(differences) == sum(kinds)


def check_counts(trials, folder, results):
    """What the table of en_US.UTF-8 holds."""
    counts = dict(line.split("\t") for line in run(trials, folder, "bench", "compile", "names", ENGLISH).stdout.splitlines())
    for what, count in {"nodes": 948, "edges": 6619, "root edges": 44, "sequences": 5672}.items():
        results.expect(f"{what} of en_US.UTF-8", counts.get(what) == str(count), counts)


def check_migrations(program, folder, results):
    """Each table follows itself by a certificate that the checker accepts, and each pair is explained within a second."""
    for name in locales():
        manifest = f"{name}.longest"
        made = run(program, folder, "make", "--names", "names", manifest, manifest, EMPTY_REPERTOIRE)
        with open(os.path.join(folder, "certificate"), "w") as file:
            file.write(made.stdout)
        ran = run(program, folder, "check", "--names", "names", manifest, manifest, EMPTY_REPERTOIRE, "certificate")
        results.expect(f"{name} follows itself", made.returncode == 0 and ran.stdout == "yes\n", made.stderr + ran.stdout + ran.stderr)
    for old, new in itertools.permutations(locales(), 2):
        start = time.monotonic()
        ran = run(program, folder, "explain", "--names", "names", f"{old}.longest", f"{new}.longest")
        seconds = time.monotonic() - start
        results.expect(f"explain {old} to {new}", ran.returncode in (0, 1) and seconds < 1, (ran.stdout + ran.stderr, seconds))
        every = run(program, folder, "explain", "--all", "--names", "names", f"{old}.longest", f"{new}.longest").stdout
        results.expect(f"explain --all of {old} to {new}", is_whole(ran.stdout, every), every[-200:])
    ran = run(program, folder, "explain", "--names", "names", "en_US.UTF-8.longest", "cs_CZ.UTF-8.longest")
    results.expect("en_US to cs_CZ", ran.stdout == 'keys dead_caron U\nkind text\nold "Ǔ"\nnew "Ů"\n', ran.stdout)


def keysyms_of(names, values):
    """The keysyms of the names of keys, in any form."""
    return tuple(int(name, 16) if name.startswith("0x") else reference.keysym(name, values) for name in names)


def definitions(path, values, given):
    """The keysyms and the text of each production of a table and of those that it includes, in the order in which they are read."""
    with open(path, "rb") as file:
        lines = file.read().split(b"\n")
    for read in map(reference.read_line, lines):
        if isinstance(read, bytes):
            yield from definitions(ENGLISH if read == b"%L" else read.decode(), values, given)
        elif read:
            events, raw, name = read
            text = own_text(reference.keysym(name.decode(), values), given) if raw is None else reference.read_text(raw).decode()
            yield keysyms_of([it.decode() for it in events], values), text


def shortest_typings(path, values, given):
    """For each text of a table the shortest sequence that gives it, and of several the first; a sequence with which a longer one begins gives none."""
    texts = dict(definitions(path, values, given))
    begun = {keys[:count] for keys in texts for count in range(1, len(keys))}
    typings = {}
    for keys in sorted(texts.keys() - begun, key=lambda it: (len(it), it)):
        typings.setdefault(texts[keys], keys)
    return typings


def check_differences(program, folder, results):
    """What `diff` and `explain --all` print of each pair agrees: each list of keys of the one begins a sequence that the other lists as lost,
    and each such sequence begins with such a list. How each lost text is typed now is as in a second reading of the new table."""
    values = reference.header_values() | reference.header_values(SHORT_NAMES)
    given = header_characters()
    typings = {name: shortest_typings(tables(folder)[name], values, given) for name in locales()}
    for old, new in itertools.permutations(locales(), 2):
        ran = run(program, folder, "diff", "--overlap", "longest", "--format", "json", tables(folder)[old], tables(folder)[new])
        rows = [json.loads(line) for line in ran.stdout.splitlines()[:-1]]
        lost = {keysyms_of(row["keys"], values) for row in rows if row["change"] not in ("kept", "added")}
        losses = [row for row in rows if row["change"] in ("changed", "waiting", "removed")]
        typed = [row["now"] and keysyms_of(row["now"], values) for row in losses]
        results.expect(f"how lost texts of {old} are typed in {new}", typed == [typings[new].get(row["old"]) for row in losses], typed[:5])
        every = run(program, folder, "explain", "--all", "--names", "names", f"{old}.longest", f"{new}.longest").stdout
        lists = {keysyms_of(names.split(), values) for names in re.findall(r"^keys (.*)$", every, re.M)}
        begins = {keys[:count] for keys in lost for count in range(1, len(keys) + 1)}
        explained = all(any(keys[:count] in lists for count in range(1, len(keys) + 1)) for keys in lost)
        results.expect(f"diff of {old} to {new} ends by what it prints", ran.returncode == (1 if lost else 0) and rows, ran.stderr)
        results.expect(f"diff and explain of {old} to {new}", lists <= begins and explained, (len(lists - begins), len(lost)))
    check_known_differences(program, folder, results)


def check_known_differences(program, folder, results):
    """Four sequences of the English table are changed or removed in the Finnish one, each printed with both places; and all those that begin
    with Multi_key and parenleft are counted where they are taken away."""
    ran = run(program, folder, "diff", "--no-fold", ENGLISH, os.path.join(LOCALES, "fi_FI.UTF-8", "Compose"))
    lines = [line for line in ran.stdout.splitlines() if line.startswith(("changed: ", "removed: "))]
    results.expect("en_US to fi_FI", len(lines) == 4 and all(re.search(r"en_US\.UTF-8/Compose:\d+ \S*fi_FI\.UTF-8/Compose:\d+ now: ", line) for line in lines), lines)
    with open(ENGLISH, encoding="utf-8") as table:
        kept = [line for line in table if not re.match(r"\s*<Multi_key>\s*<parenleft>", line)]
    with open(os.path.join(folder, "without"), "w", encoding="utf-8") as table:
        table.writelines(kept)
    ran = run(program, folder, "diff", ENGLISH, "without")
    results.expect("en_US without parenleft", " 298 removed," in ran.stdout.splitlines()[-2], ran.stdout[-200:])


def ours(program, folder, table, keys):
    """The status of each key and the text that a sequence commits there."""
    ran = run(program, folder, "type", "--names", "names", table, *[f"0x{key:x}" for key in keys])
    for line in ran.stdout.splitlines():
        status, text = line.split(" ", 1)
        yield status, text[1:-1] if status == "composed" else ""


def theirs(folder, table, keys):
    """The same of libxkbcommon."""
    key_streams.write(keys, os.path.join(folder, "keys"))
    ran = run("./xkb", folder, "answers", table, "keys")
    for line in ran.stdout.split("\n")[:-1]:
        status, _, text = line.partition(" ")
        yield status, re.sub(r'(["\\])', r"\\\1", text) if status == "composed" else ""


def check_typing(program, folder, results):
    """At each of many random keys libxkbcommon has our status, and our text where a sequence ends."""
    compiler = ["cc", "-O2", "-o", "xkb", os.path.join(TOP, "bench", "xkb.c"), "-lxkbcommon"]
    subprocess.run(compiler, cwd=folder, check=True)
    values = reference.header_values()
    for name, path in tables(folder).items():
        sequences = reference.sequences(path, values)
        if name == USER:
            sequences += reference.sequences(ENGLISH, values)
        keys = key_streams.random_keys(sequences, KEYS, name)
        agreed = 0
        for start in range(0, KEYS, KEYS_A_PROCESS):
            part = keys[start : start + KEYS_A_PROCESS]
            pairs = zip(ours(program, folder, f"{name}.longest", part), theirs(folder, path, part), strict=True)
            agreed += sum(1 for mine, other in pairs if mine == other)
        results.expect(f"typing on {name} as libxkbcommon", agreed == KEYS, agreed)


def placed_definitions(path, values, given):
    """The keysyms of each production of a table and of those that it includes, in the order in which they are read, and what JSON has of it: its keys as
    they are written, its text, its file and line."""
    with open(path, "rb") as file:
        lines = file.read().split(b"\n")
    for number, read in enumerate(map(reference.read_line, lines), 1):
        if isinstance(read, bytes):
            yield from placed_definitions(ENGLISH if read == b"%L" else read.decode(), values, given)
        elif read:
            events, raw, name = read
            keys = [it.decode() for it in events]
            text = own_text(reference.keysym(name.decode(), values), given) if raw is None else reference.read_text(raw).decode()
            yield keysyms_of(keys, values), {"keys": keys, "text": text, "file": path, "line": number}


def counting_definitions(path, values, given):
    """The definition of each sequence that counts, in the order of sequences: the last one, and none of a sequence with which a longer one begins."""
    counting = dict(placed_definitions(path, values, given))
    begun = {keys[:count] for keys in counting for count in range(1, len(keys))}
    return {keys: counting[keys] for keys in sorted(counting.keys() - begun)}


def objects(ran):
    """The lines of a run as JSON."""
    return [json.loads(line) for line in ran.stdout.splitlines()]


def escaped(text):
    """The text as `xkb` is compared with it."""
    return re.sub(r'(["\\])', r"\\\1", text)


def check_list(program, folder, results, name, path, counting):
    """`list` prints each sequence of a table that counts, libxkbcommon types each of them, and what is printed is the same table where it is read again."""
    ran = run(program, folder, "list", "--locale", "en_US.UTF-8", "--format", "json", path)
    results.expect(f"list of {name}", objects(ran) == list(counting.values()), ran.stderr)
    typed = theirs(folder, path, array.array("I", [key for keys in counting for key in keys]))
    wrong = [keys for keys, it in counting.items() if [next(typed) for _ in keys][-1] != ("composed", escaped(it["text"]))]
    results.expect(f"libxkbcommon types each sequence of {name} that `list` prints", not wrong, wrong[:5])
    ran = run(program, folder, "list", "--locale", "en_US.UTF-8", path)
    with open(os.path.join(folder, "listed"), "w", encoding="utf-8") as file:
        file.write(ran.stdout)
    for old, new in ((path, "listed"), ("listed", path)):
        ran = run(program, folder, "diff", "--locale", "en_US.UTF-8", old, new)
        last = ran.stdout.splitlines()[-1:]
        results.expect(f"{name} and what `list` prints of it", ran.returncode == 0 and last and last[0].startswith(f"diff: {len(counting)} kept, 0 changed"), ran.stdout[-200:])


def check_how(program, folder, results, name, path, counting):
    """`how` prints the sequences of each text of a table, the shortest first."""
    ways = {}
    for keys in sorted(counting, key=lambda it: (len(it), it)):
        ways.setdefault(counting[keys]["text"], []).append(counting[keys])
    texts = [it for it in ways if not it.startswith(("-", "U+"))]
    for at in range(0, len(texts), TEXTS_A_PROCESS):
        part = texts[at : at + TEXTS_A_PROCESS]
        ran = run(program, folder, "how", "--locale", "en_US.UTF-8", "--format", "json", "--from", path, *part)
        results.expect(f"how {part[0]} and so on in {name}", ran.returncode == 0 and objects(ran) == [it for text in part for it in ways[text]], ran.stderr)


def check_lists(program, folder, results):
    """What `list` and `how` print of each table is what a second reading of it has."""
    values = reference.header_values() | reference.header_values(SHORT_NAMES)
    given = header_characters()
    for name, path in tables(folder).items():
        counting = counting_definitions(path, values, given)
        check_list(program, folder, results, name, path, counting)
        check_how(program, folder, results, name, path, counting)


def check_repertoires(program, folder, results):
    """Each character of the repertoires that we ship is typed by the English table."""
    for name in sorted(os.listdir(REPERTOIRES)):
        ran = run(program, folder, "make", "--names", "builtin", "en_US.UTF-8.refuse", "en_US.UTF-8.refuse", os.path.join(REPERTOIRES, name))
        results.expect(f"the repertoire {name}", ran.stdout.startswith("compose-certificate 1\n") and ran.returncode == 0, ran.stdout + ran.stderr)


def main():
    program, trials = (os.path.abspath(path) for path in sys.argv[1:3])
    for path, package in PACKAGES.items():
        if not os.path.exists(path):
            print(f"{path} is missing: install it with `apt-get install {package}`")
            return 2
    results = Results()
    with tempfile.TemporaryDirectory() as folder:
        write_manifests(program, folder, results)
        check_header(program, folder, results)
        check_tables(program, folder, results)
        check_counts(trials, folder, results)
        check_repertoires(program, folder, results)
        check_migrations(program, folder, results)
        check_differences(program, folder, results)
        check_findings(program, results)
        check_typing(program, folder, results)
        check_lists(program, folder, results)
    print(f"{results.passed} passed, {results.failed} failed")
    return 1 if results.failed else 0


if __name__ == "__main__":
    sys.exit(main())
