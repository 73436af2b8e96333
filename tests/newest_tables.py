#!/usr/bin/env python3
"""newest_tables.py PROGRAM [TABLES]: runs the commands of README and the guide on the newest tables of libX11, beside a second reading of them (not part of
the gate).

TABLES is a folder with LOCALE.UTF-8/Compose, such as a source tree of libX11 has once the preprocessor made its tables. Without it the package libx11-data is
fetched as apt-get is set up, into a folder of its own. The old tables are those of the system. Each new table has to be read with the built-in names,
without a faulty line: `list`, `how`, `lint` and `type -f` answer for each of its sequences, and `diff` and `ci.sh` compare it with the old one of its locale, and `merge` makes
one table of both. The merged table has each old sequence and those new ones that a second reading takes; `make` and `check` say that it follows, a service takes it
while sessions stand in the middle of sequences, and libxkbcommon and libX11 type each of its sequences, if they are there. Where the package can't be fetched nothing is tested. The last line is `N passed, M failed`, and what was skipped."""
import glob
import json
import os
import re
import subprocess
import sys
import tempfile

import findings
import readers
import real
import reference
from harness import Results, TOP
from service import Serving

SYSTEM = "/usr/share/X11/locale"
SCRIPT = os.path.join(TOP, "share", "composecheck", "ci.sh")
READERS = ("libX11", "libxkbcommon")
TEXTS_A_RUN = 500
# What a reader says of a key that ends a sequence.
ENDS = {"libX11": b"committed", "libxkbcommon": b"composed"}


class Reading:
    """A table read a second time: what each sequence gives by its last definition, the beginnings of longer ones, and those that count."""

    def __init__(self, path, values, given):
        self.path, self.given = path, given
        self.rows = dict(real.placed_definitions(path, values, given))
        self.begun = {keys[:count] for keys in self.rows for count in range(1, len(keys))}
        self.counting = {keys: self.rows[keys] for keys in sorted(self.rows.keys() - self.begun)}
        self.starts = {keys[0] for keys in self.rows}

    def step(self, pending, key):
        """What is pending after a key, the text that it commits, and whether it cancels."""
        typed = (*pending, key)
        if typed in self.begun:
            return typed, "", False
        if typed in self.counting:
            return (), self.counting[typed]["text"], False
        return (), "" if pending else real.own_text(key, self.given), bool(pending)


def is_kept(old, new, sequence):
    """Whether the new table does at each key what the old one does."""
    before = after = ()
    for key in sequence:
        before, text, _ = old.step(before, key)
        after, other, cancels = new.step(after, key)
        if cancels or text != other or (before == () and after != ()):
            return False
    return True


def change(old, new, sequence):
    """What happens to a sequence of either table."""
    if sequence in old.counting:
        if is_kept(old, new, sequence):
            return "kept"
        return "changed" if sequence in new.counting else "waiting" if sequence in new.begun else "removed"
    types_itself = len(sequence) == 1 and new.counting[sequence]["text"] == real.own_text(sequence[0], new.given)
    return "added" if sequence[0] in old.starts or types_itself else "new start"


def run(program, *words, **more):
    return subprocess.run([program, *words], capture_output=True, encoding="utf-8", check=False, **more)


def fetched(folder):
    """The tables of the newest libx11-data that apt-get knows, unpacked there; None where it can't be fetched."""
    try:
        subprocess.run(["apt-get", "download", "libx11-data"], cwd=folder, check=True, capture_output=True, timeout=300)
        package, = glob.glob(os.path.join(folder, "libx11-data_*.deb"))
        subprocess.run(["dpkg-deb", "-x", package, folder], check=True, capture_output=True, timeout=60)
    except (OSError, ValueError, subprocess.SubprocessError) as error:
        print(f"libx11-data is skipped: {error}", flush=True)
        return None
    print(os.path.basename(package), flush=True)
    return os.path.join(folder, SYSTEM.lstrip("/"))


def laid_out(tables, folder):
    """Copies the tables of these locales, so that they include one another by their paths there, and returns these by their names."""
    paths = {}
    for source in sorted(glob.glob(os.path.join(tables, "*.UTF-8", "Compose"))):
        locale = os.path.basename(os.path.dirname(source))
        paths[locale] = os.path.join(folder, locale, "Compose")
        os.makedirs(os.path.dirname(paths[locale]))
        with open(source, encoding="utf-8") as file:
            text = file.read()
        with open(paths[locale], "w", encoding="utf-8") as file:
            file.write(text.replace(f'include "{SYSTEM}/', f'include "{folder}/'))
    return paths


def objects(ran):
    return [json.loads(line) for line in ran.stdout.splitlines()]


def check_list(program, locale, reading, results):
    """`list`: all sequences, those that begin with Multi_key and e, and those that give one text."""
    rows = list(reading.counting.values())
    every = run(program, "list", "--format", "json", reading.path)
    results.expect(f"list of {locale}", (every.returncode, every.stderr, objects(every)), (0, "", rows))
    begun = run(program, "list", "--format", "json", "--prefix", "Multi_key,e", reading.path)
    results.expect(f"list --prefix of {locale}", objects(begun), [row for keys, row in reading.counting.items() if keys[:2] == (0xFF20, 0x65)])


def check_how(program, locale, reading, results):
    """`how` of each text: the sequences that give it, the shortest first."""
    ways = {}
    for keys in sorted(reading.counting, key=lambda it: (len(it), it)):
        ways.setdefault(reading.counting[keys]["text"], []).append(reading.counting[keys])
    texts = [it for it in ways if not it.startswith(("-", "U+"))]
    for at in range(0, len(texts), TEXTS_A_RUN):
        part = texts[at : at + TEXTS_A_RUN]
        ran = run(program, "how", "--format", "json", "--from", reading.path, *part)
        results.expect(f"how {part[0]} and so on in {locale}", (ran.returncode, ran.stderr, objects(ran)), (0, "", [it for text in part for it in ways[text]]))


def check_type(program, locale, reading, results):
    """`type -f` of each sequence, as a line of standard input: its last key gives its text."""
    lists = "".join(" ".join(row["keys"]) + "\n" for row in reading.counting.values())
    ran = run(program, "type", "-f", reading.path, input=lists)
    last = [block.splitlines()[-1] for block in ran.stdout.split("\n\n")[:-1]]
    wanted = ["composed " + reference.quote(row["text"].encode()).decode() for row in reading.counting.values()]
    results.expect(f"typing each sequence of {locale}", (ran.returncode, ran.stderr, last), (0, "", wanted))


def check_lint(program, folder, locale, reading, values, given, results):
    """`lint` finds what the second reading finds, beside what is about other readers, and no faulty line."""
    ran = run(program, "lint", "--strict", reading.path)
    printed = [(file, int(line), word) for file, line, word in re.findall(r"^(.*):(\d+):\d+: (\w+): ", ran.stdout, re.M) if word not in READERS]
    wanted = list(findings.found(reading.path, folder, values, lambda keysym: real.own_text(keysym, given)))
    results.expect(f"lint of {locale}", (ran.stderr, printed), ("", wanted))


def check_diff(program, locale, old, new, results):
    """`diff` and `explain -f` of the old table and the new one, and the list of what is intended."""
    ran = run(program, "diff", "--format", "json", old.path, new.path)
    rows = {tuple(it["keys"]): it["change"] for it in objects(ran)[:-1]}
    changes = {keys: change(old, new, keys) for keys in old.counting.keys() | new.counting.keys()}
    wanted = {tuple((old.counting.get(keys) or new.counting[keys])["keys"]): word for keys, word in changes.items()}
    is_same = not set(changes.values()) - {"kept", "added"}
    results.expect(f"diff of {locale}", (rows, ran.returncode), (wanted, 0 if is_same else 1))
    explained = run(program, "explain", "-f", old.path, new.path)
    results.expect(f"explain of {locale}", (explained.returncode, explained.stdout == "follows\n"), (0 if is_same else 1, is_same))
    with tempfile.NamedTemporaryFile("w", encoding="utf-8") as intended:
        intended.write(run(program, "diff", "--write-accept", old.path, new.path).stdout)
        intended.flush()
        accepted = run(program, "diff", "--accept", intended.name, old.path, new.path)
    results.expect(f"diff --accept of {locale}", accepted.returncode, 0)
    counted = [list(changes.values()).count(it) for it in ("kept", "changed", "waiting", "removed", "new start", "added")]
    print(f"{locale}: {counted[0]} kept, {counted[1]} changed, {counted[2]} waiting, {counted[3]} removed, {counted[4]} new starts, {counted[5]} added", flush=True)


def is_taken(old, new, sequence):
    """Whether a merge takes a sequence of the new table: it changes nothing for people who type with the old one."""
    if any(sequence[:count] in old.counting for count in range(1, len(sequence) + 1)) or sequence in old.begun:
        return False
    types_itself = len(sequence) == 1 and new.counting[sequence]["text"] == real.own_text(sequence[0], new.given)
    return sequence[0] in old.starts or types_itself


def texts_of(rows):
    return {keys: row["text"] for keys, row in rows.items()}


def check_merge(program, room, locale, old, new, values, others, results):
    """`merge` of the old table and the new one, and what follows of it."""
    ran = run(program, "merge", old.path, new.path)
    path = os.path.join(room, f"{locale}.merged")
    with open(path, "w", encoding="utf-8") as file:
        file.write(ran.stdout)
    merged = Reading(path, values, new.given)
    taken = {keys: row for keys, row in new.counting.items() if is_taken(old, new, keys)}
    results.expect(f"merge of {locale}", (ran.returncode, texts_of(merged.rows)), (0, texts_of({**old.counting, **taken})))
    results.expect(f"diff of {locale} and the merged table", run(program, "diff", old.path, path).returncode, 0)
    print(f"{locale}: {ran.stderr.splitlines()[-1]}", flush=True)
    check_promise(program, room, locale, old, merged, results)
    check_load(program, room, locale, old, merged, results)
    for name in ENDS.keys() & others.built.keys():
        check_reader(others, name, locale, merged, results)


def check_reader(others, name, locale, merged, results):
    """Another reader types each sequence of the merged table from rest: its text at the last key, and none before it."""
    steps = [it for keys in merged.counting for it in (*readers.press(keys), "-")]
    answers = iter(others.type(name, [f"table {merged.path}", *steps]))
    typed = {keys: [next(answers) for _ in keys] for keys in merged.counting}
    texts = {keys: [text for word, text in them if word == ENDS[name]] for keys, them in typed.items()}
    wanted = {keys: [reference.quote(row["text"].encode())] for keys, row in merged.counting.items()}
    results.expect(f"{name} on the merged table of {locale}", [it for it in wanted if texts[it] != wanted[it]][:3], [])


def check_promise(program, room, locale, old, merged, results):
    """`make` makes a certificate for the merged table, and `check` says yes to it."""
    repertoire, certificate = os.path.join(room, "repertoire"), os.path.join(room, f"{locale}.certificate")
    open(repertoire, "w", encoding="ascii").close()
    made = run(program, "make", "-f", "--overlap", "longest", "-o", certificate, old.path, merged.path, repertoire)
    checked = run(program, "check", "-f", "--overlap", "longest", old.path, merged.path, repertoire, certificate)
    results.expect(f"make and check of {locale} and the merged table", (made.returncode, made.stderr, checked.stdout, checked.returncode), (0, "", "yes\n", 0))


def check_load(program, room, locale, old, merged, results):
    """A service over the old table takes the merged one while each session stands in the middle of a sequence, whose old text is typed; and types what is new."""
    itself, repertoire = os.path.join(room, "itself"), os.path.join(room, "repertoire")
    run(program, "make", "-f", "--overlap", "longest", "-o", itself, old.path, old.path, repertoire)
    with open(itself, "rb") as file:
        options = {"certificate": file.read(), "options": ["-f", "--overlap", "longest"], "given": old.path}
    with open(os.path.join(room, f"{locale}.certificate"), "rb") as file:
        certificate = file.read()
    with open(merged.path, "rb") as file:
        sources = [("merged", file.read())]
    middle = [keys for keys in old.counting if len(keys) > 1][:: max(1, len(old.counting) // 1000)]
    more = [keys for keys in merged.counting if keys not in old.counting]
    with Serving(program, **options) as service, service.client() as client:
        for session, keys in enumerate(middle):
            client.open(session)
            for key in keys[:-1]:
                client.key(session, key)
        results.expect(f"a load of the merged table of {locale}", client.load(sources, certificate, True), 1)
        typed = [client.key(session, keys[-1]).text for session, keys in enumerate(middle)]
        results.expect(f"sequences that a load came between, of {locale}", typed, [old.counting[keys]["text"] for keys in middle])
        typed = ["".join(client.key(0, key).text for key in keys) for keys in more]
        results.expect(f"what is new in {locale}", typed, [merged.counting[keys]["text"] for keys in more])


def check_package(program, paths, folder, results):
    """`ci.sh` compares the tables of all locales that there are in both."""
    ran = run("sh", SCRIPT, SYSTEM, folder, env={**os.environ, "COMPOSECHECK": program})
    both = [it for it in paths if os.path.exists(os.path.join(SYSTEM, it, "Compose"))]
    compared = f"{len(both)} locale{'s were' if len(both) != 1 else ' was'} compared."
    results.expect("ci.sh", (ran.stderr, ran.stdout.splitlines()[-1:]), ("", [compared]))


def main():
    program, results = os.path.abspath(sys.argv[1]), Results()
    values = reference.header_values() | reference.header_values(real.SHORT_NAMES)
    given = real.header_characters()
    with tempfile.TemporaryDirectory(prefix="newest-") as room, readers.display() as display:
        tables = sys.argv[2] if len(sys.argv) > 2 else fetched(room)
        if tables is None:
            return results.end("skipped: libx11-data")
        folder, others = os.path.join(room, "locale"), readers.Readers(room, display)
        paths = laid_out(tables, folder)
        results.expect("there are tables", bool(paths), True)
        for locale, path in paths.items():
            reading, old = Reading(path, values, given), os.path.join(SYSTEM, locale, "Compose")
            check_list(program, locale, reading, results)
            check_how(program, locale, reading, results)
            check_type(program, locale, reading, results)
            check_lint(program, folder, locale, reading, values, given, results)
            if os.path.exists(old):
                earlier = Reading(old, values, given)
                check_diff(program, locale, earlier, reading, results)
                check_merge(program, room, locale, earlier, reading, values, others, results)
        check_package(program, paths, folder, results)
    return results.end()


if __name__ == "__main__":
    sys.exit(main())
