#!/usr/bin/env python3
"""other_tables.py PROGRAM [PACKAGE..]: compares the tables that GTK, libxkbcommon and libX11 ship with one another, beside a second reading of them (not part of
the gate). Debian's source packages come by apt-get, and nothing of them is kept.

The tables are those that are built into GTK 3 and GTK 4 (`gtk_table.py`), the one in libxkbcommon's tests, and en_US.UTF-8 of the system. From each to
each other one, `diff` says how a lost text is typed now by the shortest sequence, and of several the first, as the second reading has it, and `--lost`
prints alone those that no sequence gives. Each table of libX11's source is that of the system, and `ci.sh`, which makes it itself, finds no change.
On random tables `lint` finds repeated and overlapping sequences exactly where libX11's compose-check.pl does.

With PACKAGEs those alone are fetched. One that can't be fetched is skipped. The last line is `N passed, M failed`, and what was skipped."""
import itertools
import json
import os
import random
import re
import shutil
import subprocess
import sys
import tempfile

import gtk_table
import real
import reference
from harness import Results, TOP, write
from source_packages import SourcePackages, Unfetched

SCRIPT = os.path.join(TOP, "share", "composecheck", "ci.sh")
LOSSES = ("changed", "waiting", "removed")
# How many sequences are changed, waiting or removed, and how many texts lost: what docs/READERS.md says.
KNOWN = {("gtk4", "libX11"): (1326, 4)}
# So many random tables are checked for clashes.
SEED, CHECKED = 50, 100
ENGLISH = "en_US.UTF-8"


def made_of_source(path):
    """A table of libX11's source as its Makefile makes it."""
    with open(path, "rb") as source:
        ran = subprocess.run(["cpp", "-undef", "-traditional", "-DWCHAR32=1"], stdin=source, capture_output=True, check=True)
    lines = re.sub(r"^# \d+ .*\n", "", ran.stdout.decode(), flags=re.M)
    lines = re.sub(r"^(\s*)XCOMM(?![a-zA-Z0-9_])", r"\1#", lines, flags=re.M)
    return lines.replace("X11_LOCALEDATADIR", real.LOCALES)


def of_gtk(folder):
    return {"Compose": gtk_table.compose_file(folder)}


def of_libxkbcommon(folder):
    with open(os.path.join(folder, "test", "data", "locale", ENGLISH, "Compose"), encoding="utf-8") as file:
        return {"Compose": file.read()}


def of_libx11(folder):
    return {it: made_of_source(os.path.join(folder, "nls", it, "Compose.pre")) for it in real.locales()}


# The source packages, and what they have: tables by their names.
SOURCES = {"gtk+3.0": of_gtk, "gtk4": of_gtk, "libxkbcommon": of_libxkbcommon, "libx11": of_libx11}


class Tables:
    """The tables that there are, and what a second reading makes of them."""

    def __init__(self, folder):
        self.packages, self.folder, self.skipped = SourcePackages(folder), folder, []
        self.values = reference.header_values() | reference.header_values(real.SHORT_NAMES)
        self.given = real.header_characters()

    def fetch(self, package):
        """The folder of a source package and the paths of its tables by their names, or nothing where it can't be fetched."""
        try:
            source = self.packages.fetch(package)
        except Unfetched as error:
            print(f"{package} is skipped: {error}", flush=True)
            self.skipped.append(package)
            return None, {}
        print(os.path.basename(source), flush=True)
        folder = os.path.join(self.folder, "tables", package)
        texts = SOURCES[package](source)
        write(folder, texts)
        return source, {it: os.path.join(folder, it) for it in texts}

    def texts(self, path):
        """The text of each sequence of a table."""
        return dict(real.definitions(path, self.values, self.given))


def diff(program, old, new, *options):
    """What `diff` prints in JSON of two tables, without the line that counts, and its exit status."""
    command = [program, "diff", "--format", "json", "--locale", ENGLISH, *options, old, new]
    ran = subprocess.run(command, capture_output=True, text=True, check=False, env={**os.environ, "LC_ALL": "C.UTF-8"})
    return [json.loads(line) for line in ran.stdout.splitlines()[:-1]], ran.returncode, ran.stderr


def check_pair(program, tables, paths, old, new, results):
    """What is lost from one table to another one, and how it is typed now."""
    what, typings = f"{old} to {new}", real.shortest_typings(paths[new], tables.values, tables.given)
    rows, status, said = diff(program, paths[old], paths[new])
    losses = [row for row in rows if row["change"] in LOSSES]
    none = [row for row in losses if row["now"] is None]
    results.expect(f"{what} ends by what it prints", (status, bool(rows), said), (1 if any(row["change"] not in ("kept", "added") for row in rows) else 0, True, ""))
    typed = [row["now"] and real.keysyms_of(row["now"], tables.values) for row in losses]
    results.expect(f"how lost texts are typed, {what}", typed, [typings.get(row["old"]) for row in losses])
    results.expect(f"what --lost prints, {what}", diff(program, paths[old], paths[new], "--lost")[0], none)
    counts = len(losses), len({row["old"] for row in none})
    results.expect(f"how much is lost, {what}", counts, KNOWN.get((old, new), counts))
    print(f"{what}: {counts[0]} sequences changed, waiting or removed, {counts[1]} texts lost", flush=True)


def check_sources(program, tables, source, made, results):
    """Each table of libX11's source is the system's, for a second reading and for `ci.sh`."""
    for locale, path in made.items():
        results.expect(f"the source of {locale}", tables.texts(path) == tables.texts(os.path.join(real.LOCALES, locale, "Compose")), True)
    words = ["sh", SCRIPT, real.LOCALES, source]
    ran = subprocess.run(words, capture_output=True, text=True, check=False, env={**os.environ, "COMPOSECHECK": program})
    counted = f"{len(made)} locales were compared.\n"
    changed = re.findall(r"^    (?:changed|waiting|removed|new start|added): .*", ran.stdout, re.M)
    results.expect("ci.sh of the system's tables and libX11's source", (changed, ran.stderr, ran.stdout.endswith(counted)), ([], "", True))


def random_tables(chance):
    """Small Compose files in which many sequences stand twice, or begin others."""
    for number in range(CHECKED):
        lines = ("<Multi_key> " + " ".join(f"<{chance.choice('abcd')}>" for _ in range(chance.randint(1, 3))) for _ in range(chance.randint(2, 6)))
        yield f"{number}.compose", "".join(f'{it} : "{chance.choice("xy")}"\n' for it in lines)


def check_clashes(program, tables, source, results):
    """What `lint` finds beside the script by which libX11 checks its tables: a table has clashes for both or for neither, and each clash a finding."""
    if shutil.which("perl") is None:
        tables.skipped.append("compose-check.pl, without perl")
        return
    files = dict(random_tables(random.Random(SEED)))
    folder = os.path.join(tables.folder, "random")
    write(folder, files)
    ran = subprocess.run([program, "lint", *files], cwd=folder, capture_output=True, text=True, check=False)
    found = {name: set() for name in files}
    for name, line in re.findall(r"^(\S+):(\d+):1: (?:overridden|repeated|prefix): ", ran.stdout, re.M):
        found[name].add(line)
    for name in files:
        script = os.path.join(source, "nls", "compose-check.pl")
        theirs = subprocess.run(["perl", script, name], cwd=folder, capture_output=True, text=True, check=False)
        clashes = [set(re.findall(r"line #(\d+)", it)) for it in theirs.stdout.split("Clash ")[1:]]
        results.expect(f"clashes in {files[name]!r}", (bool(found[name]), all(it & found[name] for it in clashes)), (bool(clashes), True))


def main():
    program, results = os.path.abspath(sys.argv[1]), Results()
    with tempfile.TemporaryDirectory(prefix="tables-") as folder:
        tables, paths = Tables(folder), {"libX11": os.path.join(real.LOCALES, ENGLISH, "Compose")}
        for package in sys.argv[2:] or SOURCES:
            source, made = tables.fetch(package)
            if "Compose" in made:
                paths[package] = made["Compose"]
            elif made:
                check_sources(program, tables, source, made, results)
                check_clashes(program, tables, source, results)
        for old, new in itertools.permutations(paths, 2):
            check_pair(program, tables, paths, old, new, results)
    return results.end(f"skipped: {', '.join(tables.skipped)}" if tables.skipped else "")


if __name__ == "__main__":
    sys.exit(main())
