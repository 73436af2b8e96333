#!/usr/bin/env python3
"""outputs.py PROGRAM: files that `make -o` writes, whole or not at all, answers whose reader has gone, and colours on a terminal. The last
line is `N passed, M failed`."""
import os
import resource
import subprocess
import sys
import tempfile
import tty

from harness import write

TABLE = '<a> <b> : "x"\n'
MORE = TABLE + '<a> <c> : "y"\n'
OTHER = '<a> <b> : "z"\n'
CHANGED = OTHER + '<a> <c> : "y"\n'
REPERTOIRE = "keys 0x61 0x62\nU+0078\n"
CERTIFICATE = "compose-certificate 1\nbound 1\npairs 2\n0 0\n1 1\ntypings 1\nU+0078 61 62\n"


def read(folder, name):
    path = os.path.join(folder, name)
    if not os.path.isfile(path):
        return None
    with open(path, encoding="utf-8") as file:
        return file.read()


def run(program, folder, *words):
    """Runs the program there: what it prints, and its status."""
    ran = subprocess.run([program, *words], cwd=folder, stdout=subprocess.PIPE, stderr=subprocess.STDOUT, text=True, timeout=60)
    return ran.stdout, ran.returncode


def run_without_room(program, folder, *words):
    """The same where no file may grow: a write to one fails, as on a disk without room, and one that is opened anew is empty."""
    limit = lambda: resource.setrlimit(resource.RLIMIT_FSIZE, (0, resource.getrlimit(resource.RLIMIT_FSIZE)[1]))
    # (the signal of the limit is ignored here, and stays so)
    ran = subprocess.run([program, *words], cwd=folder, stdout=subprocess.PIPE, stderr=subprocess.STDOUT, text=True, timeout=60, preexec_fn=limit, restore_signals=False)
    return ran.stdout, ran.returncode


def on_a_terminal(program, folder, *words, **variables):
    """What a run prints to a terminal, and its status, with these variables and no other that speaks of colours."""
    environment = {name: value for name, value in os.environ.items() if name != "NO_COLOR"} | variables
    above, below = os.openpty()
    tty.setraw(below)
    status = subprocess.run([program, *words], cwd=folder, env=environment, stdin=subprocess.DEVNULL, stdout=below, stderr=subprocess.PIPE, timeout=60).returncode
    # (what was printed is there at once, and less than a terminal holds; the last byte is not the program's)
    os.write(below, b"\0")
    got = b""
    while not got.endswith(b"\0"):
        got += os.read(above, 4096)
    os.close(above)
    os.close(below)
    return got[:-1].decode(), status


def colours(program, folder):
    """Yields of each trial with a terminal its name, what came and what was wanted."""
    lines = ['changed: <a> <b> "x" "z" table.compose:1 changed.compose:1 now: none', 'added: <a> <c> "y" changed.compose:2', "diff: 0 kept, 1 changed, 0 waiting, 0 removed, 0 new starts, 1 added, 0 accepted; 1 text lost", "merge: would keep 1 of OLD's sequences and add 1 of NEW's"]
    plain = "".join(f"{it}\n" for it in lines), 1
    coloured = "".join(f"\x1b[{number}m{it}\x1b[m\n" for number, it in zip((31, 32, 1, 1), lines)), 1
    diff, tables = ("diff",), ("table.compose", "changed.compose")
    yield "a terminal has colours", on_a_terminal(program, folder, *diff, *tables), coloured
    yield "a terminal has colours by --color auto", on_a_terminal(program, folder, *diff, "--color", "auto", *tables), coloured
    yield "a terminal has colours where NO_COLOR is empty", on_a_terminal(program, folder, *diff, *tables, NO_COLOR=""), coloured
    yield "no colours with NO_COLOR", on_a_terminal(program, folder, *diff, *tables, NO_COLOR="1"), plain
    yield "no colours by --color auto with NO_COLOR", on_a_terminal(program, folder, *diff, "--color", "auto", *tables, NO_COLOR="1"), plain
    yield "colours by --color always with NO_COLOR", on_a_terminal(program, folder, *diff, "--color", "always", *tables, NO_COLOR="1"), coloured
    yield "no colours by --color never", on_a_terminal(program, folder, *diff, "--color", "never", *tables), plain
    yield "the list of accepted changes has no colours", on_a_terminal(program, folder, *diff, "--write-accept", *tables), ('changed: <a> <b> "x" "z"\n', 1)
    json = on_a_terminal(program, folder, *diff, "--format", "json", *tables)
    yield "JSON has no colours", ("\x1b" in json[0], json[0].count("\n"), json[1]), (False, 3, 1)
    elsewhere = subprocess.run([program, *diff, *tables], cwd=folder, stdin=subprocess.DEVNULL, stdout=subprocess.PIPE, text=True, timeout=60)
    yield "a pipe has no colours", (elsewhere.stdout, elsewhere.returncode), plain


def trials(program, folder):
    """Yields of each trial its name, what came and what was wanted."""
    make = ("make", "-o", "certificate", "table.manifest")
    yield "a certificate is written", (*run(program, folder, *make, "more.manifest", "repertoire"), read(folder, "certificate")), ("", 0, CERTIFICATE)
    yield "nothing else is left", sorted(it for it in os.listdir(folder) if it.startswith("certificate")), ["certificate"]
    write(folder, {"certificate": "kept\n"})
    said, status = run(program, folder, *make, "other.manifest", "repertoire")
    yield "where there is none, the difference is printed and the file stays", (said.splitlines()[:1], status, read(folder, "certificate")), (["keys a b"], 1, "kept\n")
    yield "where input is refused, the file stays", (*run(program, folder, *make, "none", "repertoire"), read(folder, "certificate")), ("refused: file: none\n", 2, "kept\n")
    yield "where no file can grow, the file stays", (*run_without_room(program, folder, *make, "more.manifest", "repertoire"), read(folder, "certificate")), (
        "refused: file: certificate\n", 2, "kept\n")
    yield "and nothing else is left", sorted(it for it in os.listdir(folder) if it.startswith("certificate")), ["certificate"]
    os.link(os.path.join(folder, "certificate"), os.path.join(folder, "old"))
    write(folder, {"certificate.part": "of a run that was ended\n" * 99})
    yield "a file is replaced", (*run(program, folder, *make, "more.manifest", "repertoire"), read(folder, "certificate")), ("", 0, CERTIFICATE)
    yield "and not written over", (read(folder, "old"), read(folder, "certificate.part")), ("kept\n", None)
    os.mkdir(os.path.join(folder, "tree"))
    write(folder, {"tree/more.compose": f'include "{folder}/more.compose"\n'})
    elsewhere = ("make", "-o", "certificate", "-f", "--system", "tree", "table.compose", "tree/more.compose", "repertoire")
    yield "notes are printed beside a certificate that is written", (*run(program, folder, *elsewhere), read(folder, "certificate")), (
        f"note: {folder}/more.compose lies outside of tree\n", 0, CERTIFICATE)
    there = ("make", "-o", "no/certificate", "table.manifest", "more.manifest", "repertoire")
    yield "a folder that is not there", run(program, folder, *there), ("refused: file: no/certificate\n", 2)
    for_people = ("make", "-f", "-o", "no/certificate", "table.compose", "more.compose", "repertoire")
    yield "a folder that is not there, in words", run(program, folder, *for_people), ("composecheck: no/certificate: can't be written: no such folder\n", 2)
    yield "a folder that is not there, with -v", run(program, folder, *there, "-v"), ("refused: file: no/certificate\ncomposecheck: no/certificate: can't be written: no such folder\n", 2)
    os.mkdir(os.path.join(folder, "folder"))
    on_a_folder = ("make", "-o", "folder", "table.manifest", "more.manifest", "repertoire")
    yield "a folder in the file's place", (*run(program, folder, *on_a_folder), read(folder, "folder.part")), ("refused: file: folder\n", 2, None)
    reader, writer = os.pipe()
    os.close(reader)
    ran = subprocess.run([program, "type", "table.manifest", "a", "b"], cwd=folder, stdout=writer, stderr=subprocess.PIPE, text=True, timeout=60)
    os.close(writer)
    yield "a pipe that nobody reads ends it quietly", (ran.stderr, ran.returncode), ("", 2)
    with open("/dev/full", "w", encoding="utf-8") as full:
        ran = subprocess.run([program, "type", "table.manifest", "a", "b"], cwd=folder, stdout=full, stderr=subprocess.PIPE, text=True, timeout=60)
    yield "a disk without room is reported", (ran.stderr, ran.returncode), ("refused: output\n", 2)


def main():
    program, passed, failed = os.path.abspath(sys.argv[1]), 0, 0
    with tempfile.TemporaryDirectory(prefix="outputs-") as folder:
        for name, text in (("table", TABLE), ("more", MORE), ("other", OTHER), ("changed", CHANGED)):
            write(folder, {f"{name}.compose": text})
            write(folder, {f"{name}.manifest": f"root\t{name}.compose\n"})
        write(folder, {"repertoire": REPERTOIRE})
        for name, came, wanted in (*trials(program, folder), *colours(program, folder)):
            if came == wanted:
                passed += 1
            else:
                failed += 1
                print(f"outputs: {name}: {came!r}, and {wanted!r} is wanted")
    print(f"{passed} passed, {failed} failed")
    return 1 if failed else 0


if __name__ == "__main__":
    sys.exit(main())
