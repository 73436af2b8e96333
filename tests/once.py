#!/usr/bin/env python3
"""once.py PROGRAM: each file that a command reads may be a pipe, and is opened once.

Each case of tests/cases is run again with every file of it a FIFO that is filled once, whatever the command and with `-v`: a program that opens
one a second time waits for ever, or finds nothing in it. Then each input of each command is given as a pipe (`/dev/fd/N`) and as `-`, standard
input; the answer has to be that of the file. Files that no command needs stay closed. The last line is `N passed, M failed`."""
import concurrent.futures
import os
import subprocess
import sys
import tempfile
import threading

import cases
from harness import write

TABLE = '<Multi_key> <a> <b> : "x"\n<Multi_key> <c> : "y"\n'
CHANGED = '<Multi_key> <a> <b> : "z"\n'
FAULTY = '<Multi_key> <a> <b> : "x\n'
REPERTOIRE = "composecheck repertoire 1\nchars 0078\nkeys ff20,61,62\n"
# What lies there: each command reads some of these.
FILES = {
    "table": TABLE,
    "changed": CHANGED,
    "faulty": FAULTY,
    "names": "#define XK_nothing_of_the_kind 0x1008ff01\n",
    "table.manifest": "root\ttable\n",
    "changed.manifest": "root\tchanged\n",
    "faulty.manifest": "root\tfaulty\n",
    "repertoire": REPERTOIRE,
    "accepted": 'changed: <Multi_key> <a> <b> "x" "z"\nremoved: <Multi_key> <c> "y"\n',
}
# Two paths of one file are two files to the program, and each is opened.
TWO_PATHS = ["find-two-names-of-one-file"]
# A command, and the words of it that are files; `CERTIFICATE` and `SOCKET` are made beforehand.
COMMANDS = [
    ("diff table changed", ["table", "changed"]),
    ("diff table table", ["table"]),
    ("merge table changed", ["table", "changed"]),
    ("diff faulty table", ["faulty", "table"]),
    ("diff --names builtin --names names table changed", ["names", "table", "changed"]),
    ("diff --accept accepted table changed", ["accepted"]),
    ("manifest table", ["table"]),
    ("type table.manifest Multi_key a b", ["table.manifest"]),
    ("type -v faulty.manifest Multi_key", ["faulty.manifest"]),
    ("type --names names table.manifest nothing_of_the_kind", ["names"]),
    ("explain table.manifest changed.manifest", ["table.manifest", "changed.manifest"]),
    ("explain -v --all table.manifest changed.manifest", ["table.manifest", "changed.manifest"]),
    ("make table.manifest table.manifest repertoire", ["table.manifest", "repertoire"]),
    ("make -v table.manifest changed.manifest repertoire", ["changed.manifest", "repertoire"]),
    ("check table.manifest table.manifest repertoire certificate", ["repertoire", "certificate"]),
    ("check -v table.manifest changed.manifest repertoire certificate", ["changed.manifest", "repertoire", "certificate"]),
    ("serve -v changed.manifest repertoire certificate no.socket 1", ["changed.manifest", "repertoire", "certificate"]),
    ("serve -v faulty.manifest repertoire certificate no.socket 1", ["faulty.manifest"]),
    ("load no.socket table.manifest certificate", ["table.manifest", "certificate"]),
    ("session --names names no.socket 1 nothing_of_the_kind", ["names"]),
]


class Fifos:
    """FIFOs in the place of files, each of which is filled once, when it is opened."""

    def __init__(self, files):
        self.threads, self.paths = [], list(files)
        for path, text in files.items():
            os.remove(path)
            os.mkfifo(path)
            thread = threading.Thread(target=self.fill, args=(path, text), daemon=True)
            thread.start()
            self.threads.append(thread)

    @staticmethod
    def fill(path, text):
        try:
            with open(path, "wb") as file:
                file.write(text)
        except OSError:
            pass

    def release(self):
        """Lets go of those that nobody opened."""
        for path in self.paths:
            try:
                os.close(os.open(path, os.O_RDONLY | os.O_NONBLOCK))
            except OSError:
                pass
        for it in self.threads:
            it.join(5)


def case_over_fifos(program, name):
    """What differs from what the case expects, where each of its files is a FIFO."""
    case = cases.Case(name)
    with tempfile.TemporaryDirectory() as folder:
        case.prepare(folder)
        fifos = Fifos({os.path.join(folder, path): text for path, text in case.files.items()})
        try:
            ran = subprocess.run([b"composecheck"] + case.args, executable=program, cwd=folder, env=os.environ | case.environment,
                                 input=case.standard_input, capture_output=True, timeout=60)
        except subprocess.TimeoutExpired:
            return [f"{name}: a file is opened twice: the program waits"]
        finally:
            fifos.release()
    got = {"stdout": ran.stdout, "stderr": ran.stderr, "status": ran.returncode}
    return [f"{name} over FIFOs: {it}: got {got[it]!r:.300}, expected {case.expected[it]!r:.300}" for it in cases.EXPECTED if got[it] != case.expected[it]]


def answer(program, folder, words, **how):
    """Returns the output, the messages and the status of a command."""
    ran = subprocess.run([b"composecheck", *(it.encode() for it in words)], executable=program, cwd=folder, capture_output=True, text=True, timeout=60, **how)
    return ran.stdout, ran.stderr, ran.returncode


def renamed(got, path, name):
    """The same answer, where a file has another path."""
    return got[0].replace(path, name), got[1].replace(path, name), got[2]


def through_a_pipe(program, folder, words, name):
    """The answer where a file is given as a pipe, by the file's name."""
    with open(os.path.join(folder, name), "rb") as file:
        text = file.read()
    here, there = os.pipe()
    writer = threading.Thread(target=lambda: (os.write(there, text), os.close(there)), daemon=True)
    writer.start()
    path = f"/dev/fd/{here}"
    got = answer(program, folder, [path if it == name else it for it in words], pass_fds=[here], stdin=subprocess.DEVNULL)
    os.close(here)
    return renamed(got, path, name)


def through_standard_input(program, folder, words, name):
    """The answer where a file is given as standard input, by the file's name."""
    with open(os.path.join(folder, name), encoding="utf-8") as file:
        got = answer(program, folder, ["-" if it == name else it for it in words], input=file.read())
    return got[0].replace(" -:", f" {name}:"), got[1].replace(" -:", f" {name}:").replace("file: -", f"file: {name}"), got[2]


def differences(program):
    """What differs where an input of a command is a pipe."""
    found, count = [], 0
    with tempfile.TemporaryDirectory() as folder:
        for name, text in FILES.items():
            write(folder, {name: text})
        made = answer(program, folder, "make table.manifest table.manifest repertoire".split(), stdin=subprocess.DEVNULL)
        write(folder, {"certificate": made[0]})
        for command, names in COMMANDS:
            words = command.split()
            wanted = answer(program, folder, words, stdin=subprocess.DEVNULL)
            for name in names:
                for how in (through_a_pipe, through_standard_input):
                    count += 1
                    got = how(program, folder, words, name)
                    if got != renamed(wanted, "\t" + name, "\t" + name) and command.split()[0] != "manifest":
                        found.append(f"{command}: {name} {how.__name__}: got {got!r:.300}, expected {wanted!r:.300}")
    return found, count


def unneeded(program):
    """What is wrong where `manifest` opens the files that list the tables of locales, though no include has `%L`; here nobody fills them."""
    with tempfile.TemporaryDirectory() as folder:
        write(folder, {"table": TABLE})
        os.mkdir(f"{folder}/tree")
        for name in ("compose.dir", "locale.alias"):
            os.mkfifo(f"{folder}/tree/{name}")
        try:
            got = answer(program, folder, "manifest --system tree --locale xy table".split(), stdin=subprocess.DEVNULL)
        except subprocess.TimeoutExpired:
            return ["manifest: a file that lists the tables of locales is opened: the program waits"]
    return [] if got == ("table\ttable\n", "", 0) else [f"manifest: got {got!r:.300}"]


def main():
    names = [it for it in cases.case_names() if it not in TWO_PATHS and "files.py" not in cases.Case(it).files and not cases.Case(it).is_unprivileged]
    with cases.copy_for_all(sys.argv[1]) as program:
        with concurrent.futures.ThreadPoolExecutor(os.cpu_count()) as pool:
            found = [it for some in pool.map(lambda name: case_over_fifos(program, name), names) for it in some]
        more, count = differences(program)
        more += unneeded(program)
    for it in found + more:
        print(f"FAILED {it}")
    failed = len(found) + len(more)
    print(f"{len(names) + count + 1 - failed} passed, {failed} failed")
    return 1 if failed else 0


if __name__ == "__main__":
    sys.exit(main())
