#!/usr/bin/env python3
"""unproved.py [--marked] FILE [PROGRAM]: builds the program (`composecheck`, if none is given) as FILE, without a proof of anything; or the static library
of `compose_c` or `compose_typing_c`, which lib/build_library.py takes from the folder $COMPOSECHECK_STATIC.

The kit's `rt try` does it, from the sources of all crates below the program. What it builds stops at an index out of bounds, an overflow or
a bad access, and says where. It serves for trying a change, and for all tests that need no proof (`make quick`); whether the change is right
the proofs decide. With --marked its `--version` says that it is not proved (`make try`). `rt try` removes a program once it has run, so here the program is copied while it waits for the end of its input.
"""
import errno
import glob
import os
import re
import shutil
import subprocess
import sys
import tempfile
import time

import unproved_library

TOP = os.path.dirname(os.path.dirname(os.path.abspath(__file__)))
# How each program reads a file, so that it waits for one that is a FIFO.
READING = {
    "composecheck": ["type", "FIFO", "a"],
    "composecheck_list": ["type", "FIFO", "a"],
    "compose_trials": ["bench", "names", "FIFO"],
    "compose_as_reader": ["1.7", "/", "/", "/", "FIFO"],
}
LIBRARIES = {"compose_c", "compose_typing_c"}
SECONDS = 900
# Beside the build `rt try` runs a check of the whole program, which takes as long and gives only a hint, on names that a check refuses: left out here.
TRY = "import sys, edits; rt = edits.load_rt(); rt.rtlib.RATTLE = '/bin/true'; sys.exit(rt.main(sys.argv[1:]))"


def opened(fifo, process):
    """Returns the FIFO, open for writing, once the process reads it, or None if that ends before."""
    while process.poll() is None:
        try:
            return os.open(fifo, os.O_WRONLY | os.O_NONBLOCK)
        except OSError as error:
            if error.errno != errno.ENXIO:
                raise
        time.sleep(0.1)
    return None


def copy_marked(room):
    """Copies the crates into a folder, with a version that says that nothing is proved, and returns the folder."""
    shutil.copytree(os.path.join(TOP, "crates"), os.path.join(room, "crates"), ignore=shutil.ignore_patterns("out"))
    for name in ("crates.txt", "HANDLES"):
        shutil.copy(os.path.join(TOP, name), room)
    path = os.path.join(room, "crates", "compose_arguments", "src", "command_line.rt")
    with open(path, encoding="utf-8") as source:
        text, count = re.subn(r'((?:\.version\(|LONG_VERSION: &str = )"[\d.]+)', r"\1, not proved", source.read())
    if count != 2:
        sys.exit("unproved: the version is not where it was")
    with open(path, "w", encoding="utf-8") as source:
        source.write(text)
    return room


def build(program, file, top=TOP):
    """Builds the program of a tree as a file, and returns whether it is built; if not, what `rt try` prints is printed."""
    with tempfile.TemporaryDirectory(prefix="unproved-") as room, tempfile.TemporaryFile("w+", errors="replace") as printed:
        fifo = os.path.join(room, "input")
        os.mkfifo(fifo)
        words = [sys.executable, "-c", TRY, "try", "--steps", "1", "--seconds", str(SECONDS), "--", *(fifo if it == "FIFO" else it for it in READING[program])]
        folder = os.path.join(top, "crates", program)
        with subprocess.Popen(words, cwd=folder, env={**os.environ, "TMPDIR": room, "PYTHONPATH": os.path.join(TOP, "tools")}, stdin=subprocess.DEVNULL, stdout=printed, stderr=printed) as trying:
            its_input = opened(fifo, trying)
            if its_input is not None:
                built, = glob.glob(os.path.join(room, "**", "program"), recursive=True)
                os.makedirs(os.path.dirname(os.path.abspath(file)), exist_ok=True)
                # (a file of its own, so that one that is being run may be there already)
                shutil.copy(built, f"{file}.new")
                os.chmod(f"{file}.new", 0o755)
                os.replace(f"{file}.new", file)
                os.close(its_input)
        if its_input is None:
            printed.seek(0)
            print(printed.read(), end="")
    return its_input is not None


def main():
    is_marked = sys.argv[1:2] == ["--marked"]
    file, *programs = sys.argv[1 + is_marked :] or ["-"]
    if file.startswith("-"):
        print(__doc__)
        return 2
    program = programs[0] if programs else "composecheck"
    if program in LIBRARIES:
        return 0 if unproved_library.build(program, file) else 1
    with tempfile.TemporaryDirectory(prefix="marked-") as room:
        return 0 if build(program, file, copy_marked(room) if is_marked else TOP) else 1


if __name__ == "__main__":
    sys.exit(main())
