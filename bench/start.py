#!/usr/bin/env python3
"""start.py PROGRAM: what a process of the program does beside its work, beside a C program that prints a line.

It prints a table in Markdown of whole processes: the least milliseconds of some turns, the pages that were touched first, the calls of the
system, and the instructions. It needs a C compiler, strace for the calls and valgrind for the instructions."""
import os
import re
import shutil
import subprocess
import sys
import tempfile
import time

from aims import instructions
from run import ENGLISH, write

TURNS = 200
LINE = '#include <stdio.h>\nint main(void) { return puts("composed é") < 0; }\n'
KEYS = ["Multi_key", "apostrophe", "e"]


def process(command, folder):
    """The seconds of a whole process, and how many pages it touched first."""
    start = time.perf_counter()
    child = subprocess.Popen(command, cwd=folder, stdout=subprocess.DEVNULL)
    _, status, usage = os.wait4(child.pid, 0)
    child.returncode = os.waitstatus_to_exitcode(status)
    if child.returncode > 1:
        sys.exit(f"start.py: {' '.join(command)} was refused")
    return time.perf_counter() - start, usage.ru_minflt


def system_calls(command, folder):
    """The number of calls of the system of a process, or None if strace is not installed."""
    if shutil.which("strace") is None:
        return None
    ran = subprocess.run(["strace", "-c", "-f", *command], cwd=folder, stdout=subprocess.DEVNULL, stderr=subprocess.PIPE, text=True, check=False)
    found = re.search(r"([0-9]+)(?: +[0-9]+)? total$", ran.stderr.strip())
    return int(found[1]) if found else None


def prepare(folder):
    """Writes a table, an empty one, and the program that prints a line."""
    write(folder, "english", f"root\t{ENGLISH}\n")
    write(folder, "nothing", "root\tempty\n")
    write(folder, "empty", "")
    write(folder, "line.c", LINE)
    subprocess.run(["cc", "-O2", "-o", "line", "line.c"], cwd=folder, check=True)


def commands(program):
    """The commands that are measured, by what they do."""
    return {
        "a C program that prints a line": ["./line"],
        "`composecheck --version`": [program, "--version"],
        "`type` of three keys, an empty table": [program, "type", "--names", "builtin", "nothing", *KEYS],
        "`type` of three keys, en_US": [program, "type", "--names", "builtin", "english", *KEYS],
        "`type -f` of three keys, en_US": [program, "type", "-f", ENGLISH, *KEYS],
    }


def measured(commands, folder):
    """The least seconds and the least pages of each command, taken in turns."""
    least = {name: (float("inf"), float("inf")) for name in commands}
    for _ in range(TURNS):
        for name, command in commands.items():
            least[name] = tuple(map(min, least[name], process(command, folder)))
    return least


def main():
    program = os.path.abspath(sys.argv[1])
    with tempfile.TemporaryDirectory() as folder:
        prepare(folder)
        print("| | Time, ms | Pages | System calls | Instructions |\n|---|---:|---:|---:|---:|")
        every = commands(program)
        for name, (seconds, pages) in measured(every, folder).items():
            calls, counted = system_calls(every[name], folder), instructions(every[name], folder)
            print(f"| {name} | {seconds * 1000:.2f} | {pages} | {calls or ''} | {f'{counted:,}' if counted else ''} |")


if __name__ == "__main__":
    main()
