#!/usr/bin/env python3
"""peers.py: runs libxkbcommon's own test of Compose, test/compose.c, on `libcomposecheck-xkb.so`. The test comes from Debian's source package by
apt-get, and nothing of it is kept. It runs to its end, with a line for each assertion that doesn't hold, and has to hold but for those below.

The last line is `N passed, M failed`: the assertions that hold or are listed, and the others. Those that are listed and hold count as failed too."""
import os
import re
import subprocess
import sys
import tempfile

from source_packages import SourcePackages, Unfetched

TOP = os.path.dirname(os.path.dirname(os.path.abspath(__file__)))
sys.path[:0] = [f"{TOP}/lib"]
import build_library

# The assertions that needn't hold, by their function and their number in it, and why.
MODIFIERS = "asks for modifier lists, which are refused"
LISTED = {"test_compose_seq_buffer 1": MODIFIERS, "test_modifier_syntax 1": MODIFIERS}

# An assert of the test that is printed and goes on; one of the code that it calls ends the program.
ASSERT = """#include <stdio.h>
#include <stdlib.h>
#include <string.h>
#undef assert
#define assert(x) ((x) ? (void) printf("HOLDS %s:%d\\n", __FILE__, __LINE__) : (void) printf("FAILS %s:%d\\n", __FILE__, __LINE__))
"""
CONFIG = """#define _GNU_SOURCE 1
#define HAVE_ASPRINTF 1
#define HAVE_VASPRINTF 1
#define HAVE_UNISTD_H 1
#define HAVE_MMAP 1
#define HAVE_STRNDUP 1
#define HAVE_SECURE_GETENV 1
#define DFLT_XKB_CONFIG_ROOT "/usr/share/X11/xkb"
"""


def run(*command, **options):
    return subprocess.run(command, check=True, **options)


def guarded(text):
    """Returns the test as one that goes on where a table is null. No line moves."""
    for pattern, more in (
        (r"(test_compose_seq_va\([^)]*\)\n\{)", "if (!table) return false;"),
        (r"(assert\(table\);)(?=\s+va_start)", "if (!table) return false;"),
    ):
        text, count = re.subn(pattern, lambda it: f"{it[1]} {more}", text)
        if count != 1:
            sys.exit(f"peers.py: the test is another one: {pattern} stands {count} times")
    return text


def names_of(text):
    """Returns the function and the number in it of the assertion on each line."""
    names, function, number = {}, "", 0
    for index, line in enumerate(text.split("\n"), 1):
        named = re.match(r"(\w+)\(.*\)?$", line)
        if named:
            function, number = named[1], 0
        if re.match(r"\s+assert\(", line):
            number += 1
            names[index] = f"{function} {number}"
    return names


def built(folder, source):
    """Compiles the test and what it uses, and links it with the shim."""
    with open(f"{source}/test/compose.c", encoding="utf-8") as file:
        text = guarded(file.read())
    os.makedirs(f"{folder}/soft")
    for name, content in (("soft/assert.h", ASSERT), ("config.h", CONFIG), ("test.c", text)):
        with open(f"{folder}/{name}", "w", encoding="utf-8") as file:
            file.write(content)
    words = ["-O1", "-w", f"-I{folder}", *(f"-I{source}/{it}" for it in ("src", "include", "test"))]
    run(build_library.compiler(), *words, f"-I{folder}/soft", "-c", f"{folder}/test.c", "-o", f"{folder}/test.o")
    build_library.build(f"{folder}/lib")
    run(
        build_library.compiler(), *words, f"{folder}/test.o", f"{source}/test/common.c", f"{source}/src/utils.c", f"{folder}/lib/libcomposecheck-xkb.so",
        "-l:libxkbcommon.so.0", f"-Wl,-rpath,{folder}/lib", "-o", f"{folder}/test"
    )  # fmt: skip
    return names_of(text)


def outcome(folder, source, names):
    """Runs the test: the assertions that hold each time, those that don't, and the status."""
    env = {**os.environ, "top_srcdir": source, "top_builddir": folder}
    ran = subprocess.run([f"{folder}/test"], env=env, stdout=subprocess.PIPE, stderr=subprocess.DEVNULL, text=True, timeout=100)
    held, fell = (
        {names.get(int(line), f"line {line}") for line in re.findall(rf"^{word} .*test\.c:(\d+)$", ran.stdout, re.M)} for word in ("HOLDS", "FAILS")
    )
    return held - fell, fell, ran.returncode


def wrong_ones(fell, status):
    return [
        *(f"{it} doesn't hold" for it in sorted(fell - LISTED.keys())), *(f"{it} is listed, and holds" for it in sorted(LISTED.keys() - fell)),
        *([f"the test ends with {status}"] if status else []),
    ]  # fmt: skip


def main():
    with tempfile.TemporaryDirectory(prefix="peers-") as folder:
        try:
            source = SourcePackages(folder).fetch("libxkbcommon")
        except Unfetched as error:
            sys.exit(f"peers.py: {error}")
        names = built(folder, source)
        held, fell, status = outcome(folder, source, names)
    wrong = wrong_ones(fell, status)
    for it in wrong:
        print(f"FAILED: {it}")
    for it, why in sorted(LISTED.items()):
        print(f"listed: {it}: {why}")
    print(f"{len(held) + len(fell & LISTED.keys())} passed, {len(wrong)} failed")
    return 1 if wrong else 0


if __name__ == "__main__":
    sys.exit(main())
