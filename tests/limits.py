#!/usr/bin/env python3
"""limits.py PROGRAM: tables, repertoires and certificates at their greatest counts, and with one more. Such an input is refused with its fault, and
never as being out of memory. The last line is `N passed, M failed`.

Repertoires and certificates are checked with an empty table, so that a repertoire of keys alone is checked to `yes` by the certificate of that
table."""
import os
import subprocess
import sys
import tempfile

from harness import write

MOST_LINES = 65_536
MOST_COUNT = 1_048_576
HEAD = "compose-certificate 1\nbound 0\npairs 1\n0 0\n"
EMPTY = f"{HEAD}typings 0\n"


def typing(keys):
    """A certificate with one typing of this many keysyms."""
    return f"{HEAD}typings 1\nU+0061{' 61' * keys}\n"


def keys(count):
    """This many key lines, of one keysym each."""
    return "".join(f"keys 0x{it:x} 0x{it:x}\n" for it in range(0x1000, 0x1000 + count))


def characters(count):
    """This many character lines, the surrogates left out."""
    return "".join(f"U+{it:04X}\n" for it in [*range(0xD800), *range(0xE000, 0x12000)][:count])


def including(depth):
    """A chain of this many includes, of a source each."""
    return {f"s{it}": f'include "s{it + 1}"\n' for it in range(depth)} | {f"s{depth}": ""}


def sequences(count):
    """This many sequences of 32 keysyms that share none of their nodes but the root: each has 31 nodes of its own, and a leaf."""
    return {"s0": "".join(f"<0x{it:x}>{'<a>' * 31}:\"x\"\n" for it in range(0x100_0100, 0x100_0100 + count))}


# A name, the sources by their names, the root first, a key, what is printed, and the status.
TABLES = [
    ("the most lines", {"s0": "\n" * 1_000_000}, "a", 'nothing "a"\n', 0),
    ("a line more", {"s0": "\n" * 1_000_001}, "a", "refused: table: 1 Read: 8 TooManyLines source=0 line=1000001\n", 2),
    ("the most definitions", {"s0": '<a> : "x"\n' * 100_000}, "a", 'composed "x"\n', 0),
    ("a definition more", {"s0": '<a> : "x"\n' * 100_001}, "a", "refused: table: 1 Read: 9 TooManyDefinitions source=0 line=100001\n", 2),
    ("a chain of eight includes", including(8), "a", 'nothing "a"\n', 0),
    ("a chain of nine includes", including(9), "a", "refused: table: 1 Read: 7 IncludeDepth source=8 line=1\n", 2),
    # (1 + 33,825 × 31 is 1,048,576)
    ("the most nodes", sequences(33_825), "0x1000100", 'composing ""\n', 0),
    ("a sequence more than the most nodes", sequences(33_826), "0x1000100", "refused: table: 3 Build: 1 TooManyNodes\n", 2),
]
# A name, the repertoire, the certificate, what is printed, and the status.
CHECKS = [
    ("the most key lines", keys(MOST_LINES), EMPTY, "yes\n", 0),
    ("a key line more", keys(MOST_LINES + 1), EMPTY, "refused: repertoire: 3 TooMany\n", 2),
    ("the most characters, of which none has a typing", characters(MOST_LINES), EMPTY, "no: 10 TypingMissing char=U+0000\n", 1),
    ("a character more", characters(MOST_LINES + 1), EMPTY, "refused: repertoire: 3 TooMany\n", 2),
    ("a pair more, by its count", "", f"compose-certificate 1\nbound 0\npairs {MOST_COUNT + 1}\n", "refused: certificate: 2 TooLarge\n", 2),
    ("the most pairs, which are missing", "", f"compose-certificate 1\nbound 0\npairs {MOST_COUNT}\n", "refused: certificate: 1 NotText line=4\n", 2),
    ("a typing more, by its count", "", f"{HEAD}typings {MOST_COUNT + 1}\n", "refused: certificate: 2 TooLarge\n", 2),
    ("a fresh keysym more, by its count", "", f"{EMPTY}fresh {MOST_COUNT + 1}\n".replace("certificate 1", "certificate 2"), "refused: certificate: 2 TooLarge\n", 2),
    ("the most keysyms of a typing", "", typing(MOST_COUNT), "no: 12 TypingUnasked char=U+0061\n", 1),
    ("a keysym more", "", typing(MOST_COUNT + 1), "refused: certificate: 2 TooLarge\n", 2),
]


def trials():
    """Gives each trial: its name, its files, the command, what it is to print, and its status."""
    for what, sources, key, wanted, status in TABLES:
        manifest = "".join(f"{name}\t{name}.compose\n" for name in sources)
        files = {f"{name}.compose": text for name, text in sources.items()} | {"manifest": manifest}
        yield what, files, ["type", "manifest", key], wanted, status
    empty = {"empty.compose": "", "manifest": "root\tempty.compose\n"}
    for what, repertoire, certificate, wanted, status in CHECKS:
        files = empty | {"repertoire": repertoire, "certificate": certificate}
        yield what, files, ["check", "manifest", "manifest", "repertoire", "certificate"], wanted, status


def main():
    program, passed, failed = os.path.abspath(sys.argv[1]), 0, 0
    with tempfile.TemporaryDirectory(prefix="limits-") as folder:
        for what, files, words, wanted, status in trials():
            write(folder, files)
            ran = subprocess.run([program, *words], cwd=folder, stdout=subprocess.PIPE, stderr=subprocess.STDOUT, text=True, timeout=60)
            if (ran.stdout, ran.returncode) == (wanted, status):
                passed += 1
            else:
                failed += 1
                print(f"FAILED: {what}: printed {ran.stdout!r:.300} with status {ran.returncode}, not {wanted!r} with {status}")
    print(f"{passed} passed, {failed} failed")
    return 1 if failed else 0


if __name__ == "__main__":
    sys.exit(main())
