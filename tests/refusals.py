#!/usr/bin/env python3
"""refusals.py PROGRAM: some cases of tests/cases again, with each allocation of a run refused in turn, and some with a stream that
can't be written.

A library that is preloaded (tests/refuse.c) refuses them. A run gives the same answer as with ample memory, where it can do
without, or else it ends with status 3, prints nothing to standard output, and to standard error nothing but `out of memory`.
A case is one test. Output or help that can't be written is refused, with status 2, and a refusal keeps its status. The last line is `N passed, M failed`."""
import concurrent.futures
import os
import subprocess
import sys
import tempfile

from cases import Case

CLANG = "/opt/rattle/toolchain/bin/clang"
SOURCE = os.path.join(os.path.dirname(os.path.abspath(__file__)), "refuse.c")
NAMES = [
    "cancelling-key-is-swallowed",
    "check-bound-exceeded",
    "check-fresh-dead-key",
    "explain-all-of-two-kinds",
    "explain-cancels",
    "explain-files-names-of-a-header",
    "find-locale-by-its-alias",
    "find-two-files-of-one-name",
    "include-last-definition-counts",
    "make-fresh-dead-key",
    "make-unreachable",
    "merge-new-start",
    "names-greek",
    "overlap-longest-of-three",
    "overlap-refused",
    "repertoire-keys-after-characters",
    "type-file-character-of-the-names-given",
    "verbose-explain-all",
    "verbose-faulty-lines",
    "verbose-manifest-without-tab",
    "verbose-no-text-differs",
    "verbose-overlap",
    "verbose-yes-with-fresh-keysyms",
    "words-help-for-type",
    "words-missing-files",
]
OUT_OF_MEMORY = (3, b"", b"out of memory\n")


# A case, the stream that can't be written, and the status and standard error of the run.
FULL = [
    ("make-fresh-dead-key", "stdout", 2, b"refused: output\n"),
    ("explain-cancels", "stdout", 2, b"refused: output\n"),
    ("check-key-types-itself", "stdout", 2, b"refused: output\n"),
    ("words-help-for-type", "stdout", 2, b"refused: output\n"),
    ("words-version", "stdout", 2, b"refused: output\n"),
    ("overlap-refused", "stderr", 2, None),
    ("words-missing-files", "stderr", 2, None),
    ("missing-manifest", "stderr", 2, None),
    ("words-not-utf8", "stderr", 2, None),
]


def compile_library(folder):
    """Compiles the library, and gives its path."""
    library = os.path.join(folder, "refuse.so")
    subprocess.run([CLANG, "-shared", "-fPIC", "-nostdlib", "-fuse-ld=lld", "-o", library, SOURCE], check=True)
    return library


def answer(command, folder, library, **words):
    """The status of a run with these words for the library, and what it prints."""
    environment = {"LD_PRELOAD": library} | {word: str(number) for word, number in words.items()}
    files = [words["COUNT_TO"]] if "COUNT_TO" in words else []
    ran = subprocess.run(
        ["composecheck"] + command[1:],
        executable=command[0],
        cwd=folder,
        env=environment,
        stdin=subprocess.DEVNULL,
        capture_output=True,
        timeout=60,
        pass_fds=files,
    )
    return ran.returncode, ran.stdout, ran.stderr


def refuse_each(program, library, name):
    """How many allocations the case asks for, and what is answered wrongly where one is refused, with its number."""
    case = Case(name)
    command = [program] + case.args
    with tempfile.TemporaryDirectory() as folder, tempfile.TemporaryFile() as count:
        case.prepare(folder)
        right = answer(command, folder, library, COUNT_TO=count.fileno())
        count.seek(0)
        allocations = int(count.read().split()[0])
        answers = [(number, answer(command, folder, library, REFUSE=number)) for number in range(1, allocations + 1)]
    return allocations, [(number, got) for number, got in answers if got not in [right, OUT_OF_MEMORY]]


def write_to_full(program, name, stream):
    """The status of a run of the case whose stream can't be written, and what it prints to standard error, if that can be."""
    case = Case(name)
    with tempfile.TemporaryDirectory() as folder, open("/dev/full", "wb") as full:
        case.prepare(folder)
        streams = {"stdout": subprocess.PIPE, "stderr": subprocess.PIPE} | {stream: full}
        ran = subprocess.run(["composecheck"] + case.args, executable=program, cwd=folder, stdin=subprocess.DEVNULL, timeout=60, **streams)
    return ran.returncode, ran.stderr


def main():
    program = os.path.abspath(sys.argv[1])
    failed = 0
    with tempfile.TemporaryDirectory() as folder, concurrent.futures.ThreadPoolExecutor(os.cpu_count()) as pool:
        library = compile_library(folder)
        for name, (allocations, wrong) in zip(NAMES, pool.map(lambda name: refuse_each(program, library, name), NAMES)):
            if wrong or allocations == 0:
                failed += 1
                print(f"FAILED {os.path.basename(program)}: {name}, of whose {allocations} allocations one is refused")
                for number, got in wrong[:5]:
                    print(f"    {number}: got {got!r:.300}")
    for name, stream, status, stderr in FULL:
        got = write_to_full(program, name, stream)
        if got != (status, stderr):
            failed += 1
            print(f"FAILED {os.path.basename(program)}: {name}, whose {stream} can't be written: got {got!r}")
    print(f"{len(NAMES) + len(FULL) - failed} passed, {failed} failed")
    return 1 if failed else 0


if __name__ == "__main__":
    sys.exit(main())
