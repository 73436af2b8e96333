#!/usr/bin/env python3
"""rim_bugs.py PROGRAM [WORD..]: tries wrong bodies of what has no contract: the C of the libraries, and the C++ of the engines. Each is a file of
tests/rim, an edit that is applied in a copy of what is compiled; the script that it names has to fail, and to print what it says. With words
only those whose name has one of them. It is no part of the gate: it takes half an hour. PROGRAM serves.

It needs the static libraries, proved or, with COMPOSECHECK_STATIC, unproved. The last line is `N passed, M failed`."""
import glob
import os
import re
import shutil
import subprocess
import sys
import tempfile

from harness import BUILT, CLIENT_LIBRARY, Results, build_libraries

TOP = os.path.dirname(os.path.dirname(os.path.abspath(__file__)))
# What is compiled is copied, and the rest is seen through links.
COPIED = ("lib", "typing", "ibus", "tests")
SECONDS = 300


def read(path):
    """An edit: the file that it changes, the script that has to fail with its words, what that prints, and the texts, each with the one in its place."""
    said, texts = {}, []
    with open(path, encoding="utf-8") as file:
        for line in file.read().splitlines():
            word, _, text = line.partition(": ")
            if word in ("old", "new"):
                texts.append(text)
            elif word == "more":
                texts[-1] += "\n" + text
            else:
                said[word] = text
    return said["file"], said["test"], said["says"], list(zip(texts[::2], texts[1::2]))


def apply(path, pairs):
    """Applies an edit to a file, in which each of its texts stands once."""
    with open(path, encoding="utf-8") as file:
        text = file.read()
    for old, new in pairs:
        if text.count(old) != 1:
            sys.exit(f"rim_bugs.py: {os.path.basename(path)} has {text.count(old)} times {old!r}")
        text = text.replace(old, new)
    with open(path, "w", encoding="utf-8") as file:
        file.write(text)


def copied(folder):
    """Makes a copy of the tree, as far as it is compiled here."""
    for name in os.listdir(TOP):
        if name in COPIED:
            shutil.copytree(f"{TOP}/{name}", f"{folder}/{name}", ignore=shutil.ignore_patterns("__pycache__"))
        elif not name.startswith(".") and name not in ("build", "packages"):
            os.symlink(f"{TOP}/{name}", f"{folder}/{name}")


def run(folder, test, program):
    """Runs a script in the copy, and returns its status and what it prints."""
    # (library.py builds the libraries itself; the engines stand on those that are built already)
    place = f"{folder}/build/lib" if test.startswith("shim") else BUILT
    env = {**os.environ, "PYTHONDONTWRITEBYTECODE": "1", "COMPOSECHECK_BUILT": place, "COMPOSECHECK_CLIENT_LIBRARY": f"{place}/{os.path.basename(CLIENT_LIBRARY)}"}
    name, *parts = test.split()
    words = [sys.executable, f"tests/{name}.py", *([program] if name == "engine" else []), *parts]
    try:
        if name == "shim":
            built = subprocess.run([sys.executable, "lib/build_library.py", place], cwd=folder, env=env, capture_output=True, text=True)
            if built.returncode:
                return built.returncode, built.stderr
        ran = subprocess.run(words, cwd=folder, env=env, stdout=subprocess.PIPE, stderr=subprocess.STDOUT, text=True, errors="replace", timeout=SECONDS)
    except subprocess.TimeoutExpired:
        return 1, "timed out"
    return ran.returncode, ran.stdout


def main():
    results, program, words = Results(), os.path.abspath(sys.argv[1]), sys.argv[2:]
    build_libraries()
    for path in sorted(glob.glob(f"{TOP}/tests/rim/*.edit")):
        name = os.path.basename(path)[: -len(".edit")]
        if words and not any(it in name for it in words):
            continue
        file, test, says, pairs = read(path)
        # (some tests replace a folder of that name in what they compare)
        with tempfile.TemporaryDirectory(prefix="rim-") as folder:
            copied(folder)
            apply(f"{folder}/{file}", pairs)
            status, printed = run(folder, test, program)
        failed = [it for it in printed.splitlines() if it.startswith("FAILED")] or printed.splitlines()[-1:]
        is_caught = status != 0 and re.search(says, printed) is not None
        results.expect(f"{name} is caught by `{test}`", (is_caught, status, failed[:3]), (True, status, failed[:3]))
        if is_caught:
            print(f"{name}: caught: {failed[0][:160] if failed else ''}", flush=True)
    return results.end()


if __name__ == "__main__":
    sys.exit(main())
