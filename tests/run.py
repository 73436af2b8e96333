#!/usr/bin/env python3
"""run.py [--quick] [--program FILE] [--trials FILE] [NAME..]: runs scripts of tests/ by their names, a few side by side, or lists them all.

They run FILE, a built program: ./composecheck, or for single calls ./compose_trials, unless others are given. With --quick (`make quick`) both are
first built without a proof, in build/unproved, and so are the C libraries; then each script runs that needs no more than that. What a script prints
is printed in one piece, below its name. The last line is `N passed, M failed` over all."""
import argparse
import ast
import concurrent.futures
import glob
import os
import re
import sys

from harness import CLIENT_LIBRARY, TOP, build_libraries, follow

# The head of a script: its name, what it takes, and what it does.
HEAD = re.compile(r"(\w+)\.py((?: (?:PROGRAM|TRIALS|\[[^\]]*\]))*): (.*?)(?:[.:;](?:\s|$)|$)", re.S)
# What an unproved program won't do for: it has an allocator of its own, so that a library which refuses memory can't be preloaded, and is slow on
# inputs at their limits; the runner of edits needs the prover. The others are no part of the gate.
NOT_QUICK = {"calls", "edits_test", "installed", "limits", "newest_tables", "other_tables", "peers", "readers", "real", "real_service", "refusals", "rim_bugs"}
# Those that need the C libraries; with --quick they get unproved ones.
WITH_LIBRARIES = {"client", "engine", "installed", "library", "shim"}
# How many random ones a script tries with --quick, where that takes the longest.
FEWER = {"diff": ["100"], "merge": ["40"], "network": ["30"]}
LIBRARIES = "the C libraries"
# The programs by what the heads of scripts call them.
PROGRAMS = {"PROGRAM": "composecheck", "TRIALS": "compose_trials"}


class Script:
    """A script of tests/: its name, the programs that it takes, and what it does."""

    def __init__(self, name, takes, does):
        self.name, self.does = name, " ".join(does.split())
        self.takes = re.sub(r"\[[^\]]*\]", "", takes).split()
        self.needs = [*self.takes, *([LIBRARIES] if name in WITH_LIBRARIES else [])]

    def command(self, programs, words):
        return [sys.executable, os.path.join("tests", f"{self.name}.py"), *(programs[it] for it in self.takes), *words]


def scripts():
    """Returns the scripts by their names: each file of tests/ whose head says how it is run."""
    found = {}
    for path in sorted(glob.glob(os.path.join(TOP, "tests", "*.py"))):
        with open(path, encoding="utf-8") as file:
            head = HEAD.match(ast.get_docstring(ast.parse(file.read())) or "")
        if head and f"{head[1]}.py" == os.path.basename(path) and path != os.path.abspath(__file__):
            found[head[1]] = Script(*head.groups())
    return found


def built(name):
    """Builds a program without a proof, and returns its path, or None where that fails."""
    path = os.path.join(TOP, "build", "unproved", name)
    lines, (_, failed) = follow([sys.executable, os.path.join("tools", "unproved.py"), path, name], is_quiet=True)
    print(f"== {name} is {'not ' * failed}built\n{''.join(lines)}", end="", flush=True)
    return None if failed else path


def built_libraries():
    """Builds the C libraries without a proof, in a folder of their own, and returns that folder, or None where that fails."""
    folder = os.path.join(TOP, "build", "unproved")
    for crate in ("compose_typing_c", "compose_c"):
        lines, (_, failed) = follow([sys.executable, os.path.join("tools", "unproved.py"), os.path.join(folder, f"{crate}.a"), crate], is_quiet=True)
        print(f"== the library of {crate} is {'not ' * failed}built\n{''.join(lines)}", end="", flush=True)
        if failed:
            return None
    place = os.path.join(folder, "lib")
    client = os.path.join(place, os.path.basename(CLIENT_LIBRARY))
    os.environ.update(COMPOSECHECK_STATIC=folder, COMPOSECHECK_BUILT=place, COMPOSECHECK_CLIENT_LIBRARY=client)
    lines, (_, failed) = follow([sys.executable, os.path.join("lib", "build_library.py"), place], is_quiet=True)
    print("".join(lines), end="", flush=True)
    return None if failed else folder


def run(script, programs, words):
    """Runs a script with words once its programs are there, prints what it prints, and returns its counts."""
    paths = {it: programs[it].result() for it in script.needs if it in programs}
    if None in paths.values():
        return 0, 1
    lines, counts = follow(script.command(paths, words), is_quiet=True)
    print(f"== {script.name}\n{''.join(lines)}", end="", flush=True)
    return counts


def run_all(chosen, paths, is_quick):
    """Runs scripts, on the programs at these paths, or quickly on programs and libraries that it builds, and returns their counts."""
    with concurrent.futures.ThreadPoolExecutor(max(os.cpu_count(), 3)) as pool:
        programs = {it: pool.submit(built, PROGRAMS[it]) if is_quick else pool.submit(lambda path=path: path) for it, path in paths.items()}
        if is_quick and any(LIBRARIES in it.needs for it in chosen):
            programs[LIBRARIES] = pool.submit(built_libraries)
        return [*pool.map(lambda it: run(it, programs, FEWER.get(it.name, []) if is_quick else []), chosen)]


def main():
    words = argparse.ArgumentParser(usage=__doc__.partition(": ")[0], description=__doc__.partition(": ")[2])
    words.add_argument("--quick", action="store_true", help="those that need no proof, on programs that are built first")
    words.add_argument("--program", default="composecheck", metavar="FILE", help="the program (./composecheck)")
    words.add_argument("--trials", default="compose_trials", metavar="FILE", help="the program of single calls (./compose_trials)")
    words.add_argument("names", nargs="*", metavar="NAME")
    given, known = words.parse_args(), scripts()
    names = given.names or [it for it in known if given.quick and it not in NOT_QUICK]
    if not names:
        print("".join(f"{it.name:<15}{it.does}\n" for it in known.values()), end="")
        return 0
    if {*names} - {*known}:
        sys.exit(f"run.py: no script is called {' or '.join(sorted({*names} - {*known}))}")
    # (those that wait for no program come first)
    chosen = sorted((known[it] for it in names), key=lambda it: len(it.needs))
    paths = {it: os.path.abspath(path) for it, path in (("PROGRAM", given.program), ("TRIALS", given.trials)) if any(it in script.takes for script in chosen)}
    for path in paths.values():
        if not given.quick and not os.path.isfile(path):
            sys.exit(f"run.py: there is no {path}: `make` builds the programs, tools/unproved.py unproved ones, and --program and --trials name others")
    if not given.quick and any(LIBRARIES in it.needs for it in chosen):
        build_libraries()
    counts = run_all(chosen, paths, given.quick)
    passed, failed = map(sum, zip(*counts))
    print(f"{passed} passed, {failed} failed")
    return 1 if failed else 0


if __name__ == "__main__":
    sys.exit(main())
