#!/usr/bin/env python3
"""The gate:

  - the runner of must-fail edits against a small crate of its own, and the gate's store (tests/edits_test.py), and the worked examples (tests/examples.py),
  - `rt ci`, with the edits tried over the proofs of their crates, several in one check (proofs.py),
  - the command-line cases, inputs at their limits and the service over real sockets, with both built programs: `composecheck` and the same on the plain form of a table,
  - with `composecheck`, some of the cases again with each allocation refused in turn, second readings of lines, tables and streams, files that are written, many
    connections at once, README's script, and both packages,
  - the C libraries, and the input methods over them,
  - single calls with each growth of their memory refused in turn, streams over devices that fail, and many clients on a network in memory.

What a run proved is kept on this machine by the checksums of all that it read, and so is which edits were refused: in the kit's store, or
in one of the gate's own where the kit has none (store.py). A later run proves and tries only what has changed, and what stands on it. With
--anew it proves and tries all, from nothing. With --whole it is `rt ci` as the kit has it, which tries each edit in a check of its own.

The first two run beside the proofs, whenever these leave a processor free, and the scripts side by side, one a processor; what each prints is
printed in one piece.

Where the machine has two or three processors and at least 2.7 GB for each, it has as many checks run side by side: `rt ci` plans for more
memory than a check needs, and would run one at a time.

At the end it prints what each crate took that was proved or tried, as the table of docs/made/TIMES.md. The last line is `N passed, M failed`
over all."""
import concurrent.futures
import os
import re
import resource
import shutil
import sys
import tempfile
import time

import edits
import kit
import measured

TOP = measured.TOP
sys.path.append(os.path.join(TOP, "tests"))
from harness import PROVED, build_libraries, follow

PROGRAM = os.path.join(TOP, "composecheck")
# What a check and the rest of the machine need, in bytes.
MEMORY_OF_A_PROCESSOR = 2_700_000_000


def built(crate):
    """Where `rt ci` leaves the program of a crate."""
    return os.path.join(TOP, "crates", crate, "out", crate)


def script(name, *words):
    """Returns the command that runs one of the scripts of tests/."""
    return [sys.executable, os.path.join("tests", name), *words]


def run_quietly(command):
    """Runs a command, and returns its lines and its counts."""
    return follow(command, is_quiet=True)


def print_whole(lines, counts):
    """Prints the lines of a command that ran quietly, and returns its counts."""
    print("".join(lines), end="", flush=True)
    return counts


def edits_by_crate():
    """Returns the names of the must-fail edits of each crate, in the order of crates.txt."""
    with open(os.path.join(TOP, "crates.txt"), encoding="utf-8") as file:
        crates = re.findall(r"^(\w+)", file.read(), re.M)
    found = {}
    for crate in crates:
        folder = os.path.join(TOP, "crates", crate, "must-fail")
        found[crate] = sorted(it for it in os.listdir(folder) if it.endswith(".edit")) if os.path.isdir(folder) else []
    return found


def without_a_line(names_of, lines):
    """Returns the edits of which no line says how they ended."""
    said = {it for line in lines for it in re.findall(r"^rt: must-fail (\w+/[\w.-]+\.edit): \S", line)}
    return [f"{crate}/{name}" for crate, names in names_of.items() for name in names if f"{crate}/{name}" not in said]


def prove(rt, flags, file, names_of):
    """Runs `rt ci` and prints what it says; its counts. What each check took is added to a file."""
    lines, (passed, failed) = follow(["rt", "ci"] if "--whole" in flags else [sys.executable, os.path.join("tools", "proofs.py"), file, *flags])
    lost = without_a_line(names_of, lines)
    for it in lost:
        print(f"gate: must-fail {it}: NO LINE says whether the prover refuses it")
    left = sum(edits.LEFT in it for it in lines)
    if left:
        print(f"gate: {left} must-fail edits were not tried, as the time for edits had passed: `make test` once more tries them")
    # (a kit without a store counts these as passed)
    return passed - (0 if kit.has_store(rt) else left), failed + len(lost)


def use_all_processors(rt):
    """Has `rt ci` run a check on each processor, where there are few and memory is enough for all. With more, it is better to give a check several."""
    processors = rt.processors()
    if processors in (2, 3) and rt.free() >= MEMORY_OF_A_PROCESSOR * processors:
        os.environ.setdefault("RT_JOBS", str(processors))


def commands():
    """Returns the commands that run the built programs, the slowest first, once `composecheck` itself is at PROGRAM."""
    plain, trials = built("composecheck_list"), built("compose_trials")
    runs = [(it, PROGRAM) for it in ("refusals.py", "diff.py", "merge.py", "how.py", "lint.py")]
    runs += [(it, program) for it in ("cases.py", "service.py", "limits.py") for program in (PROGRAM, plain)]
    runs += [("devices.py", trials), ("calls.py", trials), ("network.py", trials)]
    runs += [(it, PROGRAM) for it in ("once.py", "packages.py", "lex_reference.py", "own_file.py", "at_once.py", "streams.py", "update.py", "outputs.py", "ci.py", "readme.py", "client.py", "installed.py", "user_manager.py", "service_page.py", "machine.py", "consoles.py")]
    runs += [("snippets.py", PROGRAM), ("valid_pages.py", PROGRAM), ("makefile.py",), ("any_body.py",), ("documents.py",)]
    return [script(*it) for it in runs]


def run_programs(pool):
    """Runs the scripts over the built programs, and returns their counts. The library of tables is proved and built beside those that do without it."""
    shutil.copy(built("composecheck"), PROGRAM)
    build_libraries()
    library = pool.submit(follow, ["make", "-s", PROVED], is_quiet=True)
    every = [print_whole(*it) for it in pool.map(run_quietly, commands())]
    every.append(print_whole(*library.result()))
    build_libraries()
    return every + [print_whole(*it) for it in pool.map(run_quietly, [script("engine.py", PROGRAM), script("library.py"), script("shim.py")])]


def main():
    began = time.monotonic()
    rt = edits.load_rt()
    use_all_processors(rt)
    names_of = edits_by_crate()
    with tempfile.TemporaryDirectory(prefix="gate-") as room, concurrent.futures.ThreadPoolExecutor(rt.processors()) as pool:
        file = os.path.join(room, "measured")
        beside = [pool.submit(follow, ["nice", *it], is_quiet=True) for it in (script("edits_test.py"), script("examples.py", file))]
        every = [prove(rt, sys.argv[1:], file, names_of), *(print_whole(*it.result()) for it in beside)]
        if not any(failed for _, failed in every):
            every += run_programs(pool)
        table = measured.table_of(measured.rows_of(file), {it: len(names) for it, names in names_of.items()})
    passed, failed = map(sum, zip(*every))
    used = resource.getrusage(resource.RUSAGE_CHILDREN)
    print("\n".join(["", *table, ""]))
    print(f"gate: {(time.monotonic() - began) / 60:.0f} minutes, {(used.ru_utime + used.ru_stime) / 60:.0f} minutes of processor time")
    print(f"{passed} passed, {failed} failed")
    return 1 if failed else 0


if __name__ == "__main__":
    sys.exit(main())
