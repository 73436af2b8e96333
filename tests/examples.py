#!/usr/bin/env python3
"""examples.py [FILE]: runs the tests of each crate that has some, with no proof of the tests themselves.

The functions that they call are proved in their own crates, with all that they promise. A test adds what one of them answers on one input,
and is compiled from the sources of all crates below it, with checks: it stops at an index out of bounds, an overflow or a bad access. The
kit's `rt try` does so. What each crate's tests took is added to FILE, as measured.py has it. It prints a line for each test, and last
`N passed, M failed`."""
import os
import re
import resource
import subprocess
import sys
import time

sys.path[:0] = [os.path.join(os.path.dirname(os.path.dirname(os.path.abspath(__file__))), "tools")]
import edits
import measured

# The time that all tests of a crate may take, on a machine that does much else.
SECONDS = 1200


def run(crate):
    """Runs the tests of a crate, prints what they say, and returns how many passed and failed."""
    # (the kit's interpreter can't run tests, so it gets one step)
    command = ["rt", "try", "--test", "--steps", "1", "--seconds", str(SECONDS)]
    ran = subprocess.run(command, cwd=crate.folder, stdout=subprocess.PIPE, stderr=subprocess.STDOUT, text=True, errors="replace", check=False)
    print(f"== {crate.name}\n{ran.stdout}", end="", flush=True)
    passed = len(re.findall(r"^test \S+ \.\.\. ok$", ran.stdout, re.M))
    announced = re.search(r"^tests: (\d+)$", ran.stdout, re.M)
    failed = int(announced[1]) - passed if announced else 1
    return passed, failed or int(ran.returncode != 0)


def main():
    passed = failed = 0
    for crate in edits.load_rt().rtlib.crates_below(measured.TOP):
        if crate.has_tests():
            began, before = time.monotonic(), resource.getrusage(resource.RUSAGE_CHILDREN)
            counts = run(crate)
            passed, failed = passed + counts[0], failed + counts[1]
            used = resource.getrusage(resource.RUSAGE_CHILDREN)
            seconds = used.ru_utime + used.ru_stime - before.ru_utime - before.ru_stime
            for file in sys.argv[1:]:
                measured.add(file, crate.name, "tests", seconds, time.monotonic() - began, used.ru_maxrss * 1024)
    print(f"{passed} passed, {failed} failed")
    return 1 if failed else 0


if __name__ == "__main__":
    sys.exit(main())
