#!/usr/bin/env python3
"""network.py TRIALS [SCHEDULES] [SEED]: runs random schedules of 64 clients of one service on a network in memory, which delays, splits and
cuts at any byte, and fails to accept. TRIALS is the built program `compose_trials`.

Each client gets exactly the replies to what came of it, or the first of them where it is cut while it takes them, or was idle. A schedule
follows from its seed, which is the one given and the ones behind it. The last line is `N passed, M failed`."""
import os
import re
import subprocess
import sys
import tempfile
import time

import service

SCHEDULES, SEED, CLIENTS = 2_000, 49_000, 64
FILES = {"header": b"", "repertoire": b"", "old": service.OLD, "certificate": service.ITSELF, "load": service.load(service.OLD, service.ITSELF)}
LINE = re.compile(r"schedules (\d+), clients (\d+), cut (\d+), idle (\d+)\n")


def main():
    trials = os.path.abspath(sys.argv[1])
    schedules = int(sys.argv[2]) if len(sys.argv) > 2 else SCHEDULES
    seed = int(sys.argv[3]) if len(sys.argv) > 3 else SEED
    results = service.Results()
    with tempfile.TemporaryDirectory(prefix="network-") as folder:
        for name, content in FILES.items():
            with open(os.path.join(folder, name), "wb") as file:
                file.write(content)
        start = time.monotonic()
        ran = subprocess.run([trials, "network", str(seed), str(schedules)], cwd=folder, capture_output=True, text=True)
    results.expect("the status and what is complained of", (ran.returncode, ran.stderr), (0, ""))
    line = LINE.fullmatch(ran.stdout)
    results.expect("each client has its replies", bool(line) or ran.stdout, True)
    counts = [int(it) for it in line.groups()] if line else [0] * 4
    results.expect("all schedules and clients", counts[:2], [schedules, CLIENTS * schedules])
    results.expect("some are cut, and some are idle", [it > 0 for it in counts[2:]], [True, True])
    print(f"{ran.stdout.strip()}, from the seed {seed}, in {time.monotonic() - start:.1f} seconds")
    print(f"{results.passed} passed, {results.failed} failed")
    return 1 if results.failed else 0


if __name__ == "__main__":
    sys.exit(main())
