#!/usr/bin/env python3
"""service.py PROGRAM: keys over the service's socket, and over that of a bare echo server, in turns; loads; and the service's memory.

The table is that of en_US.UTF-8. Both servers run on one processor and the client on another, where the script may use two. It needs a C
compiler, and Debian's libx11-data. Times of keys are nanoseconds; of each figure the median of the rounds is printed,
with the least and the greatest."""
import os
import statistics
import subprocess
import sys
import tempfile
import time

import run
import reference

sys.path.insert(0, os.path.join(run.TOP, "share", "composecheck"))
from composecheck_client import Client

ROUNDS, KEYS, SESSIONS, LOADS = 7, 300_000, 4_096, 30
CHECK = ["check", "--names", "names", "table", "table", "repertoire", "certificate"]


def prepare(program, folder):
    """The table of en_US.UTF-8 with its certificate, and both programs in C."""
    run.write(folder, "names", run.read(reference.HEADER) + run.read(run.SHORT_NAMES))
    run.write(folder, "table", f"root\t{run.ENGLISH}\n")
    run.write(folder, "repertoire", "")
    made = subprocess.run([program, "make", "--names", "names", "table", "table", "repertoire"], cwd=folder, capture_output=True, text=True, check=True)
    run.write(folder, "certificate", made.stdout)
    for name in ("client", "echo"):
        subprocess.run(["cc", "-O2", "-o", f"{folder}/{name}", f"{run.TOP}/bench/{name}.c"], check=True)


def started(processor, command, folder):
    """A server, which runs on this processor."""
    process = subprocess.Popen(command, cwd=folder, stdout=subprocess.PIPE, text=True, preexec_fn=lambda: os.sched_setaffinity(0, {processor}))
    assert process.stdout.readline() == "listening\n"
    return process


def figures(folder, socket, kind, keys=KEYS):
    ran = subprocess.run([f"{folder}/client", socket, str(keys), kind], cwd=folder, capture_output=True, text=True, check=True)
    return {name: float(number) for name, number in (line.split("\t") for line in ran.stdout.splitlines())}


def resident(process):
    with open(f"/proc/{process.pid}/status", encoding="utf-8") as file:
        return next(int(line.split()[1]) for line in file if line.startswith("VmRSS:"))


def print_keys(rounds):
    """The median of each figure with the least and the greatest, and the ratio of both servers' medians."""
    for name in rounds["service"][0]:
        medians = []
        for server, taken in rounds.items():
            numbers = [it[name] for it in taken]
            medians.append(statistics.median(numbers))
            print(f"{server}, {name}: {medians[-1]:,.0f} ({min(numbers):,.0f} to {max(numbers):,.0f})")
        print(f"ratio of both, {name}: {medians[0] / medians[1]:.2f}")


def print_memory(service, path):
    """What the service holds with one session, and with as many as there can be."""
    before = resident(service)
    with Client(path) as client:
        for session in range(2, SESSIONS + 1):
            client.open(session)
    after = resident(service)
    print(f"memory: {before:,} KiB with one session, {after:,} KiB with {SESSIONS}; {(after - before) * 1024 / (SESSIONS - 1):.0f} bytes a session")


def load_times(path, folder):
    """The milliseconds of loads of the table into the service that has it, each the least of some: from the request to its reply."""
    sources, certificate = [("root", run.read(run.ENGLISH).encode())], run.read(f"{folder}/certificate").encode()
    taken = []
    with Client(path) as client:
        for _ in range(LOADS):
            start = time.perf_counter()
            client.load(sources, certificate)
            taken.append((time.perf_counter() - start) * 1000)
    return min(taken), statistics.median(taken)


def print_loads(what, program, path, folder):
    """A load, and a process that checks the same."""
    least, median = load_times(path, folder)
    check = run.least_processes({"check": [program, *CHECK]}, folder, LOADS)["check"] * 1000
    print(f"a load with {what}: {least:.2f} ms at least, {median:.2f} median; a process that checks the same {check:.2f} at least; ratio {least / check:.2f}")


def main():
    program = os.path.abspath(sys.argv[1])
    servers, clients = min(os.sched_getaffinity(0)), max(os.sched_getaffinity(0))
    os.sched_setaffinity(0, {clients})
    with tempfile.TemporaryDirectory() as folder:
        prepare(program, folder)
        service = started(servers, [program, "serve", "--names", "names", "table", "repertoire", "certificate", "service", "65535"], folder)
        echo = started(servers, [f"{folder}/echo", "echoed"], folder)
        rounds = {"service": [], "echo": []}
        for _ in range(ROUNDS):
            rounds["service"].append(figures(folder, "service", "service"))
            rounds["echo"].append(figures(folder, "echoed", "echo"))
        print_keys(rounds)
        print_loads("one session", program, f"{folder}/service", folder)
        print_memory(service, f"{folder}/service")
        print_loads(f"{SESSIONS} sessions", program, f"{folder}/service", folder)
        for process in (service, echo):
            process.kill()
            process.communicate()


if __name__ == "__main__":
    main()
