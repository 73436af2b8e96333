#!/usr/bin/env python3
"""at_once.py PROGRAM: keys over the sockets of services that serve many connections at once, and over those of a service that takes one after
another and of a bare echo server, in turns; a key beside eight connections that send without a pause; and the memory of idle connections.

The table is that of en_US.UTF-8. All servers run on one processor and the clients on another, where the script may use two. It needs what
`service.py` needs. Times of keys are nanoseconds; of each figure the median of the rounds is printed, with the least and the greatest."""
import os
import resource
import socket
import statistics
import sys
import tempfile

from service import figures, prepare, resident, started

ROUNDS, BESIDE, IDLE = 7, 3_000, 1_024
SERVED = {"one after another": [], "at once": ["--at-once", "16"], "at once, unsent 1": ["--at-once", "16", "--unsent", "1"]}
ONE_BY_ONE = ("median", "99th of 100")


def serving(program, folder, processor, options, path):
    """A service at this path, which runs on this processor."""
    return started(processor, [program, "serve", "--names", "names", *options, "table", "repertoire", "certificate", path, "65535"], folder)


def print_figures(server, rounds):
    """The median of each figure with the least and the greatest; returns the medians."""
    medians = {name: statistics.median(it[name] for it in rounds) for name in rounds[0]}
    for name, median in medians.items():
        numbers = [it[name] for it in rounds]
        print(f"{server}, {name}: {median:,.0f} ({min(numbers):,.0f} to {max(numbers):,.0f})")
    return medians


def print_keys(folder, paths):
    """Keys one by one and pipelined over each server in turn, and the ratio of each one's times to those of the echo."""
    rounds = {server: [] for server in paths}
    for _ in range(ROUNDS):
        for server, path in paths.items():
            rounds[server].append(figures(folder, path, "echo" if server == "echo" else "service"))
    medians = {server: print_figures(server, taken) for server, taken in rounds.items()}
    for server in SERVED:
        ratios = ", ".join(f"{name} {medians[server][name] / medians['echo'][name]:.2f}" for name in ONE_BY_ONE)
        print(f"ratio of {server} to the echo: {ratios}")


def print_beside(folder, paths):
    """A key and its reply while eight other connections send keys without a pause."""
    rounds = {server: [] for server in paths if server.startswith("at once")}
    for _ in range(ROUNDS):
        for server, taken in rounds.items():
            taken.append(figures(folder, paths[server], "beside", BESIDE))
    for server, taken in rounds.items():
        print_figures(f"{server}, beside eight", taken)


def print_idle(program, folder, processor):
    """What a service holds with idle connections, and before they come."""
    resource.setrlimit(resource.RLIMIT_NOFILE, (resource.getrlimit(resource.RLIMIT_NOFILE)[1],) * 2)
    service = serving(program, folder, processor, ["--at-once", str(IDLE)], "idle")
    before, connections = resident(service), []
    for session in range(IDLE):
        connection = socket.socket(socket.AF_UNIX, socket.SOCK_STREAM)
        connection.connect(os.path.join(folder, "idle"))
        connection.sendall(bytes([6]) + session.to_bytes(4, "big") + bytes(4))
        assert len(connection.recv(11, socket.MSG_WAITALL)) == 11
        connections.append(connection)
    after = resident(service)
    print(f"memory: {before:,} KiB, with {IDLE} idle connections {after:,} KiB: {(after - before) * 1024 / IDLE:.0f} bytes a connection")
    for connection in connections:
        connection.close()
    service.kill()
    service.communicate()


def main():
    program = os.path.abspath(sys.argv[1])
    servers, clients = min(os.sched_getaffinity(0)), max(os.sched_getaffinity(0))
    os.sched_setaffinity(0, {clients})
    with tempfile.TemporaryDirectory() as folder:
        prepare(program, folder)
        paths = {server: f"service{number}" for number, server in enumerate(SERVED)}
        processes = [serving(program, folder, servers, options, paths[server]) for server, options in SERVED.items()]
        processes.append(started(servers, [f"{folder}/echo", "echoed"], folder))
        paths["echo"] = "echoed"
        print_keys(folder, paths)
        print_beside(folder, paths)
        for process in processes:
            process.kill()
            process.communicate()
        print_idle(program, folder, servers)


if __name__ == "__main__":
    main()
