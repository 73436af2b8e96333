#!/usr/bin/env python3
"""beside.py PROGRAM: how long a key takes beside clients that send keys, or small loads, without a pause, and how long one such load takes.

Beside a client that sends keys the 99th of 100 keys is to take 50 milliseconds at most, and beside N that load no longer than N loads and 5
milliseconds, on a machine that does nothing else."""
import contextlib
import multiprocessing
import os
import signal
import sys
import time

sys.path.insert(0, os.path.join(os.path.dirname(os.path.dirname(os.path.abspath(__file__))), "tests"))

from at_once import NOTHING, Peer, at_once
from service import ITSELF, OLD, OPEN_7, OPENED_7, X, Serving, fed, frame, key, load, loaded

TIMED_KEYS, BESIDE_KEYS, BESIDE_LOADS = 100, 0.050, 0.005


def send_keys(service, session):
    """Sends keys without a pause, until it is stopped."""
    with Peer(service) as peer:
        peer.ask(frame(1, session), frame(0x81, session))
        sent, wanted = key(session, X) * 500, fed(session, NOTHING, b"x") * 500
        while True:
            peer.ask(sent, wanted)


def send_loads(service, _):
    """Sends small loads without a pause, until it is stopped."""
    with Peer(service) as peer:
        sent, size = load(OLD, ITSELF), len(loaded(1))
        while True:
            peer.send(sent)
            peer.read(size)


@contextlib.contextmanager
def beside(clients, service, work):
    """So many processes do this work meanwhile."""
    processes = [multiprocessing.get_context("fork").Process(target=work, args=(service, 100 + it), daemon=True) for it in range(clients)]
    for it in processes:
        it.start()
    time.sleep(0.3)
    try:
        yield
    finally:
        for it in processes:
            os.kill(it.pid, signal.SIGKILL)
            it.join()


def times_of(peer, sent, size, count):
    """How long each of `count` answers takes, in order of length."""
    times = []
    for _ in range(count):
        start = time.perf_counter()
        peer.send(sent)
        peer.read(size)
        times.append(time.perf_counter() - start)
        time.sleep(0.002)
    return sorted(times)


def print_times(program, clients, work):
    """Prints how long a key takes while this number of clients do this."""
    with Serving(program, connections=clients + 2, options=at_once(clients + 2)) as service, Peer(service) as typing, Peer(service) as loading:
        typing.ask(OPEN_7, OPENED_7)
        one_load = times_of(loading, load(OLD, ITSELF), len(loaded(1)), 20)[10]
        most = BESIDE_KEYS if work is send_keys else clients * one_load + BESIDE_LOADS
        with beside(clients, service, work):
            times = times_of(typing, key(7, X), len(fed(7, NOTHING, b"x")), TIMED_KEYS)
        figures = [1000 * it for it in (times[TIMED_KEYS // 2], times[TIMED_KEYS * 99 // 100 - 1], times[-1], most)]
        print("beside {} of {}: {:.3f} ms at the median, {:.3f} at the 99th of 100 and {:.3f} at most; the aim is {:.3f}".format(clients, work.__name__, *figures), flush=True)


def main():
    program = os.path.abspath(sys.argv[1])
    for clients, work in ((1, send_keys), (8, send_keys), (1, send_loads), (8, send_loads)):
        print_times(program, clients, work)


if __name__ == "__main__":
    main()
