#!/usr/bin/env python3
"""measure.py PROGRAM [ROUNDS]: what a key takes through the engine of IBus on the table of en_US.UTF-8, beside ibus' own engine, and beside loads; on
the socket alone; and how long a key waits while a table is loaded. The last line is `N passed, M failed`: at the median a key takes at most 1.3
times as long as through ibus' own engine, and beside loads 99 keys of 100 take at most 10 ms."""
import contextlib
import json
import os
import statistics
import sys
import threading
import time

from desk import HERE, PYTHON, Desk

sys.path.insert(0, os.path.join(HERE, "..", "..", "share", "composecheck"))
from composecheck_client import Client  # noqa: E402
from composecheck_typing import Service, Typing  # noqa: E402
from harness import Results  # noqa: E402

TABLE = "/usr/share/X11/locale/en_US.UTF-8/Compose"
OWN_ENGINE = "xkb:us:intl:eng"
# How many times as long as ibus' own engine a key may take at the median, and in microseconds 99 of 100 keys beside loads.
MOST_TIMES, MOST_BESIDE_LOADS = 1.3, 10_000
# The engines take so many turns. (With few, what else a machine does in one of them decides.)
TURNS = 12


def time_socket(service, rounds):
    """A key on the socket alone, from Python, with one write."""
    typing = Typing(Service(service.socket))
    for what, keysyms in {"a letter": (0x61,), "a dead key and a letter": (0xFE51, 0x65)}.items():
        times = []
        for _ in range(rounds):
            for keysym in keysyms:
                began = time.perf_counter()
                typed = typing.key(keysym)
                times.append((time.perf_counter() - began) * 1e6)
        print(f"socket alone: {what}: median {statistics.median(times):.0f} us, most {max(times):.0f} us; {typed}", flush=True)
    typing.close()


def time_load(service, old, new):
    """The longest that a key waits on another connection while a table is loaded."""
    waits, done = [], threading.Event()

    def keys():
        with Client(service.socket) as client:
            client.open(1)
            while not done.is_set():
                began = time.perf_counter()
                client.key(1, 0x61)
                waits.append((time.perf_counter() - began) * 1e3)
                time.sleep(0.001)
            client.close_session(1)

    typing = threading.Thread(target=keys)
    typing.start()
    time.sleep(0.3)
    before, began = max(waits), time.perf_counter()
    said = service.load(old, new).strip()
    took = time.perf_counter() - began
    time.sleep(0.2)
    done.set()
    typing.join()
    print(f"load of {new} over {old}: {said}, {took * 1e3:.0f} ms; the longest wait of a key was {before:.1f} ms before it and {max(waits):.1f} ms beside it", flush=True)


@contextlib.contextmanager
def loading(service, table):
    """Loads a table over itself again and again meanwhile; gives what counts the loads."""
    loads, done = [], threading.Event()

    def load():
        while not done.is_set():
            loads.append(service.load(table, table))
            time.sleep(0.05)

    running = threading.Thread(target=load)
    running.start()
    yield loads
    done.set()
    running.join()


def latencies(desk, rounds, *engines):
    """The microseconds of keys through engines, by engine and kind of keys; each is printed."""
    found = {}
    for line in desk.run(PYTHON, os.path.join(HERE, "latency.py"), str(rounds), *engines).splitlines():
        engine, what, times, texts = json.loads(line)
        found.setdefault((engine, what), []).extend(times)
        said = f"{len(texts)} texts, the last {texts[-1]!r}" if texts else "no text"
        print(f"{engine}: {what}: {summary(times)}; {said}", flush=True)
    return found


def part(times, share):
    """The time that this share of all keys doesn't exceed."""
    return sorted(times)[int(len(times) * share)]


def summary(times):
    return f"tenth {part(times, 0.1):.0f} us, median {part(times, 0.5):.0f} us, 99 of 100 below {part(times, 0.99):.0f} us, most {max(times):.0f} us"


def large_table(count):
    """So many sequences of six keys."""
    names = "abcdefghijklmnopqrstuvwxyz0123456789"
    rows = (f'<Multi_key> <F1> <{x}> <{y}> <{z}> <{w}> : "{x}{y}{z}{w}"\n' for x in names for y in names for z in names for w in names)
    return "".join(row for _, row in zip(range(count), rows))


def write_tables(service):
    """The table of en_US.UTF-8, the same with a further sequence, and the same with many."""
    service.write("en.manifest", service.run("manifest", TABLE))
    with open(TABLE, encoding="utf-8") as source:
        more = source.read() + '<Multi_key> <apostrophe> <q> : "q\u0301"\n'
    service.write_table("more", more)
    service.write_table("large", more + large_table(90_000))
    for old, new in (("en", "en"), ("en", "more"), ("more", "large")):
        service.certify(old, new)


def judge(desk, rounds, results):
    """Compares the engine with ibus' own, in turns, and looks at it beside loads."""
    found = latencies(desk, rounds * 3 // TURNS, *[OWN_ENGINE, "composecheck"] * TURNS)
    for what in {what for _, what in found}:
        own, ours = (part(found[engine, what], 0.5) for engine in (OWN_ENGINE, "composecheck"))
        print(f"{what}: {ours / own:.2f} times as long as ibus' own engine", flush=True)
        results.expect(f"{what}: at most {MOST_TIMES} times as long", ours <= MOST_TIMES * own, True)
    with loading(desk.service, "en") as loads:
        found = latencies(desk, rounds, "composecheck")
    print(f"beside {len(loads)} loads", flush=True)
    for (_, what), times in found.items():
        results.expect(f"{what}: 99 of 100 keys beside loads", part(times, 0.99) <= MOST_BESIDE_LOADS, True)


def main():
    program, rounds, results = sys.argv[1], int(sys.argv[2]) if len(sys.argv) > 2 else 1000, Results()
    with Desk(program) as desk:
        service = desk.service
        write_tables(service)
        service.start("en")
        time_socket(service, rounds)
        time_load(service, "en", "more")
        time_load(service, "more", "large")
        service.start("en")
        desk.start_bus()
        desk.start_display()
        desk.start_ibus()
        judge(desk, rounds, results)
    return results.end()


if __name__ == "__main__":
    sys.exit(main())
