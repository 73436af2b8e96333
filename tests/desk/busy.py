#!/usr/bin/env python3
"""busy.py PROGRAM [RUNS]: letters that are pressed quicker than an application takes them, on a machine with six times as much to do as it can, into
GTK 3 and 4 through the engine of IBus and through ibus' own: how many come, when, and in which order. The last line is `N passed, M failed`: through
the engine each comes, and once; in order, but in GTK 4 as it is set up (its module turns the order round, whatever the engine is)."""
import os
import sys
import time

from desk import Desk, end
from trial import STILL, busy

OWN_ENGINE, ENGINE = "xkb:us:intl:eng", "composecheck"
ALPHABET = "abcdefghijklmnopqrstuvwxyz"
LETTERS = (ALPHABET * 7)[:180]
# So many milliseconds are between two keys: 150 keys a second and more.
DELAY = 3
# The toolkit, and what IBUS_ENABLE_SYNC_MODE is.
APPLICATIONS = (("3", "0"), ("4", "1"), ("4", "0"))
# A run ends after so many seconds, whatever comes then.
MOST_SECONDS = 240


def wait_until_still(desk):
    """The text of the entry once all letters are there, or nothing has come for a while; and when the last one came."""
    began = changed = time.monotonic()
    text = ""
    while len(text) < len(LETTERS) and time.monotonic() - changed < STILL and time.monotonic() - began < MOST_SECONDS:
        got = desk.entry()["texts"][0]
        if got != text:
            changed, text = time.monotonic(), got
        time.sleep(0.05)
    # (what comes twice comes last)
    time.sleep(1)
    return desk.entry()["texts"][0], changed


def press(desk, version, mode):
    """Presses the letters in a new window on the busy machine: the text, the seconds that the presses took, and those until the last letter."""
    entry = desk.start_entry(version, mode)
    with busy(6 * os.cpu_count()):
        # (until the load is what is meant)
        time.sleep(2)
        began = time.monotonic()
        desk.type(*LETTERS, delay=DELAY)
        pressed = time.monotonic()
        text, last = wait_until_still(desk)
    end(entry)
    return text, pressed - began, last - began


def judge(text, mode, version):
    """What is wrong with the text."""
    counts = {it: text.count(it) - LETTERS.count(it) for it in ALPHABET}
    wrong = {it: count for it, count in counts.items() if count}
    if wrong:
        return f"{len(text)} of {len(LETTERS)} letters, too many or too few of {wrong}"
    is_in_order = text == LETTERS
    return "" if is_in_order or (version, mode) == ("4", "0") else f"another order: {text}"


def main():
    program, runs = sys.argv[1], int(sys.argv[2]) if len(sys.argv) > 2 else 1
    passed, failed = 0, 0
    with Desk(program) as desk:
        desk.start_bus()
        desk.start_display()
        desk.service.start("old")
        desk.start_ibus()
        for version, mode in APPLICATIONS:
            for engine in (ENGINE, OWN_ENGINE) * runs:
                desk.choose(engine)
                text, pressed, last = press(desk, version, mode)
                wrong = judge(text, mode, version)
                order = "in order" if text == LETTERS else "in another order"
                print(f"GTK {version}, IBUS_ENABLE_SYNC_MODE={mode}, {engine}: {len(LETTERS)} letters, pressed in {pressed:.1f} s: {len(text)} came, {order}, "
                      f"the last after {last:.1f} s, load {os.getloadavg()[0]:.0f}: {'FAILED: ' if wrong and engine == ENGINE else ''}{wrong or 'ok'}", flush=True)
                if engine == ENGINE:
                    passed, failed = passed + (not wrong), failed + bool(wrong)
    print(f"{passed} passed, {failed} failed")
    return 1 if failed else 0


if __name__ == "__main__":
    sys.exit(main())
