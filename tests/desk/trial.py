#!/usr/bin/env python3
"""trial.py [--fcitx5] [--sway] [--pictures FOLDER] PROGRAM: types into entries of GTK 3 and 4 through IBus, or fcitx5, and a composecheck service,
on a display that nobody sees: Xvfb, or sway, a compositor of Wayland. It prints a line for each trial, and last `N passed, M failed`."""
import argparse
import contextlib
import json
import os
import subprocess
import sys
import threading
import time

from desk import HERE, PATIENCE, PYTHON, Desk, end, wait_for

MULTI, ACUTE, APOSTROPHE, F1, PAGE_DOWN = 0xFF20, 0xFE51, 0x27, 0xFFBE, 0xFF56
# What is printed of what is logged: where the service isn't reached, where it is again, where there is no list, and where a script fails, which counts
# as a trial that did.
TOLD = ("no reply", "nobody listens", "composecheck.socket answers", "not listed", "Traceback")


# So many seconds without a change are an end.
STILL = 20.0 * PATIENCE


class Trials:
    """Counts what passed, and prints how each trial ended."""

    def __init__(self, desk, label, pictures):
        self.desk, self.label, self.pictures, self.passed, self.failed = desk, label, pictures, 0, 0

    def got(self):
        entry = self.desk.entry()
        return {"text": entry["texts"][0], "pending": entry["pending"][0], "texts": entry["texts"], "focus": entry["focus"]}

    def expect(self, what, **wanted):
        """Waits until the window shows what is wanted: `text`, `pending` (both of the first entry), `texts` or `focus`. It gives up where nothing has
        changed for a while: on a busy machine an application may be far behind the keys, and loses none."""
        changed, last = time.monotonic(), None

        def is_so():
            nonlocal changed, last
            got = self.got()
            if got != last:
                changed, last = time.monotonic(), got
            return all(got[name] == value for name, value in wanted.items())

        def stays():
            """Whether it is so, and nothing comes behind it."""
            if not is_so():
                return False
            time.sleep(0.1)
            return is_so()

        began, good = time.monotonic(), True
        try:
            wait_for(what, lambda: stays() or time.monotonic() - changed > STILL, 300)
            good = is_so()
        except TimeoutError:
            good = False
        self.count(f"{what} ({time.monotonic() - began:.1f} s)", good or self.got(), good or wanted)

    def count(self, what, got, wanted):
        """Prints how a trial ended."""
        good = got == wanted
        self.passed, self.failed = self.passed + good, self.failed + (not good)
        print(f"{self.label}: {what}: " + ("ok" if good else f"FAILED, wanted {wanted}, got {got}"), flush=True)

    def clear(self):
        """Empties the first entry."""
        self.desk.type("ctrl+a", "Delete")
        wait_for("an empty entry", lambda: self.desk.entry()["texts"][0] == "" and self.desk.entry()["pending"][0] == "")

    def picture(self, what):
        if self.pictures:
            # (a window is drawn a while after it knows what to show)
            time.sleep(1)
            name = f"{self.label} {what}".lower().replace(", ", "-").replace(" ", "-")
            self.desk.picture(os.path.join(self.pictures, f"{name}.png"))


def try_typing(trials):
    type_keys, expect = trials.desk.type, trials.expect
    type_keys("a", "B", "ssharp", "1", "space")
    expect("plain keys", text="aBß1 ", pending="")
    trials.clear()
    type_keys("dead_acute")
    expect("a dead key is pending", text="", pending="´")
    trials.picture("dead key")
    type_keys("e")
    expect("a dead key and a letter", text="é", pending="")
    trials.clear()
    type_keys("x", "Multi_key", "apostrophe")
    expect("two keys are pending", text="x", pending="·'")
    trials.picture("two keys")
    type_keys("e", "y")
    expect("a sequence between letters", text="xⓔy", pending="")
    trials.clear()
    type_keys("Multi_key", "Shift_L", "apostrophe", "Shift_R", "e")
    expect("a Shift in a sequence changes nothing", text="ⓔ", pending="")
    trials.clear()
    type_keys("dead_caron", "c")
    expect("a dead key that the table doesn't have types nothing, and the toolkit's table isn't asked", text="c", pending="")
    trials.clear()
    type_keys("Multi_key", "apostrophe", "minus", "BackSpace")
    expect("BackSpace takes the last pending key back", text="", pending="·'")
    type_keys("e", "b", "BackSpace")
    expect("BackSpace between sequences erases a character", text="ⓔ", pending="")
    trials.clear()
    type_keys("u", "dead_acute", "ctrl+a")
    expect("a command goes to the application", text="u", pending="")
    trials.clear()


def try_cancelling(trials):
    type_keys, expect = trials.desk.type, trials.expect
    type_keys("dead_acute", "x", "x")
    expect("a cancelled dead key becomes an accent", text="´xx", pending="")
    trials.clear()
    type_keys("dead_acute", "dead_grave", "a")
    expect("the cancelling key begins a sequence", text="´à", pending="")
    trials.clear()
    type_keys("Multi_key", "apostrophe", "x")
    expect("of a cancelled sequence without a dead key the last key is kept", text="x", pending="")
    trials.clear()
    type_keys("dead_acute", "Escape", "x")
    expect("Escape drops a sequence", text="x", pending="")
    trials.clear()


def try_settings(trials):
    """The settings of the engine of IBus, which count from the next key on."""
    desk, expect = trials.desk, trials.expect
    desk.set("keep-accents", "false")
    desk.type("dead_acute", "x", "x")
    expect("a cancelled sequence is lost, if that is chosen", text="x", pending="")
    desk.set("keep-accents", "true")
    trials.clear()
    for value, wanted in (("false", "passed"), ("true", "taken")):
        desk.set("commit-plain", value)
        trials.count(f"a plain key of a text field, with commit-plain {value}", desk.run(PYTHON, os.path.join(HERE, "press.py"), "text", "0x78").strip(), wanted)
        trials.count(f"a plain key of a terminal, with commit-plain {value}", desk.run(PYTHON, os.path.join(HERE, "press.py"), "terminal", "0x78").strip(), "passed")


def try_focus(trials):
    type_keys, expect = trials.desk.type, trials.expect
    type_keys("Multi_key", "apostrophe")
    expect("pending before the focus leaves", pending="·'")
    trials.desk.click(100, 60)
    expect("the other entry has the focus", focus=1)
    type_keys("e")
    expect("a sequence doesn't follow the focus", texts=["", "e"])
    # (an application that waits for its input method gives a key to what has the focus when the answer comes, so the click waits)
    type_keys("BackSpace")
    expect("BackSpace goes where the focus is", texts=["", ""], focus=1)
    trials.desk.click(100, 15)
    expect("back", texts=["", ""], focus=0)


def try_load(trials):
    type_keys, expect = trials.desk.type, trials.expect
    type_keys("Multi_key", "apostrophe")
    expect("pending before the load", pending="·'")
    print(f"{trials.label}: load: {trials.desk.service.load('old', 'new').strip()}", flush=True)
    type_keys("a", "Multi_key", "apostrophe", "e")
    expect("a load in the middle of a sequence", text="ⓐⓔ", pending="")
    trials.clear()


def try_quick(trials):
    """Many quick keys beside loads: the table is loaded over itself again and again, and no text overtakes a key."""
    service, count, done = trials.desk.service, 0, threading.Event()

    def load():
        nonlocal count
        while not done.is_set():
            service.load("new", "new")
            count += 1

    loading = threading.Thread(target=load)
    loading.start()
    trials.desk.type(*["Multi_key", "apostrophe", "e", "x", "dead_acute", "a"] * 20, delay=12)
    done.set()
    loading.join()
    trials.expect(f"120 keys, 12 ms apart, beside {count} loads", text="ⓔxá" * 20, pending="")
    trials.clear()


@contextlib.contextmanager
def busy(count):
    """Keeps the machine busy meanwhile, with so many processes that never rest."""
    running = [subprocess.Popen([sys.executable, "-c", "while True: pass"]) for _ in range(count)]
    yield
    for it in running:
        it.kill()
        it.wait()


def try_busy(trials):
    """More keys than an application can take, on a machine that has five times as much to do as it can: all of them are typed, in order."""
    sequence = ["Multi_key", "apostrophe", "e", "x", "dead_acute", "e"]
    with busy(5 * os.cpu_count()):
        began = time.monotonic()
        trials.desk.type(*"abcdefghij" * 12, *sequence * 20, delay=3)
        trials.expect(f"240 keys, pressed in {time.monotonic() - began:.1f} s on a busy machine", text="abcdefghij" * 12 + "ⓔxé" * 20, pending="")
    trials.clear()


def try_killed(trials):
    """The engine of IBus that is killed is there again, and types."""
    desk = trials.desk
    desk.type("dead_acute")
    trials.expect("pending before the engine is killed", pending="´")
    desk.kill_engine()
    desk.type("x", "dead_acute", "e")
    trials.expect("an engine that was killed types again, without what was pending", text="xé", pending="")
    trials.clear()


def try_restart(trials):
    type_keys, expect, service = trials.desk.type, trials.expect, trials.desk.service
    type_keys("dead_acute")
    expect("pending before the restart", pending="´")
    service.start("old")
    type_keys("e")
    expect("a restart in the middle of a sequence", text="é", pending="")
    trials.clear()
    type_keys("dead_acute")
    expect("pending before the service ends", pending="´")
    service.end()
    type_keys("e", "a", "b", "BackSpace", "c")
    expect("without a service keys pass, and the pending accent stays", text="´eac", pending="")
    service.start("old")
    type_keys("dead_acute", "e")
    expect("the service is back", text="´eacé", pending="")
    trials.clear()


def try_hanging(trials):
    type_keys, expect, service = trials.desk.type, trials.expect, trials.desk.service
    type_keys("dead_acute")
    expect("pending before the service hangs", pending="´")
    service.stop()
    type_keys("e", "a", "b", "c", "d")
    expect("keys pass a service that hangs", text="´eabcd", pending="")
    service.go_on()
    time.sleep(2.1)
    type_keys("dead_acute", "e")
    expect("it goes on", text="´eabcdé", pending="")
    trials.clear()


def try_upgrade(trials):
    """The command of the unit of systemd: an update beside the open connection, in the middle of a sequence; and a restart before its next key."""
    type_keys, expect, service = trials.desk.type, trials.expect, trials.desk.service
    service.store_anew("old")
    service.start_by(service.unit_command())
    type_keys("dead_acute")
    expect("pending before the update", pending="´")
    print(f"{trials.label}: update: {service.store('new').split()}", flush=True)
    service.start_by(service.unit_command())
    type_keys("a", "Multi_key", "apostrophe", "a")
    expect("an update and a restart in the middle of a sequence", text="áⓐ", pending="")
    trials.clear()


def listed(trials, method, *keysyms):
    """What an application is told to list after each key: the rows, and which of how many they are."""
    return [json.loads(it) for it in trials.desk.run(PYTHON, os.path.join(HERE, "listed.py"), method, *map(hex, keysyms)).splitlines()]


def try_list(trials, is_fcitx5):
    """The keys that can follow: what an application is told that shows them itself, and a picture of a window."""
    desk, service, method = trials.desk, trials.desk.service, "fcitx5" if is_fcitx5 else "ibus"
    rows, nothing = [["a", "ⓐ"], ["e", "ⓔ"], ["-", "…"]], [[], ""]
    keys = (MULTI, APOSTROPHE, F1, ord("a"), ACUTE, F1, ord("e"))
    wanted = [nothing, nothing, [rows, ""], nothing, [[["a", "á"], ["e", "é"]], ""], nothing, nothing]
    trials.count("F1 shows and hides what can follow", listed(trials, method, *keys), wanted)
    service.write("pages.compose", "".join(f'<Multi_key> <{it}> : "{it}"\n' for it in "abcdefghijkl"))
    service.store_anew("pages")
    service.start("new")
    pages = [nothing, [[[it, it] for it in "abcdefghij"], "1–10 / 12"], [[["k", "k"], ["l", "l"]], "11–12 / 12"], nothing]
    trials.count("pages of it, of another stored table", listed(trials, method, MULTI, F1, PAGE_DOWN, F1), pages)
    service.write("large.compose", 'include "/usr/share/X11/locale/en_US.UTF-8/Compose"\n')
    service.store_anew("large")
    service.start("new")
    desk.type("Multi_key", "apostrophe", "F1")
    trials.expect("the key of the list leaves what is pending", text="", pending="·'")
    trials.picture("what can follow")
    desk.type("F1", "e")
    trials.expect("a sequence goes on after that key", text="ⓔ", pending="")
    trials.clear()


def try_x11(trials, is_fcitx5):
    for trial in (try_typing, try_cancelling, try_focus, try_load, try_quick, try_busy, try_restart, try_hanging, try_upgrade):
        trial(trials)
    try_list(trials, is_fcitx5)
    if not is_fcitx5:
        try_settings(trials)
        try_killed(trials)


def try_wayland(trials):
    desk, expect, keys = trials.desk, trials.expect, ["Multi_key", "apostrophe"]
    desk.start_typing("a", "dead_acute", 3000, "e", *keys, 4000, "a", *keys, "x", "x", "dead_caron", "c", *keys, "F1", 3000, "e", 3000)
    expect("a dead key is pending", text="a", pending="´")
    trials.picture("dead key")
    expect("two keys are pending before the load", text="aé", pending="·'")
    trials.picture("two keys")
    print(f"{trials.label}: load: {desk.service.load('old', 'new').strip()}", flush=True)
    expect("a load in the middle of a sequence, a sequence that is cancelled, and the key of the list", text="aéⓐxxc", pending="·'")
    expect("a sequence goes on after that key", text="aéⓐxxcⓔ", pending="")


def main():
    arguments = argparse.ArgumentParser(description=__doc__, formatter_class=argparse.RawDescriptionHelpFormatter)
    arguments.add_argument("--fcitx5", action="store_true", help="the addon of fcitx5 in the place of the engine of IBus")
    arguments.add_argument("--sway", action="store_true", help="under Wayland; with --fcitx5 the entries use its protocol for texts, else the module of IBus")
    arguments.add_argument("--pictures", metavar="FOLDER", help="where pictures of entries with a pending sequence are put")
    arguments.add_argument("program", help="composecheck")
    given = arguments.parse_args()
    began, passed, failed = time.monotonic(), 0, 0
    with Desk(given.program) as desk:
        desk.start_bus()
        desk.start_sway() if given.sway else desk.start_display()
        desk.service.start("old")
        desk.start_fcitx5() if given.fcitx5 else desk.start_ibus()
        if given.sway and not given.fcitx5:
            # (no window has the focus before there is a keyboard; fcitx5 has one)
            desk.start_typing("Shift_L")
        for version in "34":
            trials = Trials(desk, f"{'sway, ' if given.sway else ''}{'fcitx5' if given.fcitx5 else 'ibus'}, GTK {version}", given.pictures)
            desk.service.start("old")
            entry = desk.start_entry(version)
            try_wayland(trials) if given.sway else try_x11(trials, given.fcitx5)
            end(entry)
            passed, failed = passed + trials.passed, failed + trials.failed
        for name, line in ((name, line) for name, log in desk.logs() for line in log.splitlines()):
            if any(it in line for it in TOLD):
                print(f"{name}: {line}")
            failed += "Traceback" in line
    print(f"{time.monotonic() - began:.1f} s\n{passed} passed, {failed} failed")
    return 1 if failed else 0


if __name__ == "__main__":
    sys.exit(main())
