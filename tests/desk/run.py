#!/usr/bin/env python3
"""run.py [--quick] [--times COUNT] [--at-once COUNT] [--patience TIMES] [--only NAME].. [PROGRAM]: all trials that need a desktop, on displays that nobody
sees: IBus and fcitx5 on X11 and Wayland, GNOME Shell, KWin, browsers, and what a key takes.
What they need of Debian is installed by apt-get where root runs this; else the command is printed. With --quick the program and the C libraries are
first built without a proof, as `make quick` does, and what a key takes is not measured. --times runs all of it again. Pictures of what is pending are put into packages/pictures. The last
line is `N passed, M failed`, over all times."""
import argparse
import concurrent.futures
import os
import re
import shutil
import subprocess
import sys
import time

HERE = os.path.dirname(os.path.realpath(__file__))
TOP = os.path.dirname(os.path.dirname(HERE))
PICTURES = os.path.join(TOP, "packages", "pictures")
NEEDED = (
    "chromium", "cmake", "dbus-daemon", "fcitx5", "fcitx5-frontend-gtk3", "fcitx5-frontend-gtk4", "firefox-esr", "fonts-dejavu-core", "g++",
    "gir1.2-gtk-3.0", "gir1.2-gtk-4.0", "gir1.2-ibus-1.0", "gnome-shell", "grim", "ibus", "ibus-gtk3", "ibus-gtk4", "imagemagick", "kwin-wayland",
    "libfcitx5core-dev", "libglib2.0-bin", "libibus-1.0-dev", "pkg-config", "python3-gi", "sway", "wtype", "x11-xkb-utils", "xdotool", "xvfb",
)
SHOWN = ("--pictures", PICTURES)
TRIALS = (
    ("trial.py", *SHOWN), ("trial.py", "--fcitx5", *SHOWN), ("trial.py", "--sway", *SHOWN), ("trial.py", "--fcitx5", "--sway", *SHOWN),
    ("gnome.py",), ("kde.py",), ("browsers.py",), ("measure.py",), ("upgrade.py",), ("page.py",), ("busy.py",),
)
# Those for which it matters what else the machine does: they come last, one after another.
ALONE = {"busy.py", "measure.py"}


def missing():
    """The packages that are not installed."""
    if not shutil.which("dpkg-query"):
        return []
    told = subprocess.run(["dpkg-query", "-W", "-f", "${Package} ${db:Status-Status}\\n", *NEEDED], capture_output=True, text=True, check=False).stdout
    return sorted({*NEEDED} - {*re.findall(r"^(\S+) installed$", told, re.M)})


def install(packages):
    command = ["apt-get", "install", "--yes", "--no-install-recommends", *packages]
    if os.geteuid() != 0:
        sys.exit(f"these trials need more packages; as root:\n{' '.join(command)}")
    print(" ".join(command), flush=True)
    subprocess.run(command, check=True, stdout=subprocess.DEVNULL, env={**os.environ, "DEBIAN_FRONTEND": "noninteractive"})


def build_unproved():
    """Builds the program and the C libraries without a proof, as `make quick` does, and returns the program's path. The trials that run after it take
    the libraries."""
    sys.path.insert(0, os.path.dirname(HERE))
    import run as scripts  # (the script of tests/, which has the name of this one)

    program = scripts.built("composecheck")
    if not program or not scripts.built_libraries():
        sys.exit("nothing is tried: the program or a library is not built")
    return program


def count(command):
    """Runs a trial, prints what it prints below its name, and returns its counts."""
    counts, began = (0, 1), time.monotonic()
    ran = subprocess.run(command, stdout=subprocess.PIPE, stderr=subprocess.STDOUT, text=True, errors="replace", check=False)
    *lines, last = ran.stdout.splitlines() or [""]
    found = re.fullmatch(r"(\d+) passed, (\d+) failed(?:; .*)?", last)
    if found:
        # (one that ends otherwise than by its counts has failed, whatever they are)
        counts = int(found[1]), int(found[2]) or int(ran.returncode != 0)
    words = " ".join(os.path.basename(it) for it in command[1:-1])
    print("\n".join([f"== {words}, {time.monotonic() - began:.0f} s", *lines, last]), flush=True)
    return counts


def run_all(commands, at_once):
    """Runs trials, so many at once, those that measure alone and last, and returns their counts."""
    last = [it for it in commands if os.path.basename(it[1]) in ALONE]
    with concurrent.futures.ThreadPoolExecutor(at_once) as pool:
        counts = [*pool.map(count, [it for it in commands if it not in last])]
    return [sum(it) for it in zip((0, 0), *counts, *map(count, last))]


def read_words():
    words = argparse.ArgumentParser(usage=__doc__.partition(": ")[0], description=__doc__.partition(": ")[2])
    words.add_argument("--quick", action="store_true", help="the program and the libraries are first built without a proof")
    words.add_argument("--times", type=int, default=1, metavar="COUNT", help="how often all of it is run (1)")
    words.add_argument("--at-once", type=int, default=1, metavar="COUNT", help="how many trials run side by side (1)")
    words.add_argument("--patience", type=float, default=1, metavar="TIMES", help="how many times as long as usual something may take, as on a busy machine (1)")
    words.add_argument("--only", action="append", metavar="NAME", help="of the trials those of this script, as gnome.py")
    words.add_argument("program", nargs="?", default="composecheck", metavar="PROGRAM", help="the program (./composecheck)")
    return words.parse_args()


def main():
    given = read_words()
    lacking = missing()
    if lacking:
        install(lacking)
    program = build_unproved() if given.quick else os.path.abspath(given.program)
    os.makedirs(PICTURES, exist_ok=True)
    os.environ["DESK_PATIENCE"] = str(given.patience)
    # (a program that is not proved is many times slower)
    chosen = given.only or {name for name, *_ in TRIALS} - ({"measure.py"} if given.quick else set())
    commands = [[sys.executable, os.path.join(HERE, name), *options, program] for name, *options in TRIALS if name in chosen]
    passed, failed = 0, 0
    for number in range(given.times):
        more = run_all(commands, given.at_once)
        passed, failed = passed + more[0], failed + more[1]
        print(f"== all, {number + 1} of {given.times}: {more[0]} passed, {more[1]} failed", flush=True)
    print(f"{passed} passed, {failed} failed")
    return 1 if failed else 0


if __name__ == "__main__":
    sys.exit(main())
