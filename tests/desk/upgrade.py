#!/usr/bin/env python3
"""upgrade.py PROGRAM [OLD NEW]: libx11-data is upgraded by dpkg, from the one of Debian 12 to that of Debian 13, while people stand in the middle of sequences.

Both packages are fetched as apt is set up, unless others are given, and unpacked by dpkg below a folder of their own. The service and the update are those of the shipped units.
Each session stands in the middle of a sequence that the new table changes or hasn't any more, and types its text after the upgrade. One notification
says what the new table would change and how to take it; then what is new is taken, and after that all of it. Where the packages can't be fetched
nothing is tried. The last line is `N passed, M failed`."""
import glob
import json
import os
import subprocess
import sys
import tempfile

HERE = os.path.dirname(os.path.realpath(__file__))
TOP = os.path.dirname(os.path.dirname(HERE))
sys.path[:0] = [os.path.dirname(HERE), os.path.join(TOP, "share", "composecheck")]
import reference
from composecheck_client import Client
from harness import Results, write
from source_packages import SourcePackages, Unfetched, places_of
from typing_service import TypingService

RELEASES = ("bookworm", "trixie")
LOCALES = "usr/share/X11/locale"
UPDATE = os.path.join(TOP, "share", "composecheck", "update.sh")
SESSIONS = 300
NOTIFY = """#!/bin/sh
printf '%s\\n' notified "$@" >> "$HOME/notified"
"""


def fetched(folder):
    """The package of each release."""
    packages = SourcePackages(folder, lambda: places_of(*RELEASES))
    packages.update()
    for it in RELEASES:
        os.mkdir(os.path.join(folder, it))
        packages.run("download", f"libx11-data/{it}", where=os.path.join(folder, it))
    return [glob.glob(os.path.join(folder, it, "libx11-data_*.deb"))[0] for it in RELEASES]


class Machine:
    """A folder in which dpkg unpacks packages, and the service of somebody who types by the table there."""

    def __init__(self, service):
        self.service, self.top = service, service.path("top")
        self.locales = os.path.join(self.top, LOCALES)
        self.table = os.path.join(self.locales, "en_US.UTF-8", "Compose")
        for it in ("info", "updates", "triggers"):
            os.makedirs(os.path.join(self.top, "var/lib/dpkg", it))
        write(self.top, {"var/lib/dpkg/status": ""})
        write(service.folder, {"bin/notify-send": NOTIFY})
        os.chmod(service.path("bin/notify-send"), 0o755)

    def unpack(self, package):
        """Has dpkg unpack a package."""
        options = ["--force-not-root", "--force-depends", "--force-bad-path", "--log=/dev/null"]
        subprocess.run(["dpkg", f"--root={self.top}", *options, "--unpack", package], check=True, capture_output=True)

    def update(self):
        """What the unit runs: its status, and what it prints."""
        given = {"PATH": f"{self.service.path('bin')}:{os.environ['PATH']}", "HOME": self.service.folder, "XDG_RUNTIME_DIR": self.service.folder, "COMPOSECHECK": self.service.program}
        words = ["sh", UPDATE, self.table, "--system", self.locales, "--timeout", "600"]
        ran = subprocess.run(words, env=given, capture_output=True, text=True, timeout=1800, check=False)
        return ran.returncode, ran.stdout

    def notified(self):
        """What was shown."""
        try:
            with open(self.service.path("notified"), encoding="utf-8") as file:
                return file.read()
        except FileNotFoundError:
            return ""


def rows(service, old, new):
    """What happens to each sequence of the old table."""
    ran = subprocess.run([service.program, "diff", "--format", "json", old, new], capture_output=True, text=True, check=False)
    return [it for it in map(json.loads, ran.stdout.splitlines()[:-1]) if it["old"]]


def keysyms(row, values):
    return [reference.keysym(it, values) for it in row["keys"]]


def typed(client, session, keys):
    """The texts of these keys, joined."""
    return "".join(client.key(session, it).text for it in keys)


def of_each_kind(every):
    """As many rows as there are sessions, as far as possible those that change, spread over the table."""
    changed = [it for it in every if it["change"] != "kept" and len(it["keys"]) > 1]
    kept = [it for it in every if it["change"] == "kept" and len(it["keys"]) > 1]
    half = changed[:: max(1, len(changed) // (SESSIONS // 2))][: SESSIONS // 2]
    return half + kept[:: max(1, len(kept) // (SESSIONS - len(half)))][: SESSIONS - len(half)]


def check_upgrade(machine, client, packages, results):
    """Nobody's typing changes, and one notification says what would."""
    service, values = machine.service, reference.header_values()
    old = service.path("old")
    os.link(machine.table, old)
    with tempfile.TemporaryDirectory() as folder:
        subprocess.run(["dpkg-deb", "-x", packages[1], folder], check=True)
        chosen = of_each_kind(rows(service, old, os.path.join(folder, LOCALES, "en_US.UTF-8", "Compose")))
    results.expect("there are sequences that change", sum(it["change"] != "kept" for it in chosen) > 50, True)
    for number, row in enumerate(chosen):
        client.open(number)
        typed(client, number, keysyms(row, values)[:-1])
    machine.unpack(packages[1])
    status, _ = machine.update()
    wrong = [(row["keys"], text) for number, row in enumerate(chosen) if (text := typed(client, number, keysyms(row, values)[-1:])) != row["old"]]
    results.expect(f"{len(chosen)} sessions type their texts after the upgrade", wrong, [])
    wrong = [(row["keys"], text) for number, row in enumerate(chosen) if (text := typed(client, number, keysyms(row, values))) != row["old"]]
    results.expect("and type them again", wrong, [])
    notified = machine.notified()
    results.expect("one notification", (notified.count("notified\n"), machine.table in notified, "would change how you type:\n" in notified), (1, True, True))
    results.expect("it says how to take all of it", f"composecheck update --accept LIST {machine.table}" in notified, True)
    if status == 1:
        results.expect("and how to take what is new", f"composecheck update --merge {machine.table}\n" in notified, True)
    again = machine.update()
    results.expect("the timer's update shows nothing more", (again[0], machine.notified()), (status, notified))
    return old


def check_taken(machine, client, old, results):
    """What is new is taken in the middle of a sequence, and nothing is lost by it; then all of it."""
    service = machine.service
    client.open(5000)
    multi, capital = 0xFF20, ord("E")
    before = typed(client, 5000, [multi, capital])
    write(service.folder, {"merged": subprocess.run([service.program, "merge", old, machine.table], check=True, capture_output=True, text=True).stdout})
    out = service.store_file("merged", "--timeout", "600")
    results.expect("what is new is taken", out.split()[-1] in ("stored", "unchanged"), True)
    results.expect("it is typed in the middle of a sequence", (before, typed(client, 5000, [capital])), ("", "Ə"))
    results.expect("what was there is typed", typed(client, 5000, [multi, ord("<"), ord("/")]), "\\")
    ran = subprocess.run([service.program, "diff", "--write-accept", "merged", machine.table], cwd=service.folder, capture_output=True, text=True, check=False)
    write(service.folder, {"list": ran.stdout})
    results.expect("all of it is taken, as it is meant", service.store_file(machine.table, "--accept", service.path("list"), "--timeout", "600"), "stored\n")
    with Client(service.socket, timeout=600) as another:
        another.open(1)
        results.expect("then typing changes", typed(another, 1, [multi, ord("<"), ord("/")]), "≮")


def main():
    program, results = os.path.abspath(sys.argv[1]), Results()
    with tempfile.TemporaryDirectory(prefix="upgrade-") as folder:
        try:
            packages = [os.path.abspath(it) for it in sys.argv[2:]] or fetched(folder)
        except (Unfetched, OSError, subprocess.SubprocessError) as error:
            print(f"libx11-data is skipped: {error}")
            return results.end()
        print(" to ".join(os.path.basename(it) for it in packages), flush=True)
        with TypingService(program) as service:
            machine = Machine(service)
            machine.unpack(packages[0])
            service.store_file(machine.table)
            service.start_by(service.unit_command())
            with Client(service.socket, timeout=600) as client:
                old = check_upgrade(machine, client, packages, results)
                check_taken(machine, client, old, results)
    return results.end()


if __name__ == "__main__":
    sys.exit(main())
