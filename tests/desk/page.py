#!/usr/bin/env python3
"""page.py PROGRAM: somebody follows docs/TYPING.md, from nothing to a first character. The packages are made, the page's three commands are run as they
stand there, what the second prints is chosen, and a sequence is typed into a window: on X11 with IBus, and with fcitx5. Then all of it is taken back.

It is done under a real `systemd --user` (user_manager.sh), by apt, in folders whose changes are dropped; root runs what begins with `sudo`. It needs
root. Where that, systemd or namespaces are missing, it is skipped. The last line is `N passed, M failed`."""
import contextlib
import json
import os
import re
import subprocess
import sys
import tempfile

from desk import HERE, PYTHON, end, wait_for

TOP = os.path.dirname(os.path.dirname(HERE))
from harness import COUNTS, Results  # noqa: E402
from machine import Typist  # noqa: E402
from user_manager import MANAGER, SKIPPED, TAKEN_BACK  # noqa: E402

PAGE = os.path.join(TOP, "docs", "TYPING.md")
BLOCK = re.compile(r"^```console\n(.*?)^```$", re.M | re.S)
OWN = 'include "%L"\n<Multi_key> <apostrophe> <e> : "ⓔ"\n'
KINDS = ("deb", "library", "ibus", "fcitx5")
METHODS = ("ibus", "fcitx5")
# What the page says to put in the place of what its commands have for IBus.
OF_FCITX5 = {"composecheck-ibus_*.deb": "fcitx5-composecheck_*.deb", "ibus restart": "fcitx5 -r -d"}
# What may be left in the home: nothing of it is a file of composecheck.
LEFT = re.compile("composecheck", re.I)


def commands(method):
    """The commands of the page's first block."""
    with open(PAGE, encoding="utf-8") as file:
        page = file.read()
    lines = BLOCK.search(page)[1]
    if method == "fcitx5":
        for it, other in OF_FCITX5.items():
            if f"`{other}`" not in page or it not in lines:
                raise ValueError(f"{PAGE} doesn't say {other}")
            lines = lines.replace(it, other)
    return lines.splitlines()


class Person(Typist):
    """Somebody at a desktop with an input method, who has a Compose file."""

    MOST_SECONDS = 900

    def __init__(self, folder):
        super().__init__(folder)
        self.packages, self.processes = os.path.join(folder, "packages"), []
        self.settings.update(LANG="en_US.UTF-8", DBUS_SESSION_BUS_ADDRESS=f"unix:path={self.runtime}/bus", NO_AT_BRIDGE="1", GTK_A11Y="none", GDK_BACKEND="x11")

    def sit_down(self, method):
        """A session on X11, with the input method running as a desktop starts it."""
        self.write(".XCompose", OWN)
        self.systemctl("start", "dbus.socket")
        # (a session has them too where its programs are)
        self.start_display()
        self.run("setxkbmap", "-layout", "us", "-variant", "intl", "-option", "compose:menu")
        self.settings["GTK_IM_MODULE"] = {"ibus": "ibus", "fcitx5": "fcitx"}[method]
        if method == "ibus":
            self.start("ibus-daemon", "--xim", "--replace")
            wait_for("ibus-daemon", lambda: self.run("ibus", "address")[1].startswith("unix:"), 60)
        else:
            self.start("fcitx5", "-d")
            wait_for("fcitx5", self.has_fcitx5, 60)

    def has_fcitx5(self):
        words = ("--print-reply", "--dest=org.freedesktop.DBus", "/", "org.freedesktop.DBus.NameHasOwner", "string:org.fcitx.Fcitx5")
        return "true" in self.run("dbus-send", "--session", *words)[1]

    def start(self, *command, **more):
        options = {"cwd": self.home, "env": self.settings, "user": self.number, "group": self.number, "extra_groups": []}
        with open(os.path.join(self.folder, f"{command[0].rpartition('/')[2]}.log"), "a", encoding="utf-8") as log:
            self.processes.append(subprocess.Popen(command, **{**options, "stdin": subprocess.DEVNULL, "stdout": log, "stderr": log, **more}))
        return self.processes[-1]

    def start_display(self):
        reading, writing = os.pipe()
        self.start("Xvfb", "-displayfd", str(writing), "-screen", "0", "640x320x24", "-nolisten", "tcp", "-noreset", "-r", pass_fds=[writing])
        os.close(writing)
        with open(reading, encoding="ascii") as told:
            self.settings["DISPLAY"] = ":" + told.readline().strip()

    def paste(self, line):
        """Runs a command of the page where the packages are, as root if it begins with sudo: its status, and what it prints."""
        is_root = line.startswith("sudo ")
        who = {} if is_root else {"user": self.number, "group": self.number, "extra_groups": [], "env": self.settings}
        # (no pipe: what goes on in the background would keep it open)
        with tempfile.TemporaryFile("w+", encoding="utf-8") as printed:
            ran = subprocess.run(["bash", "-c", line.removeprefix("sudo ")], cwd=self.packages, stdin=subprocess.DEVNULL, stdout=printed, stderr=subprocess.STDOUT,
                                 timeout=self.MOST_SECONDS, check=False, **who)
            printed.seek(0)
            return ran.returncode, printed.read()

    def start_window(self):
        """A window of GTK 3 with an entry, which has the focus."""
        self.entry_file = self.path("entry.json")
        self.start(PYTHON, os.path.join(HERE, "entry.py"), "3", self.entry_file)
        window = wait_for("the window", lambda: self.run("xdotool", "search", "--onlyvisible", "--name", "composecheck trial")[1].split(), 60)
        self.run("xdotool", "windowfocus", "--sync", window[0])
        wait_for("the focus", lambda: self.entry()["focus"] == 0, 60)

    def entry(self):
        try:
            with open(self.entry_file, encoding="utf-8") as file:
                return json.load(file)
        except (FileNotFoundError, json.JSONDecodeError):
            return {"texts": [""], "pending": [""], "focus": None}

    def text_of(self, wanted, *keys):
        """What the entry holds after keys, once it is what is wanted; or at last."""
        self.run("xdotool", "key", "--delay", "60", *keys)
        with contextlib.suppress(TimeoutError):
            wait_for(wanted, lambda: self.entry()["texts"][0] == wanted)
        return self.entry()["texts"][0]

    def files(self):
        """The files of the home that have to do with composecheck."""
        return [it for at, _, names in os.walk(self.home) for it in (os.path.join(at, name) for name in names) if LEFT.search(it)]

    def get_up(self):
        for it in reversed(self.processes):
            end(it)


# ---- the page

def check_commands(person, method, results):
    """The page's commands, and what the second prints."""
    lines = commands(method)
    results.expect("there are three commands", len(lines), 3)
    for number, line in enumerate(lines):
        status, out = person.paste(line)
        results.expect(line, (status, out if status else ""), (0, ""))
        if number == 1:
            check_use(person, method, out, results)


def check_use(person, method, out, results):
    """use.sh stores the table, types a sequence of it, names what is to be chosen where this input method runs, and ends with what is in use."""
    printed = out.splitlines()
    results.expect("it says which file, that it is stored, and what was typed", [it.split(":")[0] for it in printed[:3]], ["note", "stored", "typed"])
    results.expect("how to choose it", (f"{'IBus' if method == 'ibus' else 'fcitx5'}: " in out, "First install" in out, "No input method runs" in out), (True, False, False))
    status = person.run(person.program, "status")[1].splitlines()
    results.expect("what is in use", printed[-len(status):], status)
    results.expect("it is the person's own file", status[0], f"in use: {person.path('.XCompose')}")


def check_typing(person, method, results):
    """The first character, after the choice."""
    if method == "ibus":
        chosen = lambda: person.run("ibus", "engine", "composecheck") and person.run("ibus", "engine")[1] == "composecheck\n"
        results.expect("the engine is chosen, as use.sh says", bool(wait_for("the engine", chosen, 60)), True)
    else:
        wait_for("fcitx5", person.has_fcitx5, 60)
    person.start_window()
    results.expect("the first character", person.text_of("ⓔ", "Multi_key", "apostrophe", "e"), "ⓔ")
    results.expect("a sequence of the locale's table, and a plain key", person.text_of("ⓔ½x", "Multi_key", "1", "2", "x"), "ⓔ½x")


def check_taken_back(person, method, results):
    """unuse.sh, and apt, leave nothing."""
    status, out = person.paste("/usr/share/composecheck/unuse.sh")
    results.expect("unuse.sh", (status, out.splitlines()), (0, list(TAKEN_BACK[1].splitlines())))
    results.expect("no file is left in the home, but the caches of input methods", [it for it in person.files() if "/.cache/" not in it], [])
    names = subprocess.run("dpkg-query -W -f '${Package}\\n' | grep composecheck", shell=True, capture_output=True, text=True, check=False).stdout.split()
    files = [it for it in subprocess.run(["dpkg", "-L", *names], capture_output=True, text=True, check=True).stdout.split("\n") if os.path.isfile(it)]
    results.expect("packages, and their files", (len(names) > 3, len(files) > 20), (True, True))
    status, out = person.paste(f"sudo apt-get purge --yes {' '.join(names)}")
    results.expect("apt purges them", (status, out if status else ""), (0, ""))
    results.expect("none of their files is left", [it for it in [*files, "/var/lib/composecheck"] if os.path.lexists(it)], [])


def run_beside(folder, method):
    """Does it, beside the manager."""
    person, results = Person(folder), Results()
    # (a package with pages has dpkg run it, and it takes its time)
    os.remove("/usr/bin/mandb")
    os.symlink("true", "/usr/bin/mandb")
    try:
        person.log_in()
        person.sit_down(method)
        for check in (check_commands, check_typing, check_taken_back):
            check(person, method, results)
    except (OSError, ValueError, IndexError, subprocess.SubprocessError) as error:
        results.expect(method, error, None)
    finally:
        person.get_up()
    if results.failed:
        print("the manager and its services printed:", *(it for it in person.log().splitlines() if "composecheck" in it), sep="\n")
    return results.end()


def main():
    program, results = os.path.abspath(sys.argv[1]), Results()
    if len(sys.argv) > 2:
        return run_beside(*sys.argv[2:])
    if os.geteuid() != 0:
        return results.end("skipped, as this needs root, systemd, namespaces and overlays")
    with tempfile.TemporaryDirectory(prefix="page-", dir="/tmp") as made:
        packages = os.path.join(made, "packages")
        for it in KINDS:
            subprocess.run([sys.executable, os.path.join(TOP, "packaging", "package.py"), it, program, packages], check=True, stdout=subprocess.DEVNULL)
        subprocess.run(["chmod", "-R", "go+rX", made], check=True)
        for method in METHODS:
            folder = os.path.join(made, method)
            os.mkdir(folder)
            os.chmod(folder, 0o755)
            os.symlink(packages, os.path.join(folder, "packages"))
            words = ["bash", MANAGER, folder, sys.executable, os.path.abspath(__file__), program, folder, method]
            ran = subprocess.run(words, stdout=subprocess.PIPE, stderr=subprocess.STDOUT, text=True, check=False, env={**os.environ, "CHANGED": "/usr /etc /var"})
            counts = COUNTS.fullmatch(ran.stdout.splitlines()[-1] if ran.stdout else "")
            print(ran.stdout[: counts and ran.stdout.rindex(counts[0])], end="")
            if ran.returncode == SKIPPED:
                return results.end("skipped, as this needs root, systemd, namespaces and overlays")
            passed, failed = map(int, counts.groups()) if counts else (0, 1)
            print(f"the page, {method}: {passed} passed, {failed} failed,", flush=True)
            results.passed, results.failed = results.passed + passed, results.failed + failed
    return results.end()


if __name__ == "__main__":
    sys.exit(main())
