#!/usr/bin/env python3
"""service_page.py PROGRAM: pastes each block ```console of docs/SERVICE.md, as a user under a real `systemd --user` (user_manager.sh) with the shipped
units installed for PROGRAM, and looks at what the page says of it.

It has to run as root. Where that isn't so, or systemd, namespaces or the tables of libX11 are missing, it is skipped. The last line is
`N passed, M failed`."""
import os
import re
import subprocess
import sys
import tempfile

from harness import COUNTS, TOP, Results
from user_manager import MANAGER, SERVICE, SKIPPED, SOCKET, User, until

PAGE = os.path.join(TOP, "docs", "SERVICE.md")
TABLE = "/usr/share/X11/locale/en_US.UTF-8/Compose"
BLOCK = re.compile(r"^```console\n(.*?)^```$", re.M | re.S)
UPDATE = "composecheck-update@usr-share-X11-locale-en_US.UTF\\x2d8-Compose"
# So many seconds may pass until a table of the system is read, by a program that is not proved too.
LONG = 300


class Reader(User):
    """Somebody who pastes what the page has."""

    # (a program that is not proved reads a table of the system for long)
    MOST_SECONDS = 900

    def install(self, program):
        self.settings["PATH"] = f"{self.prefix}/bin:{self.settings['PATH']}"
        super().install(program)

    def paste(self, block):
        """The status of a block, and what it prints to standard output."""
        return self.run("bash", "-e", "-c", block)[:2]

    def is_active(self, *units):
        return [self.shown(it, "ActiveState") for it in units]


def check_systemd(user, block, results):
    """The table is stored, and a connection starts the service."""
    results.expect("a table is stored, and the socket is enabled", user.paste(block), (0, "stored\n"))
    results.expect("nobody has connected", user.is_active(SOCKET, SERVICE), ["active", "inactive"])
    results.expect("somebody types", until(lambda: user.types("apostrophe", "e"), "é", LONG), "é")
    results.expect("the socket is its user's alone", oct(os.stat(user.socket).st_mode & 0o777), "0o600")


def check_state_home(user, block, results):
    """The units may write to another folder."""
    user.settings["XDG_STATE_HOME"] = user.path("kept")
    user.systemctl("set-environment", f"XDG_STATE_HOME={user.path('kept')}")
    results.expect("the folder is allowed", user.paste(block), (0, ""))
    user.systemctl("stop", SERVICE)
    results.expect("a table there", user.run("composecheck", "update", TABLE)[:2], (0, "stored\n"))
    results.expect("the service starts there", (until(lambda: user.types("apostrophe", "e"), "é", LONG), os.path.exists(user.path("kept/composecheck/lock"))), ("é", True))
    # (a load is stored before it is answered)
    user.write("more", f'include "{TABLE}"\n<Multi_key> <apostrophe> <q> : "ⓠ"\n')
    status, out, _ = user.run("composecheck", "update", "--timeout", str(LONG), "more")
    results.expect("and can write there", (status, out.splitlines()[-1:]), (0, ["stored"]))


def check_unconfined(user, block, results):
    """The service starts without what needs namespaces."""
    results.expect("the units are changed", user.paste(block), (0, ""))
    user.systemctl("restart", SERVICE)
    results.expect("somebody types", until(lambda: user.types("apostrophe", "e"), "é", LONG), "é")
    found = [user.shown(SERVICE, it) for it in ("PrivateUsers", "PrivateDevices", "ProtectKernelModules")]
    results.expect("what is left out", found, ["no"] * 3)


def check_by_hand(user, block, results):
    """Without systemd: the service runs as long as the block does."""
    user.systemctl("stop", SOCKET, SERVICE)
    del user.settings["XDG_STATE_HOME"]
    options = {"cwd": user.home, "env": user.settings, "user": user.number, "group": user.number, "extra_groups": []}
    with subprocess.Popen(["bash", "-e", "-c", block.replace("composecheck serve", "exec composecheck serve")], stdout=subprocess.PIPE, text=True, **options) as running:
        results.expect("the table in use, and a service", [running.stdout.readline() for _ in range(2)], ["unchanged\n", "listening\n"])
        results.expect("somebody types", user.types("apostrophe", "e"), "é")
        running.terminate()


def check_watch(user, block, results):
    """The system's file is watched."""
    results.expect("the path is enabled", user.paste(block), (0, ""))
    results.expect("it is active, and so is its timer", user.is_active(f"{UPDATE}.path", f"{UPDATE}.timer"), ["active"] * 2)
    results.expect("at later logins too", user.systemctl("is-enabled", f"{UPDATE}.path")[1], "enabled\n")


# By the order of the blocks.
CHECKS = (check_systemd, check_state_home, check_unconfined, check_by_hand, check_watch)


def blocks():
    with open(PAGE, encoding="utf-8") as file:
        return BLOCK.findall(file.read())


def run_beside(program, folder):
    """Pastes the blocks, beside the manager."""
    user, results = Reader(folder), Results()
    user.install(program)
    results.expect("each block is pasted", len(blocks()), len(CHECKS))
    for check, block in zip(CHECKS, blocks()):
        try:
            check(user, block, results)
        except (OSError, subprocess.SubprocessError) as error:
            results.expect(check.__name__, error, None)
    if results.failed:
        print("the manager and its services printed:", user.log()[-4000:], sep="\n")
    return results.end()


def main():
    program, results = os.path.abspath(sys.argv[1]), Results()
    if len(sys.argv) > 2:
        return run_beside(program, sys.argv[2])
    if not os.path.exists(TABLE):
        return results.end("skipped, as this needs the tables of libX11")
    with tempfile.TemporaryDirectory(prefix="service-page-", dir="/tmp") as folder:
        words = ["bash", MANAGER, folder, sys.executable, os.path.abspath(__file__), program, folder]
        ran = subprocess.run(words, stdout=subprocess.PIPE, stderr=subprocess.STDOUT, text=True, check=False)
        counts = COUNTS.fullmatch(ran.stdout.splitlines()[-1] if ran.stdout else "")
        print(ran.stdout[: counts and ran.stdout.rindex(counts[0])], end="")
        if ran.returncode == SKIPPED:
            return results.end("skipped, as this needs root, systemd and namespaces")
        results.passed, results.failed = map(int, counts.groups()) if counts else (0, 1)
    return results.end()


if __name__ == "__main__":
    sys.exit(main())
