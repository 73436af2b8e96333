#!/usr/bin/env python3
"""consoles.py PROGRAM: pastes the console blocks of docs/SERVICE.md and the loop of docs/MACHINES.md, for a user of their own. A small table is
in the place of the system's, `systemctl` notes what it is given, `runuser` runs it, `getent` knows this user, and `composecheck` is PROGRAM. The
last line is `N passed, M failed`."""
import os
import re
import subprocess
import sys
import tempfile

from harness import TOP, Results, write

SYSTEM = "/usr/share/X11/locale/en_US.UTF-8/Compose"
TABLE = '<Multi_key> <apostrophe> <e> : "é"\n'
COMMANDS = {
    "systemctl": '#!/bin/sh\nprintf "%s\\n" "$*" >> "$NOTED"\n',
    "runuser": '#!/bin/sh\nshift 3\nexec "$@"\n',
    "getent": '#!/bin/sh\necho "$2:x:0:0::$HOME:/bin/sh"\n',
}
UNITS = ("composecheck.service", "composecheck-update@.service")


def blocks(document, kind):
    with open(os.path.join(TOP, "docs", document), encoding="utf-8") as file:
        return re.findall(rf"^```{kind}\n(.*?)^```$", file.read(), re.M | re.S)


class Room:
    """A user's home and folders, and a path on which the program is."""

    def __init__(self, program, folder):
        self.folder = folder
        write(folder, {f"bin/{name}": text for name, text in COMMANDS.items()} | {"locale/Compose": TABLE, "noted": ""})
        for name in COMMANDS:
            os.chmod(self.path(f"bin/{name}"), 0o755)
        os.symlink(program, self.path("bin/composecheck"))
        for name in ("home", "run", "state"):
            os.mkdir(self.path(name), 0o700)
        named = {"HOME": "home", "XDG_RUNTIME_DIR": "run", "XDG_STATE_HOME": "state", "NOTED": "noted"}
        self.settings = {"PATH": f"{folder}/bin:{os.environ['PATH']}"} | {name: self.path(it) for name, it in named.items()}

    def path(self, name):
        return os.path.join(self.folder, name)

    def read(self, name):
        with open(self.path(name), encoding="utf-8") as file:
            return file.read()

    def here(self, block):
        return block.replace(SYSTEM, self.path("locale/Compose")).replace("/run/user/*", f"{self.folder}/users/*")

    def paste(self, block):
        """Returns the status of a block, what it prints, and what systemctl was given."""
        write(self.folder, {"noted": ""})
        ran = subprocess.run(["bash", "-e"], input=self.here(block), env=self.settings, capture_output=True, text=True, timeout=200)
        return ran.returncode, ran.stdout, ran.stderr, self.read("noted")


def check_units(noted, results):
    """The units that systemctl is given are those that are installed."""
    for unit in re.findall(r"composecheck[\w.@-]*", noted):
        name = re.sub(r"@.+\.", "@.", unit)
        results.expect(f"the unit {name}", os.path.exists(os.path.join(TOP, "share", "composecheck", name)), True)


def check_service(program, folder, results):
    """A table that is stored, what is written for systemd, and a service that begins."""
    room = Room(program, folder)
    store, state, unconfined, serve, watch = blocks("SERVICE.md", "console")
    results.expect("a first table", room.paste(store), (0, "stored\n", "", "--user enable --now composecheck.socket\n"))
    check_units("composecheck.socket", results)
    results.expect("a setting for the state", room.paste(state), (0, "", "", "--user daemon-reload\n"))
    results.expect("a setting for no namespaces", room.paste(unconfined), (0, "", "", "--user daemon-reload\n"))
    for unit in UNITS:
        settings = room.read(f"home/.config/systemd/user/{unit}.d/state.conf")
        results.expect(f"{unit}: where it may write", settings, f"[Service]\nReadWritePaths=-{room.path('state')}/composecheck\n")
        lines = room.read(f"home/.config/systemd/user/{unit}.d/unconfined.conf").splitlines()
        with open(os.path.join(TOP, "share", "composecheck", unit), encoding="utf-8") as file:
            own = file.read()
        results.expect(f"{unit}: what is taken back", [it for it in lines[2:] if f"\n{it.replace('=no', '=yes')}\n" not in own], [])
        results.expect(f"{unit}: its other lines", (lines[:2], "\nCapabilityBoundingSet=\n" in own), (["[Service]", "CapabilityBoundingSet=~"], True))
    status, _, _, noted = room.paste(watch)
    escaped = subprocess.run(["systemd-escape", "-p", room.path("locale/Compose")], capture_output=True, text=True).stdout.strip()
    results.expect("a file that is watched", (status, noted), (0, f"--user enable --now composecheck-update@{escaped}.path\n"))
    check_units("composecheck-update@file.path", results)
    check_serve(room, serve, results)


def check_serve(room, block, results):
    """The service listens, serves the table that was stored, and ends by a signal."""
    with subprocess.Popen(["bash", "-e"], stdin=subprocess.PIPE, stdout=subprocess.PIPE, env=room.settings, text=True, start_new_session=True) as ran:
        ran.stdin.write(room.here(block))
        ran.stdin.close()
        try:
            lines = [ran.stdout.readline() for _ in range(3)]
            results.expect("a service", lines, ["unchanged\n", "listening\n", f"table: 1 sequences, from {room.path('locale/Compose')}\n"])
            status = subprocess.run(["composecheck", "status"], env=room.settings, capture_output=True, text=True, timeout=60).stdout.splitlines()
            results.expect("its status", status[-1:], [f"service: serves it on {room.path('run')}/composecheck.socket"])
        finally:
            os.killpg(ran.pid, 15)
        ran.stdout.read()


def check_machine(program, folder, results):
    """The loop over the users who are logged in: here the one who runs this."""
    room = Room(program, folder)
    (loop,) = [it for it in blocks("MACHINES.md", "sh") if it.startswith("for ")]
    os.makedirs(room.path(f"users/{os.getuid()}"))
    name = subprocess.run(["id", "-nu"], capture_output=True, text=True).stdout
    status, printed, said, _ = room.paste(loop)
    results.expect("the tables of users", (status, printed.splitlines()[:2], said), (1, [f"user: {name.strip()}", "in use: none"], ""))


def main():
    program, results = os.path.abspath(sys.argv[1]), Results()
    for check in (check_service, check_machine):
        with tempfile.TemporaryDirectory(prefix="consoles-") as folder:
            check(program, folder, results)
    return results.end()


if __name__ == "__main__":
    sys.exit(main())
