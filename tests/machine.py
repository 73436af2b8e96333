#!/usr/bin/env python3
"""machine.py PROGRAM: the table of a machine (machine.sh), as dpkg keeps it, and as a user's service takes it.

The Debian package is installed by dpkg, in folders whose changes are dropped, and so are packages of Compose files, under the name of the system's and
as an administrator's own one. What dpkg prints names what people would lose; nobody's typing changes; and a user under a real `systemd --user`
(user_manager.sh) begins with the table, takes what is new in the middle of a sequence, and keeps a table of his own.

It has to run as root. Where that isn't so, or dpkg, systemd, namespaces or overlays are missing, it is skipped. The last line is
`N passed, M failed`."""
import os
import re
import shutil
import subprocess
import sys
import tempfile

from harness import COUNTS, TOP, Results, write
from user_manager import MANAGER, NOTIFY, SERVICE, SKIPPED, SOCKET, User
from user_manager import until as until_seconds

sys.path.insert(0, os.path.join(TOP, "share", "composecheck"))
from composecheck_client import Client

LOCALES, OWN = "usr/share/X11/locale", "usr/share/example-compose/Compose"
SYSTEM = f"/{LOCALES}/en_US.UTF-8/Compose"
MACHINE = "/var/lib/composecheck"
SCRIPT = "/usr/share/composecheck/machine.sh"
MULTI_KEY, APOSTROPHE = 0xFF20, 0x27
E, A, O, U = (f'<Multi_key> <apostrophe> <{it}> : "{text}"\n' for it, text in zip("eaou", "ⓔⓐⓞⓤ"))
FIRST = E + '<Multi_key> <minus> <o> : "ō"\n'
LOSES = FIRST.replace(E, A)
ADDS = LOSES + O
CHANGES = ADDS.replace("ⓞ", "ô")
SAYS = f"composecheck: {SYSTEM} would change what people type:\n"
STAYS = "  Nobody's typing changes. "
SHOWN = re.compile(r"^notified (?:Your Compose table stays as it was|You type as before)$", re.M)


class Typist(User):
    """The user of the manager, with the programs of the package."""

    def __init__(self, folder):
        super().__init__(folder)
        self.prefix, self.program = "/usr", "/usr/bin/composecheck"

    def log_in(self):
        write(self.home, {"bin/notify-send": NOTIFY})
        os.chmod(self.path("bin/notify-send"), 0o755)
        subprocess.run(["chown", "-R", f"{self.number}:{self.number}", self.home], check=True)
        self.systemctl("set-environment", f"PATH={self.settings['PATH']}")

    def in_use(self):
        """The file of the table in use."""
        return re.search(r"^in use: (.*)$", self.run(self.program, "status")[1], re.M)[1]

    def shows(self):
        """How often a notification was shown."""
        return len(SHOWN.findall(self.log()))


def until(look, wanted):
    """What is seen once it is what is wanted, also on a machine that is busy."""
    return until_seconds(look, wanted, 120)


def run(*words):
    """Runs a command as root, and returns its status, and what it prints in all."""
    ran = subprocess.run(words, env={**os.environ, "DEBIAN_FRONTEND": "noninteractive"}, stdout=subprocess.PIPE, stderr=subprocess.STDOUT, text=True, timeout=300, check=False)
    return ran.returncode, ran.stdout


def said(out):
    """What machine.sh has printed below dpkg."""
    return "".join(it for it in out.splitlines(keepends=True) if it.startswith(("composecheck: ", "  ")))


def table():
    with open(f"{MACHINE}/Compose", encoding="utf-8") as file:
        return sorted(file.read().splitlines(keepends=True))


def lines(*texts):
    return sorted("".join(texts).splitlines(keepends=True))


class Packages:
    """Packages of Compose files, each one newer than the one before."""

    def __init__(self, folder):
        self.folder, self.count = folder, 0
        self.others = {}
        for it in ("compose.dir", "locale.alias"):
            with open(f"/{LOCALES}/{it}", encoding="utf-8") as file:
                self.others[f"{LOCALES}/{it}"] = file.read()

    def install(self, name, files, triggers=""):
        """Has dpkg install a package with these files, and returns its status and what it prints."""
        self.count += 1
        room, made = os.path.join(self.folder, f"{name}-{self.count}"), os.path.join(self.folder, f"{name}-{self.count}.deb")
        control = f"Package: {name}\nVersion: 9:{self.count}\nArchitecture: all\nMaintainer: Nobody <nobody@localhost>\nDescription: tables\n"
        write(room, {**files, "DEBIAN/control": control, **({"DEBIAN/triggers": triggers} if triggers else {})})
        subprocess.run(["chmod", "-R", "u=rwX,go=rX", room], check=True)
        subprocess.run(["dpkg-deb", "--build", "--root-owner-group", room, made], check=True, stdout=subprocess.DEVNULL)
        return run("dpkg", "--install", made)

    def system(self, text):
        """The same of the package of the system's tables, with this one."""
        return self.install("libx11-data", {**self.others, SYSTEM[1:]: text})

    def own(self, text):
        """The same of an administrator's own package, which has the machine's table looked at."""
        return self.install("example-compose", {OWN: text}, "activate-noawait composecheck-table\n")


# ---- the machine

def check_installation(user, packages, deb, results):
    """The package takes the table of the machine's locale, for users who have none."""
    write("/etc/default", {"locale": 'LANG="de_AT.UTF-8"\n'})
    # (a package with pages has dpkg run it, and it takes its time)
    os.remove("/usr/bin/mandb")
    os.symlink("true", "/usr/bin/mandb")
    results.expect("tables without composecheck", packages.system(FIRST)[0], 0)
    status, out = run("dpkg", "--install", deb)
    results.expect("the package is installed", (status, said(out)), (0, f"composecheck: {SYSTEM} is the table of this machine, for users who have taken none\n"))
    results.expect("the table of the machine", table(), lines(FIRST))
    modes = [oct(os.stat(it).st_mode & 0o777) for it in (MACHINE, f"{MACHINE}/Compose", f"{MACHINE}/state")]
    results.expect("everybody reads it, and root alone writes it", modes, ["0o755", "0o644", "0o700"])
    status, out = run("composecheck", "status", "--state", f"{MACHINE}/state")
    results.expect("it is in use", (status, out.splitlines()[0]), (0, f"in use: {MACHINE}/Compose"))
    results.expect("nobody's home has a table", os.path.exists(user.state), False)


def check_new_user(user, packages, deb, results):
    """A service that finds no table begins with that of the machine."""
    results.expect("the socket", user.systemctl("enable", "--now", SOCKET)[0], 0)
    results.expect("a new user types", user.types("apostrophe", "e"), "ⓔ")
    results.expect("it is the machine's table", user.in_use(), f"{MACHINE}/Compose")
    results.expect("changes of it are watched", user.shown("composecheck-update@var-lib-composecheck-Compose.path", "ActiveState"), "active")


def check_upgrade(user, packages, deb, results):
    """An upgrade that loses a sequence, while somebody types it: dpkg prints what people would lose, and nobody does; what is new is typed."""
    with Client(user.socket, timeout=30) as client:
        client.open(7777)
        before = [client.key(7777, it).text for it in (MULTI_KEY, APOSTROPHE)]
        status, out = packages.system(LOSES)
        results.expect("what is new is typed", until(lambda: user.types("apostrophe", "a"), "ⓐ"), "ⓐ")
        results.expect("the sequence goes on", (before, client.key(7777, ord("e")).text), (["", ""], "ⓔ"))
    results.expect("the upgrade", status, 0)
    printed = said(out)
    results.expect("what people would lose", (printed.startswith(SAYS + '  removed: <Multi_key> <apostrophe> <e> "ⓔ" '), "now: none\n" in printed), (True, True))
    results.expect("the counts", "  1 kept, 0 changed, 0 waiting, 1 removed, 0 new starts, 1 added, 0 accepted; 1 text lost\n" in printed, True)
    results.expect("nobody loses it", (STAYS in printed, printed.splitlines()[-1]), (True, f"composecheck: new sequences for all users, from {SYSTEM}: 1"))
    results.expect("the machine's table", table(), lines(FIRST, A))
    results.expect("nothing was shown", user.shows(), 0)
    status, out = packages.system(LOSES)
    results.expect("the same once more is no news", (status, SAYS in out), (0, False))
    status, out = packages.system(ADDS)
    results.expect("an upgrade that only adds", (status, said(out).splitlines()[-1]), (0, f"composecheck: new sequences for all users, from {SYSTEM}: 1"))
    results.expect("it is typed", until(lambda: user.types("apostrophe", "o"), "ⓞ"), "ⓞ")


def check_faulty(user, packages, deb, results):
    """A file that is no table, or an empty one, is no fault of dpkg, and changes nothing."""
    before = table()
    status, out = packages.system("")
    results.expect("an empty file", (status, SAYS in out, table()), (0, True, before))
    status, out = packages.system(f'include "{SYSTEM}"\n')
    results.expect("a file that is no table", (status, "composecheck: the machine's table stays as it was:\n" in out, table()), (0, True, before))
    status, out = packages.install("libx11-data", packages.others)
    results.expect("no file", (status, said(out), table()), (0, "", before))
    packages.system(ADDS)


def check_accepted(user, packages, deb, results):
    """A change that the administrator means: each user's service judges it, and says so once."""
    status, out = packages.system(CHANGES)
    results.expect("an upgrade that changes a text", (status, f'{SAYS}  changed: <Multi_key> <apostrophe> <o> "ⓞ" "ô" ' in out), (0, True))
    results.expect("the machine's table has the old one", O in table(), True)
    listed = os.path.join(packages.folder, "list")
    write(packages.folder, {"list": ""})
    results.expect("a list that lacks it", (run(SCRIPT, "--accept", listed)[0], O in table()), (1, True))
    write(packages.folder, {"list": run("composecheck", "diff", "--write-accept", f"{MACHINE}/Compose", SYSTEM)[1]})
    status, out = run(SCRIPT, "--accept", listed)
    results.expect("it is accepted", (status, table()), (0, lines(CHANGES)))
    results.expect("the user is told", until(user.shows, 1), 1)
    words = ("would change how you type:\n", f"composecheck update --accept LIST {MACHINE}/Compose")
    results.expect("with how to take it", [it in user.log() for it in words], [True, True])
    service = "composecheck-update@var-lib-composecheck-Compose.service"
    until(lambda: user.shown(service, "ActiveState") in ("inactive", "failed"), True)
    user.systemctl("start", service)
    results.expect("and not for the second time", user.shows(), 1)
    results.expect("typing stays", (user.types("apostrophe", "o"), user.types("apostrophe", "e")), ("ⓞ", "ⓔ"))


def check_back(user, packages, deb, results):
    """The table before, which stays until the administrator says otherwise."""
    status, out = run(SCRIPT, "--back")
    results.expect("back", (status, O in table(), E in table()), (0, True, True))
    status, out = packages.system(CHANGES + U)
    results.expect("an upgrade then", (status, "since --back the machine's table stays as it is" in out, U in table()), (0, True, False))
    status, out = run(SCRIPT)
    results.expect("a run by hand", (status, SAYS in out, U in table(), O in table()), (0, True, True, True))
    results.expect("what is new is typed", until(lambda: user.types("apostrophe", "u"), "ⓤ"), "ⓤ")


def check_own_package(user, packages, deb, results):
    """A file of an administrator's own package."""
    write("/etc/composecheck", {"machine.conf": f"file=/{OWN}\n"})
    line = '<Multi_key> <plus> : "±"\n'
    status, out = packages.own(FIRST + line)
    results.expect("another package", (status, said(out).splitlines()[-1]), (0, f"composecheck: new sequences for all users, from /{OWN}: 1"))
    results.expect("it is typed", until(lambda: user.types("plus"), "±"), "±")
    write("/etc/composecheck", {"machine.conf": "file=\n"})
    before = table()
    results.expect("switched off", (packages.own(line)[0], said(packages.system(FIRST)[1]), table()), (0, "", before))
    write("/etc/composecheck", {"machine.conf": f"file=/{OWN}\n"})


def check_own_table(user, packages, deb, results):
    """A user with a table of his own keeps it: the machine's is judged, and nothing is shown."""
    user.script("unuse.sh")
    user.write("own", '<Multi_key> <plus> : "+"\n')
    status, out, _ = user.script("use.sh", user.path("own"))
    results.expect("a table of his own", (status, out.splitlines()[:2]), (0, ["stored", "typed: Multi_key plus -> +"]))
    watch = "composecheck-update@var-lib-composecheck-Compose.service"
    before, seen = user.shown(watch, "InactiveEnterTimestampMonotonic"), user.shows()
    packages.own('<Multi_key> <asterisk> <asterisk> : "★"\n')
    results.expect("the machine has a new one", '<Multi_key> <asterisk> <asterisk> : "★"\n' in table(), True)
    until(lambda: user.shown(watch, "InactiveEnterTimestampMonotonic") != before, True)
    results.expect("it is judged", 'left out: <Multi_key> <plus> "±"' in user.log(), True)
    results.expect("his own stays, and nothing is shown", (user.in_use(), user.types("plus"), user.shows()), (user.path("own"), "+", seen))


def check_removal(user, packages, deb, results):
    """A removal ends the service, and leaves the table; a purge doesn't."""
    results.expect("a removal", (run("dpkg", "--remove", "composecheck")[0], user.shown(SERVICE, "ActiveState")), (0, "inactive"))
    results.expect("the table is left", os.path.exists(f"{MACHINE}/Compose"), True)
    results.expect("a purge", (run("dpkg", "--purge", "composecheck")[0], os.path.exists(MACHINE)), (0, False))


CHECKS = (check_installation, check_new_user, check_upgrade, check_faulty, check_accepted, check_back, check_own_package, check_own_table, check_removal)


def run_beside(folder, deb):
    """Runs the checks beside the manager."""
    user, packages, results = Typist(folder), Packages(os.path.join(folder, "packages")), Results()
    user.log_in()
    for check in CHECKS:
        try:
            check(user, packages, deb, results)
        except (OSError, subprocess.SubprocessError) as error:
            results.expect(check.__name__, error, None)
    if results.failed:
        print("the manager and its services printed:", re.sub(r"^connection \d+: ended\n", "", user.log(), flags=re.M), sep="\n")
    return results.end()


def main():
    program = os.path.abspath(sys.argv[1])
    if len(sys.argv) > 2:
        return run_beside(*sys.argv[2:])
    results, skipped = Results(), "skipped, as this needs root, dpkg, the tables of libX11, systemd, namespaces and overlays"
    if not shutil.which("dpkg") or not os.path.exists(SYSTEM) or os.geteuid() != 0:
        return results.end(skipped)
    with tempfile.TemporaryDirectory(prefix="machine-", dir="/tmp") as folder:
        made = subprocess.run([sys.executable, os.path.join(TOP, "packaging", "package.py"), "deb", program, folder], check=True, capture_output=True, text=True)
        words = ["bash", MANAGER, folder, sys.executable, os.path.abspath(__file__), program, folder, made.stdout.strip()]
        ran = subprocess.run(words, stdout=subprocess.PIPE, stderr=subprocess.STDOUT, text=True, check=False, env={**os.environ, "CHANGED": "/usr /etc /var"})
        counts = COUNTS.fullmatch(ran.stdout.splitlines()[-1] if ran.stdout else "")
        print(ran.stdout[: counts and ran.stdout.rindex(counts[0])], end="")
        if ran.returncode == SKIPPED:
            return results.end(skipped)
        results.passed, results.failed = map(int, counts.groups()) if counts else (0, 1)
    return results.end()


if __name__ == "__main__":
    sys.exit(main())
