#!/usr/bin/env python3
"""user_manager.py PROGRAM: the units of systemd as a user runs them, under a real `systemd --user` (user_manager.sh), and use.sh and unuse.sh.

The shipped units are installed for PROGRAM. The service starts, is confined as its unit says, types, takes tables, and is back after a kill; so it
is where systemd makes the socket. A Compose file that changes is taken into use, also one that another one includes, and one that changed while
nobody was logged in; what is refused is shown once. Where it can't start, the service is not started again and again. What dpkg runs starts it anew,
and ends it.

It has to run as root. Where that isn't so, or systemd or namespaces are missing, it is skipped. The last line is `N passed, M failed`."""
import os
import re
import shutil
import subprocess
import sys
import tempfile
import time

from harness import COUNTS, TOP, Results, write

MANAGER = os.path.join(TOP, "tests", "user_manager.sh")
SHARED = os.path.join(TOP, "share", "composecheck")
SCRIPTS = ("update.sh", "use.sh", "unuse.sh")
UNITS = re.compile(r"composecheck.*\.(service|socket|path|timer)")
SKIPPED = 77
SERVICE, SOCKET = "composecheck.service", "composecheck.socket"

SOURCES = ("org.gnome.desktop.input-sources", "sources")
PRELOADED = ("org.freedesktop.ibus.general", "preload-engines")
TAKEN_BACK = (0, "composecheck is not used any more. `use.sh` takes a Compose file into use again.\nin use: none\nservice: none runs\n", "")
# What use.sh advises without an input method on each desktop, and where one of these runs. Each is in no other's advice.
ADVICE = {"KDE": 'KDE: choose "Fcitx 5" in System Settings, ', "sway": 'sway: put the line "exec fcitx5 -d" into ', "": "X11: im-config -n fcitx5, "}
METHODS = {"fcitx5": "fcitx5: restart it (fcitx5 -r -d). ", "ibus-daemon": "IBus: run ibus restart, and choose "}
NO_METHOD, FIRST_INSTALL = "No input method runs. ", "First install the "
# The file by which use.sh sees that what types in an input method is installed.
PARTS = {"fcitx5": "fcitx5/addon/composecheck.conf", "ibus-daemon": "ibus/component/composecheck.xml"}
FIRST = '<Multi_key> <apostrophe> <e> : "ⓔ"\n'
SECOND = FIRST + '<Multi_key> <apostrophe> <a> : "ⓐ"\n'
THIRD = SECOND + '<Multi_key> <apostrophe> <o> : "ⓞ"\n'
OTHER = THIRD.replace("ⓔ", "ê")
INCLUDES = 'include "%H/tables/more"\n'
MORE = '<Multi_key> <plus> : "±"\n'
LATER = MORE + '<Multi_key> <minus> : "∓"\n'
OVERNIGHT = LATER + '<Multi_key> <equal> : "≡"\n'

# (it can do its work only if the session's bus is in reach, and says what it can do that it shouldn't)
NOTIFY = """#!/bin/sh
test ! -S "$XDG_RUNTIME_DIR/bus" || busctl --user --quiet call org.freedesktop.DBus / org.freedesktop.DBus GetId || exit 1
touch "$HOME/outside" 2> /dev/null && echo "notified outside"
printf 'notified %s\\n' "$@"
"""


class User:
    """The user of the manager: its home with the program, the units and the tables, and what it runs."""

    # So many seconds may a command take.
    MOST_SECONDS = 120

    def __init__(self, folder):
        self.number, self.home, self.runtime = int(os.environ["MANAGED"]), os.environ["HOME"], os.environ["XDG_RUNTIME_DIR"]
        self.folder, self.prefix, self.state = folder, self.path("prefix"), self.path(".local/state/composecheck")
        self.program, self.socket = os.path.join(self.prefix, "bin", "composecheck"), os.path.join(self.runtime, "composecheck.socket")
        self.settings = {"HOME": self.home, "XDG_RUNTIME_DIR": self.runtime, "PATH": f"{self.path('bin')}:/usr/bin:/bin", "LANG": "C.UTF-8"}
        self.sessions = 0

    def install(self, program):
        shared = os.path.join(self.prefix, "share", "composecheck")
        for it in (os.path.dirname(self.program), shared):
            os.makedirs(it)
        shutil.copy(program, self.program)
        write(self.home, {"bin/notify-send": NOTIFY})
        for it in SCRIPTS:
            shutil.copy(os.path.join(SHARED, it), shared)
        for it in (self.program, *(os.path.join(shared, it) for it in SCRIPTS), self.path("bin/notify-send")):
            os.chmod(it, 0o755)
        for it in filter(UNITS.fullmatch, os.listdir(SHARED)):
            with open(os.path.join(SHARED, it), encoding="utf-8") as file:
                self.write(f".config/systemd/user/{it}", file.read().replace("/usr/local/", f"{self.prefix}/"))
        subprocess.run(["chown", "-R", f"{self.number}:{self.number}", self.home], check=True)
        self.systemctl("daemon-reload")
        self.systemctl("set-environment", f"PATH={self.settings['PATH']}")

    def path(self, name):
        return os.path.join(self.home, name)

    def write(self, name, text):
        """Puts a file in the place of another one at once, as a package's upgrade does."""
        write(self.home, {f"{name}.new": text})
        os.chown(self.path(f"{name}.new"), self.number, self.number)
        os.rename(self.path(f"{name}.new"), self.path(name))

    def run(self, *words):
        """Runs a command as the user, and returns its status and what it prints to standard output and standard error."""
        options = {"cwd": self.home, "env": self.settings, "user": self.number, "group": self.number, "extra_groups": []}
        ran = subprocess.run(words, stdin=subprocess.DEVNULL, capture_output=True, text=True, timeout=self.MOST_SECONDS, **options)
        return ran.returncode, ran.stdout, ran.stderr

    def systemctl(self, *words):
        return self.run("systemctl", "--user", *words)

    def unit(self, kind, name="tables/Compose"):
        """The name of a unit of updates for a file, the table's if none is named."""
        return f"composecheck-update@{self.path(name)[1:].replace('/', '-')}.{kind}"

    def shown(self, unit, name):
        """A property of a unit."""
        return self.systemctl("show", "--property", name, "--value", unit)[1].strip()

    def update(self):
        """What an update of the table prints, if it has the status 0."""
        status, out, err = self.run(self.program, "update", self.path("tables/Compose"))
        return out if status == 0 else (status, out, err)

    def script(self, name, *words, **settings):
        """Runs an installed script as the user, with these settings, and returns its status, and what it prints."""
        given = [f"{it}={value}" for it, value in {"COMPOSECHECK": self.program, **settings}.items()]
        return self.run("env", *given, os.path.join(self.prefix, "share", "composecheck", name), *words)

    def setting(self, *words):
        """What `gsettings` does with a setting in the home, and prints."""
        return self.run("env", "GSETTINGS_BACKEND=keyfile", "gsettings", *words)[1].strip()

    def sources(self):
        """The input sources of GNOME."""
        return self.setting("get", *SOURCES)

    def types(self, *keys):
        """The text of the last key, typed in a session of its own; or what is refused."""
        self.sessions += 1
        status, out, err = self.run(self.program, "session", "--open", "--close", self.socket, str(self.sessions), "Multi_key", *keys)
        return re.findall('"(.*)"', out)[-1] if status == 0 else err

    def log(self):
        """What the manager and its services have printed."""
        with open(os.path.join(self.folder, "log"), encoding="utf-8") as file:
            return file.read()

    def notified(self):
        """How often a refusal was shown, and whether what shows it could write where it shouldn't."""
        log = self.log()
        return log.count("notified Your Compose table stays as it was\n"), "notified outside" in log


def until(look, wanted, seconds=30):
    """What is seen once it is what is wanted; or at last, if it never is."""
    end = time.monotonic() + seconds
    while True:
        seen = look()
        if seen == wanted or time.monotonic() > end:
            return seen
        time.sleep(0.1)


# ---- the service

def check_refused(user, results):
    """Where nothing was stored, the service doesn't start, and systemd doesn't try again; a connection can't start it either."""
    user.systemctl("start", SERVICE)
    results.expect("nothing is stored: the service has failed", until(lambda: user.shown(SERVICE, "ActiveState"), "failed"), "failed")
    results.expect("nothing is stored: it was started once", [user.shown(SERVICE, it) for it in ("ExecMainStatus", "NRestarts")], ["2", "0"])
    results.expect("nothing is stored: the journal names the folder", user.state in user.log(), True)
    user.systemctl("reset-failed")
    user.systemctl("start", SOCKET)
    results.expect("nothing is stored: nobody types", user.types("apostrophe", "e") != "ⓔ", True)
    results.expect("nothing is stored: the socket gives up", until(lambda: user.shown(SOCKET, "ActiveState"), "failed"), "failed")
    user.systemctl("reset-failed")


def check_service(user, results):
    """The service types, takes a table, and is back after a kill."""
    user.write("tables/Compose", FIRST)
    results.expect("the first table is stored", user.update(), "stored\n")
    results.expect("the service is enabled", user.systemctl("enable", "--now", SERVICE)[0], 0)
    results.expect("somebody types", until(lambda: user.types("apostrophe", "e"), "ⓔ"), "ⓔ")
    check_confined(user, results)
    user.write("tables/Compose", SECOND)
    results.expect("a table that follows is loaded and stored", user.update(), "loaded 1\nstored\n")
    results.expect("what is new is typed", user.types("apostrophe", "a"), "ⓐ")
    results.expect("nothing has changed", user.update(), "unchanged\n")
    check_kill(user, results)


def check_kill(user, results):
    """After a kill the service is back, with the table that was stored last."""
    before = user.shown(SERVICE, "MainPID")
    user.systemctl("kill", "--signal=KILL", SERVICE)
    results.expect("after a kill somebody types", until(lambda: user.types("apostrophe", "a"), "ⓐ"), "ⓐ")
    results.expect("another process serves", user.shown(SERVICE, "MainPID") not in ("0", before), True)


def probe(user, process, script):
    """Whether a script succeeds that the user runs in the namespaces of a process."""
    return user.run("nsenter", "--target", process, "--user", "--mount", "--net", "--preserve-credentials", "--wd=/", "sh", "-c", script)[0] == 0


def check_confined(user, results):
    """What the unit says of files, devices, the network and rights is so: systemd leaves it out where it can't do it, and starts the service."""
    process = user.shown(SERVICE, "MainPID")
    with open(f"/proc/{process}/status", encoding="utf-8") as file:
        status = dict(re.findall(r"^(\w+):\s*(\w+)$", file.read(), re.M))
    wanted = {**dict.fromkeys(("CapInh", "CapPrm", "CapEff", "CapBnd", "CapAmb"), "0" * 16), "NoNewPrivs": "1", "Seccomp": "2"}
    results.expect("its rights", {it: status.get(it) for it in wanted}, wanted)
    with open(f"/proc/{process}/net/dev", encoding="utf-8") as file:
        results.expect("its network", re.findall(r"^ *(\S+):", file.read(), re.M), ["lo"])
    with open(f"/proc/{process}/mountinfo", encoding="utf-8") as file:
        mounts = {fields[4]: fields[5].split(",")[0] for fields in map(str.split, file)}
    wanted = {"/": "ro", self_or_above(mounts, user.home): "ro", user.state: "rw", user.runtime: "rw", "/tmp": "rw", "/dev": "ro"}
    results.expect("its mounts", {it: mounts.get(it) for it in wanted}, wanted)
    manager = status["PPid"]
    others = {
        "a file beside the state folder": f"touch {user.path('outside')}",
        "a file of the system": "touch /usr/outside || touch /var/tmp/../outside",
        "the session's bus": f"test -r {user.runtime}/bus",
        "the user's manager": f"test -r {user.runtime}/systemd/private",
        "the files of /tmp": f"test -e {user.folder}",
        "a disk, or what the kernel says": "test -e /dev/kmsg || test -e /dev/sda || test -e /dev/vda",
        "shared memory": "touch /dev/shm/outside",
        "another process": f"cat /proc/{manager}/environ",
        "files by another process": f"touch /proc/{manager}/root{user.path('outside')}",
    }
    results.expect("what it can't get", {it: probe(user, process, script) for it, script in others.items()}, dict.fromkeys(others, False))
    for it in (user.state, user.runtime):
        results.expect(f"{it} can be written", probe(user, process, f"touch {it}/x && rm {it}/x"), True)


def self_or_above(mounts, path):
    """The mount in which a path is."""
    while path not in mounts:
        path = os.path.dirname(path)
    return path


def check_use(user, results):
    """A Compose file is taken into use by one command, and back by another, on each desktop."""
    path, watch = user.path("tables/Compose"), user.unit("path")
    user.write("tables/Compose", FIRST)
    status, out, err = user.script("use.sh", "tables/Compose")
    results.expect("it is stored, and one sequence of it is typed", (status, out.splitlines()[:2], err), (0, ["stored", "typed: Multi_key apostrophe e -> ⓔ"], ""))
    shown = user.run(user.program, "status")[1]
    results.expect("it ends with what is in use", (out.endswith(f"\n{shown}"), shown.splitlines()[0], shown.splitlines()[-1]),
                   (True, f"in use: {path}", f"service: serves it on {user.socket}"))
    results.expect("without an input method it says what to install", NO_METHOD in out, True)
    units = (SOCKET, watch)
    results.expect("at later logins too", [user.systemctl("is-enabled", it)[1] for it in units], ["enabled\n"] * 2)
    results.expect("it runs", [user.shown(it, "ActiveState") for it in (*units, SERVICE)], ["active"] * 3)
    status, out, _ = user.script("use.sh", path)
    results.expect("it is in use already", (status, out.splitlines()[:2]), (0, ["unchanged", "typed: Multi_key apostrophe e -> ⓔ"]))
    user.write("tables/Other", OTHER)
    status, out, err = user.script("use.sh", user.path("tables/Other"))
    results.expect("a file that changes typing is refused", (status, out.splitlines()[:1], err.startswith("use.sh: the table in use stays")), (1, ["keys Multi_key apostrophe e"], True))
    check_other_service(user, path, results)
    check_advice(user, path, results)
    check_other_file(user, watch, results)
    check_two_watches(user, results)
    check_sources(user, path, results)
    results.expect("all is taken back", user.script("unuse.sh"), TAKEN_BACK)
    results.expect("no unit is left", [user.systemctl("is-enabled", it)[1] for it in (*units, SERVICE)], ["disabled\n"] * 3)
    results.expect("nothing runs", [user.shown(it, "ActiveState") for it in (*units, SERVICE)], ["inactive"] * 3)
    results.expect("no table is left", (os.path.exists(user.state), os.path.exists(user.socket)), (False, False))
    results.expect("it can be taken back again", user.script("unuse.sh"), TAKEN_BACK)
    # (of the names of keysyms a session knows few, unless it is given all)
    user.write("tables/Greek", '<Greek_accentdieresis> <Greek_iota> : "\u0390"\n')
    status, out, _ = user.script("use.sh", user.path("tables/Greek"))
    results.expect("a sequence of keys with other names is typed", (status, out.splitlines()[:2]), (0, ["stored", "typed: Greek_accentdieresis Greek_iota -> \u0390"]))
    results.expect("and taken back", user.script("unuse.sh"), TAKEN_BACK)
    os.remove(user.path(".XCompose"))


def check_other_file(user, watch, results):
    """Without a file it is the user's own, which is watched in the place of the other one."""
    user.write(".XCompose", SECOND)
    status, out, _ = user.script("use.sh")
    results.expect("the user's own file", (status, out.splitlines()[:2]), (0, ["loaded 1", "stored"]))
    own = watch.replace("tables-Compose", ".XCompose")
    results.expect("one file is watched", [user.shown(it, "ActiveState") for it in (watch, own)], ["inactive", "active"])


def check_other_service(user, path, results):
    """A service that types another table than the file's is no proof that the file is in use."""
    state, place = user.path("other-state"), os.path.join(user.runtime, "other.socket")
    user.write("tables/Else", OTHER)
    stored = user.run("env", "-u", "XDG_RUNTIME_DIR", user.program, "update", "--state", state, user.path("tables/Else"))
    results.expect("another table", stored[:2], (0, "stored\n"))
    words = [user.program, "serve", "--state", state, place]
    with subprocess.Popen(words, stdout=subprocess.PIPE, text=True, env=user.settings, user=user.number, group=user.number, extra_groups=[]) as serving:
        serving.stdout.readline()
        status, out, err = user.script("use.sh", path, COMPOSECHECK_SOCKET=place)
        results.expect("another service", (status, "typed: " in out, err.startswith("use.sh: the service types another table: ")), (1, False, True))
        serving.terminate()
    shutil.rmtree(state)


def advice(out):
    """Which of the pieces of advice are in what use.sh prints."""
    return [it for it in (*ADVICE.values(), *METHODS.values(), NO_METHOD, FIRST_INSTALL) if it in out]


def check_advice(user, path, results):
    """What to choose, on each desktop, by what runs for this user, and what is installed."""
    for desktop, words in ADVICE.items():
        status, out, _ = user.script("use.sh", path, XDG_CURRENT_DESKTOP=desktop)
        results.expect(f"without an input method, desktop {desktop!r}", (status, advice(out)), (0, [words, NO_METHOD]))
    for method, words in METHODS.items():
        program, part = user.path(f"bin/{method}"), os.path.join(user.prefix, "share", PARTS[method])
        shutil.copy(shutil.which("sleep"), program)
        with subprocess.Popen([program, "600"], user=user.number, group=user.number, extra_groups=[]) as running:
            until(lambda: method in user.run("ps", "-u", str(user.number), "-o", "comm=")[1].split(), True)
            status, out, _ = user.script("use.sh", path, XDG_CURRENT_DESKTOP="KDE")
            results.expect(f"{method} runs", (status, advice(out)), (0, [words, FIRST_INSTALL]))
            write(os.path.dirname(part), {os.path.basename(part): ""})
            status, out, _ = user.script("use.sh", path, XDG_CURRENT_DESKTOP="KDE")
            results.expect(f"{method} runs, and has what it needs", (status, advice(out)), (0, [words]))
            running.kill()
        os.remove(part)


def check_two_watches(user, results):
    """Two files are watched, and an update of the first hangs. A third file that is refused leaves both watched; one that is taken ends both, and
    the update."""
    user.write("tables/first", SECOND)
    user.write("tables/second", SECOND)
    watches = [user.unit("path", f"tables/{it}") for it in ("first", "second")]
    results.expect("two files are watched", user.systemctl("enable", "--now", *watches)[0], 0)
    state = lambda: [(user.systemctl("is-enabled", it)[1], user.shown(it, "ActiveState")) for it in watches]
    user.write("tables/third", OTHER)
    results.expect("a third is refused", user.script("use.sh", user.path("tables/third"))[0], 1)
    results.expect("both are watched", state(), [("enabled\n", "active")] * 2)
    os.mkfifo(user.path("tables/hangs"))
    user.write("tables/first", 'include "%H/tables/hangs"\n')
    update = user.unit("service", "tables/first")
    results.expect("an update hangs", until(lambda: user.shown(update, "ActiveState"), "activating"), "activating")
    user.write("tables/third", THIRD)
    status, out, _ = user.script("use.sh", user.path("tables/third"))
    results.expect("a third is taken", (status, [it.split()[0] for it in out.splitlines()[:2]]), (0, ["loaded", "stored"]))
    results.expect("no other is watched", state(), [("disabled\n", "inactive")] * 2)
    results.expect("nor is one taken", user.shown(update, "ActiveState") in ("inactive", "failed"), True)
    results.expect("the third is watched", user.shown(user.unit("path", "tables/third"), "ActiveState"), "active")


def check_sources(user, path, results):
    """In GNOME the engines of the layouts that somebody has are named, and the layouts are there again afterwards."""
    if user.setting("writable", *SOURCES) != "true":
        print("no input sources of GNOME here: they are not tried")
        return
    user.write("tables/Compose", THIRD)
    given = {"GSETTINGS_BACKEND": "keyfile", "XDG_CURRENT_DESKTOP": "ubuntu:GNOME"}
    chosen, engines = "[('xkb', 'de'), ('xkb', 'us+intl')]", "[('ibus', 'composecheck:de'), ('ibus', 'composecheck:us:intl')]"
    user.setting("set", *SOURCES, chosen)
    status, out, _ = user.script("use.sh", path, **given)
    command = re.search(r"gsettings set .*", out)
    results.expect("the engines of the layouts are named", (status, command is not None and engines in command[0]), (0, True))
    results.expect("the command sets them", (user.run("env", "GSETTINGS_BACKEND=keyfile", "sh", "-c", command[0])[0], user.sources()), (0, engines))
    results.expect("unuse.sh", user.script("unuse.sh", **given), TAKEN_BACK)
    results.expect("the layouts are there again", user.sources(), chosen)
    if user.setting("writable", *PRELOADED) != "true":
        print("no engines of IBus here: they are not tried")
        return
    for before, after in (("['composecheck:de', 'xkb:us::eng']", "['xkb:us::eng']"), ("['xkb:us::eng', 'composecheck']", "['xkb:us::eng']"), ("['composecheck']", "@as []")):
        user.setting("set", *PRELOADED, before)
        results.expect(f"of the engines {before}", (user.script("unuse.sh", **given)[0], user.setting("get", *PRELOADED)), (0, after))


def check_socket(user, results):
    """systemd makes the socket, and a connection starts the service."""
    results.expect("the service is disabled", user.systemctl("disable", "--now", SERVICE)[0], 0)
    results.expect("it has ended", (user.shown(SERVICE, "ActiveState"), user.types("apostrophe", "e") == "ⓔ"), ("inactive", False))
    results.expect("the socket is enabled", user.systemctl("enable", "--now", SOCKET)[0], 0)
    results.expect("the service doesn't run", user.shown(SERVICE, "ActiveState"), "inactive")
    results.expect("a connection starts it", user.types("apostrophe", "e"), "ⓔ")
    check_kill(user, results)
    user.systemctl("disable", "--now", SOCKET)
    user.systemctl("stop", SERVICE)
    results.expect("systemd takes its socket away", os.path.exists(user.socket), False)


# ---- updates

def check_update(user, results):
    """A file that changes is taken into use; so is one that it includes, at the next look; and a refusal is shown."""
    user.systemctl("start", SERVICE)
    user.write("tables/more", MORE)
    service, timer, path = (user.unit(it) for it in ("service", "timer", "path"))
    results.expect("the file is watched", user.systemctl("enable", "--now", path)[0], 0)
    results.expect("the timer runs an update", until(lambda: user.shown(service, "InactiveEnterTimestampMonotonic") != "0", True), True)
    results.expect("that changes nothing", (user.shown(service, "Result"), user.shown(timer, "ActiveState")), ("success", "active"))
    at_rest = lambda: until(lambda: user.shown(service, "ActiveState") in ("inactive", "failed"), True)
    user.write("tables/Compose", THIRD + INCLUDES)
    results.expect("a file that changes is taken into use", until(lambda: user.types("apostrophe", "o"), "ⓞ"), "ⓞ")
    at_rest()
    user.write("tables/more", LATER)
    results.expect("the update at the timer's next look", user.systemctl("start", service)[0], 0)
    results.expect("a file that is included is taken into use", user.types("minus"), "∓")
    check_refusal(user, service, at_rest, results)
    user.systemctl("disable", "--now", path)
    results.expect("the timer ends with the watch", user.shown(timer, "ActiveState"), "inactive")


def check_refusal(user, service, at_rest, results):
    """A change that is refused is shown once, until an update goes through."""
    results.expect("nothing was shown", user.notified(), (0, False))
    user.write("tables/Compose", OTHER + INCLUDES)
    results.expect("a change that is refused is shown", until(user.notified, (1, False)), (1, False))
    at_rest()
    said = 'keys Multi_key apostrophe e\nkind text\nold "ⓔ"\nnew "ê"\n'
    results.expect("with its keys", user.log().count(f"{user.path('tables/Compose')} would change how you type:\n{said}"), 1)
    results.expect("typing stays", user.types("apostrophe", "e"), "ⓔ")
    results.expect("it is refused again", user.systemctl("start", service)[0] != 0, True)
    results.expect("and not shown again", (user.log().count(said), user.notified()), (3, (1, False)))
    user.write("tables/Compose", THIRD + INCLUDES)
    kept = os.path.join(user.state, "shown")
    results.expect("an update goes through", until(lambda: os.path.exists(kept), False), False)
    at_rest()
    user.write("tables/Compose", OTHER + INCLUDES)
    results.expect("the refusal is shown anew", until(user.notified, (2, False)), (2, False))
    at_rest()


def check_state_home(user, results):
    """A table in $XDG_STATE_HOME, with the setting that docs/SERVICE.md says."""
    user.systemctl("stop", SERVICE)
    user.systemctl("set-environment", f"XDG_STATE_HOME={user.path('kept')}")
    user.settings["XDG_STATE_HOME"] = user.path("kept")
    for it in ("composecheck.service", "composecheck-update@.service"):
        user.write(f".config/systemd/user/{it}.d/override.conf", "[Service]\nReadWritePaths=-%h/kept/composecheck\n")
    user.systemctl("daemon-reload")
    user.write("tables/Compose", FIRST)
    results.expect("the first table there", user.systemctl("start", user.unit("service")), (0, "", ""))
    user.systemctl("start", SERVICE)
    results.expect("it is typed", until(lambda: (user.types("apostrophe", "e"), user.types("apostrophe", "a")), ("ⓔ", "")), ("ⓔ", ""))
    user.write("tables/Compose", SECOND)
    results.expect("a table that follows there", user.systemctl("start", user.unit("service")), (0, "", ""))
    results.expect("that is typed", user.types("apostrophe", "a"), "ⓐ")


def check_package(user, results):
    """What dpkg runs for the Debian package."""
    def script(*words):
        ran = subprocess.run(["sh", os.path.join(TOP, "packaging", words[0]), *words[1:]], capture_output=True, text=True, timeout=120)
        return ran.returncode, ran.stdout, ran.stderr

    before = user.shown(SERVICE, "MainPID")
    results.expect("a new installation", script("postinst", "configure", ""), (0, "", ""))
    results.expect("leaves the service alone", user.shown(SERVICE, "MainPID"), before)
    results.expect("an upgrade", script("postinst", "configure", "0.1.0"), (0, "", ""))
    results.expect("starts the service anew", user.shown(SERVICE, "MainPID") not in ("0", before), True)
    results.expect("with its table", until(lambda: user.types("apostrophe", "a"), "ⓐ"), "ⓐ")
    results.expect("a removal", script("prerm", "remove"), (0, "", ""))
    results.expect("ends the service", user.shown(SERVICE, "ActiveState"), "inactive")
    results.expect("an upgrade starts no service", (script("postinst", "configure", "0.1.0"), user.shown(SERVICE, "ActiveState")), ((0, "", ""), "inactive"))


def prepare_a_night(user, results):
    """Enables what will run after the next login."""
    results.expect("the service and the watch are enabled", user.systemctl("enable", SERVICE, user.unit("path"))[0], 0)


def check_login(user, results):
    """What changed while nobody was logged in is taken into use after the login, by the timer."""
    results.expect("a file that is included has changed overnight", until(lambda: user.types("equal"), "≡"), "≡")


LOGINS = {"first": (check_refused, check_use, check_service, check_socket, check_update, check_state_home, check_package, prepare_a_night), "second": (check_login,)}


def run_beside(program, folder, login):
    """Runs the checks of a login, beside the manager."""
    user, results = User(folder), Results()
    if login == "first":
        user.install(program)
    for check in LOGINS[login]:
        try:
            check(user, results)
        except (OSError, subprocess.SubprocessError) as error:  # (a service that isn't there has no files in /proc, for one)
            results.expect(check.__name__, error, None)
    if results.failed:
        print("the manager and its services printed:", re.sub(r"^connection \d+: ended\n", "", user.log(), flags=re.M), sep="\n")
    return results.end()


def log_in(program, folder, login, results):
    """Runs this script beside a manager, and counts what it counts. False if there can't be one."""
    words = ["bash", MANAGER, folder, sys.executable, os.path.abspath(__file__), program, folder, login]
    ran = subprocess.run(words, stdout=subprocess.PIPE, stderr=subprocess.STDOUT, text=True, check=False)
    counts = COUNTS.fullmatch(ran.stdout.splitlines()[-1] if ran.stdout else "")
    print(ran.stdout[: counts and ran.stdout.rindex(counts[0])], end="")
    if counts:
        results.passed, results.failed = results.passed + int(counts[1]), results.failed + int(counts[2])
    elif ran.returncode != SKIPPED:
        results.expect(f"the {login} login", ran.returncode, 0)
    return ran.returncode != SKIPPED


def main():
    program = os.path.abspath(sys.argv[1])
    if len(sys.argv) > 2:
        return run_beside(program, *sys.argv[2:])
    results = Results()
    with tempfile.TemporaryDirectory(prefix="user-manager-", dir="/tmp") as folder:
        if not log_in(program, folder, "first", results):
            return results.end("skipped, as this needs root, systemd and namespaces")
        write(os.path.join(folder, "home", "tables"), {"Compose": THIRD + INCLUDES, "more": OVERNIGHT})
        log_in(program, folder, "second", results)
    return results.end()


if __name__ == "__main__":
    sys.exit(main())
