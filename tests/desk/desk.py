"""A desk without a person: a display, a message bus, an input method with what `make install` installs of it, a composecheck service, and a
window to type into. Every process is started here and ended here by its number."""
import contextlib
import json
import os
import pwd
import shutil
import signal
import subprocess
import sys
import tempfile
import time

HERE = os.path.dirname(os.path.realpath(__file__))
sys.path.insert(0, os.path.dirname(HERE))
from harness import LIBRARY  # noqa: E402
from installed import Tree  # noqa: E402
from typing_service import TypingService  # noqa: E402

# (the one that Debian's python3-gi is for)
PYTHON = "/usr/bin/python3"
SCHEMA = "org.freedesktop.ibus.engine.composecheck"
# How many times as long as on a machine that does nothing else everything may take.
PATIENCE = float(os.environ.get("DESK_PATIENCE", "1"))
# Whether ibus-daemon has the process that shows lists.
HAS_PANEL = "import gi; gi.require_version('IBus', '1.0'); from gi.repository import IBus; IBus.init(); print(IBus.Bus().name_has_owner('org.freedesktop.IBus.Panel'))"


def wait_for(what, condition, seconds=20.0):
    """Returns the first true answer of the condition."""
    end = time.monotonic() + seconds * PATIENCE
    while time.monotonic() < end:
        got = condition()
        if got:
            return got
        time.sleep(0.01)
    raise TimeoutError(f"waited {seconds * PATIENCE:.0f} s for {what}")


def parent_of(process):
    """The number of the process that started a process."""
    with open(f"/proc/{process}/stat", encoding="ascii") as file:
        return int(file.read().rpartition(")")[2].split()[1])


class Desk:
    def __init__(self, program):
        self.service = TypingService(program)
        self.folder = tempfile.mkdtemp(prefix="desk-")
        self.folders, self.processes, self.is_wayland = [self.folder], [], False
        self.tree, self.prefix = Tree(program, self.folder), self.path("usr")
        self.environment = dict(os.environ)
        self.environment.pop("WAYLAND_DISPLAY", None)
        self.environment.update(
            HOME=self.folder, XDG_RUNTIME_DIR=self.folder, XDG_STATE_HOME=self.service.states, XDG_CONFIG_HOME=self.path("config"), XDG_CACHE_HOME=self.path("cache"),
            XDG_DATA_DIRS=f"{self.prefix}/share:/usr/share", COMPOSECHECK_SOCKET=self.service.socket, IBUS_COMPONENT_PATH=self.path("component"),
            NO_AT_BRIDGE="1", GTK_A11Y="none", GSETTINGS_BACKEND="keyfile", LANG="C.UTF-8", LC_ALL="C.UTF-8", GSK_RENDERER="cairo", PYTHONDONTWRITEBYTECODE="1",
        )

    def path(self, name):
        return os.path.join(self.folder, name)

    def __enter__(self):
        os.makedirs(self.path("component"))
        self.service.__enter__()
        return self

    def __exit__(self, *how):
        self.service.__exit__(*how)
        for it in reversed(self.processes):
            end(it)
        for it in self.folders:
            shutil.rmtree(it, ignore_errors=True)

    def start(self, *command, **more):
        with open(self.path(f"{os.path.basename(command[0])}-{len(self.processes)}.log"), "w", encoding="utf-8") as log:
            process = subprocess.Popen(command, **{"env": self.environment, "stdout": log, "stderr": log, "cwd": self.folder, **more})
        self.processes.append(process)
        return process

    def run(self, *command):
        return subprocess.run(command, env=self.environment, cwd=self.folder, check=True, capture_output=True, text=True, timeout=600).stdout

    def told(self, *command):
        """What a command prints, whatever its status is."""
        return subprocess.run(command, env=self.environment, capture_output=True, text=True, check=False).stdout.strip()

    def install(self, target):
        """Has `make` install what is tried, beside the C libraries, which are built already."""
        shutil.copytree(os.path.dirname(LIBRARY), f"{self.prefix}/lib", symlinks=True)
        made = self.tree.make(target, f"PREFIX={self.prefix}", f"PYTHON={PYTHON}")
        if made.returncode:
            raise ChildProcessError(made.stderr)

    # ---- displays and the bus

    def start_display(self):
        """An X server without a screen, with a layout that has dead keys and Multi_key. (A key that a slow machine holds down is not repeated.)"""
        reading, writing = os.pipe()
        self.start("Xvfb", "-displayfd", str(writing), "-screen", "0", "640x320x24", "-nolisten", "tcp", "-noreset", "-r", pass_fds=[writing])
        os.close(writing)
        with open(reading, encoding="ascii") as told:
            self.environment.update(DISPLAY=":" + told.readline().strip(), GDK_BACKEND="x11")
        self.run("setxkbmap", "-layout", "us", "-variant", "intl", "-option", "compose:menu")

    def start_sway(self):
        """A compositor of Wayland without a screen. It refuses to run as root, and is then started as nobody."""
        folder = tempfile.mkdtemp(prefix="desk-sway-")
        self.folders.append(folder)
        with open(os.path.join(folder, "config"), "w", encoding="utf-8") as file:
            file.write("output HEADLESS-1 resolution 640x200\ndefault_border none\nxwayland disable\ninput type:keyboard repeat_rate 0\n")
        command = ["sway", "-c", os.path.join(folder, "config")]
        if os.geteuid() == 0:
            nobody = pwd.getpwnam("nobody")
            os.chown(folder, nobody.pw_uid, nobody.pw_gid)
            command = ["setpriv", f"--reuid={nobody.pw_uid}", f"--regid={nobody.pw_gid}", "--clear-groups", *command]
        sway = dict(self.environment, XDG_RUNTIME_DIR=folder, HOME=folder, WLR_BACKENDS="headless", WLR_LIBINPUT_NO_DEVICES="1", WLR_RENDERER="pixman")
        sway.pop("DISPLAY", None)
        self.start(*command, env=sway, cwd=folder)
        display = wait_for("sway", lambda: [it for it in os.listdir(folder) if it.startswith("wayland-") and not it.endswith(".lock")])
        self.environment.update(WAYLAND_DISPLAY=os.path.join(folder, display[0]), GDK_BACKEND="wayland", GTK_IM_MODULE="wayland")
        self.environment.pop("DISPLAY", None)
        self.is_wayland = True

    def start_bus(self):
        self.environment["DBUS_SESSION_BUS_ADDRESS"] = self.start_another_bus()

    def start_another_bus(self):
        """Starts a message bus, and returns its address."""
        bus = self.start("dbus-daemon", "--session", "--nofork", "--print-address=1", stdout=subprocess.PIPE)
        return bus.stdout.readline().decode().strip()

    # ---- input methods

    def install_engine(self):
        """Installs the engine of IBus, beside ibus' own ones."""
        self.install("install-ibus")
        shutil.copy(f"{self.prefix}/share/ibus/component/composecheck.xml", self.path("component"))
        for name in ("simple.xml", "gtkpanel.xml"):
            shutil.copy(f"/usr/share/ibus/component/{name}", self.path("component"))

    def start_daemon(self, *options):
        """Starts ibus-daemon."""
        self.start("ibus-daemon", "--config", "disable", "--emoji-extension", "disable", "--cache", "none", "--verbose", *options)
        wait_for("ibus-daemon", lambda: self.told("ibus", "address").startswith("unix:"))

    def start_ibus(self, engine="composecheck"):
        """Starts ibus-daemon with the engine and ibus' own ones, and chooses one of them."""
        self.install_engine()
        self.environment["GTK_IM_MODULE"] = "ibus"
        # (the panel chooses the first of these as it starts, also after somebody else has chosen; without any, that of the keyboard's layout)
        self.run("gsettings", "set", "org.freedesktop.ibus.general", "preload-engines", f"['{engine}']")
        # (the panel of IBus runs under X11 alone)
        self.start_daemon(*["--panel", "disable"] * self.is_wayland)
        if not self.is_wayland:
            # (as it comes, it ends what is pending)
            wait_for("the panel", lambda: self.told(PYTHON, "-c", HAS_PANEL) == "True")
        self.choose(engine)

    def choose(self, engine):
        """Makes an engine the one that all applications get. (`ibus engine NAME` has status 1 where the engine has no layout of its own.)"""
        def chosen():
            self.told("ibus", "engine", engine)
            return self.told("ibus", "engine") == engine

        wait_for(f"the engine {engine}", chosen)

    def engine_processes(self):
        """The processes of the engine of IBus: one that keeps another one running, and that."""
        return [int(it) for it in self.told("pgrep", "-f", f"^{self.prefix}/libexec/ibus-engine-composecheck --ibus").split()]

    def kill_engine(self):
        """Kills the process of the engine, and waits until there is another one that types."""
        before = self.engine_processes()
        types, = (it for it in before if parent_of(it) in before)
        os.kill(types, signal.SIGKILL)
        wait_for("another engine", lambda: len(set(self.engine_processes()) - set(before)) == 1)
        # (it has to tell the daemon that it is there)
        time.sleep(2)

    def set(self, key, value):
        """Changes a setting of the engine of IBus, and waits until its process may know."""
        self.run("gsettings", "set", SCHEMA, key, value)
        time.sleep(0.5)

    # How fcitx5 is started.
    FCITX5 = ("--disable", "notificationitem,notifications,kimpanel", "--verbose", "default=4")

    def prepare_fcitx5(self, layout):
        """Installs the addon, and has fcitx5 use one keyboard layout."""
        self.install("install-fcitx5")
        os.makedirs(self.path("config/fcitx5/conf"))
        # (the layout of the display stays, with its option for Multi_key)
        self.write("config/fcitx5/conf/xcb.conf", "Allow Overriding System XKB Settings=False\n")
        name = f"keyboard-{layout}"
        group = f"[Groups/0]\nName=Default\nDefault Layout={layout}\nDefaultIM={name}\n\n[Groups/0/Items/0]\nName={name}\nLayout=\n\n[GroupOrder]\n0=Default\n"
        self.write("config/fcitx5/profile", group)
        addons = self.told("pkg-config", "--variable=libdir", "Fcitx5Core") + "/fcitx5"
        self.environment["FCITX_ADDON_DIRS"] = f"{self.prefix}/lib/fcitx5:{addons}"
        # (an application under X11 may show lists by itself, as listed.py does)
        self.environment["FCITX_X11_USE_CLIENT_SIDE_UI"] = "True"

    def start_fcitx5(self, layout="us-intl"):
        """Starts fcitx5 with the addon, on one keyboard layout."""
        self.prepare_fcitx5(layout)
        if not self.is_wayland:
            self.environment["GTK_IM_MODULE"] = "fcitx"
        self.start("fcitx5", *self.FCITX5)
        self.wait_for_fcitx5()

    def wait_for_fcitx5(self):
        # (fcitx5-remote would have the bus start another fcitx5, without the addon)
        wait_for("fcitx5", lambda: "true" in self.told(
            "dbus-send", "--print-reply", "--dest=org.freedesktop.DBus", "/", "org.freedesktop.DBus.NameHasOwner", "string:org.fcitx.Fcitx5"))

    def write(self, name, content):
        with open(self.path(name), "w", encoding="utf-8") as file:
            file.write(content)

    # ---- the window

    def start_entry(self, version, mode=None):
        """A window of GTK 3 or 4 with two entries, and the focus in the first. `mode` is whether the module of IBus waits for each key, "0" or "1"."""
        self.entry_file = self.path(f"entry{version}.json")
        with contextlib.suppress(FileNotFoundError):
            os.remove(self.entry_file)
        # (the module of ibus 1.5.27 for GTK 4 turns the order of keys round that come while it waits for one, whatever the engine is)
        self.environment["IBUS_ENABLE_SYNC_MODE"] = mode or ("1" if version == "4" else "0")
        entry = self.start(PYTHON, os.path.join(HERE, "entry.py"), version, self.entry_file)
        if not self.is_wayland:
            window = wait_for("the window", lambda: self.told("xdotool", "search", "--onlyvisible", "--name", "composecheck trial").split())
            self.run("xdotool", "windowfocus", "--sync", window[0])
        wait_for("the focus", lambda: self.entry()["focus"] == 0)
        # (GTK 4 loses keys that come before its input method has answered for the first time, and nothing reports when it has)
        time.sleep(0.5)
        return entry

    def entry(self):
        """What the window holds and shows."""
        try:
            with open(self.entry_file, encoding="utf-8") as file:
                return json.load(file)
        except (FileNotFoundError, json.JSONDecodeError):
            return {"texts": ["", ""], "pending": ["", ""], "focus": None}

    def type(self, *keys, delay=12):
        """Presses and releases keys, by the names of their keysyms; `ctrl+` may stand before one. `delay` is in milliseconds."""
        self.run("xdotool", "key", "--delay", str(delay), *keys)

    def start_typing(self, *keys):
        """Begins to press and release keys under Wayland, and returns at once; a number is a pause in milliseconds, in which a trial looks at what is there.

        All keys of a trial come from one process of wtype, since each brings a keyboard with another layout: the focus leaves for a moment, and
        that ends a sequence. So the first key waits, too. And sway 1.7 may end when a keyboard comes after another one has gone: so none goes."""
        command = ["wtype", "-d", "12"]
        for it in (1000, *keys, 600_000):
            command += ["-s", str(round(it * PATIENCE))] if isinstance(it, int) else ["-k", it]
        self.start(*command)

    def click(self, x, y):
        self.run("xdotool", "mousemove", str(x), str(y), "click", "1")

    def logs(self):
        """What the processes printed, by the names of their files."""
        for name in sorted(it for it in os.listdir(self.folder) if it.endswith(".log")):
            with open(self.path(name), encoding="utf-8", errors="replace") as file:
                yield name, file.read()

    def picture(self, file):
        self.run(*(["grim"] if self.is_wayland else ["import", "-window", "root"]), os.path.realpath(file))


def end(process):
    """Ends a process, and waits for it."""
    if process.poll() is None:
        process.send_signal(signal.SIGCONT)
        process.terminate()
        try:
            process.wait(5)
        except subprocess.TimeoutExpired:
            process.kill()
            process.wait()
    if process.stdout:
        process.stdout.close()
