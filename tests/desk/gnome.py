#!/usr/bin/env python3
"""gnome.py PROGRAM: types into entries of GTK 3 and 4 in GNOME Shell, which nobody sees, by the engines of IBus that keep the keyboard's layout. For
each arrangement of input sources that somebody may have it presses the keys of a keyboard, and compares the text. The last line is
`N passed, M failed`."""
import os
import subprocess
import sys
import time

from desk import HERE, PYTHON, Desk, end, wait_for
from trial import Trials

# Keys by their codes. On a German keyboard LETTERS are a ä w z, and COMPOSED are Multi_key, apostrophe and e.
LETTERS, ACUTE, MENU, SHIFT, E = (30, 40, 17, 21), 13, 127, 42, 18
COMPOSED = (MENU, f"+{SHIFT}", 43, f"-{SHIFT}", E)
GERMAN, AMERICAN = "aäwz", "a'wy"


def ibus(engine):
    return ("ibus", engine)


def xkb(layout):
    return ("xkb", layout)


# What somebody has chosen in GNOME's settings, what of it is in use, which keys are pressed, and what they type.
ARRANGEMENTS = (
    ("German, Compose alone", [ibus("composecheck:de")], ibus("composecheck:de"), LETTERS, GERMAN),
    ("German, Compose with de", [ibus("composecheck:de"), xkb("de")], ibus("composecheck:de"), LETTERS, GERMAN),
    ("German, Compose with us and de", [ibus("composecheck:de"), xkb("us"), xkb("de")], ibus("composecheck:de"), LETTERS, GERMAN),
    ("German, Compose after us and de, and turned to", [xkb("us"), xkb("de"), ibus("composecheck:de")], ibus("composecheck:de"), LETTERS, GERMAN),
    ("the first of two layouts with Compose", [ibus("composecheck:us"), ibus("composecheck:de")], ibus("composecheck:us"), LETTERS, AMERICAN),
    ("the second of them, and turned to", [ibus("composecheck:us"), ibus("composecheck:de")], ibus("composecheck:de"), LETTERS, GERMAN),
    ("de", [xkb("de")], xkb("de"), LETTERS, GERMAN),
    ("Compose with de, after it", [ibus("composecheck"), xkb("de")], ibus("composecheck"), LETTERS, GERMAN),
    ("a dead key of German", [ibus("composecheck:de")], ibus("composecheck:de"), (ACUTE, E), "é"),
    ("a sequence on German", [ibus("composecheck:de")], ibus("composecheck:de"), COMPOSED, "ⓔ"),
    ("a variant without dead keys", [ibus("composecheck:de:nodeadkeys"), xkb("us")], ibus("composecheck:de:nodeadkeys"), (*LETTERS, ACUTE, E), "aäwz´e"),
    ("a layout with dead keys", [ibus("composecheck:us:intl"), xkb("de")], ibus("composecheck:us:intl"), (30, 40, E, 17, 21), "aéwy"),
)


# The engine that GNOME Shell has IBus use for each layout without one.
NONE = "xkb:us::eng"
# The properties of GNOME Shell, as `gdbus call` gets and sets them.
SHELL = ("--session", "--dest", "org.gnome.Shell", "--object-path", "/org/gnome/Shell", "--method")
PROPERTIES = "org.freedesktop.DBus.Properties"


class Gnome(Desk):
    """A desk with GNOME Shell, on Wayland, without a screen and without a boot."""

    def start_gnome(self):
        """Starts GNOME Shell with the engine installed. (A second bus stands in for that of the system.)"""
        self.start_bus()
        system = self.start_another_bus()
        self.environment.update(DBUS_SYSTEM_BUS_ADDRESS=system, XDG_CURRENT_DESKTOP="GNOME", XDG_SESSION_TYPE="wayland", LIBGL_ALWAYS_SOFTWARE="1")
        self.install_engine()
        self.run("glib-compile-schemas", f"{self.prefix}/share/glib-2.0/schemas")
        self.run("gsettings", "set", "org.gnome.desktop.input-sources", "xkb-options", "['compose:menu']")
        # (a key that a slow machine holds down is not repeated)
        self.run("gsettings", "set", "org.gnome.desktop.peripherals.keyboard", "repeat", "false")
        self.choose_sources([xkb("us")], xkb("us"))
        self.start("gnome-shell", "--headless", "--wayland", "--no-x11", "--virtual-monitor", "1280x720", "--wayland-display", "desk-gnome")
        wait_for("GNOME Shell", lambda: os.path.exists(self.path("desk-gnome")), 120)
        self.environment.update(WAYLAND_DISPLAY="desk-gnome", GDK_BACKEND="wayland")
        self.environment.pop("GTK_IM_MODULE", None)
        self.is_wayland = True
        wait_for("its interface on the bus", lambda: "true" in self.told("gdbus", "call", *SHELL, f"{PROPERTIES}.Get", "org.gnome.Shell", "OverviewActive"), 120)
        self.run("gdbus", "call", *SHELL, f"{PROPERTIES}.Set", "org.gnome.Shell", "OverviewActive", "<false>")
        self.keyboard = self.start(PYTHON, os.path.join(HERE, "gnome_keys.py"), stdin=subprocess.PIPE, stdout=subprocess.PIPE, text=True)
        # (no window has the focus as long as there is no keyboard, and there is none before its first key)
        self.press(SHIFT)
        # (GNOME Shell starts it where systemd doesn't)
        if not self.told("ibus", "address").startswith("unix:"):
            self.start_daemon("--panel", "disable")

    def choose_sources(self, sources, used):
        """Chooses input sources, as GNOME's settings do, and has one of them in use. (GNOME stays with it where others come before it later, if there
        were several before. Super and Space, which turn to the next source, do nothing here.)"""
        for it in ([used], [used, *(it for it in sources if it != used)], sources):
            self.run("gsettings", "set", "org.gnome.desktop.input-sources", "sources", str(it))
            time.sleep(1)

    def press(self, *words):
        """Presses and releases keys, as gnome_keys.py reads them."""
        print(*words, file=self.keyboard.stdin, flush=True)
        self.keyboard.stdout.readline()

    def in_use(self):
        return self.told("ibus", "engine")


def try_arrangement(trials, what, sources, used, keys, text):
    desk, engine = trials.desk, used[1] if used[0] == "ibus" else NONE
    desk.choose_sources(sources, used)
    try:
        wait_for(engine, lambda: desk.in_use() == engine)
    except TimeoutError:
        trials.count(what, desk.in_use(), engine)
        return
    desk.press(*keys)
    trials.expect(what, text=text, pending="")
    desk.press("+29", 30, "-29", 111)
    trials.expect("an empty entry", text="", pending="")


def main():
    began, passed, failed = time.monotonic(), 0, 0
    with Gnome(sys.argv[1]) as desk:
        desk.service.start("old")
        desk.start_gnome()
        for version in "34":
            entry = desk.start_entry(version)
            trials = Trials(desk, f"GNOME Shell, GTK {version}", None)
            for it in ARRANGEMENTS:
                try_arrangement(trials, *it)
            end(entry)
            passed, failed = passed + trials.passed, failed + trials.failed
    print(f"{time.monotonic() - began:.1f} s\n{passed} passed, {failed} failed")
    return 1 if failed else 0


if __name__ == "__main__":
    sys.exit(main())
