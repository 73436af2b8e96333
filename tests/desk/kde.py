#!/usr/bin/env python3
"""kde.py PROGRAM: types into entries of GTK 3 and 4 under KWin, the compositor of KDE, which nobody sees, through fcitx5 as its virtual keyboard, on a
German layout. The last line is `N passed, M failed`."""
import os
import shutil
import subprocess
import sys
import time

from desk import HERE, PYTHON, Desk, end, wait_for
from trial import Trials

# As in gnome.py.
LETTERS, ACUTE, MENU, SHIFT, E = (30, 40, 17, 21), 13, 127, 42, 18
COMPOSED = (MENU, f"+{SHIFT}", 43, f"-{SHIFT}", E)


class Kde(Desk):
    """A desk with KWin, on Wayland, without a screen."""

    def start_kwin(self):
        """Starts KWin, and fcitx5 as its virtual keyboard."""
        self.start_bus()
        self.environment.update(XDG_CURRENT_DESKTOP="KDE", XDG_SESSION_TYPE="wayland", LIBGL_ALWAYS_SOFTWARE="1", KWIN_WAYLAND_NO_PERMISSION_CHECKS="1", KWIN_COMPOSE="Q")
        self.prepare_fcitx5("de")
        self.write("config/kxkbrc", "[Layout]\nUse=true\nLayoutList=de\nOptions=compose:menu\nResetOldOptions=true\n")
        # (a key that a slow machine holds down is not repeated)
        self.write("config/kcminputrc", "[Keyboard]\nKeyRepeat=nothing\n")
        self.write("fcitx5.sh", f"#!/bin/sh\nexec fcitx5 {' '.join(self.FCITX5)}\n")
        os.chmod(self.path("fcitx5.sh"), 0o755)
        display = self.path("desk-kwin")
        # (a copy has no right to a higher priority, which not every machine can give)
        program = shutil.copy(shutil.which("kwin_wayland"), self.path("kwin_wayland"))
        self.start(program, "--virtual", "--width", "800", "--height", "400", "--no-lockscreen", "--no-global-shortcuts", "--socket", "desk-kwin",
                   "--inputmethod", self.path("fcitx5.sh"))
        wait_for("KWin", lambda: os.path.exists(display), 60)
        self.environment.update(WAYLAND_DISPLAY="desk-kwin", GDK_BACKEND="wayland", GTK_IM_MODULE="wayland")
        self.is_wayland = True
        self.wait_for_fcitx5()
        self.keyboard = self.start(PYTHON, os.path.join(HERE, "kwin_keys.py"), display, stdin=subprocess.PIPE, stdout=subprocess.PIPE, text=True)
        self.press(SHIFT)

    def press(self, *words):
        """Presses and releases keys, as kwin_keys.py reads them."""
        print(*words, file=self.keyboard.stdin, flush=True)
        self.keyboard.stdout.readline()


def try_keys(trials):
    press, expect = trials.desk.press, trials.expect
    press(*LETTERS)
    expect("a German keyboard", text="aäwz", pending="")
    press(ACUTE, E)
    expect("a dead key of it", text="aäwzé", pending="")
    press(*COMPOSED)
    expect("a sequence on it", text="aäwzéⓔ", pending="")
    press(MENU, f"+{SHIFT}", 43, f"-{SHIFT}")
    expect("what is pending is shown", text="aäwzéⓔ", pending="·'")
    press(E)
    expect("the sequence goes on", text="aäwzéⓔⓔ", pending="")


def main():
    began, passed, failed = time.monotonic(), 0, 0
    with Kde(sys.argv[1]) as desk:
        desk.service.start("old")
        desk.start_kwin()
        for version in "34":
            trials = Trials(desk, f"KWin, fcitx5, GTK {version}", None)
            entry = desk.start_entry(version)
            try_keys(trials)
            end(entry)
            passed, failed = passed + trials.passed, failed + trials.failed
    print(f"{time.monotonic() - began:.1f} s\n{passed} passed, {failed} failed")
    return 1 if failed else 0


if __name__ == "__main__":
    sys.exit(main())
