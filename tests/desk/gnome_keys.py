#!/usr/bin/python3
"""gnome_keys.py: a keyboard of GNOME Shell, for as long as it runs. It reads lines of words and prints an empty line when each is typed: `30` presses
and releases the key with that code of Linux, `+125` presses it, `-125` releases it, and `s0.5` is a pause in seconds."""
import sys
import time

from gi.repository import Gio, GLib

NAME = "org.gnome.Mutter.RemoteDesktop"


class Keyboard:
    def __init__(self):
        self.bus = Gio.bus_get_sync(Gio.BusType.SESSION)
        self.session, = self.call("/org/gnome/Mutter/RemoteDesktop", NAME, "CreateSession")
        self.call(self.session, f"{NAME}.Session", "Start")

    def call(self, path, interface, method, *arguments):
        given = GLib.Variant("(ub)", arguments) if arguments else None
        return self.bus.call_sync(NAME, path, interface, method, given, None, Gio.DBusCallFlags.NONE, 30_000, None).unpack()

    def change(self, keycode, is_pressed):
        self.call(self.session, f"{NAME}.Session", "NotifyKeyboardKeycode", keycode, is_pressed)
        time.sleep(0.03)

    def type(self, word):
        if word.startswith("s"):
            time.sleep(float(word[1:]))
            return
        for sign, is_pressed in (("+", True), ("-", False)):
            if word[0] in f"{sign}0123456789":
                self.change(int(word.lstrip("+-")), is_pressed)


def main():
    keyboard = Keyboard()
    for line in sys.stdin:
        for it in line.split():
            keyboard.type(it)
        print(flush=True)


if __name__ == "__main__":
    main()
