#!/usr/bin/python3
"""listed.py ibus|fcitx5 KEYSYM..: presses keys in an application that shows by itself what an input method lists, and prints after each key what is
listed then, as JSON: the rows, each a key and what it gives, and which rows of how many they are."""
import json
import os
import sys
import time

import gi

gi.require_version("IBus", "1.0")
from gi.repository import Gio, GLib, IBus  # noqa: E402

PATH, NAME = "/org/freedesktop/portal/inputmethod", "org.fcitx.Fcitx5"
# The flags of fcitx5 for an application that shows what is pending, and the list.
PREEDIT, CLIENT_SIDE_INPUT_PANEL = 1 << 1, 1 << 39


def turn(seconds=0.3):
    """Takes what came for this process."""
    end = time.monotonic() + seconds
    while time.monotonic() < end:
        while GLib.MainContext.default().iteration(False):
            pass
        time.sleep(0.002)


class IBusField:
    """A text field of ibus-daemon."""

    def __init__(self):
        IBus.init()
        self.rows, self.place = [], ""
        self.context = IBus.Bus().create_input_context("listed")
        flags = IBus.Capabilite.PREEDIT_TEXT | IBus.Capabilite.AUXILIARY_TEXT | IBus.Capabilite.LOOKUP_TABLE
        self.context.set_capabilities(flags | IBus.Capabilite.FOCUS | IBus.Capabilite.SURROUNDING_TEXT)
        self.context.connect("update-lookup-table", self.list)
        self.context.connect("update-auxiliary-text", self.say)
        self.context.focus_in()
        self.context.set_engine("composecheck")

    def list(self, _, table, is_visible):
        size = table.get_number_of_candidates() if is_visible else 0
        self.rows = [(table.get_label(it).get_text(), table.get_candidate(it).get_text()) for it in range(size)]

    def say(self, _, text, is_visible):
        self.place = text.get_text() if is_visible else ""

    def press(self, keysym):
        self.context.process_key_event(keysym, 30, 0)


class Fcitx5Field:
    """A text field of fcitx5."""

    def __init__(self):
        self.rows, self.place = [], ""
        self.bus = Gio.bus_get_sync(Gio.BusType.SESSION)
        hints = [("program", "listed"), ("display", "x11:" + os.environ["DISPLAY"])]
        self.path, _ = self.call(PATH, "InputMethod1", "CreateInputContext", GLib.Variant("(a(ss))", (hints,)))
        self.bus.signal_subscribe(NAME, "org.fcitx.Fcitx.InputContext1", "UpdateClientSideUI", self.path, None, Gio.DBusSignalFlags.NONE, self.list)
        self.call(self.path, "InputContext1", "SetCapability", GLib.Variant("(t)", (PREEDIT | CLIENT_SIDE_INPUT_PANEL,)))
        self.call(self.path, "InputContext1", "FocusIn")

    def call(self, path, interface, method, arguments=None):
        return self.bus.call_sync(NAME, path, f"org.fcitx.Fcitx.{interface}", method, arguments, None, Gio.DBusCallFlags.NONE, -1).unpack()

    def list(self, *signal):
        _, _, _, below, rows, *_ = signal[5].unpack()
        self.rows, self.place = [(key.rstrip(" "), gives) for key, gives in rows], "".join(text for text, _ in below)

    def press(self, keysym):
        self.call(self.path, "InputContext1", "ProcessKeyEvent", GLib.Variant("(uuubu)", (keysym, 30, 0, False, 0)))


def main():
    field = {"ibus": IBusField, "fcitx5": Fcitx5Field}[sys.argv[1]]()
    turn()
    for it in sys.argv[2:]:
        field.press(int(it, 16))
        turn()
        print(json.dumps([field.rows, field.place], ensure_ascii=False), flush=True)


if __name__ == "__main__":
    main()
