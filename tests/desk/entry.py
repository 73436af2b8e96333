#!/usr/bin/python3
"""entry.py 3|4 FILE: a window of GTK 3 or 4 with two entries.

FILE always holds, as JSON, what both entries hold, what is shown as pending in each, and which of them has the focus."""
import json
import os
import sys

import gi

VERSION, FILE = sys.argv[1:]
gi.require_version("Gtk", f"{VERSION}.0")
from gi.repository import GLib, Gtk  # noqa: E402

texts, pending, focus = ["", ""], ["", ""], None


def write():
    with open(FILE + ".part", "w", encoding="utf-8") as file:
        json.dump({"texts": texts, "pending": pending, "focus": focus}, file)
    os.rename(FILE + ".part", FILE)


def focused(index):
    global focus
    focus = index
    write()


def text_of(entry):
    return entry.get_buffer().get_text()


def watch(entry, index):
    def changed(*_):
        texts[index] = text_of(entry)
        write()

    def shown(_, text):
        pending[index] = text
        write()

    entry.get_buffer().connect("notify::text", changed)
    if VERSION == "3":
        entry.connect("preedit-changed", shown)
        entry.connect("focus-in-event", lambda *_: focused(index))
    else:
        inner = entry.get_delegate()
        inner.connect("preedit-changed", shown)
        inner.connect("notify::has-focus", lambda it, _: it.has_focus() and focused(index))


def fill(window):
    box = Gtk.Box(orientation=Gtk.Orientation.VERTICAL, spacing=12)
    for index in range(2):
        entry = Gtk.Entry()
        watch(entry, index)
        box.pack_start(entry, False, False, 0) if VERSION == "3" else box.append(entry)
    window.add(box) if VERSION == "3" else window.set_child(box)
    window.set_title("composecheck trial")
    window.set_default_size(480, 120)
    window.show_all() if VERSION == "3" else window.present()


def main():
    loop = GLib.MainLoop()
    window = Gtk.Window()
    fill(window)
    window.connect("destroy" if VERSION == "3" else "close-request", lambda *_: loop.quit())
    write()
    loop.run()


if __name__ == "__main__":
    if VERSION == "3":
        Gtk.init(None)
    else:
        Gtk.init()
    main()
