#!/usr/bin/python3
"""press.py text|terminal KEYSYM..: presses keys in a text field, or a terminal, of ibus-daemon, and prints of each whether it is taken or passed."""
import sys

import gi

gi.require_version("IBus", "1.0")
from gi.repository import IBus  # noqa: E402


def main():
    IBus.init()
    context = IBus.Bus().create_input_context("press")
    field = IBus.Capabilite.SURROUNDING_TEXT if sys.argv[1] == "text" else 0
    context.set_capabilities(IBus.Capabilite.PREEDIT_TEXT | IBus.Capabilite.FOCUS | field)
    context.focus_in()
    context.set_engine("composecheck")
    for it in sys.argv[2:]:
        print("taken" if context.process_key_event(int(it, 16), 30, 0) else "passed")


if __name__ == "__main__":
    main()
