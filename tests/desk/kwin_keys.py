#!/usr/bin/python3
"""kwin_keys.py DISPLAY: a keyboard of KWin, for as long as it runs. It reads lines of words and prints an empty line when each is typed: `30` presses
and releases the key with that code of Linux, `+125` presses it, `-125` releases it, and `s0.5` is a pause in seconds.

It speaks Wayland by itself, as few libraries know the requests of KWin for such a keyboard."""
import socket
import struct
import sys
import time

INTERFACE = b"org_kde_kwin_fake_input"
# The objects of this client, and the requests by their numbers.
DISPLAY, REGISTRY, SYNCED, INPUT = 1, 2, 3, 4
SYNC, GET_REGISTRY, BIND, AUTHENTICATE, KEYBOARD_KEY = 0, 1, 0, 0, 10
GLOBAL = 0


def text(value):
    """A string of the protocol: its length with the zero at its end, padded to whole words."""
    return struct.pack("=I", len(value) + 1) + value + b"\0" * (4 - len(value) % 4)


class Keyboard:
    def __init__(self, display):
        self.socket = socket.socket(socket.AF_UNIX)
        self.socket.connect(display)
        self.send(DISPLAY, GET_REGISTRY, struct.pack("=I", REGISTRY))
        self.send(DISPLAY, SYNC, struct.pack("=I", SYNCED))
        name = self.find()
        self.send(REGISTRY, BIND, struct.pack("=I", name) + text(INTERFACE) + struct.pack("=II", 4, INPUT))
        self.send(INPUT, AUTHENTICATE, text(b"composecheck") + text(b"a trial"))

    def send(self, object_id, request, content):
        self.socket.sendall(struct.pack("=IHH", object_id, request, 8 + len(content)) + content)

    def find(self):
        """The number of the interface among those that KWin offers."""
        name = None
        while True:
            object_id, event, size = struct.unpack("=IHH", self.read(8))
            content = self.read(size - 8)
            if object_id == SYNCED:
                return name
            if (object_id, event) == (REGISTRY, GLOBAL) and content[8:].startswith(INTERFACE + b"\0"):
                name, = struct.unpack("=I", content[:4])

    def read(self, count):
        came = b""
        while len(came) < count:
            came += self.socket.recv(count - len(came))
        return came

    def type(self, word):
        if word.startswith("s"):
            time.sleep(float(word[1:]))
            return
        for sign, state in (("+", 1), ("-", 0)):
            if word[0] in f"{sign}0123456789":
                self.send(INPUT, KEYBOARD_KEY, struct.pack("=II", int(word.lstrip("+-")), state))
                time.sleep(0.03)


def main():
    keyboard = Keyboard(sys.argv[1])
    for line in sys.stdin:
        for it in line.split():
            keyboard.type(it)
        print(flush=True)


if __name__ == "__main__":
    main()
