#!/usr/bin/env python3
"""picture.py PROGRAM: makes docs/report.png, what a browser shows of the page that PROGRAM prints for README's example. It needs Debian's tables and
`chromium`, and leaves sixteen colours, so that the file is small."""
import collections
import os
import struct
import subprocess
import sys
import tempfile
import zlib

TOP = os.path.dirname(os.path.dirname(os.path.abspath(__file__)))
TABLES = "/usr/share/X11/locale/"
OLD, NEW = "en_US.UTF-8/Compose", "fi_FI.UTF-8/Compose"
SIZE = "1160,740"
COLOURS, APART = 16, 900
# How many bytes a pixel has, by the type of a PNG's colours.
BYTES = {2: 3, 6: 4}


def shot(program, folder):
    """Returns the PNG that the browser makes of the page."""
    page = subprocess.run([program, "diff", "--format", "html", TABLES + OLD, TABLES + NEW], stdout=subprocess.PIPE, text=True).stdout
    with open(os.path.join(folder, "report.html"), "w", encoding="utf-8") as file:
        file.write(page.replace(TABLES, ""))
    words = ["--headless", "--no-sandbox", "--disable-gpu", "--hide-scrollbars", "--disable-lcd-text", "--force-device-scale-factor=1"]
    words += [f"--user-data-dir={folder}/user", f"--window-size={SIZE}", f"--screenshot={folder}/shot.png", f"file://{folder}/report.html"]
    subprocess.run(["chromium", *words], check=True, stderr=subprocess.DEVNULL, timeout=120)
    with open(os.path.join(folder, "shot.png"), "rb") as file:
        return file.read()


def chunks(png):
    """Yields the kind and the bytes of each part of a PNG."""
    at = 8
    while at < len(png):
        length, kind = struct.unpack(">I4s", png[at : at + 8])
        yield kind, png[at + 8 : at + 8 + length]
        at += 12 + length


def nearest(left, above, corner):
    """The one of the three neighbours that PNG's fourth filter takes."""
    guess = left + above - corner
    return min((left, above, corner), key=lambda it: abs(guess - it))


def unfiltered(kind, line, above, step):
    """Returns a row of pixels whose filter is undone."""
    row = bytearray(line)
    for n, byte in enumerate(row):
        left, corner = (row[n - step], above[n - step]) if n >= step else (0, 0)
        row[n] = byte + (0, left, above[n], (left + above[n]) // 2, nearest(left, above[n], corner))[kind] & 255
    return row


def pixels(png):
    """Returns the rows of pixels, each as three bytes."""
    parts = list(chunks(png))
    width, height, _, kind = struct.unpack(">IIBB", dict(parts)[b"IHDR"][:10])
    step = BYTES[kind]
    data, length = zlib.decompress(b"".join(it for name, it in parts if name == b"IDAT")), width * step + 1
    rows, above = [], bytearray(width * step)
    for at in range(0, height * length, length):
        above = unfiltered(data[at], data[at + 1 : at + length], above, step)
        rows.append([bytes(above[n : n + 3]) for n in range(0, len(above), step)])
    return rows


def distance(one, other):
    return sum((a - b) ** 2 for a, b in zip(one, other))


def few_colours(rows):
    """Returns the colours that come most often and are apart, and for each colour the number of the nearest."""
    counts = collections.Counter(it for row in rows for it in row)
    chosen = []
    for colour, _ in counts.most_common():
        if len(chosen) < COLOURS and all(distance(colour, it) > APART for it in chosen):
            chosen.append(colour)
    return chosen, {it: min(range(len(chosen)), key=lambda n: distance(it, chosen[n])) for it in counts}


def chunk(kind, data):
    return struct.pack(">I", len(data)) + kind + data + struct.pack(">I", zlib.crc32(kind + data))


def small(rows):
    """Returns a PNG with four bits for a pixel."""
    chosen, near = few_colours(rows)
    data = bytearray()
    for row in rows:
        numbers = [near[it] for it in row] + [0] * (len(row) % 2)
        data.append(0)
        data += bytes(high << 4 | low for high, low in zip(numbers[::2], numbers[1::2]))
    head = struct.pack(">IIBBBBB", len(rows[0]), len(rows), 4, 3, 0, 0, 0)
    parts = chunk(b"IHDR", head), chunk(b"PLTE", b"".join(chosen)), chunk(b"IDAT", zlib.compress(bytes(data), 9)), chunk(b"IEND", b"")
    return b"\x89PNG\r\n\x1a\n" + b"".join(parts)


def main():
    with tempfile.TemporaryDirectory(prefix="picture-") as folder:
        png = small(pixels(shot(os.path.abspath(sys.argv[1]), folder)))
    with open(os.path.join(TOP, "docs", "report.png"), "wb") as file:
        file.write(png)
    print(f"docs/report.png has {len(png)} bytes")


if __name__ == "__main__":
    main()
