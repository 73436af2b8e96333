#!/usr/bin/env python3
"""gtk_table.py FOLDER: prints the table that is built into GTK as a Compose file. FOLDER is a source tree of GTK 3 or of GTK 4, in which the
table lies as numbers of 16 bits: a row for each first key, with where its sequences of each length are, and then these sequences, each without
its first key and with its text at the end.

A key is the number that the table has, by its name if it has one. Where the table was made of a key such as `<U0338>` that is the number of the
character, 0x338, and no key of a keyboard has it. What GTK makes of dead keys without a table is not in the file."""
import os
import re
import struct
import sys

NAME = re.compile(r"#define GDK_KEY_(\w+)\s+0x([0-9a-fA-F]+)")
SIZES = re.compile(r"gtk_compose_seqs_compact,\s*(\d+),\s*(\d+),\s*(\d+)\s*\}")
ARRAY = re.compile(r"gtk_compose_seqs_compact\[\] = \{(.*?)\};", re.DOTALL)
COMMENT = re.compile(r"/\*.*?\*/", re.DOTALL)
# The mark of a text that is no single number.
IN_TEXTS = 0x8000


def content(folder, *names):
    """The bytes of a file of the source tree."""
    with open(os.path.join(folder, *names), "rb") as file:
        return file.read()


def key_values(folder):
    """The value of each name of a key."""
    return {name: int(value, 16) for name, value in NAME.findall(content(folder, "gdk", "gdkkeysyms.h").decode())}


def sequences(numbers, longest, count, width):
    """The keys of each sequence and the number of its text. There are `count` rows, `width` numbers each; those of the longest sequences come last."""
    for first, *bounds in (numbers[at : at + width] for at in range(0, count * width, width)):
        for length, (start, end) in enumerate(zip(bounds, bounds[1:]), longest + 3 - width):
            for at in range(start, end, length):
                *keys, text = numbers[at : at + length]
                yield (first, *keys), text


def of_gtk3(folder, values):
    """The sequences of GTK 3, whose texts are single characters, and whose table is a header in C."""
    longest, count, width = (int(it) for it in SIZES.search(content(folder, "gtk", "gtkimcontextsimple.c").decode()).groups())
    array = ARRAY.search(COMMENT.sub("", content(folder, "gtk", "gtkimcontextsimpleseqs.h").decode()))[1]
    words = [it.strip() for it in array.split(",") if it.strip()]
    numbers = [values[it[len("GDK_KEY_") :]] if it.startswith("GDK_KEY_") else int(it, 0) for it in words]
    for keys, text in sequences(numbers, longest, count, width):
        yield keys, chr(text)


def of_gtk4(folder):
    """The sequences of GTK 4, whose table and texts are files."""
    sizes = dict(re.findall(r"#define (\w+) (\d+)", content(folder, "gtk", "compose", "gtkcomposedata.h").decode()))
    longest, count, size = (int(sizes[it]) for it in ("MAX_SEQ_LEN", "N_INDEX_SIZE", "DATA_SIZE"))
    numbers = struct.unpack(f"<{size}H", content(folder, "gtk", "compose", "sequences-little-endian"))
    texts = content(folder, "gtk", "compose", "chars")
    for keys, text in sequences(numbers, longest, count, longest + 2):
        at = text & ~IN_TEXTS
        yield keys, texts[at : texts.index(b"\0", at)].decode() if text & IN_TEXTS else chr(text)


def compose_file(folder):
    """The built-in table as a Compose file."""
    values = key_values(folder)
    names = {value: name for name, value in reversed(values.items())}
    is_gtk4 = os.path.isdir(os.path.join(folder, "gtk", "css"))
    lines = []
    for keys, text in of_gtk4(folder) if is_gtk4 else of_gtk3(folder, values):
        quoted = re.sub(r'(["\\])', r"\\\1", text)
        lines.append(" ".join(f"<{names.get(it, hex(it))}>" for it in keys) + f' : "{quoted}"\n')
    return "".join(lines)


if __name__ == "__main__":
    sys.stdout.write(compose_file(sys.argv[1]))
