#!/usr/bin/env python3
"""Writes the names that are built into `composecheck`, as the text of a header: crates/builtin_names/src/lines.rt. name_tables.py makes the tables of it.

  names.py HEADER.. OUT            writes OUT from the headers, and prints which lines came and which went
  names.py --check HEADER.. OUT    writes nothing; the status is 1 if OUT is not what would be written

A header is in the form of keysymdef.h or of XF86keysym.h, whose XF86XK_Launch1 is the keysym XF86Launch1, as libX11 and libxkbcommon call it. Of a definition its
name, its value and the character in its comment are kept."""
import os
import re
import sys

DEFINITION = re.compile(
    r"#define (XF86|)XK_(\w+)[ \t]+(?:0x([0-9a-fA-F]{1,8})|_EVDEVK\(0x([0-9a-fA-F]{1,3})\))[ \t]*(?:/\*[ \t]*\(?[ \t]*U\+([0-9A-Fa-f]{4,6})(?![0-9A-Fa-f]))?"
)
# The keysym of the kernel's key 0: _EVDEVK of XF86keysym.h adds the key's number.
KERNEL_KEYS = 0x10081000
HEAD = """//! The names as data, written by `make names`.

/// The lines of the header.
#[rattlefmt::skip]
pub static LINES: &str = \""""
TAIL = '";\n'


def is_graphic(character):
    """Returns whether a comment assigns the character to its keysym: control characters and surrogates are not assigned (docs/FORMATS.md)."""
    return not (character < 0x20 or 0x7F <= character <= 0x9F or 0xD800 <= character <= 0xDFFF)


def lines_of(path):
    """Returns the lines of the definitions of a header."""
    found = []
    with open(path, encoding="utf-8") as file:
        for definition in filter(None, map(DEFINITION.match, file)):
            vendor, name, value, kernel_key, character = definition.groups()
            keysym = int(value, 16) if value else KERNEL_KEYS + int(kernel_key, 16)
            is_assigned = character and is_graphic(int(character, 16))
            found.append(f"#define XK_{vendor}{name} {keysym:#x}" + (f" /*U+{character.upper()}*/" if is_assigned else ""))
    return found


def main():
    *headers, out = [it for it in sys.argv[1:] if it != "--check"]
    lines = list(dict.fromkeys(line for header in headers for line in lines_of(header)))
    text = HEAD + "".join(f"{line}\n" for line in lines) + TAIL
    before = ""
    if os.path.isfile(out):
        with open(out, encoding="utf-8") as file:
            before = file.read()
    old = before.removeprefix(HEAD).removesuffix(TAIL).splitlines()
    for line in [it for it in lines if it not in set(old)]:
        print(f"+ {line}")
    for line in [it for it in old if it not in set(lines)]:
        print(f"- {line}")
    if "--check" in sys.argv[1:]:
        return int(text != before)
    with open(out, "w", encoding="utf-8") as file:
        file.write(text)
    return 0


if __name__ == "__main__":
    sys.exit(main())
