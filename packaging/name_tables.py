#!/usr/bin/env python3
"""Writes the built-in names as tables, and the parts of the proof that these are what reading their header gives.

  name_tables.py CRATES            writes them from CRATES/builtin_names and the core names in CRATES/keysym_core
  name_tables.py --check CRATES    writes nothing; the status is 1 if a file is not what would be written

The names are one text, with where each begins and its keysym. A name, a keysym with a name, and a keysym with a character are each looked up at one
place, by a hash without collisions (specs/Places.antt): the places of a group of keys are shifted by as much as keeps them all apart."""
import os
import re
import sys

CORE = re.compile(r'\("([^"]*)", (0x[0-9a-f]+)\)')
DEFINITION = re.compile(r"#define XK_(\w+) 0x([0-9a-f]+)(?: /\*U\+([0-9A-F]+)\*/)?")
# As in specs/Places.antt and src/places.rt.
SPREAD, GROUPS, PLACES = 0xFF51AFD7ED558CCD, 1024, 4096
# As in src/hints.rt, and how many hints there are for all names.
SPREAD_OF_FIRST, SPREAD_OF_LAST, HINTS = 0x9E3779B97F4A7C15, 0xFF51AFD7ED558CCD, 8192
# So many lines are read in one part of the proof, and so many parts stand in a file.
LINES_OF_PART, PARTS_OF_FILE = 64, 10
WRITTEN = "written by `make names`."


class Names:
    """The rows of the core names and of a header's lines, its characters, and how many there are of both after each line."""

    def __init__(self, core, header):
        self.rows, self.characters, self.after = list(core), {}, []
        known = dict(core)
        for line in header:
            name, value, character = DEFINITION.fullmatch(line).groups()
            keysym = int(value, 16)
            if name not in known:
                known[name] = keysym
                self.rows.append((name, keysym))
            if character:
                self.characters.setdefault(keysym, int(character, 16))
            self.after.append((len(self.rows), len(self.characters)))


def is_fixed(keysym):
    """Returns whether the text of a keysym is fixed, whatever character a header assigns to it."""
    return 0x20 <= keysym <= 0x7E or 0xA0 <= keysym <= 0xFF or 0x1000100 <= keysym <= 0x110FFFF or 0xFFB0 <= keysym <= 0xFFB9


def mixed(value, number):
    return (value + number) * SPREAD % 2**64


def name_hash(name):
    value = 0
    for byte in name.encode():
        value = mixed(value, byte)
    return value


def placed(keys):
    """Returns the shift of each group, and the index at each place. Keys are the index of each hash; the largest groups are placed first."""
    groups = {}
    for value, index in keys.items():
        groups.setdefault(value >> 54, []).append((value >> 42, index))
    shifts, indexes, taken = [0] * GROUPS, [0] * PLACES, set()
    for group, members in sorted(groups.items(), key=lambda it: -len(it[1])):
        for shift in range(256):
            places = [(place + shift) % PLACES for place, _ in members]
            if len(set(places)) == len(places) and not taken & set(places):
                break
        else:
            sys.exit(f"no shift of group {group} keeps its keys apart: another SPREAD may")
        shifts[group] = shift
        taken |= set(places)
        for place, (_, index) in zip(places, members):
            indexes[place] = index
    return shifts, indexes


def slot_of(name):
    """Returns the slot of a name's hint: a hash of its first and last bytes, eight or four or one."""
    size = next((it for it in (8, 4) if len(name) >= it), 1)
    first, last = (int.from_bytes(it, "little") for it in (name.encode()[:size], name.encode()[-size:]))
    return ((first * SPREAD_OF_FIRST + last * SPREAD_OF_LAST) % 2**64 >> 32) * HINTS >> 32


def hints_of(names):
    """Returns the index of the first name of each slot."""
    first = {}
    for index, (name, _) in enumerate(names.rows):
        first.setdefault(slot_of(name), index)
    return [first.get(slot, 0) for slot in range(HINTS)]


def filled(items):
    """Returns array elements in lines of at most 100 columns."""
    lines = [[]]
    for item in items:
        if lines[-1] and 4 + sum(len(it) + 2 for it in lines[-1]) + len(item) + 1 > 100:
            lines.append([])
        lines[-1].append(item)
    return "".join(f"    {', '.join(it)},\n" for it in lines)


def grid(numbers, width):
    return "".join(f"    [{', '.join(map(str, numbers[at:at + width]))}],\n" for at in range(0, len(numbers), width))


def static(doc, name, kind, value):
    return f"\n/// {doc}\n#[rattlefmt::skip]\npub(crate) static {name}: {kind} = {value};\n"


def array(doc, name, kind, items):
    return static(doc, name, f"[{kind}; {len(items)}]", f"[\n{filled(items)}]")


def pairs(items):
    return [f"({keysym:#x}, '\\u{{{character:x}}}')" for keysym, character in items]


def rows_file(names):
    starts = [0]
    for name, _ in names.rows:
        starts.append(starts[-1] + len(name))
    text = "".join(name for name, _ in names.rows)
    return (
        f"//! The rows of the built-in names, {WRITTEN}\n"
        + static("The names, one after another.", "TEXT", "&str", f'"{text}"')
        + array("Where each name begins in the text, and the text's end.", "STARTS", "u16", list(map(str, starts)))
        + array("The keysym of each name.", "KEYSYMS", "u32", [f"{keysym:#x}" for _, keysym in names.rows])
    )


def characters_file(names):
    counting = sorted(((keysym, it) for keysym, it in names.characters.items() if not is_fixed(keysym)), key=lambda it: (it[1], it[0]))
    return (
        f"//! The characters of the built-in names, {WRITTEN}\n"
        + array("Each keysym that has a character in the header, and that character, in the header's order.", "CHARACTERS", "(u32, char)", pairs(names.characters.items()))
        + array("Those that are used for texts, by character and then by keysym.", "BY_CHARACTER", "(u32, char)", pairs(counting))
    )


def places_file(names):
    first = {}
    for index, (_, keysym) in enumerate(names.rows):
        first.setdefault(mixed(0, keysym), index)
    tables = (
        ("NAME", "the names", {name_hash(name): index for index, (name, _) in enumerate(names.rows)}),
        ("KEYSYM", "the keysyms, for the first name of each", first),
        ("CHARACTER", "the keysyms that have a character", {mixed(0, keysym): index for index, keysym in enumerate(names.characters)}),
    )
    text = f"//! The places of the built-in names, {WRITTEN}\n"
    for name, what, keys in tables:
        shifts, indexes = placed(keys)
        text += static(f"The shift of each group of {what}.", f"{name}_SHIFTS", "[[u8; 32]; 32]", f"[\n{grid(shifts, 32)}]")
        text += static(f"The index at each place of {what}.", f"{name}_INDEXES", "[[u16; 64]; 64]", f"[\n{grid(indexes, 64)}]")
    hints = f"[\n{grid(hints_of(names), 64)}]"
    return text + static("The index at which a name most likely stands, by the slot of its first and last bytes.", "NAME_HINTS", "[[u16; 64]; 128]", hints)


def parts_of(names, header, core):
    """Returns the parts of the proof: each says what so many lines of the header add to the rows and the characters."""
    found, offset, before = [], 0, (len(core), 0)
    for first in range(0, len(header), LINES_OF_PART):
        lines = header[first:first + LINES_OF_PART]
        size, after = sum(len(it) + 1 for it in lines), names.after[first + len(lines) - 1]
        number = len(found) + 1
        found.append(
            f"\npub part-{number} : Part {offset} {size} {first + 1} {len(lines)} (some_of {before[0]} {before[1]}) (some_of {after[0]} {after[1]})\n"
            "unfolding built_in_rows built_in_characters is_utf8 chars encode_utf8\n"
            f"part-{number} = record {{ ends = refl; count = refl; read = refl }}\n"
        )
        offset, before = offset + size, after
    return found


PART_HEAD = f"""-- The header of the built-in names, read part by part: {WRITTEN}
use Rattle.std.proofs.Common.{{refl}}
use Rattle.std.specs.Str.{{is_utf8, chars}}
use Rattle.std.specs.Char.{{encode_utf8}}
use Rattle.keysym_core.specs.BuiltIn.{{built_in_rows, built_in_characters}}
use Rattle.keysym_core.proofs.HeaderParts.{{Part, some_of}}
"""


def proof_files(parts):
    """Returns the files of the proof by their names: the parts, and the law that they come to."""
    files, uses = {}, ""
    for number, at in enumerate(range(0, len(parts), PARTS_OF_FILE), 1):
        own = parts[at:at + PARTS_OF_FILE]
        files[f"HeaderPart{number}.antt"] = PART_HEAD + "".join(own)
        uses += f"use Rattle.keysym_core.proofs.HeaderPart{number}.{{{', '.join(f'part-{at + it}' for it in range(1, len(own) + 1))}}}\n"
    steps = "\n    ∙ ".join(f"after_part part-{number}" for number in range(1, len(parts) + 1))
    files["HeaderIsRead.antt"] = f"""-- The header of the built-in names gives the names and characters of the tables: written by `make
-- names`.
use Rattle.std.proofs.Common.{{◌≡◌, ◌∙◌}}
use Rattle.std.specs.Prelude.{{Ok}}
use Rattle.keysym_core.specs.Header.{{names_of}}
use Rattle.keysym_core.specs.BuiltIn.{{built_in, built_in_rows, built_in_characters}}
use Rattle.keysym_core.proofs.HeaderParts.{{after_part}}
{uses}use Rattle.builtin_names.specs.declared.lines.TheConstants.{{LINES}}

-- reading the header gives the names and characters of the tables
pub header_is_read : names_of LINES.now ≡ Ok built_in
unfolding built_in_rows built_in_characters
header_is_read =
    {steps}
"""
    return files


def listed(modules, proofs):
    """Returns the list of a crate's proof files with these in it."""
    others = [it for it in modules.splitlines() if not re.fullmatch(r"pub mod Header(Part\d+|IsRead)", it)]
    return "".join(f"{it}\n" for it in others + [f"pub mod {name.removesuffix('.antt')}" for name in proofs])


def read(path):
    if not os.path.isfile(path):
        return ""
    with open(path, encoding="utf-8") as file:
        return file.read()


def main():
    crates = sys.argv[-1]
    folder = f"{crates}/keysym_core"
    core = [(name, int(value, 16)) for name, value in CORE.findall(read(f"{folder}/src/core_names.rt"))]
    header = read(f"{crates}/builtin_names/src/lines.rt").split('"')[1].splitlines()
    names = Names(core, header)
    files = {
        f"{folder}/src/built_in_rows.rt": rows_file(names),
        f"{folder}/src/built_in_characters.rt": characters_file(names),
        f"{folder}/src/built_in_places.rt": places_file(names),
    }
    proofs = proof_files(parts_of(names, header, core))
    for name, text in proofs.items():
        files[f"{folder}/proofs/{name}"] = text
    files[f"{folder}/proofs/Lib.antt"] = listed(read(f"{folder}/proofs/Lib.antt"), proofs)
    changed = {path: text for path, text in files.items() if read(path) != text}
    if "--check" in sys.argv[1:]:
        print("\n".join(sorted(changed)))
        return int(bool(changed))
    for path, text in changed.items():
        with open(path, "w", encoding="utf-8") as file:
            file.write(text)
    return 0


if __name__ == "__main__":
    sys.exit(main())
