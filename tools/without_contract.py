#!/usr/bin/env python3
"""without_contract.py: lists the public functions that any body passes, in the order of the crates: those that give a value or change what is lent to
them, and have no `ensures`. `rt plant` calls them `no-ensures`; its own reader finds them here without a check. tests/any_body.txt keeps the list, and
tests/any_body.py compares it."""
import importlib.machinery
import os
import types

import edits
import measured


def kit_reader(rt):
    """The kit's reader of functions, which has no name that can be imported."""
    module = types.ModuleType("rt_plant_bodies")
    module.__file__ = os.path.join(rt.rtlib.KIT, "bin", "rt-plant-bodies")
    importlib.machinery.SourceFileLoader(module.__name__, module.__file__).exec_module(module)
    return module


def passed_in(reader, folder, root):
    """The files and names of these functions in the folder of a crate whose root file this is, each name with that of its type."""
    source = reader.Source(folder)
    source.read(root)
    return [f"{it.file} {it.shown.partition(' ')[2]}" for it in source.functions if is_passed_by_any(it)]


def is_passed_by_any(function):
    """Whether any body of the right type meets the contract of a function."""
    is_declared = not function.in_trait or function.block.is_trait
    is_seen = function.is_pub and function.ret != ["!"] and (function.ret or function.mutates)
    return bool(is_seen and is_declared and not function.has_ensures)


def listed(rt):
    """The lines of the list. Several functions can have one name."""
    reader, found = kit_reader(rt), []
    for crate in rt.rtlib.crates_below(measured.TOP):
        root = "src/main.rt" if crate.is_program else "src/lib.rt"
        found += [f"{crate.name} {it}" for it in passed_in(reader, crate.folder, root)]
    return found


def main():
    print("".join(f"{it}\n" for it in listed(edits.load_rt())), end="")


if __name__ == "__main__":
    main()
