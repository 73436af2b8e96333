#!/usr/bin/env python3
"""fill.py [CRATE ..]: puts what the gate has proved on this machine into crates/*/out, so that `rt check` above it begins at once.

It takes the libraries below the named crates, or all of them, from where the gate keeps what it proves (the kit's store, or the gate's own where the
kit has none: store.py), as far as their files are those that were proved there, and prints the names of those that are to be proved. `rt check` then
proves these, and the crate that it is called in. (`rt check` itself looks only at what other checks have left in checkouts.)"""
import contextlib
import hashlib
import json
import os
import shutil
import sys
import tempfile

import edits
import kit
import measured
import store

# The name of the file in a filled library that says which entry of the kit's store it is.
MARK = "filled"


class KitStore:
    """The kit's store, as far as it is read here."""

    def __init__(self, rt, crates):
        self.kept = rt.Kept(crates)

    def take(self, crate):
        """Links a library's files from its entry, if there is one, and returns whether there is. The sums in an entry are those of its files."""
        if not all(it.name in self.kept.rlibs for it in crate.below()):
            return False
        key = self.kept.key(crate)
        entry = self.kept.place(crate, False, key)
        try:
            with open(f"{entry}/made.json", encoding="utf-8") as file:
                made = json.load(file)["files"]
        except FileNotFoundError:
            return False
        self.kept.rlibs[crate.name] = hashlib.sha256(repr([(path, of) for path, of in made]).encode()).hexdigest()
        folder = os.path.dirname(crate.rlib)
        if not (crate.is_built() and os.path.isfile(f"{folder}/{MARK}") and store.read(f"{folder}/{MARK}").decode() == key):
            put(crate, folder, key, [(f"{entry}/{number}", path) for number, (path, _) in enumerate(made)])
        return True


def put(crate, folder, key, files):
    """Links the files of a library's entry into a new folder, with the stamp that says what it was made from, and puts that in the old one's place."""
    out = os.path.dirname(folder)
    os.makedirs(out, exist_ok=True)
    new = tempfile.mkdtemp(prefix="filled-", dir=out)
    for old, path in files:
        to = f"{new}/{os.path.relpath(path, 'rlib')}"
        os.makedirs(os.path.dirname(to), exist_ok=True)
        store.link(old, to)
    for name, text in ((MARK, key), ("stamp", crate.stamp())):
        with open(f"{new}/{name}", "w", encoding="utf-8") as file:
            file.write(text)
    gone = tempfile.mkdtemp(prefix="gone-", dir=out)
    with contextlib.suppress(FileNotFoundError):
        os.rename(folder, f"{gone}/rlib")
    os.rename(new, folder)
    shutil.rmtree(gone)


class OwnStore:
    """The gate's own store."""

    def __init__(self, rt, crates):
        self.kept = store.Store(rt, is_anew=False)

    def take(self, crate):
        """Puts a proved library into the crate's folder, with the stamp that says what it was made from, and returns whether it is there."""
        if crate.is_built():
            return True
        if not crate.makes_rlib() or not self.kept.take(crate, self.kept.key(crate)):
            return False
        with open(f"{os.path.dirname(crate.rlib)}/stamp", "w", encoding="utf-8") as file:
            file.write(crate.stamp())
        return True


def crates_here(rt):
    """Returns the crates of this repository. A kit that has a store wants to know first what HANDLES allows, which is part of an entry's name."""
    if not kit.has_store(rt):
        return rt.rtlib.crates_below(os.getcwd())
    rt.Crate.allowed = rt.handles_of(os.getcwd())
    return rt.crates_of(os.getcwd())


def main():
    os.chdir(measured.TOP)
    rt, names = edits.load_rt(), sys.argv[1:]
    rt.rtlib.Crate.cuts_libraries = True
    rt.say = lambda *_: None
    crates = crates_here(rt)
    wanted = {below.name for it in crates if it.name in names for below in it.below()} if names else {it.name for it in crates}
    kept = (KitStore if kit.has_store(rt) else OwnStore)(rt, crates)
    lacking = set()
    for crate in sorted(crates, key=lambda it: len(it.below())):
        if crate.name in wanted and crate.makes_rlib() and ({it.name for it in crate.below()} & lacking or not kept.take(crate)):
            lacking.add(crate.name)
    print("\n".join(f"to be proved: {it.name}" for it in crates if it.name in lacking) or "all of them are proved")
    return 0


if __name__ == "__main__":
    sys.exit(main())
