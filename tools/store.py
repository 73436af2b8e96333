"""The gate's own store of what passed, for kits that have none, so that a later run, in this clone or another on the machine, proves only what has
changed and what stands on it.

It is the folder composecheck-gate of $XDG_CACHE_HOME, or else of ~/.cache. Each entry is a folder that is named after a checksum of all that
the proof read, and is written whole or not at all: of a library what was built of it, of a program what is run, and of a must-fail edit
that was refused its line. What failed is never kept. An entry that was not used for two weeks is cleared."""
import contextlib
import hashlib
import os
import shutil
import tempfile
import time

# It changes with the form of an entry, or with what its name is made of.
FORM = "1"
UNUSED = 14 * 24 * 3600


def sum_of(*parts):
    return hashlib.sha256(repr(parts).encode()).hexdigest()


def files_below(folder, leave_out=()):
    """Returns the paths of all files below a folder, in order, but for those in the folders right in it that are left out."""
    found = []
    for at, folders, names in os.walk(folder):
        folders[:] = [it for it in folders if at != folder or it not in leave_out]
        found += [os.path.relpath(f"{at}/{it}", folder) for it in names]
    return sorted(found)


def read(path):
    with open(path, "rb") as file:
        return file.read()


def texts_of(folder, files):
    """Returns what stands for the files of a folder in a checksum: the path and the sum of each."""
    return [(it, hashlib.sha256(read(f"{folder}/{it}")).hexdigest()) for it in files]


def link(old, new):
    """Links a file, or copies it to another file system."""
    try:
        os.link(old, new)
    except OSError:
        shutil.copy2(old, new)


def made_by(crate):
    """Returns what the gate needs of a proved crate's out/: a library's folder, a program as each compiler has built it, or a static library."""
    names = [crate.name, f"{crate.name}.by-rattle", f"{crate.name}.a"]
    if crate.makes_rlib():
        names = [f"rlib/{crate.name}.rlib"]
    return [it for it in names if os.path.exists(f"{crate.folder}/out/{it}")]


def copied(old, new, names):
    """Copies files and folders from one folder to another. The files of folders are linked: what is built anew is built into a new folder."""
    for it in names:
        os.makedirs(os.path.dirname(f"{new}/{it}"), exist_ok=True)
        if os.path.isdir(f"{old}/{it}"):
            shutil.copytree(f"{old}/{it}", f"{new}/{it}", copy_function=link)
        else:
            shutil.copy2(f"{old}/{it}", f"{new}/{it}")


class Store:
    """What passed, and in this run: the names of the entries of its proved crates, and the sums of its built libraries."""

    def __init__(self, rt, is_anew):
        self.rt, self.is_anew, self.proved, self.built = rt, is_anew, {}, {}
        self.place = os.path.join(os.environ.get("XDG_CACHE_HOME") or os.path.expanduser("~/.cache"), "composecheck-gate")
        for it in os.scandir(self.place) if os.path.isdir(self.place) else ():
            if time.time() - it.stat().st_mtime > UNUSED:
                shutil.rmtree(it.path, ignore_errors=True)
        self.kit = self.sum_of_kit()

    def sum_of_kit(self):
        """Returns the sum of the kit: its name, each of its files by size and time, and what the environment has for its prover."""
        files = [(it, *self.size_and_time(f"{self.rt.KIT}/{it}")) for it in files_below(self.rt.KIT)]
        settings = sorted(it for it in os.environ.items() if it[0].startswith("RATTLE_"))
        return sum_of(FORM, read(f"{self.rt.KIT}/KIT-ID"), files, settings)

    @staticmethod
    def size_and_time(path):
        found = os.stat(path)
        return found.st_size, found.st_mtime_ns

    def key(self, crate):
        """Returns the name of a crate's entry: the sum of all that its proof reads. That is the kit, HANDLES, the crate's line of crates.txt and its
        files, the command, whether its proofs are in what is built, and the libraries below as they were built."""
        root = os.path.dirname(os.path.dirname(crate.folder))
        handles = read(f"{root}/HANDLES") if os.path.isfile(f"{root}/HANDLES") else None
        words = [it.replace(root, "") for it in crate.words(["--jobs", "1"], keeps=False)]
        below = [(it.name, self.sum_of_built(it)) for it in crate.below()]
        files = texts_of(crate.folder, files_below(crate.folder, ("out", "must-fail")))
        return sum_of(self.kit, handles, crate.name, crate.said, words, has_proofs(self.rt, crate), below, files)

    def sum_of_built(self, crate):
        if crate.name not in self.built:
            self.built[crate.name] = sum_of(texts_of(crate.rlib, files_below(crate.rlib)))
        return self.built[crate.name]

    def find(self, key):
        """Returns the folder of an entry that is as it was kept, or None."""
        entry = f"{self.place}/{key}"
        if self.is_anew or not os.path.isdir(entry):
            return None
        try:
            if sum_of(texts_of(f"{entry}/kept", files_below(f"{entry}/kept"))) != read(f"{entry}/sum").decode():
                return None
            os.utime(entry)
        except OSError:
            return None
        return f"{entry}/kept"

    def keep(self, key, fill):
        """Keeps what `fill` writes into a folder, or says why it cannot."""
        try:
            os.makedirs(self.place, exist_ok=True)
            with tempfile.TemporaryDirectory(prefix="part-", dir=self.place) as room:
                os.makedirs(f"{room}/new/kept")
                fill(f"{room}/new/kept")
                with open(f"{room}/new/sum", "w", encoding="utf-8") as file:
                    file.write(sum_of(texts_of(f"{room}/new/kept", files_below(f"{room}/new/kept"))))
                with contextlib.suppress(FileNotFoundError):
                    os.rename(f"{self.place}/{key}", f"{room}/old")
                os.rename(f"{room}/new", f"{self.place}/{key}")
        except OSError as error:
            self.rt.say(f"note: {self.place} does not keep what passed: {error}")

    def take(self, crate, key):
        """Puts what an earlier run built of a crate that it proved where `rt ci` leaves it, and returns whether there was such a run."""
        kept = self.find(key)
        if kept:
            try:
                shutil.rmtree(f"{crate.folder}/out/rlib", ignore_errors=True)
                copied(kept, f"{crate.folder}/out", os.listdir(kept))
            except OSError:
                # (another run has cleared or replaced it meanwhile)
                return False
            self.rt.say("an earlier run has proved it, and nothing that the proof read has changed since", crate.out)
        return bool(kept)

    def pass_crate(self, crate, prove):
        """Takes what an earlier run built of a crate that it proved, or proves it here and keeps that. Returns the status."""
        key = self.key(crate)
        if not self.take(crate, key):
            status = prove()
            if status or self.key(crate) != key:
                return status
            self.keep(key, lambda folder: copied(f"{crate.folder}/out", folder, made_by(crate)))
        self.proved[crate.name] = key
        return 0


def has_proofs(rt, crate):
    """Returns whether a library is built with its proofs in it, over which its edits are tried."""
    return crate.makes_rlib() and bool(rt.edits_of(crate)[0])


class Results:
    """What the edits of a crate came to, kept beside the proofs that they stand on."""

    def __init__(self, store, crate):
        self.store, self.crate = store, crate

    def key(self, file):
        """Returns the name of an edit's entry: the sum of its text, of the scripts that try it and of all that the crate's proof read."""
        scripts = texts_of(os.path.dirname(os.path.abspath(__file__)), ("edits.py", "kit.py", "proofs.py"))
        return sum_of("edit", self.store.proved[self.crate.name], os.path.basename(file), read(file), scripts)

    def find(self, file):
        """Returns the line of an edit that an earlier run saw refused, or None."""
        kept = self.crate.name in self.store.proved and self.store.find(self.key(file))
        return read(f"{kept}/line").decode() if kept else None

    def keep(self, file, line):
        if self.store.proved.get(self.crate.name) == self.store.key(self.crate):
            self.store.keep(self.key(file), lambda folder: self.write(f"{folder}/line", line))

    @staticmethod
    def write(path, line):
        with open(path, "w", encoding="utf-8") as file:
            file.write(line)
