#!/usr/bin/env python3
"""Proves programs and static libraries with each library that they stand on, as far as they are not proved yet, and builds them.

  build.py NAME ..

Nothing is built that is not proved, so a first build takes long: it says about how many minutes are left, by the seconds that docs/made/TIMES.md has for each
crate and by how fast this machine was so far. What is proved is kept where the gate keeps it (proofs.py), so that neither proves what the other has, and
a build that was stopped goes on from there. What is built is left in crates/*/out: the programs and static libraries alone (tools/fill.py puts the
libraries there too, for `rt check`)."""
import os
import re
import subprocess
import sys
import tempfile

import edits
import measured

# What the lines of proofs.py say of a crate, where what is said of one begins, and what is said of one that is kept: by the gate's own store, or the kit's.
ENDED = re.compile(r"rt: (\w+) (NOT PROVED|proved|is kept)\b.*\n?")
BEGUN = re.compile(r"== \w+\n")
KEPT = re.compile(r"an earlier run (has|on this machine) proved ")


def needed(rt, names):
    """Returns the named crates and all below them, each after those that it stands on."""
    known = {it.name: it for it in rt.rtlib.crates_below(os.getcwd())}
    unknown = [it for it in names if it not in known]
    if unknown:
        sys.exit(f"build: no crate is called {' or '.join(unknown)}")
    wanted = {crate.name: crate for name in names for crate in [*known[name].below(), known[name]]}
    return sorted(wanted.values(), key=lambda it: len(it.below()))


class Pace:
    """How long what is left takes: by the processor time that each crate was measured to take, and by what those took that this run has proved."""

    def __init__(self, crates, processors, file):
        self.crates, self.processors, self.file = crates, processors, file
        self.seconds = {it.name: measured.seconds_of(it) for it in crates}
        self.left = {it.name for it in crates}

    def factor(self):
        """Returns how many times as long as it was measured the proof of a crate takes here."""
        taken = {crate: row[0] for (crate, kind), row in measured.rows_of(self.file).items() if kind == "proof" and crate in self.seconds}
        known = sum(self.seconds[it] for it in taken)
        return sum(taken.values()) / known if known > 60 else 1.0

    def minutes_left(self):
        """Returns the minutes that are likely left: what is left over all processors, or the longest chain of it, of which a proof uses about two."""
        chains = {}
        for it in self.crates:
            below = max((chains[dep.name] for dep in it.deps if dep.name in chains), default=0)
            chains[it.name] = below + self.seconds[it.name] * (it.name in self.left)
        work = sum(self.seconds[it] for it in self.left)
        return max(1, round(self.factor() * max(work / self.processors, max(chains.values()) / min(2, self.processors)) / 60))

    def left_in_words(self):
        return f"about {self.minutes_left()} minutes left" if self.left else "done"


def follow(lines, pace):
    """Prints how far the proofs are, and all that is said of a crate that is not proved. Returns whether each is, and what was said after the last one."""
    said, are_proved = [], True
    for line in lines:
        said = [line] if BEGUN.fullmatch(line) else [*said, line]
        ended = ENDED.fullmatch(line)
        if not ended:
            continue
        if ended[2] == "NOT PROVED":
            are_proved = False
            print("".join(said), end="", flush=True)
        else:
            pace.left.discard(ended[1])
            if not any(KEPT.search(it) for it in said):
                print(f"{ended[1]} is proved, the last of {len(pace.crates) - len(pace.left)} of {len(pace.crates)}: {pace.left_in_words()}", flush=True)
        said = []
    return are_proved, said


def main():
    os.chdir(measured.TOP)
    rt, names = edits.load_rt(), sys.argv[1:]
    with tempfile.TemporaryDirectory(prefix="build-") as room:
        file = os.path.join(room, "measured")
        open(file, "w", encoding="utf-8").close()
        pace = Pace(needed(rt, names), rt.processors(), file)
        print(f"{' and '.join(names)}: {len(pace.crates)} crates, and nothing is built that is not proved. From nothing it takes about {pace.minutes_left()} "
              "minutes; what an earlier run proved takes none. `make try` builds the program without a proof.", flush=True)
        command = [sys.executable, os.path.join("tools", "proofs.py"), file, "--without-edits", *names]
        with subprocess.Popen(command, stdout=subprocess.PIPE, stderr=subprocess.STDOUT, text=True, errors="replace") as ran:
            are_proved, said = follow(ran.stdout, pace)
    if are_proved and ran.returncode:
        print("".join(said), end="", flush=True)
    return 0 if are_proved and ran.returncode == 0 else 1


if __name__ == "__main__":
    sys.exit(main())
