#!/usr/bin/env python3
"""`rt ci`, with the must-fail edits tried over the proofs of their crates, several in one check.

  proofs.py FILE [--anew] [--without-edits] [CRATE ..]

`rt ci` proves a crate that has edits a second time, to keep work for them, and then tries each edit in a check of its own. Here each
library is built with its proofs in it, which `rt ci` leaves out. These are the kept work over which its edits are tried (edits.py).
All else of `rt ci` stays as it is. What a run passed is kept on this machine, by the checksums of all that it read, and what is kept is
not proved or tried again, but with --anew: in the kit's store, where the kit has one, and else in the gate's own (store.py). With names it
does these crates and those below them, on a copy, and brings what was built of the named programs and static libraries alone. Without edits it
proves alone, as `make` does (build.py). What each check took is written to FILE. Tests are not proved here, but run by examples.py.
"""
import contextlib
import hashlib
import json
import os
import shutil
import sys
import time
import traceback

import edits
import kit
import measured
import store


# A proof that needs more than this part of the memory has no more jobs than rt gives it: each job beside the first needs about half as much once more.
PART_OF_A_CHAIN = 0.3
# A gate on a slow machine has to end all the same. Edits of which no check has begun by then, in seconds, are left for the next run.
SECONDS_FOR_EDITS = 70 * 60


def take_checked(crate, kept):
    """Makes kept work of a proved library: each of its checked modules as a file, in a folder that is named after the prover. Returns the names
    of the library's functions, of each of which one of these modules links the theorem."""
    functions, link = set(), f"Rattle-{crate.name}-proofs.TheLinks."
    # (a static library has no rlib, but any below it was made by the same prover)
    proved, built = (f"{crate.folder}/out/checked", crate.below()[0].rlib) if crate.is_static else (crate.rlib, crate.rlib)
    with open(f"{built}/format", encoding="utf-8") as file:
        build = dict(it.rstrip("\n").partition(" ")[::2] for it in file)["rattle-build"]
    folder = f"{kept}/{build.replace('/', '_')}"
    os.makedirs(folder)
    with open(f"{proved}/toolchain/checked.a", "rb") as archive, open(f"{proved}/toolchain/checked.json", encoding="utf-8") as names:
        for name, start, size in map(json.loads, names):
            # (some names have a folder of their own)
            os.makedirs(os.path.dirname(f"{folder}/{name}"), exist_ok=True)
            archive.seek(start)
            with open(f"{folder}/{name}.oantt", "wb") as file:
                file.write(archive.read(size))
            if name.startswith(link):
                functions.add(name.removeprefix(link).replace("-", "::"))
    return functions


class Results:
    """What the edits of a crate came to, kept in the kit's store beside the proofs that they stand on."""

    def __init__(self, rt, kept, crate):
        self.rt, self.kept, self.crate = rt, kept, crate

    def name(self, file):
        """Returns the name of an edit's result, which no edit has that is tried in a check of its own."""
        return self.kept.of_edit(file, hashlib.sha256(f"several in a check, with refused answers {self.kept.key(self.crate)}".encode()).hexdigest())

    def find(self, file):
        """Returns the line of an edit that an earlier run saw refused, or None."""
        found = self.kept.tried(self.name(file))
        return found and found[1]

    def keep(self, file, line):
        if self.kept.is_untouched(self.crate):
            self.kept.keep_tried(self.name(file), self.rt.REFUSED, line)


class Gate:
    """`rt ci` with some of its calls replaced."""

    def __init__(self, rt, file, kept, tries_edits=True):
        """`kept` is the gate's own store, where the kit has none."""
        self.rt, self.trials, self.kept, self.tries_edits = rt, {}, kept, tries_edits
        self.last = time.monotonic() + SECONDS_FOR_EDITS
        self.crate_ci, self.in_lanes, self.on_chains = rt.Crate.ci, rt.in_lanes, set()
        measured.measure(rt.rtlib, file, self.on_chains)
        rt.Crate.ci = lambda crate, flags, tests: self.prove(crate, flags, tests)
        rt.Crate.has_tests = lambda crate: False
        if kept:
            # (an older kit knows no edit that neither passed nor failed: it counts those that are left as passed, and the gate takes them off)
            rt.must_fail_all = lambda crate, files, flags: [(passes is not False, line) for passes, line in self.trials[crate.name].end()] if files else []
            rt.in_lanes = lambda tasks: self.in_measured_lanes(self.with_trials(tasks))
        else:
            rt.add_edits, rt.in_lanes = self.add_edits, self.in_measured_lanes
            kit.keep_static_libraries(rt)

    def prove(self, crate, flags, tests):
        """Proves a crate, over what the gate's own store has, if there is one. A library that has edits is built with its proofs in it."""
        if tests:
            return self.crate_ci(crate, flags, tests)
        if store.has_proofs(self.rt, crate):
            crate.cuts_libraries = False
        prove = lambda: kit.prove_static(self.rt, crate, flags) if crate.is_static else self.crate_ci(crate, flags, tests)
        return self.kept.pass_crate(crate, lambda: self.without_stamp(crate, prove())) if self.kept else prove()

    def without_stamp(self, crate, status):
        """Takes away the stamp of a library that was just built, so that later commands build their own, as after `rt ci`."""
        with contextlib.suppress(FileNotFoundError):
            os.remove(f"{os.path.dirname(crate.rlib)}/stamp")
        return status

    def add_trial(self, tasks, crate, waits, is_well, last, results):
        """Adds the tasks that try a crate's edits, so that several lanes can share them, and returns their trial. `last` is the call that ends it."""
        kept_work = f"{crate.folder}/out/proved"

        def prepare():
            shutil.rmtree(kept_work, ignore_errors=True)
            # (of a static library that an earlier run proved no module is here: it is proved once more)
            if crate.is_static and not os.path.isdir(f"{crate.folder}/out/checked"):
                return trial.proof()
            return take_checked(crate, kept_work)

        def end(given, jobs):
            try:
                return last(given, jobs)
            finally:
                shutil.rmtree(kept_work, ignore_errors=True)
                shutil.rmtree(f"{crate.folder}/out/checked", ignore_errors=True)

        prepared = prepare if crate.makes_rlib() or crate.is_static else None
        trial = edits.Trial(self.rt, crate, kept_work, f"{crate.folder}/out/edits", results=results, prepare=prepared, last=self.last)
        tasks.update(trial.tasks(waits, measured.seconds_of(crate, "edits"), is_well, end))
        return trial

    def add_edits(self, tasks, crate, files, first, waits, is_well, kept):
        """Adds the tasks that try a crate's edits. As rt's, it returns what gives their results, in order, and what gives those of earlier runs."""
        if not files or not self.tries_edits:
            return lambda given: [], dict
        last = lambda given, jobs: trial.end() if is_well(given) else []
        trial = self.add_trial(tasks, crate, waits, is_well, last, Results(self.rt, kept, crate))
        # (an edit that cannot be read fails here; what rt calls a bad one neither passes nor fails)
        kinds = {True: self.rt.REFUSED, False: self.rt.MISSED, None: self.rt.BAD}
        return lambda given: [(kinds[passes], line) for passes, line in given[crate.name, "edits"]], lambda: trial.earlier

    def with_trials(self, tasks):
        """Returns the tasks of a kit that has no `add_edits`, with one of edits as several. The last of them is the kit's own, which calls `must_fail_all`."""
        crates, more = {it.name: it for it in self.rt.rtlib.crates_below(os.getcwd())}, {}
        for (name, kind), task in tasks.items():
            if kind == "edits" and not self.tries_edits:
                more[name, kind] = task[0], 0, task[2], lambda given, jobs: ([], [], [])
            elif kind == "edits" and self.rt.edits_of(crates[name])[0]:
                is_well = lambda given, name=name: given[name, "proof"] and given[name, "tests"]
                self.trials[name] = self.add_trial(more, crates[name], task[0], is_well, task[-1], store.Results(self.kept, crates[name]))
            else:
                more[name, kind] = task
        return more

    def in_measured_lanes(self, tasks):
        """Runs rt's tasks with the measured seconds of proofs in the place of lines, and with the memory that the checks of a crate took. A proof
        on a long chain of proofs gets four jobs if it needs little memory, and the others give way to it: how many jobs a proof has is settled when it begins, so that
        it would have one for good if it began beside three others."""
        crates = {it.name: it for it in self.rt.rtlib.crates_below(os.getcwd())}
        self.on_chains.update(on_long_chains([*crates.values()]))
        free = self.rt.free()

        def weighed(name, kind, waits, work, memory, call):
            # (a task of some edits is named after its crate and their number)
            crate = crates[name.partition(" ")[0]]
            seconds = work if kind == "edits" else work and measured.seconds_of(crate, kind)
            needs = measured.memory_of(crate, memory)
            least = min(4, self.rt.processors()) if kind == "proof" and name in self.on_chains and needs < PART_OF_A_CHAIN * free else 1
            return waits, seconds, needs, lambda given, jobs: named(f"{name} {kind}", lambda: call(given, max(jobs, least)))

        return self.in_lanes({it: weighed(*it, *task) for it, task in tasks.items()})


def named(task, call):
    """Calls the call of a task, and says which task it was where an exception ends it."""
    try:
        return call()
    except Exception as error:
        print(f"proofs: the task '{task}' ended by {error!r}", flush=True)
        raise


def on_long_chains(crates):
    """Returns the names of the crates, which are given from the lowest up, on a chain of proofs, each over the one before, that takes nearly as
    long as the longest one."""
    seconds = {it.name: measured.seconds_of(it) for it in crates}
    below, above = {}, dict.fromkeys(seconds, 0)
    for it in crates:
        below[it.name] = seconds[it.name] + max((below[dep.name] for dep in it.deps), default=0)
    for it in reversed(crates):
        for dep in it.deps:
            above[dep.name] = max(above[dep.name], above[it.name] + seconds[it.name])
    return {it for it in seconds if below[it] + above[it] >= 0.95 * max(below.values())}


def main():
    file, *words = sys.argv[1:]
    rt, is_anew = edits.load_rt(), "--anew" in words
    Gate(rt, os.path.abspath(file), None if kit.has_store(rt) else store.Store(rt, is_anew), "--without-edits" not in words)
    try:
        return kit.ci(rt, is_anew, [it for it in words if not it.startswith("--")])
    except Exception as error:
        # (what stands above the last frames are rt's lanes, whatever went wrong in them)
        sys.exit("".join(traceback.format_exception(error, limit=-3)))


if __name__ == "__main__":
    sys.exit(main())
