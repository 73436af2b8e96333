#!/usr/bin/env python3
"""Tries the must-fail edits of a proved repository, several in one check.

  edits.py [--jobs N] [CRATE | CRATE/EDIT ..]

An edit, crates/CRATE/must-fail/NAME.edit, turns the meaning of one function, and the prover must refuse that very function. Edits of
different functions of a crate share one check, over what the proof of the crate kept. An edit is refused there only if the check says
of its own function that a goal of that function is not proved: of a function that only calls a refused one it says something else, so such
edits are tried again in a check without the refused ones. What no such check can judge is tried alone, by the rule of `rt must-fail`. Afterwards the same functions are checked unedited, or the whole crate
where an edit was tried alone, over the same kept work, so that bad kept work cannot refuse anything.

Run it at the top of the repository, with the kit's `rt` on PATH. What is not proved yet is proved first. Each edit has one line:

  must-fail CRATE/NAME.edit: refused by GOAL            the edited function is not proved: GOAL is a goal of its own
  must-fail CRATE/NAME.edit: refused alone: WHY         in a check of its own the crate is not proved
  must-fail CRATE/NAME.edit: NOT REFUSED ..             the crate is still proved: the edit failed
  must-fail CRATE/NAME.edit: BAD EDIT ..                it cannot be applied or read: the edit failed
  must-fail CRATE/NAME.edit: NOT TRIED, NOT JUDGED ..   the crate is not proved, or not over the work that its edits were tried over; or all that
                                                        refuses it is a proof file that names what the edit took away: they failed
  must-fail CRATE/NAME.edit: LEFT FOR THE NEXT RUN      the gate had no time left for it: it neither passed nor failed

The last line is 'N passed, M failed'. The status is 1 if an edit failed, and 130 after an interrupt.
"""
import argparse
import collections
import contextlib
import copy
import glob
import importlib.machinery
import importlib.util
import itertools
import os
import re
import shutil
import signal
import sys
import tempfile
import threading
import time
from typing import NamedTuple

import kit

# More edits in one check save little, and lose more where one of them does not compile. (Of a check that takes 27 seconds with one edit,
# each further edit of compose_cert took 2.4 seconds.)
LARGEST_BATCH = 40
# The most memory that a check of a batch was seen to take, in bytes.
MEMORY = 2_600_000_000
# A function as rt fmt lays it out: no line between its first and its last begins at its indent, but those that its head and its body are written on.
FUNCTION = re.compile(r"^( *)(?:pub(?:\(\w+\))? )?(?:const )?(?:unsafe )?(?:extern \"\w+\" )?fn (\w+).*(?:\n(?:\1(?: .*|\).*|\{|where.*))?)*?\n\1\}$", re.M)
IMPL = re.compile(r"(?:unsafe )?impl(?:<(?:[^<>]|<[^<>]*>)*>)? (?:(.*) for )?(.*) \{")
# A goal that is not proved: such notes stand above the line of their function, and behind the line of the item before.
OPEN_GOAL = re.compile(r"note: src/\S+ it is not proved that .*?\(`([^`]+)`\)(?:;|$)")
ITEM = re.compile(r"\w+ \S+::\S+: ")
# Answers that rattle refuses. Of a function with unproved goals and none refused it prints what to write into its file of answers, for which
# it goes through these goals once more: that took from a twelfth to half of a check.
REFUSED_ANSWERS = "use Rattle.std.proofs.Common.{nothing-has-this-name}\n"
# What a proof file says of a name that the edit took away. That says nothing of the contract, so such an edit fails.
TAKEN = re.compile(r"has no field|is not in scope|has no `")
LEFT = "LEFT FOR THE NEXT RUN: the time for edits has passed"
WEAK = "but only because a proof file names what the edit took away: change a value and keep the names"


class Edit(NamedTuple):
    """An edit of one function's body: its file, the function, and what it writes between two places of a source file."""

    file: str
    function: str
    path: str
    start: int
    end: int
    text: str

    def is_apart(self, other):
        return self.function != other.function and (self.path != other.path or self.end <= other.start or other.end <= self.start)


def load_rt():
    """Returns the kit's command rt as a module. Its rtlib has the crates."""
    path = shutil.which("rt") or sys.exit("edits: there is no rt on PATH")
    loader = importlib.machinery.SourceFileLoader("rt", os.path.realpath(path))
    module = importlib.util.module_from_spec(importlib.util.spec_from_loader("rt", loader))
    loader.exec_module(module)
    kit.sum_stamps_once(module.rtlib)
    return module


def read_text(path):
    with open(path, encoding="utf-8") as file:
        return file.read()


def stays_inside(body):
    """Returns whether no brace of a body's text closes the body itself."""
    depths = [0, *itertools.accumulate((it == "{") - (it == "}") for it in body if it in "{}")]
    return min(depths) == 0 == depths[-1]


def patterns_of(crate, path, text, item):
    """Returns patterns of how rattle's lines may call a function of a file, the likeliest first."""
    module = re.sub(r"/mod\Z|\A(lib|main)\Z", "", path.removeprefix("src/").removesuffix(".rt"))
    module = "::".join([crate, *filter(None, module.split("/"))])
    if not item[1]:
        return [f"{module}::{item[2]}"]
    # an impl is named by its type, its trait and, where there are several, the trait's argument; it stands where its type does
    above = re.findall(r"^\S.*", text[: item.start()], re.M)[-1]
    impl = IMPL.fullmatch(re.sub(r"\w+::|'\w+", "", above))
    of_trait, of_type = [re.findall(r"\w+", it or "") for it in impl.groups()] if impl else [[], []]
    types = ["".join(of_type[:1] + of_trait[:count]) for count in ((2, 1) if of_trait else (0,)) if of_type]
    return [f"{where}::{it}::{item[2]}" for where in (module, ".*") for it in types]


def located(rt, crate, file, functions):
    """Returns the edit in a file with the function whose body it changes, one of those named, or None if it is to be tried alone."""
    texts, why = rt.read_edit(file, crate.folder)
    path = "" if why or len(texts) != 1 else next(iter(texts))
    if not path.startswith("src/"):
        return None
    old, new = read_text(f"{crate.folder}/{path}"), texts[path]
    start = len(os.path.commonprefix([old, new]))
    same = len(os.path.commonprefix([old[start:][::-1], new[start:][::-1]]))
    end, text = len(old) - same, new[start : len(new) - same]
    for item in FUNCTION.finditer(old):
        head = re.search(rf"^{item[1]}(?! ).*\{{$", item[0], re.M)
        inside = item.start() + head.end() if head else item.end()
        if inside <= start and end < item.end() and stays_inside(old[inside:start] + text + old[end : item.end() - 1]):
            found = [[it for it in functions if re.fullmatch(like, it)] for like in patterns_of(crate.name, path, old, item)]
            return next((Edit(file, it[0], path, start, end, text) for it in found if len(it) == 1), None)
    return None


def batches_of(edits):
    """Returns the edits in batches, each of different functions and of texts that lie apart, and each edit in the first that has room for it. A check also
    proves again what it finds between two functions that it edits, so the edits are not spread evenly."""
    batches = []
    for edit in edits:
        room = [it for it in batches if len(it) < LARGEST_BATCH and all(map(edit.is_apart, it))]
        if not room:
            room = [[]]
            batches += room
        room[0].append(edit)
    return batches


def next_tries(batch, unjudged):
    """Returns what is tried next of a batch of which some edits are not judged yet: smaller batches, or the file of its only edit, which goes on alone."""
    if len(batch) == 1:
        return [it.file for it in unjudged]
    if len(unjudged) < len(batch):
        return [unjudged] if unjudged else []
    middle = len(batch) // 2
    return [batch[:middle], batch[middle:]]


def merged(folder, batch):
    """Returns the texts of a crate's source files with each edit of the batch applied."""
    texts = {it.path: read_text(f"{folder}/{it.path}") for it in batch}
    for it in sorted(batch, key=lambda it: -it.start):
        texts[it.path] = texts[it.path][: it.start] + it.text + texts[it.path][it.end :]
    return texts


def open_goals(said, function):
    """Returns the goals of the function that the check did not prove, and what its line says, if it has one."""
    goals = []
    for line in said.split("\n"):
        if found := OPEN_GOAL.match(line):
            goals.append(found[1])
        elif line.startswith(f"fn {function}: "):
            return goals, line.removeprefix(f"fn {function}: ")
        elif ITEM.match(line):
            goals = []
    return [], None


def own_refusal(said, function):
    """Returns a goal of the function's own that the check did not prove, or None. That a callee is refused is none."""
    goals, line = open_goals(said, function)
    if not line or line.startswith("proved"):
        return None
    if goals:
        return goals[0]
    # (a function that calls itself has its proofs in a folder whose name begins with `+`)
    *above, name = map(re.escape, function.split("::")[1:])
    folder = "/".join([*above, rf"\+?{name}"])
    errors = re.findall(rf"^(?:\./)?proofs/{folder}/\w+\.antt:\d+:\d+: error: (`.*(?:\n .*)*)", said, re.M)
    errors = [it for it in errors if "was not admitted" not in it]
    if not errors or not line.startswith("not proved"):
        return None
    real = [it for it in errors if not TAKEN.search(it)]
    return real[0].split("`")[1] if real else f"{errors[0].split('`')[1]}, {WEAK}"


def copy_of(kept, into):
    """Copies kept work. Its modules are linked: rattle never writes into one, but renames a new file over it."""
    link = lambda old, new: (os.link if old.endswith(".oantt") else shutil.copy2)(old, new)
    return shutil.copytree(kept, into, copy_function=link, dirs_exist_ok=True)


class Trial:
    """The edits of one crate, tried over its kept work: `begin`, then `work` in as many threads as there are, and then `end`."""

    def __init__(self, rt, crate, kept, room, is_asked=lambda name: True, results=None, prepare=None, last=None):
        """`results` finds what earlier runs came to, and keeps what this one does. `prepare` makes the kept work where it need not be proved
        here, and returns the names of the crate's functions. No check of edits begins after `last`, a time of the monotonic clock."""
        self.last = last
        self.rt, self.crate, self.kept, self.room, self.results, self.prepare = rt, crate, kept, room, results, prepare or self.proof
        self.files = [it for it in rt.edits_of(crate)[0] if is_asked(os.path.basename(it).removesuffix(".edit"))]
        self.left, self.told, self.earlier, self.is_proved = collections.deque(), {}, {}, False
        # the functions that are edited in batches, the crate with refused answers of them, whether an edit was tried alone, and what the
        # system refused, a file or memory, while it was tried
        self.functions, self.answered, self.is_alone, self.refused = [], crate, False, []

    def tell(self, file, passes, text):
        self.told[file] = passes, f"must-fail {self.crate.name}/{os.path.basename(file)}: {text}"

    def is_late(self):
        return self.last is not None and time.monotonic() > self.last

    def leave(self, files):
        """Leaves edits for the next run: whether they pass is None."""
        for file in files:
            self.tell(file, None, LEFT)

    def check(self, kept, texts={}, only=(), crate=None):
        flags = ["--jobs", "1", *itertools.chain(*(("--only", it) for it in only))]
        return self.rt.checked(crate or self.crate, texts, flags, kept)

    def with_refused_answers(self):
        """Returns a copy of the crate in which each function that is edited in a batch, and has no answers, has refused ones."""
        crate = copy.copy(self.crate)
        crate.folder = f"{self.room}/crate"
        for part in filter(os.path.isdir, (f"{self.crate.folder}/{it}" for it in ("src", "specs", "proofs"))):
            shutil.copytree(part, f"{crate.folder}/{os.path.basename(part)}")
        for function in self.functions:
            *above, name = function.split("::")[1:]
            folder = "/".join([crate.folder, "proofs", *above])
            if not any(os.path.isfile(f"{folder}/{it}/Answers.antt") for it in (name, f"+{name}")):
                os.makedirs(f"{folder}/{name}", exist_ok=True)
                with open(f"{folder}/{name}/Answers.antt", "w", encoding="utf-8") as file:
                    file.write(REFUSED_ANSWERS)
        return crate

    @contextlib.contextmanager
    def copy_of_kept(self):
        with tempfile.TemporaryDirectory(prefix="kept-", dir=self.room) as folder:
            yield copy_of(self.kept, folder)

    def proof(self):
        """Checks the crate itself over its kept work, or else anew, and returns the names of its functions, or None where it is not proved."""
        os.makedirs(self.kept, exist_ok=True)
        ran = self.check(self.kept)
        if ran.returncode:
            shutil.rmtree(self.kept)
            os.makedirs(self.kept)
            ran = self.check(self.kept)
        return None if ran.returncode else {*re.findall(r"^fn (\S+): proved\b", ran.stdout, re.M)}

    def take_judged(self, kept):
        """Takes over from a copy of the kept work that the modules of the libraries hold together, as the check over it found, so that a later check
        need not find it again."""
        for judged in glob.glob(f"{glob.escape(kept)}/*/judged"):
            at = f"{self.kept}/{os.path.relpath(judged, kept)}"
            if os.path.isdir(os.path.dirname(at)) and not os.path.exists(at):
                os.replace(judged, at)

    def begin(self):
        """Plans the checks of the crate's edits, but for those whose results earlier runs kept."""
        found = {it: self.results and self.results.find(it) for it in self.files}
        self.earlier = {file: line for file, line in found.items() if line}
        files = [it for it in self.files if it not in self.earlier]
        if not files:
            return
        if self.is_late():
            self.leave(files)
            return
        shutil.rmtree(self.room, ignore_errors=True)
        os.makedirs(self.room)
        functions = self.prepare()
        self.is_proved = functions is not None
        if not self.is_proved:
            return
        edits = {it: located(self.rt, self.crate, it, functions) for it in files}
        self.functions = sorted({it.function for it in edits.values() if it})
        self.answered = self.with_refused_answers()
        self.left.extend(batches_of([it for it in edits.values() if it]))
        self.left.extend([file for file, it in edits.items() if not it])

    def work(self):
        """Tries what is left. A batch is a list of edits; what is tried alone is a file. What the system refused once is tried a second time."""
        with contextlib.suppress(IndexError):
            while True:
                it = self.left.popleft()
                if self.is_late():
                    self.leave([it] if isinstance(it, str) else [edit.file for edit in it])
                    continue
                try:
                    self.alone(it) if isinstance(it, str) else self.together(it)
                except OSError:
                    if it in self.refused:
                        raise
                    self.refused.append(it)
                    self.left.append(it)

    def alone(self, file):
        """Tries an edit alone, by rt's rule."""
        self.is_alone = True
        with self.copy_of_kept() as kept:
            kind, text = self.rt.must_fail(self.crate, file, ["--jobs", "1"], kept)
        text, passes = text.partition(f"{os.path.basename(file)}: ")[2], kit.is_refused(self.rt, kind)
        self.tell(file, passes, "refused alone: " + text.partition(": ")[2] if passes else text)

    def together(self, batch):
        """Tries a batch. It goes on in halves where it cannot be read or judges nothing. The edits that their functions' own lines do not refuse, as where a
        function calls another one of the batch, go on as a batch of their own, and the last one alone."""
        texts = merged(self.crate.folder, batch)
        with self.copy_of_kept() as kept:
            ran = self.check(kept, texts, [it.function for it in batch], self.answered)
            self.take_judged(kept)
        lines = ran.stdout.rstrip("\n").split("\n")
        is_read = lines[-1].startswith("only=") and not any(self.rt.unread(it, texts) for it in lines)
        is_read = is_read and not self.rt.rtlib.STALE.search(ran.stdout)
        goals = [own_refusal(ran.stdout, it.function) if is_read and ran.returncode == 1 else None for it in batch]
        for it, goal in zip(batch, goals):
            if goal and goal.endswith(WEAK):
                self.tell(it.file, False, f"NOT JUDGED: refused by {goal}")
            elif goal:
                self.tell(it.file, True, f"refused by {goal}")
        self.left.extend(next_tries(batch, [it for it, goal in zip(batch, goals) if not goal]))

    def judge(self, file, is_kept_well):
        """Fails an edit that was not tried, or that was tried over kept work which does not prove the unedited crate."""
        if not self.is_proved:
            self.tell(file, False, "NOT TRIED: the crate itself is not proved")
        elif not is_kept_well:
            self.tell(file, False, "NOT JUDGED: what it edits is not proved unedited, over the same kept work")
        elif file not in self.told:
            self.tell(file, False, "NOT JUDGED: no check says anything of it")
        elif self.results and self.told[file][0]:
            self.results.keep(file, self.told[file][1])

    def is_kept_well(self):
        """Checks what was edited as it stands, over the same kept work and in the same way, and returns whether it is proved."""
        return not self.check(self.kept, only=[] if self.is_alone else self.functions).returncode

    def end(self):
        """Tries what is left, then checks what was edited as it stands, and returns of each edit, in order, whether it passed and its line."""
        try:
            self.work()
            tried = [it for it in self.files if it not in self.earlier and self.told.get(it, (True,))[0] is not None]
            is_kept_well = bool(tried) and self.is_proved and self.is_kept_well()
        finally:
            shutil.rmtree(self.room, ignore_errors=True)
        for it in tried:
            self.judge(it, is_kept_well)
        return [(True, self.earlier[it]) if it in self.earlier else self.told[it] for it in self.files]

    def tasks(self, waits, seconds, is_well, last):
        """Returns the trial as tasks of rt's lanes, which begin only where all is well with those that they wait for. `last` is the call of the last one."""
        name, batches = self.crate.name, -(-len(self.files) // LARGEST_BATCH)
        first = f"{name} planned", "edits"
        shared = [(f"{name} {number}", "edits") for number in range(1, batches + 1)]
        task = lambda waits, call: (waits, seconds / (batches + 2), MEMORY, call)
        step = lambda call: lambda given, jobs: call() if is_well(given) else None
        tasks = {first: task(waits, step(self.begin)), **{it: task([first], step(self.work)) for it in shared}}
        return {**tasks, (name, "edits"): task([*waits, *shared], last)}


def trials_of(rt, crates, asked):
    """Returns the trials of these crates' edits, or of those that are asked for by CRATE or CRATE/EDIT."""
    trials = []
    for crate in crates:
        is_asked = lambda name, crate=crate: not asked or bool({crate.name, f"{crate.name}/{name}"} & asked)
        trials.append(Trial(rt, crate, f"{crate.folder}/out/incremental", f"{crate.folder}/out/edits", is_asked))
    known = {it for crate in crates for it in [crate.name, *(f"{crate.name}/{os.path.basename(file)[:-5]}" for file in rt.edits_of(crate)[0])]}
    if asked - known:
        sys.exit(f"edits: no crate and no edit is called {' or '.join(sorted(asked - known))}")
    return [it for it in trials if it.files or rt.edits_of(it.crate)[1]]


def tried(rt, trials, jobs):
    """Tries edits over what the checks of their crates kept, prints their lines, and returns whether each passed."""
    for library in dict.fromkeys(below for it in trials for below in it.crate.below()):
        if library.build_rlib(["--jobs", str(jobs)], anew=False):
            sys.exit(f"edits: the library {library.name} is not proved, so no edit was tried")
    # (this number of checks side by side)
    os.environ["RT_JOBS"] = str(jobs)
    tasks, passed, printing = {}, [], threading.Lock()

    def end(trial):
        """Ends a trial, and prints the lines of its crate together."""
        name, misplaced = trial.crate.name, rt.edits_of(trial.crate)[1]
        told = trial.end() + [(False, f"must-fail {name}/{os.path.basename(it)}: BAD EDIT: its name does not end in .edit") for it in misplaced]
        with printing:
            print("\n".join(line for _, line in told), flush=True)
            passed.extend(passes for passes, _ in told)

    for trial in trials:
        tasks.update(trial.tasks([], len(trial.files), lambda given: True, lambda given, jobs, it=trial: end(it)))
    rt.in_lanes(tasks)
    return passed


def main():
    words = argparse.ArgumentParser(description=__doc__, formatter_class=argparse.RawDescriptionHelpFormatter)
    words.add_argument("--jobs", type=int, default=len(os.sched_getaffinity(0)), help="checks side by side, each of 1 to 2.3 GB (default: one a processor)")
    words.add_argument("asked", nargs="*", metavar="CRATE or CRATE/EDIT", help="what is tried (default: each edit of each crate)")
    given, rt = words.parse_args(), load_rt()
    every = rt.rtlib.crates_below(os.getcwd()) if os.path.isfile("crates.txt") else []
    if not every:
        sys.exit("edits: run it at the top of the repository, where crates.txt stands")
    trials = trials_of(rt, every, {*given.asked})
    # (the kit starts here, in the main thread, what ends its commands when this process ends)
    rt.rtlib.guarded()
    for it in (signal.SIGINT, signal.SIGTERM):
        signal.signal(it, lambda *_: os._exit(130))
    # (no other rt works in these folders until this process ends)
    held = rt.rtlib.lock(every)
    passed = tried(rt, trials, given.jobs)
    print(f"{sum(passed)} passed, {len(passed) - sum(passed)} failed")
    return 0 if held and all(passed) else 1


if __name__ == "__main__":
    sys.exit(main())
