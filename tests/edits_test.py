#!/usr/bin/env python3
"""edits_test.py: the runner of must-fail edits (tools/edits.py) against a small crate, whose edits are good, useless or bad, and against a prover that only prints what it is given;
the gate's own store of what passed (tools/store.py), in a folder of its own; and what the kit's store keeps of static libraries (tools/kit.py).

It prints a line for each test and last 'N passed, M failed'."""
import contextlib
import os
import re
import shutil
import subprocess
import sys
import tempfile
import time
import types
import unittest.mock

TOP = os.path.dirname(os.path.dirname(os.path.abspath(__file__)))
sys.path[:0] = [f"{TOP}/tools"]
import edits
import gate
import kit
import store

SOURCE = """//! Numbers and their neighbours.
#![tactic(auto)]

ghost use Rattle.std.specs.Prelude.{◌≡◌, ◌≤◌, ◌+◌};

/// The smaller of two numbers, or both.
pub fn smaller(a: u8, b: u8) -> u8
    ensures first { result ≤ a }
    ensures second { result ≤ b }
{
    if a < b {
        return a;
    }
    b
}

/// One more than a number.
pub fn next(a: u8) -> u8
    requires { a ≤ 99 }
    ensures { result ≡ a + 1 }
{
    let more: u8 = 1;
    a + more
}

/// Two more than a number.
pub fn after_next(a: u8) -> u8
    requires { a ≤ 98 }
    ensures { result ≡ a + 2 }
{
    let one = next(a);
    next(one)
}

/// One less than a number.
pub fn before(a: u8) -> u8
    requires { 1 ≤ a }
    ensures { result + 1 ≡ a }
{
    let less: u8 = 1;
    a - less
}

/// Twice a number, for C.
#[unsafe(no_mangle)]
pub extern "C" fn neighbours_double(a: u8) -> u8
    requires { a ≤ 99 }
    ensures { result ≡ a + a }
{
    let same = a;
    a + same
}
"""

# What an edit writes in the place of what, and how its line must begin.
EDITS = {
    "wrong_answer": ("    let more: u8 = 1;", "    let more: u8 = 2;", "refused by "),
    "wrong_for_c": ("    let same = a;", "    let same: u8 = 1;", "refused by "),
    "same_meaning": ("    if a < b {", "    if a <= b {", "NOT REFUSED"),
    "calls_an_edited_one": ("    next(one)", "    one", "refused by "),
    "only_its_callee_is_wrong": ("    let one = next(a);", "    let one = if a == 0 { 1 } else { next(a) };", "NOT REFUSED"),
    "does_not_compile": ("    let less: u8 = 1;", "    let less: u8 = true;", "BAD EDIT"),
    "is_not_there": ("    let none: u8 = 1;", "    let none: u8 = 2;", "BAD EDIT"),
}

# What a check says of functions: that a goal of its own is not proved, that only a callee is refused, or what its proof file's errors are.
SAID = """proofs/weak/Proof.antt:3:7: error: `goal-2`: `total` is not in scope
proofs/cites/Proof.antt:3:7: error: `goal-3`: `next_spec` was not admitted
proofs/real/Proof.antt:4:1: error: `goal-4`: the two sides differ
proofs/+calls_itself/Answers.antt:5:1: error: `goal-5`: the two sides differ
note: src/lib.rt:7:5: it is not proved that what the function ensures holds when it returns (`ensures`); `search` gave up at one of its limits
note: a goal may be false even if its line does not say so
fn neighbours::own: not proved
fn neighbours::caller: no proof: it calls neighbours::own, which is not proved
fn neighbours::weak: not proved
fn neighbours::cites: not proved
fn neighbours::real: not proved
fn neighbours::calls_itself: not proved
fn neighbours::fine: proved
"""
OWN_REFUSALS = {"own": "ensures", "caller": None, "weak": f"goal-2, {edits.WEAK}", "cites": None, "real": "goal-4", "calls_itself": "goal-5", "fine": None, "absent": None}


def lines_of_the_runner():
    """Runs the runner on a repository of one crate, and returns its line of each edit, its counts and its status."""
    with tempfile.TemporaryDirectory(prefix="edits-test-") as room:
        crate = os.path.join(room, "crates", "neighbours")
        for folder in ("src", "must-fail"):
            os.makedirs(os.path.join(crate, folder))
        texts = {f"must-fail/{name}.edit": f"file: src/lib.rt\nold: {old}\nnew: {new}\n" for name, (old, new, _) in EDITS.items()}
        for path, text in {**texts, "src/lib.rt": SOURCE, "../../crates.txt": "neighbours staticlib:\n"}.items():
            with open(os.path.join(crate, path), "w", encoding="utf-8") as file:
                file.write(text)
        subprocess.run(["git", "init", "-q"], cwd=room, check=True)
        command = [sys.executable, os.path.join(TOP, "tools", "edits.py")]
        ran = subprocess.run(command, cwd=room, stdout=subprocess.PIPE, stderr=subprocess.STDOUT, text=True)
    lines = dict(re.findall(r"^must-fail neighbours/(\w+)\.edit: (.*)", ran.stdout, re.M))
    return lines, ran.stdout.rstrip("\n").split("\n")[-1], ran.returncode


def tests_of_the_runner():
    lines, counts, status = lines_of_the_runner()
    for name, (_, _, begin) in EDITS.items():
        said = lines.get(name, "no line")
        yield f"{name}: {said[:60]}", said.startswith(begin)
    yield f"counts: {counts}", counts == "3 passed, 4 failed"
    yield f"status: {status}", status == 1


def ended(*statuses):
    """Returns what the runner says of one edit, where the checks of the unedited crate end with these statuses."""
    left = [*statuses]
    with tempfile.TemporaryDirectory(prefix="edits-test-") as folder:
        crate = types.SimpleNamespace(name="neighbours", folder=folder)
        rt = types.SimpleNamespace(edits_of=lambda crate: (["wrong.edit"], []), read_edit=lambda file, folder: (None, "it is not read here"), REFUSED="refused", AT_LIMIT="limit")
        rt.checked = lambda *given: types.SimpleNamespace(returncode=left.pop(0), stdout="fn neighbours::next: proved\n")
        rt.must_fail = lambda crate, file, flags, kept: ("refused", "must-fail neighbours/wrong.edit: refused, as it must be: a goal")
        trial = edits.Trial(rt, crate, f"{folder}/kept", f"{folder}/room")
        trial.begin()
        return trial.end()[0]


OWN_GOAL = "note: src/lib.rt:23:5: it is not proved that what the function ensures holds when it returns (`returns`)"
TAKEN_AWAY = "proofs/next/Answers.antt:3:7: error: `goal-2`: `more` is not in scope"


def controlled(status, why=OWN_GOAL):
    """Returns what the runner says of an edit that is refused in a batch for this reason, where the check of the unedited function ends with this status, and what
    that check asks for."""
    asked, rt = [], edits.load_rt()

    def checked(crate, texts, flags, kept):
        asked.append((texts, flags))
        said = f"{why}\nfn neighbours::next: not proved\nonly=1 proved=0\n" if texts else ""
        return types.SimpleNamespace(returncode=1 if texts else status, stdout=said)

    with tempfile.TemporaryDirectory(prefix="edits-test-") as folder:
        os.makedirs(f"{folder}/src")
        old, new, _ = EDITS["wrong_answer"]
        for path, text in {"src/lib.rt": SOURCE, "wrong.edit": f"file: src/lib.rt\nold: {old}\nnew: {new}\n"}.items():
            with open(f"{folder}/{path}", "w", encoding="utf-8") as file:
                file.write(text)
        rt.checked, rt.edits_of = checked, lambda crate: ([f"{folder}/wrong.edit"], [])
        trial = edits.Trial(rt, types.SimpleNamespace(name="neighbours", folder=folder), f"{folder}/kept", f"{folder}/room", prepare=lambda: {"neighbours::next"})
        os.makedirs(trial.kept)
        trial.begin()
        return *trial.end()[0], asked[-1]


def left_for_the_next_run(last):
    """Returns what the runner says of an edit whose check may begin until this time."""
    with tempfile.TemporaryDirectory(prefix="edits-test-") as folder:
        rt = types.SimpleNamespace(edits_of=lambda crate: (["wrong.edit"], []), read_edit=lambda file, folder: (None, "it is not read here"), REFUSED="refused", AT_LIMIT="limit")
        rt.checked = lambda *given: types.SimpleNamespace(returncode=0, stdout="fn neighbours::next: proved\n")
        rt.must_fail = lambda crate, file, flags, kept: ("refused", "must-fail neighbours/wrong.edit: refused, as it must be: a goal")
        trial = edits.Trial(rt, types.SimpleNamespace(name="neighbours", folder=folder), f"{folder}/kept", f"{folder}/room", last=last)
        trial.begin()
        return trial.end()[0]


def tests_of_the_time():
    yield "an edit for which there is no time neither passes nor fails", left_for_the_next_run(0) == (None, f"must-fail neighbours/wrong.edit: {edits.LEFT}")
    yield "an edit for which there is time is tried", left_for_the_next_run(time.monotonic() + 1000)[0]


def tests_of_the_control():
    unedited = {}, ["--jobs", "1", "--only", "neighbours::next"]
    yield "refused in a batch, and its function is then proved unedited", controlled(0) == (True, "must-fail neighbours/wrong.edit: refused by returns", unedited)
    yield "refused in a batch, and its function is not proved unedited", not controlled(1)[0] and "NOT JUDGED" in controlled(1)[1]
    passes, line, _ = controlled(0, TAKEN_AWAY)
    yield "refused only by a proof file that names what the edit took away", not passes and "NOT JUDGED: refused by goal-2, but only" in line
    yield "refused, and the unedited crate is proved before and after", ended(0, 0) == (True, "must-fail neighbours/wrong.edit: refused alone: a goal")
    yield "refused, and the unedited crate is proved once its kept work is made anew", ended(1, 0, 0)[0]
    yield "the unedited crate is not proved before", not ended(1, 1)[0] and "NOT TRIED" in ended(1, 1)[1]
    yield "the unedited crate is not proved after", not ended(0, 1)[0] and "NOT JUDGED" in ended(0, 1)[1]


def tests_of_words():
    for name, goal in OWN_REFUSALS.items():
        found = edits.own_refusal(SAID, f"neighbours::{name}")
        yield f"the own refusal of {name}: {found}", found == goal
    edit = lambda function, start: edits.Edit(f"{function}.edit", function, "src/lib.rt", start, start + 3, "x")
    batches = edits.batches_of([edit("a", 0), edit("a", 8), edit("b", 20), edit("c", 22)])
    yield "no batch has two edits of one function, or two that overlap", [[it.function for it in batch] for batch in batches] == [["a", "b"], ["a", "c"]]
    one, other = edit("a", 0), edit("b", 20)
    tries = [edits.next_tries([one, other], it) for it in ([], [other], [one, other])] + [edits.next_tries([one], [one])]
    yield "what a batch does not judge goes on in a smaller one, and the last edit alone", tries == [[], [[other]], [[one], [other]], ["a.edit"]]
    lost = gate.without_a_line({"low": ["a.edit", "b.edit"], "high": []}, ["rt: must-fail low/a.edit: refused by x\n"])
    yield "an edit without a line is found", lost == ["low/b.edit"]


def write(path, text):
    os.makedirs(os.path.dirname(path), exist_ok=True)
    with open(path, "w", encoding="utf-8") as file:
        file.write(text)


class Repository:
    """A library with an edit, and a library over it, which are proved by a prover that counts how often it is asked."""

    def __init__(self, room):
        self.room, self.asked, self.status, self.rt = room, 0, 0, types.SimpleNamespace(KIT=f"{room}/kit", say=lambda *given: None, edits_of=self.edits_of)
        write(f"{room}/kit/KIT-ID", "a kit")
        self.low, self.high = self.crate("low", []), self.crate("high", ["low"])
        self.edit = f"{self.low.folder}/must-fail/wrong.edit"
        write(self.edit, "file: src/lib.rt")

    def edits_of(self, crate):
        return [self.edit] if crate.name == "low" else [], []

    def crate(self, name, below):
        folder = f"{self.room}/crates/{name}"
        write(f"{folder}/src/lib.rt", name)
        made = types.SimpleNamespace(name=name, folder=folder, rlib=f"{folder}/out/rlib/{name}.rlib", said={"deps": below}, out=None)
        made.makes_rlib, made.words, made.below = lambda: True, lambda flags, keeps: [*flags, folder], lambda: [self.low] if below else []
        return made

    def prove(self, crate):
        self.asked += 1
        write(f"{crate.rlib}/format", f"built of {store.read(f'{crate.folder}/src/lib.rt')}")
        return self.status

    def run(self, is_anew=False):
        """Does both crates, and returns how often the prover was asked and the line of the edit, which is kept where the run finds none."""
        self.asked, kept = 0, store.Store(self.rt, is_anew)
        for it in (self.low, self.high):
            kept.pass_crate(it, lambda it=it: self.prove(it))
        results = store.Results(kept, self.low)
        line = results.find(self.edit)
        if not line:
            results.keep(self.edit, "it was refused")
        return self.asked, line


def tests_of_the_store():
    with tempfile.TemporaryDirectory(prefix="edits-test-") as room, unittest.mock.patch.dict(os.environ, XDG_CACHE_HOME=f"{room}/cache"):
        its, line = Repository(room), "it was refused"
        yield "the first run proves and tries all", its.run() == (2, None)
        shutil.rmtree(its.low.rlib)
        yield "the next run takes all from the store", its.run() == (0, line) and os.path.isfile(f"{its.low.rlib}/format")
        yield "a run from nothing takes nothing", its.run(is_anew=True) == (2, None) and its.run() == (0, line)
        write(f"{its.high.folder}/src/lib.rt", "higher")
        yield "a crate that has changed is proved, and none below it", its.run() == (1, line)
        write(f"{its.low.folder}/src/lib.rt", "lower")
        yield "so is what stands on it", its.run() == (2, None)
        write(its.edit, "file: src/main.rt")
        yield "an edit that has changed is tried", its.run() == (0, None) and its.run() == (0, line)
        write(f"{room}/HANDLES", "Handles allowed: none.")
        yield "all is proved under other handles", its.run() == (2, None)
        write(f"{room}/kit/bin/rattle", "another prover")
        yield "all is proved by another kit", its.run() == (2, None) and its.run() == (0, line)
        for it in os.scandir(f"{room}/cache/composecheck-gate"):
            write(f"{it.path}/kept/rlib/low.rlib/format", "something else")
        yield "what is not as it was kept is not taken", its.run() == (2, None)
        write(f"{its.low.folder}/src/lib.rt", "wrong")
        its.status = 1
        yield "what failed is not kept", (its.run(), its.run()) == ((2, None), (2, None))


def kept_in(rt):
    """Returns the kit's store as a run meets it that has just begun, for crates whose sums don't matter."""
    kept = rt.Kept([])
    kept.is_untouched, kept.key = lambda crate: True, lambda crate: "the sum of all"
    return kept


def tests_of_static_libraries():
    rt = edits.load_rt()
    if not kit.has_store(rt):
        return
    kit.keep_static_libraries(rt)
    with tempfile.TemporaryDirectory(prefix="edits-test-") as room, unittest.mock.patch.object(rt, "STORE", f"{room}/store"):
        crate = types.SimpleNamespace(name="ffi", folder=f"{room}/crates/ffi", is_static=True, is_program=False, below=lambda: [])
        library = f"{crate.folder}/out/{kit.static_library(crate)}"
        kept_in(rt).keep(crate, False, "the sum of all")
        yield "a static library of which nothing was built is not kept", not kept_in(rt).give(crate, False, "the sum of all")
        write(library, "built")
        kept_in(rt).keep(crate, False, "the sum of all")
        shutil.rmtree(f"{crate.folder}/out")
        yield "the next run takes a static library from the store", kept_in(rt).give(crate, False, "the sum of all") and store.read(library) == b"built"
        write(f"{room}/crates.txt", "ffi staticlib:\n")
        write(f"{crate.folder}/src/lib.rt", "//! Nothing.\n")
        shutil.rmtree(f"{crate.folder}/out")
        build = lambda is_anew: write(f"crates/ffi/out/{kit.static_library(crate)}", "built again") or 0
        with contextlib.chdir(room), unittest.mock.patch.object(rt, "ci", build), unittest.mock.patch.dict(os.environ, CI="true"):
            status = kit.ci(rt, False, ["ffi"])
        yield "what was built of a named crate is brought, in a merge gate too", status == 0 and store.read(library) == b"built again"


def main():
    passed = failed = 0
    for tests in (tests_of_words, tests_of_the_time, tests_of_the_store, tests_of_static_libraries, tests_of_the_control, tests_of_the_runner):
        for name, is_well in tests():
            print(f"{'ok' if is_well else 'FAILED'}: {name}", flush=True)
            passed, failed = passed + is_well, failed + (not is_well)
    print(f"{passed} passed, {failed} failed")
    return 1 if failed else 0


if __name__ == "__main__":
    sys.exit(main())
