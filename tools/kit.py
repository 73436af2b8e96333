"""How the kits differ that the gate runs on. Newer ones keep what `rt ci` passed in a store, and hand over the edits of a crate as tasks of their
own (`rt.add_edits`). In older ones `rt ci` proves all from nothing, and tries the edits of a crate in one call (`rt.must_fail_all`). For these the
gate has a store of its own (store.py)."""
import os
import re
import shutil
import sys
import tempfile
import threading


def has_store(rt):
    return hasattr(rt, "add_edits")


def sum_stamps_once(rtlib):
    """Has each crate be summed once in the stamp of a crate above it. The kit sums it along each path of the graph of crates, and composecheck has 12,000
    of these: half a minute for each of its stamps."""
    stamp, sums = rtlib.Crate.stamp, threading.local()

    def stamp_once(crate):
        of = getattr(sums, "of", None)
        if of is None:
            sums.of = {}
            try:
                return stamp_once(crate)
            finally:
                sums.of = None
        if crate.folder not in of:
            of[crate.folder] = stamp(crate)
        return of[crate.folder]

    rtlib.Crate.stamp = stamp_once


def is_refused(rt, kind):
    """Returns whether the first answer of `rt.must_fail` says that the prover refuses an edit. In older kits it is yes or no."""
    return kind in (rt.REFUSED, rt.AT_LIMIT) if hasattr(rt, "REFUSED") else kind


def static_library(crate):
    """Returns the name of what a static library is built into, in its folder out/. It begins with the crate's name, as all must that the kit's store keeps."""
    return f"{crate.name}.a"


def keep_static_libraries(rt):
    """Has the kit's store keep what was built of a static library. It keeps that one was proved, and none of its files, so that a run which found that
    there would leave nothing to link."""
    made, is_whole = rt.Kept.made, rt.Kept.is_whole
    is_library = lambda crate, tests: crate.is_static and not tests
    built = lambda crate: [it for it in (static_library(crate),) if os.path.isfile(f"{crate.folder}/out/{it}")]
    rt.Kept.made = lambda kept, crate, tests: built(crate) if is_library(crate, tests) else made(kept, crate, tests)
    rt.Kept.is_whole = lambda kept, crate, tests, files: is_whole(kept, crate, tests, files) and (files != [] or not is_library(crate, tests))


def prove_static(rt, crate, flags):
    """Proves a static library from nothing, which is all that `rt ci` does with one, and builds out/NAME.a of what was proved. The proof's modules are
    kept in out/checked. Returns the status."""
    words = crate.words(flags, keeps=False)
    shutil.rmtree(f"{crate.folder}/out/checked", ignore_errors=True)
    status = crate.prove(["check", *words, "-o", "out/checked"])
    if status:
        return status
    for flag in ("--logic-built", "--jobs"):
        at = words.index(flag)
        words = [*words[:at], *words[at + 2 :]]
    toolchain = ["--toolchain", f"{rt.KIT}/toolchain", "--backend", "llvm"]
    return crate.call(rt.rtlib.RATTLE, "build", *words, "--crate-checked", "out/checked", *toolchain, "-o", f"out/{static_library(crate)}")


def ci(rt, is_anew, names):
    """Runs `rt ci`, of the named crates and those below them if any are named, and returns its status. It runs these on a copy, and brings what was built
    of the named programs and static libraries: `rt ci` with names would bring nothing, and does nothing at all where the environment says CI=true."""
    run = lambda: rt.ci(is_anew) if has_store(rt) else rt.ci()
    if not names:
        return run()
    top = os.getcwd()
    with tempfile.TemporaryDirectory(prefix="gate-crates-") as room:
        copy_crates(rt, names, room)
        os.chdir(room)
        status = run()
        os.chdir(top)
        if not status:
            bring(rt, names, room)
    return status


def bring(rt, names, room):
    """Copies what was built of the named programs and static libraries from a copy of the crates into their folders here."""
    for crate in rt.rtlib.crates_below(os.getcwd()):
        built = [it for it in (crate.name, f"{crate.name}.by-rattle", static_library(crate)) if os.path.isfile(f"{room}/crates/{crate.name}/out/{it}")]
        for it in built if crate.name in names else []:
            os.makedirs(f"{crate.folder}/out", exist_ok=True)
            # (a file of its own, so that one that is being run may be there already)
            shutil.copy(f"{room}/crates/{crate.name}/out/{it}", f"{crate.folder}/out/{it}.new")
            os.replace(f"{crate.folder}/out/{it}.new", f"{crate.folder}/out/{it}")


def copy_crates(rt, names, room):
    """Copies the named crates and those below them, with their lines of crates.txt, into a folder. What was built of them is left out."""
    known = {it.name: it for it in rt.rtlib.crates_below(os.getcwd())}
    if {*names} - {*known}:
        sys.exit(f"proofs: no crate is called {' or '.join(sorted({*names} - {*known}))}")
    wanted = {crate.name for it in names for crate in [known[it], *known[it].below()]}
    for it in wanted:
        shutil.copytree(f"crates/{it}", f"{room}/crates/{it}", ignore=lambda at, names, top=f"crates/{it}": ["out"] if at == top else [])
    if os.path.isfile("HANDLES"):
        shutil.copy("HANDLES", room)
    with open("crates.txt", encoding="utf-8") as old, open(f"{room}/crates.txt", "w", encoding="utf-8") as new:
        new.writelines(line for line in old if re.match(r"\w*", line)[0] in wanted)
