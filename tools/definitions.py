#!/usr/bin/env python3
"""definitions.py CRATE ..: checks the definitions of crates alone: whether the files of specs/ are well formed.

It takes the libraries below from where the gate keeps what it proves, as fill.py does, and has the prover read the crate without its proofs: a
function without code is added whose contract names each file of specs/, and is checked alone. That takes some ten seconds, and proves nothing of the
crate. What is wrong is printed with its place. The status is 1 if something is."""
import os
import re
import shutil
import subprocess
import sys
import tempfile

import edits
import fill
import measured

HEAD = "//! Names all definitions, so that they are checked.\nghost use Rattle.std.specs.Prelude.{◌≡◌};\n"
# How a line begins that says what is wrong.
PLACE = re.compile(r"(?:\./)?(?:specs|src)/\S+:\d+:\d+: ")
FUNCTION = "\n/// Does nothing.\npub fn all_definitions(number: u8)\n    ensures { number ≡ number }\n{}\n"


def modules_of(folder):
    """Returns the names of the files of specs/, as they are imported."""
    for at, _, names in os.walk(f"{folder}/specs"):
        for name in sorted(names):
            path = os.path.relpath(f"{at}/{name}", f"{folder}/specs").removesuffix(".antt")
            if name.endswith(".antt") and name != "Lib.antt":
                yield path.replace("/", ".")


def add_function(crate, room):
    """Copies a crate without its proofs into a folder, with a function whose contract names all definitions."""
    for it in ("src", "specs"):
        shutil.copytree(f"{crate.folder}/{it}", f"{room}/{it}")
    uses = "".join(f"ghost use Rattle.{crate.name}.specs.{it} as definitions{at};\n" for at, it in enumerate(modules_of(crate.folder)))
    with open(f"{room}/src/all_definitions.rt", "w", encoding="utf-8") as file:
        file.write(HEAD + uses + FUNCTION)
    root = f"{room}/src/{'main' if crate.is_program else 'lib'}.rt"
    text = edits.read_text(root)
    with open(root, "w", encoding="utf-8") as file:
        file.write(re.sub(r"^(pub )?mod ", r"mod all_definitions;\n\g<0>", text, count=1, flags=re.M))


def check(rt, crate):
    """Checks the definitions of a crate, prints what is wrong, and returns whether all is well."""
    with tempfile.TemporaryDirectory(prefix="definitions-") as room:
        add_function(crate, room)
        words = crate.words(["--jobs", "1", "--only", f"{crate.name}::all_definitions::all_definitions"], keeps=False)
        ran = subprocess.run([rt.rtlib.RATTLE, "check", *words], cwd=room, stdout=subprocess.PIPE, stderr=subprocess.STDOUT, text=True)
    lines = ran.stdout.splitlines() if ran.returncode else []
    wrong = [it for it in lines if PLACE.match(it)]
    print("\n".join([f"{crate.name}: its definitions are {'NOT ' * bool(lines)}well formed", *(wrong or lines)]), flush=True)
    return not ran.returncode


def main():
    os.chdir(measured.TOP)
    rt, names = edits.load_rt(), sys.argv[1:]
    crates = {it.name: it for it in fill.crates_here(rt)}
    if not names or {*names} - {*crates}:
        sys.exit(f"definitions: no crate is called {' or '.join(sorted({*names} - {*crates}))}" if names else __doc__)
    filled = subprocess.run([sys.executable, "tools/fill.py", *names], stdout=subprocess.PIPE, text=True, check=True)
    if "to be proved" in filled.stdout:
        sys.exit(f"definitions: these libraries come first\n{filled.stdout}".rstrip("\n"))
    return 0 if all([check(rt, crates[it]) for it in names]) else 1


if __name__ == "__main__":
    sys.exit(main())
