#!/usr/bin/env python3
"""modules.py FOLDER NAME..: writes the LLVM module of each static library, of what is proved, as FOLDER/NAME.ll; `make release LLVM=FOLDER` packs them.

The kit writes no module, so each is caught at its compiler, while the library is built as `rt lib` builds it: by what `rt check` kept, or anew."""
import os
import subprocess
import sys
import tempfile

import edits

TOP = os.path.dirname(os.path.dirname(os.path.abspath(__file__)))
# In the place of the kit's compiler: it keeps the module, and compiles it.
COMPILER = """#!/bin/sh
for it in "$@"; do
    case "$it" in *.bc|*.ll) cp "$it" MODULE ;; esac
done
exec REAL "$@"
"""


def catching(kit, room, module):
    """Makes a toolchain in a folder whose compiler keeps the module, and returns its path."""
    real, made = os.path.join(kit, "toolchain"), os.path.join(room, "toolchain")
    os.makedirs(os.path.join(made, "bin"))
    os.symlink(os.path.join(real, "lib"), os.path.join(made, "lib"))
    for name in os.listdir(os.path.join(real, "bin")):
        if name != "clang":
            os.symlink(os.path.join(real, "bin", name), os.path.join(made, "bin", name))
    path = os.path.join(made, "bin", "clang")
    with open(path, "w", encoding="utf-8") as file:
        file.write(COMPILER.replace("MODULE", module).replace("REAL", os.path.join(real, "bin", "clang")))
    os.chmod(path, 0o755)
    return made


def write_module(rt, name, target):
    """Writes the module of a crate, and returns whether it is proved."""
    with tempfile.TemporaryDirectory(prefix="modules-") as room:
        module = os.path.join(room, "module.bc")
        toolchain, call = catching(rt.KIT, room, module), rt.rtlib.Crate.call
        rt.rtlib.Crate.call = lambda self, *words, **how: call(self, *(toolchain if it == f"{rt.KIT}/toolchain" else it for it in words), **how)
        os.chdir(os.path.join(TOP, "crates", name))
        status = rt.main(["lib", "--backend", "llvm"])
        rt.rtlib.Crate.call = call
        if status or not os.path.exists(module):
            return False
        words = ["--target=x86_64-unknown-linux-gnu", "-x", "ir", module, "-S", "-emit-llvm", "-o", target]
        subprocess.run([os.path.join(rt.KIT, "toolchain", "bin", "clang"), *words], check=True)
    return True


def main():
    folder, *names = os.path.abspath(sys.argv[1]), *sys.argv[2:]
    os.makedirs(folder, exist_ok=True)
    rt = edits.load_rt()
    return 0 if all([write_module(rt, it, os.path.join(folder, f"{it}.ll")) for it in names]) else 1


if __name__ == "__main__":
    sys.exit(main())
