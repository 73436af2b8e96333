#!/usr/bin/env python3
"""Builds the C libraries from the proved static libraries and the C over them.

  build_library.py FOLDER             builds into the folder: libcomposecheck.a, libcomposecheck.so.1 with its link, libcomposecheck-xkb.so, and
                                      libcomposecheck-client.a and libcomposecheck-client.so.0 with its link
  build_library.py --client FOLDER    the last three alone
  build_library.py FOLDER FLAG..      the first static library with these flags of the compiler besides, as -fsanitize=address,undefined

The proved static libraries have to be there (`make lib` proves and builds them first); with COMPOSECHECK_STATIC=FOLDER those that
`tools/unproved.py FOLDER/compose_c.a compose_c` builds without a proof take their place. The compiler is $CC, or cc, or clang: the kit's clang has no C headers."""
import os
import shutil
import subprocess
import sys

LIB = os.path.dirname(os.path.abspath(__file__))
TOP = os.path.dirname(LIB)


def static_library(crate):
    """Returns where the static library of a crate is: the proved one, or in the folder $COMPOSECHECK_STATIC one that is built without a proof, for tests."""
    return f"{os.environ.get('COMPOSECHECK_STATIC') or f'{TOP}/crates/{crate}/out'}/{crate}.a"


PROVED, PROVED_CLIENT = static_library("compose_c"), static_library("compose_typing_c")
WARNINGS = ["-std=c99", "-Wall", "-Wextra", "-Wpedantic", "-Werror"]


def kit():
    """Returns the folder of the kit that `rt` on PATH belongs to."""
    rt = shutil.which("rt") or sys.exit("lib/build_library.py: there is no rt on PATH")
    return os.path.dirname(os.path.dirname(os.path.realpath(rt)))


def compiler():
    return os.environ.get("CC") or shutil.which("cc") or "clang"


def run(*command, **options):
    subprocess.run(command, check=True, **options)


def compiled(folder, flags):
    """Compiles the C code, and returns the object files: those of the library, and that of the shim."""
    sources = [f"{LIB}/{it}.c" for it in ("block", "table", "files", "cache", "user_table")]
    run(sys.executable, f"{LIB}/names.py", f"{TOP}/crates/builtin_names/src/lines.rt", f"{folder}/names.c", PROVED, *sources)
    objects = []
    for source in (*sources, f"{folder}/names.c", f"{LIB}/xkb_shim.c"):
        target = f"{folder}/{os.path.basename(source)[:-2]}.o"
        run(compiler(), "-O2", "-fPIC", *WARNINGS, *flags, f"-I{LIB}", "-c", source, "-o", target)
        objects.append(target)
    return objects[:-1], objects[-1]


def archive(folder, objects):
    """Makes the static library: the proved code, the kit's calls of malloc and free, and the C over it."""
    parts = "".join(f"addlib {it}\n" for it in (PROVED, f"{kit()}/c/liblibc_c.a")) + "".join(f"addmod {it}\n" for it in objects)
    target = f"{folder}/libcomposecheck.a"
    run("ar", "-M", input=f"create {target}\n{parts}save\nend\n", text=True)
    return target


def shared(folder, name, script, words, flags):
    run(compiler(), "-shared", *flags, f"-Wl,-soname,{name}", f"-Wl,--version-script,{LIB}/{script}", *words, "-Wl,-z,defs", "-o", f"{folder}/{name}")


def needs(proved):
    """Ends the program if the proved static library isn't there."""
    if not os.path.exists(proved):
        sys.exit(f"lib/build_library.py: {proved} isn't there: `make lib` builds it")


def link(folder, name):
    """Makes the link that programs are built with, from the name without a number to the shared library."""
    path = f"{folder}/{name.rpartition('.')[0]}"
    if not os.path.lexists(path):
        os.symlink(name, path)


def build_client(folder):
    """Builds the library of clients, which calls nothing but memcpy, memmove and memset."""
    os.makedirs(folder, exist_ok=True)
    needs(PROVED_CLIENT)
    library = f"{folder}/libcomposecheck-client.a"
    shutil.copy(PROVED_CLIENT, library)
    name = "libcomposecheck-client.so.0"
    shared(folder, name, "composecheck_client.map", ["-Wl,--whole-archive", library, "-Wl,--no-whole-archive"], ())
    link(folder, name)


def build(folder, flags=()):
    os.makedirs(folder, exist_ok=True)
    needs(PROVED)
    objects, shim = compiled(folder, flags)
    library = archive(folder, objects)
    if flags:
        return
    shared(folder, "libcomposecheck.so.1", "composecheck.map", ["-Wl,--whole-archive", library, "-Wl,--no-whole-archive"], flags)
    shared(folder, "libcomposecheck-xkb.so", "xkb_shim.map", [shim, library], flags)
    link(folder, "libcomposecheck.so.1")
    build_client(folder)


if __name__ == "__main__":
    if sys.argv[1] == "--client":
        build_client(sys.argv[2])
    else:
        build(sys.argv[1], sys.argv[2:])
