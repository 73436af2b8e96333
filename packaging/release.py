#!/usr/bin/env python3
"""Makes what the page of a release holds.

  release.py PROGRAM FOLDER           the archive of `make dist`; apt/, the Debian packages of `make deb` as a folder that apt reads; SHA256SUMS
  release.py PROGRAM FOLDER MODULES   and composecheck-VERSION-modules.tar.gz, which builds the C libraries without the kit, from compose_c.ll and
                                      compose_typing_c.ll in the folder MODULES, the C over them, and a Makefile for clang

All is the same to the byte when it is made again from the same program, libraries and modules; SOURCE_DATE_EPOCH and COMPOSECHECK_STATIC are heeded as by
package.py. Nothing is signed: that is for whoever publishes it."""
import glob
import gzip
import hashlib
import io
import os
import shutil
import subprocess
import sys
import tarfile
import tempfile

import package

TOP = package.TOP
MODULES = ("compose_c.ll", "compose_typing_c.ll")
# What clang 22 writes and clang 19 doesn't read, with what says it there: the address of a pointer, and a parameter that a call doesn't keep.
OLDER = ((b"= ptrtoaddr ", b"= ptrtoint "), (b"captures(none)", b"nocapture"))
# The folders of sources that the archive has whole, and files, by their place in it.
FOLDERS = ("lib/examples", "typing", "ibus", "fcitx5")
FILES = {
    **{f"lib/{it}": f"lib/{it}" for it in (
        "composecheck.h", "composecheck_client.h", "composecheck.map", "composecheck_client.map", "xkb_shim.map", "arrays.h", "block.h", "cache.h",
        "user_table.h", "block.c", "table.c", "files.c", "cache.c", "user_table.c", "xkb_shim.c")},
    "lib/memory.c": "packaging/source/memory.c", "Makefile": "packaging/source/Makefile", "LICENSE": "LICENSE", "CHANGELOG.md": "CHANGELOG.md",
    "LIBRARY.md": "docs/LIBRARY.md",
}


def made_by(*words):
    """Has package.py make something, and prints what it says."""
    subprocess.run([sys.executable, f"{TOP}/packaging/package.py", *words], check=True)


def apt_folder(program, folder):
    """Makes the Debian packages in a folder that apt reads: with a list of them, if dpkg-dev is there."""
    for kind in ("deb", "library", "ibus", "fcitx5"):
        made_by(kind, program, folder)
    if not shutil.which("dpkg-scanpackages"):
        print("apt/Packages is not made: it needs dpkg-scanpackages (in Debian dpkg-dev)")
        return
    words = ["dpkg-scanpackages", "--multiversion", "."]
    listed = subprocess.run(words, cwd=folder, check=True, stdout=subprocess.PIPE, stderr=subprocess.DEVNULL).stdout
    for name, content in {"Packages": listed, "Packages.gz": gzip.compress(listed, mtime=0)}.items():
        with open(f"{folder}/{name}", "wb") as file:
            file.write(content)


def for_older_clang(module):
    for new, old in OLDER:
        module = module.replace(new, old)
    return module


def source_files(modules, version):
    """Returns the bytes of each file of the archive of modules, by its place."""
    files = {f"modules/{it}": for_older_clang(package.read(f"{modules}/{it}")) for it in MODULES}
    files |= {place: package.read(f"{TOP}/{path}") for place, path in FILES.items()}
    for below in FOLDERS:
        files |= {f"{below}/{it}": package.read(f"{TOP}/{below}/{it}") for it in sorted(os.listdir(f"{TOP}/{below}")) if os.path.isfile(f"{TOP}/{below}/{it}")}
    for name, number in package.install_library.VERSIONS.items():
        files[f"lib/{name}.pc"] = package.read(f"{TOP}/lib/{name}.pc.in").replace(b"@VERSION@", number.encode())
    with tempfile.TemporaryDirectory() as room:
        sources = [f"{modules}/{MODULES[0]}", *(f"{TOP}/lib/{it}.c" for it in ("block", "table", "files", "cache", "user_table"))]
        subprocess.run([sys.executable, f"{TOP}/lib/names.py", f"{TOP}/crates/builtin_names/src/lines.rt", f"{room}/names.c", *sources], check=True)
        files["lib/names.c"] = package.read(f"{room}/names.c")
    files["VERSION"] = f"composecheck {version}\n".encode()
    return files


def source_archive(modules, version, time, folder):
    name = f"composecheck-{version}-modules"
    raw = io.BytesIO()
    with tarfile.open(fileobj=raw, mode="w", format=tarfile.USTAR_FORMAT) as packed:
        for path, content in sorted(source_files(modules, version).items()):
            package.put(packed, f"{name}/{path}", content, time)
    made = f"{folder}/{name}.tar.gz"
    with open(made, "wb") as file:
        file.write(gzip.compress(raw.getvalue(), mtime=0))
    print(made)


def write_sums(folder):
    paths = sorted(os.path.relpath(it, folder) for it in glob.glob(f"{folder}/**", recursive=True) if os.path.isfile(it))
    with open(f"{folder}/SHA256SUMS", "w", encoding="ascii") as file:
        file.writelines(f"{hashlib.sha256(package.read(f'{folder}/{it}')).hexdigest()}  {it}\n" for it in paths)


def main():
    program, folder, *modules = sys.argv[1:]
    missing = [it for it in MODULES if modules and not os.path.exists(f"{modules[0]}/{it}")]
    if missing:
        sys.exit(f"release.py: {modules[0]} has no {missing[0]}")
    os.umask(0o022)
    shutil.rmtree(folder, ignore_errors=True)
    os.makedirs(f"{folder}/apt")
    made_by("dist", program, folder)
    apt_folder(program, f"{folder}/apt")
    if modules:
        source_archive(modules[0], package.version_of(program), package.time_of_sources(), folder)
    write_sums(folder)


if __name__ == "__main__":
    main()
