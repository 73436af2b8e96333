#!/usr/bin/env python3
"""Packs the proved program into files that others can install.

  package.py dist PROGRAM FOLDER    composecheck-VERSION-ARCH.tar.gz: the program, manual pages, share/, licence, SHA256SUMS and VERSION
  package.py deb PROGRAM FOLDER     composecheck_VERSION_ARCH.deb, by dpkg-deb
  package.py ibus PROGRAM FOLDER    composecheck-ibus_VERSION_ARCH.deb: the engine of IBus, built by cmake where the headers of IBus are installed;
                                    else it says that it isn't made
  package.py fcitx5 PROGRAM FOLDER  fcitx5-composecheck_VERSION_ARCH.deb: the addon of fcitx5, likewise
  package.py library PROGRAM FOLDER  libcomposecheck1_VERSION_ARCH.deb, libcomposecheck-client0_VERSION_ARCH.deb and
                                    libcomposecheck-dev_VERSION_ARCH.deb: the C libraries, and what programs are built with

The engines of IBus and fcitx5 need libcomposecheck-client0, and recommend libcomposecheck1. The proved static libraries have to be there for all but
the first two: `make lib`.

The first two hold the same files in the same places, the first below a prefix of one's own (the files name /usr/local), the second below
/usr. All are the same to the byte when they are made from the same program and sources. Their files are as old as the last commit, or as
SOURCE_DATE_EPOCH says.
"""
import gzip
import hashlib
import io
import os
import platform
import re
import shutil
import subprocess
import sys
import tarfile
import tempfile

import debian
from debian import Package

TOP = os.path.dirname(os.path.dirname(os.path.abspath(__file__)))
sys.path.insert(0, f"{TOP}/lib")
import build_library
import install_library

COMPLETIONS = {
    "composecheck.bash": "share/bash-completion/completions/composecheck",
    "_composecheck": "share/zsh/site-functions/_composecheck",
    "composecheck.fish": "share/fish/vendor_completions.d/composecheck.fish",
}
# The documents for those who use it, without a source tree.
PAGES = (*(f"{it}.md" for it in ("FAQ", "FORMATS", "GUIDE", "MACHINES", "OUTPUT", "PROTOCOL", "READERS", "SERVICE", "TYPING")), "list.png")
UNITS = ("composecheck.service", "composecheck.socket", "composecheck-update@.path", "composecheck-update@.service", "composecheck-update@.timer")
# Which files of the C library programs are built with; the others are needed where they run.
DEVELOPMENT = (".a", ".h", ".pc", "/libcomposecheck.so", "/libcomposecheck-client.so")
PROGRAMS = ("bin/composecheck", ".sh", "/ci/autopkgtest", "/ibus-engine-composecheck", "/ibus-setup-composecheck")


# What is built with the headers of an input method, by the folder of its sources: the name that pkg-config has for these, and the package of Debian.
HEADERS = {"ibus": ("ibus-1.0", "libibus-1.0-dev"), "fcitx5": ("Fcitx5Core", "libfcitx5core-dev")}


THE_PROGRAM = Package("composecheck", "x11", "", "libc6", """checks migrations between X11 Compose tables, and serves typing
 composecheck lists what a new Compose table changes for people who type with
 the old one, shows the shortest keys on which two tables differ, and serves
 typing sessions over a Unix socket. Its promises are proved.
""", scripts=("postinst", "postrm", "prerm"), triggers="""\
# Compose files of the system, and of packages that activate the second one
interest-noawait /usr/share/X11/locale
interest-noawait composecheck-table
""")
LIBRARY = Package("libcomposecheck1", "libs", "", "libc6", """Compose tables and compose states for programs
 libcomposecheck reads Compose tables, types with them, and takes a new table
 in the middle of a sequence. libcomposecheck-xkb.so has the functions of
 libxkbcommon's Compose over it, for LD_PRELOAD. Its promises are proved.
""")
CLIENT = Package("libcomposecheck-client0", "libs", "", "libc6", """client of a composecheck service, for input methods
 libcomposecheck-client decides what an input method sends to a typing service,
 and what each reply and each lost connection means. It does no input and no
 output. Its promises are proved.
""")
LIBRARY_DEV = Package("libcomposecheck-dev", "libdevel", "libcomposecheck-client0 (= VERSION), libcomposecheck1 (= VERSION)", "", """Compose tables and compose states for programs, development files
 The headers, the static libraries and the pkg-config files of libcomposecheck
 and libcomposecheck-client, their guide and four examples.
""")
IBUS = Package("composecheck-ibus", "utils", "composecheck (= VERSION), gir1.2-gtk-3.0, ibus, libcomposecheck-client0 (= VERSION), python3 (>= 3.9), python3-gi",
               "libc6, libglib2.0-0, libibus-1.0-5, libstdc++6", """Compose sequences of a composecheck service, for IBus
 An engine of IBus that types by the Compose table of a running service. The
 table can be replaced while people type, also in the middle of a sequence.
 What is pending is shown where it will stand, and with libcomposecheck1 the
 keys that can follow can be listed.
""", "libcomposecheck1 (= VERSION)")
FCITX5 = Package("fcitx5-composecheck", "utils", "composecheck (= VERSION), fcitx5, libcomposecheck-client0 (= VERSION)",
                 "libc6, libfcitx5config6, libfcitx5core7, libfcitx5utils2, libstdc++6", """Compose sequences of a composecheck service, for fcitx5
 An addon of fcitx5 that types by the Compose table of a running service, under
 every keyboard layout and before every input method. The table can be replaced
 while people type, also in the middle of a sequence. It is on as soon as it is
 installed. With libcomposecheck1 the keys that can follow can be listed.
""", "libcomposecheck1 (= VERSION)")


def text_of(*command):
    return subprocess.run(command, cwd=TOP, check=True, stdout=subprocess.PIPE, text=True).stdout.strip()


def read(path):
    with open(path, "rb") as file:
        return file.read()


def files_of(program, prefix):
    """Returns the bytes of each file by its place below the prefix, the program among them."""
    def named(path):
        return read(f"{TOP}/{path}").replace(b"/usr/local/", f"{prefix}/".encode())

    files = {"bin/composecheck": read(program)}
    for section in "15":
        # (compressed, as Debian installs it)
        files[f"share/man/man{section}/composecheck.{section}.gz"] = gzip.compress(named(f"docs/composecheck.{section}"), mtime=0)
    for folder in ("share/composecheck", "share/composecheck/ci", "share/composecheck/repertoires"):
        for name in sorted(os.listdir(f"{TOP}/{folder}")):
            if os.path.isfile(f"{TOP}/{folder}/{name}"):
                files[f"{folder}/{name}"] = named(f"{folder}/{name}")
    for name in UNITS:
        files[f"lib/systemd/user/{name}"] = named(f"share/composecheck/{name}")
    for name, place in COMPLETIONS.items():
        files[place] = read(f"{TOP}/share/completions/{name}")
    for name in PAGES:
        files[f"share/doc/composecheck/{name}"] = read(f"{TOP}/docs/{name}")
    files["share/doc/composecheck/LICENSE"] = read(f"{TOP}/LICENSE")
    return files


def for_debian(files):
    """The same in the places that Debian's policy has for them; the licence is in the package's copyright."""
    return {path.replace("/site-functions/", "/vendor-completions/"): content for path, content in files.items() if not path.endswith("/LICENSE")}


def can_build(kind):
    """Whether the engine of IBus, or the addon of fcitx5, can be built here."""
    tools = [shutil.which(it) for it in ("cmake", "c++", "pkg-config")]
    return all(tools) and subprocess.run(["pkg-config", "--exists", HEADERS[kind][0]], check=False).returncode == 0


def built_files(kind, version):
    """The same for the engine of IBus, or the addon of fcitx5, which is built."""
    with tempfile.TemporaryDirectory() as room:
        build_library.build_client(f"{room}/lib")
        settings = ("BUILD_TYPE=Release", "INSTALL_PREFIX=/usr", "INSTALL_LIBDIR=lib/" + text_of("gcc", "-print-multiarch"))
        steps = (
            ["cmake", "-S", f"{TOP}/{kind}", "-B", f"{room}/build", f"-DCOMPOSECHECK_VERSION={version}",
             f"-DCOMPOSECHECK_CLIENT_FOLDER={room}/lib", *(f"-DCMAKE_{it}" for it in settings)],
            ["cmake", "--build", f"{room}/build"],
            ["cmake", "--install", f"{room}/build", "--strip"],
        )
        for step in steps:
            subprocess.run(step, check=True, stdout=subprocess.DEVNULL, env={**os.environ, "DESTDIR": f"{room}/installed"})
        top = f"{room}/installed/usr"
        places = [os.path.relpath(os.path.join(at, name), top) for at, _, names in os.walk(top) for name in names]
        files = {place: read(f"{top}/{place}") for place in places}
    return files


def library_files():
    """The same for the C libraries, which are built: those of each library, and those that programs are built with. A link is what it leads to, as
    text."""
    folder = f"lib/{platform.machine()}-linux-gnu"
    with tempfile.TemporaryDirectory() as room:
        install_library.install(room, "/usr")
        places = [os.path.relpath(os.path.join(at, name), room) for at, _, names in os.walk(room) for name in names]
        built = {it: os.readlink(f"{room}/{it}") if os.path.islink(f"{room}/{it}") else read(f"{room}/{it}") for it in places}
    files = {re.sub("^lib", folder, place): content for place, content in built.items()}
    for name in install_library.VERSIONS:
        settings = f"{folder}/pkgconfig/{name}.pc"
        files[settings] = files[settings].replace(b"${prefix}/lib", f"${{prefix}}/{folder}".encode())
    parts = {LIBRARY: {}, CLIENT: {}, LIBRARY_DEV: {}}
    for place, content in files.items():
        parts[LIBRARY_DEV if place.endswith(DEVELOPMENT) else CLIENT if "libcomposecheck-client" in place else LIBRARY][place] = content
    parts[LIBRARY_DEV][f"share/doc/{LIBRARY_DEV.name}/LIBRARY.md"] = read(f"{TOP}/docs/LIBRARY.md")
    for name in ("type.c", "live.c", "file.c", "client.c"):
        parts[LIBRARY_DEV][f"share/doc/{LIBRARY_DEV.name}/examples/{name}"] = read(f"{TOP}/lib/examples/{name}")
    return parts


def mode_of(path):
    return 0o755 if path.endswith(PROGRAMS) else 0o644


def put(packed, name, content, time):
    item = tarfile.TarInfo(name)
    item.size, item.mtime, item.mode = len(content), time, mode_of(name)
    packed.addfile(item, io.BytesIO(content))


def make_dist(files, version, time, folder):
    name = f"composecheck-{version}-{platform.machine()}"
    kit = f"{text_of('rt', 'version')}\n" if shutil.which("rt") else ""
    whole = {**files, "VERSION": f"composecheck {version}\n{kit}".encode()}
    whole["SHA256SUMS"] = "".join(f"{hashlib.sha256(content).hexdigest()}  {path}\n" for path, content in sorted(whole.items())).encode()
    raw = io.BytesIO()
    with tarfile.open(fileobj=raw, mode="w", format=tarfile.USTAR_FORMAT) as packed:
        for path, content in sorted(whole.items()):
            put(packed, f"{name}/{path}", content, time)
    made = f"{folder}/{name}.tar.gz"
    with open(made, "wb") as file:
        file.write(gzip.compress(raw.getvalue(), mtime=0))
    return made


def version_of(program):
    return text_of(os.path.abspath(program), "--version").split()[1]


def time_of_sources():
    """When the last commit was made, or what SOURCE_DATE_EPOCH says."""
    given = os.environ.get("SOURCE_DATE_EPOCH")
    try:
        return int(given or text_of("git", "log", "-1", "--format=%ct"))
    except (OSError, subprocess.CalledProcessError):
        sys.exit("package.py: here is no history of git that says how old the sources are: set SOURCE_DATE_EPOCH, in seconds")


def main():
    kind, program, folder = sys.argv[1:]
    os.umask(0o022)
    os.makedirs(folder, exist_ok=True)
    version, time = version_of(program), time_of_sources()
    if kind == "dist":
        print(make_dist(files_of(program, "/usr/local"), version, time, folder))
    elif kind == "deb":
        print(debian.make(THE_PROGRAM, for_debian(files_of(program, "/usr")), version, time, folder, mode_of))
    elif kind == "library":
        for package, files in library_files().items():
            print(debian.make(package, files, version, time, folder, mode_of))
    else:
        package = {"ibus": IBUS, "fcitx5": FCITX5}[kind]
        if can_build(kind):
            print(debian.make(package, built_files(kind, version), version, time, folder, mode_of))
        else:
            print(f"{package.name} is not made: it needs cmake, c++, pkg-config and the headers of {kind} (in Debian {HEADERS[kind][1]})")


if __name__ == "__main__":
    main()
