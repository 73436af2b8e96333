"""What Debian's policy asks of a package beside the program's own files: its control file, its copyright in the machine-readable form (DEP-5), its
changelogs, and what a shared library declares."""
import datetime
import email.utils
import gzip
import hashlib
import os
import platform
import re
import shutil
import subprocess
import sys
import tempfile
from typing import NamedTuple

TOP = os.path.dirname(os.path.dirname(os.path.abspath(__file__)))
sys.path.insert(0, f"{TOP}/lib")
import build_library

ARCHITECTURES = {"x86_64": "amd64", "aarch64": "arm64"}
MAINTAINER = "Mewarogun maintainers <maintainers@users.noreply.mewarogun.example>"
# The revision that Debian's own package would have is greater, and so takes this one's place.
REVISION = "0upstream1"
SHARED = re.compile(r"lib/[^/]+/(lib[\w-]+)\.so\.(\d+)")


class Package(NamedTuple):
    """What a Debian package is called, and its description. What it needs of the system's libraries, dpkg-shlibdeps finds, or else they are those of
    Debian 12. VERSION is the package's own one."""

    name: str
    section: str
    depends: str
    libraries: str
    description: str
    recommends: str = ""
    # The files that dpkg runs, in packaging/, and what else has it run them.
    scripts: tuple = ()
    triggers: str = ""


def architecture():
    return ARCHITECTURES[platform.machine()]


def package_version(version):
    return f"{version}-{REVISION}"


def paragraph(text):
    """A text as a field's continuation: each line with a space before it, and a point in an empty one."""
    return "".join(f" {line.strip() or '.'}\n" for line in text.strip().splitlines())


def read_text(path):
    with open(os.path.join(TOP, path), encoding="utf-8") as file:
        return file.read()


def copyright_text():
    """The licence of the sources, and that of the headers whose names are built in."""
    holder = re.search(r"^Copyright \(c\) (.*)$", read_text("LICENSE"), re.M)[1]
    grant = read_text("LICENSE").partition(holder)[2]
    head = read_text("packaging/xorgproto/keysymdef.h").partition("/***")[2].partition("***/")[0].strip("*\n")
    return f"""Format: https://www.debian.org/doc/packaging-manuals/copyright-format/1.0/
Upstream-Name: composecheck
Source: the repository in which `make deb` made this package

Files: *
Copyright: {holder}
License: Expat
{paragraph(grant)}
Files: packaging/xorgproto/keysymdef.h
Copyright: 1987, 1994, 1998 The Open Group
           1987 Digital Equipment Corporation, Maynard, Massachusetts
License: X11-and-HPND
{paragraph(head)}
Files: packaging/xorgproto/XF86keysym.h
Copyright: The XFree86 Project
Comment: The file names no licence; it is part of xorgproto. Of both headers the
 names and numbers of keysyms are in the program and in the libraries.
License: X11-and-HPND
"""


def changelog(package, version, time):
    """The changelog of the package itself; that of the program is beside it."""
    date = email.utils.format_datetime(datetime.datetime.fromtimestamp(time, datetime.timezone.utc))
    return f"{package.name} ({package_version(version)}) unstable; urgency=medium\n\n  * Version {version}: changelog.gz says what changes.\n\n -- {MAINTAINER}  {date}\n"


def compressed(text):
    return gzip.compress(text.encode(), mtime=0)


def documents(package, version, time):
    """The files that each package has in its folder of documents, by their place below /usr."""
    folder = f"share/doc/{package.name}"
    return {
        f"{folder}/copyright": copyright_text().encode(),
        f"{folder}/changelog.gz": compressed(read_text("CHANGELOG.md")),
        f"{folder}/changelog.Debian.gz": compressed(changelog(package, version, time)),
    }


def declared(package, files, version):
    """More control files: what has dpkg run the scripts; and of shared libraries what a program needs that is linked with one, and that the linker's
    cache is made anew."""
    if package.triggers:
        return {"triggers": package.triggers}
    shared = [SHARED.fullmatch(place) for place, content in files.items() if isinstance(content, bytes)]
    rows = [f"{it[1]} {it[2]} {package.name} (>= {version})\n" for it in shared if it]
    return {"shlibs": "".join(rows), "triggers": "activate-noawait ldconfig\n"} if rows else {}


def needed_libraries(package, files, room, version):
    """What a package needs for the shared libraries that its files are linked with."""
    linked = [f"{room}/usr/{path}" for path, content in sorted(files.items()) if isinstance(content, bytes) and is_linked(content)]
    if not linked or not shutil.which("dpkg-shlibdeps"):
        return package.libraries
    with tempfile.TemporaryDirectory() as sources:
        os.mkdir(f"{sources}/debian")
        with open(f"{sources}/debian/control", "w", encoding="utf-8") as file:
            file.write(f"Source: composecheck\n\nPackage: {package.name}\nArchitecture: any\n")
        with open(f"{sources}/debian/shlibs.local", "w", encoding="utf-8") as file:
            file.write(f"libcomposecheck-client 0 libcomposecheck-client0 (= {package_version(version)})\n")
        if "libcomposecheck-client0" in package.depends:
            build_library.build_client(f"{sources}/lib")
        words = ["dpkg-shlibdeps", "-O", "--ignore-missing-info", f"-l{sources}/lib", *linked]
        found = subprocess.run(words, cwd=sources, stdout=subprocess.PIPE, stderr=subprocess.PIPE, text=True, check=False)
    return found.stdout.strip().partition("=")[2] if found.returncode == 0 else package.libraries


def is_linked(content):
    """Whether these bytes are a program or a shared library."""
    return content[:4] == b"\x7fELF" and content[16] in (2, 3)


def stripped(content):
    """A program or a shared library without its symbols and its notes of the compiler, where binutils are there; other bytes as they are."""
    if isinstance(content, str) or not is_linked(content) or not shutil.which("strip"):
        return content
    with tempfile.NamedTemporaryFile() as file:
        file.write(content)
        file.flush()
        subprocess.run(["strip", "--strip-unneeded", "--remove-section=.comment", "--remove-section=.note", file.name], check=True)
        with open(file.name, "rb") as made:
            return made.read()


def control(package, files, version, libraries):
    size = sum(len(it) for it in files.values()) // 1024 + 1
    own = package_version(version)
    depends = ", ".join(sorted({it.replace("VERSION", own) for it in f"{package.depends}, {libraries}".split(", ") if it}))
    recommended = f"Recommends: {package.recommends.replace('VERSION', own)}\n" if package.recommends else ""
    source = "Source: composecheck\n" if package.name != "composecheck" else ""
    several = "Multi-Arch: same\n" if package.section.startswith("lib") else ""
    return f"""Package: {package.name}
{source}Version: {own}
Section: {package.section}
Priority: optional
Architecture: {architecture()}
{several}Depends: {depends}
{recommended}Installed-Size: {size}
Maintainer: {MAINTAINER}
Description: {package.description}"""


def lay_out(files, room, mode_of):
    """Puts the files below room/usr. A link is what it leads to, as text."""
    for path, content in files.items():
        place = f"{room}/usr/{path}"
        os.makedirs(os.path.dirname(place), mode=0o755, exist_ok=True)
        if isinstance(content, str):
            os.symlink(content, place)
            continue
        with open(place, "wb") as file:
            file.write(content)
        os.chmod(place, mode_of(path))


def write_control(package, files, version, room):
    os.mkdir(f"{room}/DEBIAN", 0o755)
    libraries = needed_libraries(package, files, room, version)
    sums = "".join(f"{hashlib.md5(it).hexdigest()}  usr/{path}\n" for path, it in sorted(files.items()) if isinstance(it, bytes))
    for name, text in {"control": control(package, files, version, libraries), "md5sums": sums, **declared(package, files, version)}.items():
        with open(f"{room}/DEBIAN/{name}", "w", encoding="utf-8") as file:
            file.write(text)
    for name in package.scripts:
        shutil.copy(f"{TOP}/packaging/{name}", f"{room}/DEBIAN/{name}")
        os.chmod(f"{room}/DEBIAN/{name}", 0o755)


def make(package, files, version, time, folder, mode_of):
    """Makes the package of these files, and returns its path."""
    made = f"{folder}/{package.name}_{package_version(version)}_{architecture()}.deb"
    whole = {path: stripped(content) for path, content in files.items()} | documents(package, version, time)
    with tempfile.TemporaryDirectory() as room:
        os.chmod(room, 0o755)
        lay_out(whole, room, mode_of)
        write_control(package, whole, version, room)
        for at, _, names in os.walk(room, topdown=False):
            for name in [*names, "."]:
                os.utime(f"{at}/{name}", (time, time), follow_symlinks=False)
        words = ["dpkg-deb", "--build", "--root-owner-group", "-Zxz", room, made]
        subprocess.run(words, check=True, stdout=subprocess.DEVNULL, env={**os.environ, "SOURCE_DATE_EPOCH": str(time)})
    return made
