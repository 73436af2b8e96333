#!/usr/bin/env python3
"""packages.py PROGRAM: makes both packages twice, compares their bytes, unpacks each into an empty folder, checks the sums of its
files, types and serves with the program and the client that were unpacked, and asks lintian where that is installed. The last line is
`N passed, M failed`."""
import hashlib
import os
import re
import shutil
import subprocess
import sys
import tarfile
import tempfile

from harness import Results

TOP = os.path.dirname(os.path.dirname(os.path.abspath(__file__)))
TABLE = '<Multi_key> <apostrophe> <e> : "é"\n'
TYPED = 'composing ""\ncomposing ""\ncomposed "é"\nnothing "x"\n'
CLIENT = """
from composecheck_client import Client
with Client("socket", timeout=30) as client:
    client.open(7)
    print(*[client.key(7, it).text for it in (0xFF20, 0x27, 0x65, 0x78)], sep="|")
"""


# What a Debian package has beside the files of the archive, and what lintian may say, as docs/DECISIONS.md has it.
OF_DEBIAN = ("changelog.Debian.gz", "changelog.gz", "copyright")
REVISION = "0upstream1"
ACCEPTED = {
    "composecheck: maintainer-script-calls-systemctl",
    "composecheck-ibus: no-manual-page",
    "libcomposecheck1: lacks-unversioned-link-to-shared-library",
    "libcomposecheck1: shared-library-lacks-version",
}


def read(path):
    with open(path, "rb") as file:
        return file.read()


def run(*words, **options):
    return subprocess.run(words, stdout=subprocess.PIPE, stderr=subprocess.PIPE, text=True, **options)


def packed(kind, program, folder, results):
    """The package's path, or that it is not made, for lack of headers. It is made twice, the second time as another user of another place might
    make it."""
    paths = []
    for name, changes in {"first": {}, "second": {"TZ": "Asia/Tokyo", "LC_ALL": "C"}}.items():
        words = [sys.executable, os.path.join(TOP, "packaging", "package.py"), kind, program, os.path.join(folder, name, kind)]
        made = run(*words, env={**os.environ, "SOURCE_DATE_EPOCH": "1700000000", **changes}, umask=0o077 if changes else 0o022)
        results.expect(f"{kind} is made", (made.returncode, made.stderr), (0, ""))
        paths.append(made.stdout.strip())
        if "is not made" in paths[-1]:
            return paths[-1]
    results.expect(f"{kind} is the same to the byte when it is made again", read(paths[0]) == read(paths[1]), True)
    return paths[0]


def files_below(folder):
    """The path of each file below the folder, from there."""
    return sorted(os.path.relpath(os.path.join(at, name), folder) for at, _, names in os.walk(folder) for name in names)


def check_sums(what, sums, digest, folder, listed, results):
    """Every file of the list is there with its sum."""
    rows = dict(reversed(line.split("  ", 1)) for line in sums.splitlines())
    results.expect(f"{what}: the files with sums", sorted(rows), listed)
    wrong = [path for path, wanted in rows.items() if digest(read(os.path.join(folder, path))).hexdigest() != wanted]
    results.expect(f"{what}: files with another sum", wrong, [])


def check_program(what, prefix, version, results):
    """The program types and serves, over the client beside it."""
    program = os.path.join(prefix, "bin", "composecheck")
    with tempfile.TemporaryDirectory(prefix="package-") as folder:
        for name, text in {"table.compose": TABLE, "table": "root\ttable.compose\n", "repertoire": "keys 0x20 0x7e\n"}.items():
            with open(os.path.join(folder, name), "w", encoding="utf-8") as file:
                file.write(text)
        results.expect(f"{what}: version", run(program, "-V", cwd=folder).stdout, f"composecheck {version}\n")
        results.expect(f"{what}: typing", run(program, "type", "table", "Multi_key", "apostrophe", "e", "x", cwd=folder).stdout, TYPED)
        with open(os.path.join(folder, "certificate"), "w", encoding="utf-8") as file:
            file.write(run(program, "make", "table", "table", "repertoire", cwd=folder).stdout)
        words = [program, "serve", "table", "repertoire", "certificate", "socket", "1"]
        with subprocess.Popen(words, cwd=folder, stdout=subprocess.PIPE, text=True) as service:
            results.expect(f"{what}: the service listens", service.stdout.readline(), "listening\n")
            places = {**os.environ, "PYTHONPATH": os.path.join(prefix, "share", "composecheck"), "PYTHONDONTWRITEBYTECODE": "1"}
            client = run(sys.executable, "-c", CLIENT, cwd=folder, env=places)
            results.expect(f"{what}: texts of the client", (client.stdout, client.stderr), ("||é|x\n", ""))
            if client.returncode:
                service.kill()
            results.expect(f"{what}: the service's end", service.stdout.read(), "connection 1: ended\n")


def unit_program(prefix):
    """The program that the unit starts."""
    text = read(os.path.join(prefix, "lib", "systemd", "user", "composecheck.service")).decode()
    return re.search(r"^ExecStart=(\S+)", text, re.M)[1]


def check_dist(program, version, folder, results):
    """The archive; returns its files."""
    path = packed("dist", program, folder, results)
    with tarfile.open(path) as archive:
        archive.extractall(os.path.join(folder, "dist"), filter="data")
    (top,) = os.listdir(os.path.join(folder, "dist"))
    prefix = os.path.join(folder, "dist", top)
    files = files_below(prefix)
    sums = read(os.path.join(prefix, "SHA256SUMS")).decode()
    check_sums("dist", sums, hashlib.sha256, prefix, [it for it in files if it != "SHA256SUMS"], results)
    results.expect("dist: VERSION", read(os.path.join(prefix, "VERSION")).decode().splitlines()[0], f"composecheck {version}")
    results.expect("dist: the unit's program", unit_program(prefix), "/usr/local/bin/composecheck")
    check_program("dist", prefix, version, results)
    return [it for it in files if it not in ("SHA256SUMS", "VERSION")]


def check_without_kit(program, version, folder, results):
    """The archive of a given program where there is no kit: VERSION names none. Without git too the time of the sources has to be given."""
    tools = os.path.join(folder, "tools")
    os.mkdir(tools)
    words = [sys.executable, os.path.join(TOP, "packaging", "package.py"), "dist", program, tools]
    bare = {it: value for it, value in os.environ.items() if it != "SOURCE_DATE_EPOCH"} | {"PATH": tools}
    refused = run(*words, env=bare)
    results.expect("dist without git", (refused.returncode, refused.stderr.count("\n"), "set SOURCE_DATE_EPOCH" in refused.stderr), (1, 1, True))
    made = run(*words, env={**bare, "SOURCE_DATE_EPOCH": "1700000000"})
    results.expect("dist without the kit is made", (made.returncode, made.stderr), (0, ""))
    with tarfile.open(made.stdout.strip()) as archive:
        (said,) = [archive.extractfile(it).read() for it in archive.getnames() if it.endswith("/VERSION")]
    results.expect("dist without the kit: VERSION", said.decode(), f"composecheck {version}\n")


def told(paths):
    """What lintian says of packages and isn't accepted; or None where it isn't installed."""
    if not shutil.which("lintian"):
        return None
    lines = run("lintian", "--allow-root", "--no-cfg", "--fail-on", "none", *paths).stdout.splitlines()
    return [it for it in lines if not any(it.startswith(f"W: {accepted}") for accepted in ACCEPTED)]


def check_lintian(what, paths, results):
    found = told(paths)
    if found is None:
        print(f"no lintian here: {what} is not looked at")
    else:
        results.expect(f"{what}: what lintian says", found, [])


def in_debian(path):
    """Where Debian has a file of the archive."""
    return path.replace("/site-functions/", "/vendor-completions/")


def check_deb(program, version, listed, folder, results):
    path = packed("deb", program, folder, results)
    place, control = os.path.join(folder, "deb"), os.path.join(folder, "control")
    results.expect("deb is unpacked", run("dpkg-deb", "-x", path, place).returncode, 0)
    results.expect("deb: its control files are unpacked", run("dpkg-deb", "-e", path, control).returncode, 0)
    scripts = [it for it in sorted(os.listdir(control)) if os.access(os.path.join(control, it), os.X_OK)]
    results.expect("deb: what dpkg runs", scripts, ["postinst", "postrm", "prerm"])
    prefix = os.path.join(place, "usr")
    wanted = [in_debian(it) for it in listed if not it.endswith("/LICENSE")] + [f"share/doc/composecheck/{it}" for it in OF_DEBIAN]
    results.expect("deb: the files of the archive, and Debian's own", files_below(prefix), sorted(wanted))
    check_sums("deb", read(os.path.join(control, "md5sums")).decode(), hashlib.md5, place, files_below(place), results)
    results.expect("deb: version", run("dpkg-deb", "-f", path, "Version").stdout, f"{version}-{REVISION}\n")
    results.expect("deb: the unit's program", unit_program(prefix), "/usr/bin/composecheck")
    check_program("deb", prefix, version, results)
    check_lintian("deb", [path], results)


def main():
    program, results = os.path.abspath(sys.argv[1]), Results()
    version = run(program, "--version").stdout.split()[1]
    with tempfile.TemporaryDirectory(prefix="packages-") as folder:
        listed = check_dist(program, version, folder, results)
        check_without_kit(program, version, folder, results)
        if shutil.which("dpkg-deb"):
            check_deb(program, version, listed, folder, results)
        else:
            print("no dpkg-deb here: the Debian package is not made")
    return results.end()


if __name__ == "__main__":
    sys.exit(main())
