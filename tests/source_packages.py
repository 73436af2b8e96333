"""The source packages of the system's release, which apt-get fetches into a folder of their own: the system's own lists and packages stay as they are. They
come from the places that the system's own apt is set up with."""
import os
import platform
import re
import subprocess
import tarfile


class Unfetched(Exception):
    """A source package that can't be fetched, and why."""


def places():
    """The lines of a list of sources: where the system's apt takes the packages of its release from, but for sources."""
    release = platform.freedesktop_os_release()["VERSION_CODENAME"]
    command = ["apt-get", "indextargets", "--format", "deb-src $(REPO_URI) $(RELEASE) $(COMPONENT)", "Created-By: Packages", f"Codename: {release}"]
    ran = subprocess.run(command, check=True, capture_output=True, text=True, timeout=60)
    lines = sorted(set(ran.stdout.splitlines()))
    if not lines:
        raise Unfetched(f"apt has no place for {release}")
    return "".join(f"{line}\n" for line in lines)


def places_of(*releases):
    """The same for packages of these releases, from where the system's apt takes those of its own, also before it has fetched any list."""
    own = platform.freedesktop_os_release()["VERSION_CODENAME"]
    ran = subprocess.run(["apt-get", "update", "--print-uris"], check=True, capture_output=True, text=True, timeout=60)
    found = re.search(rf"^'(\S+)/dists/{own}/InRelease'", ran.stdout, re.M)
    if not found:
        raise Unfetched(f"apt has no place for {own}")
    return "".join(f"deb {found[1]} {it} main\n" for it in releases)


class SourcePackages:
    """The source packages of the release, in a folder that is there, or packages from other places. The lists are fetched once, before the first
    package."""

    def __init__(self, folder, lines=places):
        self.folder, self.lines, self.has_lists = folder, lines, False
        own = {"Dir::Etc::sourcelist": "sources.list", "Dir::State::lists": "lists", "Dir::Cache": "cache"}
        settings = {"Dir::Etc::sourceparts": "-", "APT::Update::Error-Mode": "any", "Acquire::http::Timeout": "20"}
        settings |= {key: os.path.join(folder, name) for key, name in own.items()}
        self.words = [it for key, value in settings.items() for it in ("-o", f"{key}={value}")]

    def run(self, *words, where):
        ran = subprocess.run(["apt-get", *self.words, *words], cwd=where, check=False, capture_output=True, text=True, timeout=1800)
        if ran.returncode:
            raise Unfetched(f"apt-get {' '.join(words)}: {(ran.stderr.splitlines() or ['failed'])[-1]}")

    def update(self):
        for name in ("lists/partial", "cache/archives/partial"):
            os.makedirs(os.path.join(self.folder, name), exist_ok=True)
        with open(os.path.join(self.folder, "sources.list"), "w", encoding="utf-8") as file:
            file.write(self.lines())
        self.run("update", where=self.folder)
        self.has_lists = True

    def fetch(self, package):
        """Fetches a package and returns the folder that it unpacks to: what its authors released, without Debian's changes."""
        folder = os.path.join(self.folder, package)
        try:
            if not self.has_lists:
                self.update()
            os.makedirs(folder, exist_ok=True)
            self.run("source", "--download-only", package, where=folder)
        except (OSError, KeyError, subprocess.SubprocessError) as error:
            raise Unfetched(f"{package}: {error}") from error
        archive, = (it for it in os.listdir(folder) if ".orig.tar." in it and not it.endswith(".asc"))
        with tarfile.open(os.path.join(folder, archive)) as file:
            top = file.getnames()[0].split("/")[0]
            file.extractall(folder)
        return os.path.join(folder, top)
