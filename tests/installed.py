#!/usr/bin/env python3
"""installed.py PROGRAM: what `make install` installs and `make uninstall` takes away, with the client imported from there; the packages of the
engine of IBus and of the addon of fcitx5, made twice and unpacked; the unit of systemd, whose command is run; and what the unit runs that takes a
changed Compose file into use. The last line is `N passed, M failed`."""
import hashlib
import os
import re
import resource
import shutil
import subprocess
import sys
import tempfile
import xml.etree.ElementTree

from packages import REVISION, check_lintian, check_sums, files_below, packed, read, run
from harness import CLIENT_LIBRARY, Results
from typing_service import TypingService, settings_of_the_unit

TOP = os.path.dirname(os.path.dirname(os.path.abspath(__file__)))
sys.path.insert(0, os.path.join(TOP, "share", "composecheck"))
from composecheck_client import Client, TimedOut

IMPORTED = "import composecheck_client, composecheck_typing; print(composecheck_client.__file__)"


def python(code, *folders):
    """What Python prints, where modules lie in these folders too."""
    return run(sys.executable, "-c", code, env={**os.environ, "PYTHONPATH": os.pathsep.join(folders), "PYTHONDONTWRITEBYTECODE": "1"})


# ---- make install

class Tree:
    """A copy of the source tree with the program in it, in which `make` builds neither it nor the C libraries."""

    def __init__(self, program, folder):
        self.top = os.path.join(folder, "top")
        for it in ("docs", "fcitx5", "ibus", "lib", "share", "typing"):
            shutil.copytree(os.path.join(TOP, it), os.path.join(self.top, it), ignore=shutil.ignore_patterns("__pycache__"))
        shutil.copy(os.path.join(TOP, "Makefile"), self.top)
        shutil.copy(program, os.path.join(self.top, "composecheck"))
        os.mkdir(os.path.join(self.top, "crates"))
        os.symlink(os.path.dirname(os.path.dirname(CLIENT_LIBRARY)), os.path.join(self.top, "build"))

    def make(self, *words):
        old = [word for it in ("composecheck", "lib-client", "install-lib", "install-client") for word in ("-o", it)]
        return run("make", "-s", *old, *words, cwd=self.top, timeout=600)


def check_install(program, folder, results):
    """Below a prefix that Python looks in, and below one that it doesn't."""
    tree, place = Tree(program, folder), os.path.join(folder, "place")
    run(sys.executable, "-m", "venv", "--without-pip", place)
    before = files_below(place)
    interpreter = os.path.join(place, "bin", "python3")
    made = tree.make("install", f"PREFIX={place}", f"PYTHON={interpreter}")
    results.expect("make install", (made.returncode, made.stderr), (0, ""))
    has_engine = "The engine of IBus is left out, for lack of " not in made.stdout
    results.expect("the engine of IBus is there, or is said to be left out", os.path.exists(os.path.join(place, "libexec", "ibus-engine-composecheck")), has_engine)
    if not has_engine:
        print(made.stdout, end="")
    got = run(interpreter, "-c", IMPORTED)
    results.expect("the client is imported from the prefix", (got.stdout.startswith(f"{place}/lib/"), got.stderr), (True, ""))
    got = run(interpreter, "-c", "import importlib.util; print(importlib.util.find_spec('composecheck').origin)")
    results.expect("the library's module is where Python looks", (got.stdout.startswith(f"{place}/lib/"), got.stderr), (True, ""))
    shared = os.path.join(place, "share", "composecheck")
    results.expect("the client is imported from its documented place", python(IMPORTED, shared).stdout, f"{shared}/composecheck_client.py\n")
    snippets = [sorted(os.listdir(os.path.join(it, "ci"))) for it in (shared, os.path.join(TOP, "share", "composecheck"))]
    results.expect("the snippets are installed", *snippets)
    if has_engine:
        check_component(place, place, version_of(program), results)
    check_units(place, results)
    if can_build("Fcitx5Core"):
        made = tree.make("install-fcitx5", f"PREFIX={place}")
        results.expect("make install-fcitx5", (made.returncode, made.stderr, [it for it in files_below(place) if it.endswith("/fcitx5/composecheck.so")] != []), (0, "", True))
    made = tree.make("uninstall", f"PREFIX={place}", f"PYTHON={interpreter}")
    left = [it for it in files_below(place) if it not in before and "__pycache__" not in it]
    results.expect("make uninstall leaves nothing", (made.returncode, made.stderr, left), (0, "", []))
    other = os.path.join(folder, "other")
    made = tree.make("install", f"DESTDIR={other}", "PREFIX=/opt/composecheck")
    results.expect("make install with DESTDIR", (made.returncode, os.listdir(other)), (0, ["opt"]))
    if has_engine:
        check_component(os.path.join(other, "opt", "composecheck"), "/opt/composecheck", version_of(program), results)


def can_build(headers):
    """Whether cmake, a compiler and the headers of this name in pkg-config are there."""
    return all(map(shutil.which, ("cmake", "c++", "pkg-config"))) and run("pkg-config", "--exists", headers).returncode == 0


def version_of(program):
    return run(program, "--version").stdout.split()[1]


LAYOUTS = """<?xml version="1.0" encoding="UTF-8"?>
<!DOCTYPE xkbConfigRegistry SYSTEM "xkb.dtd">
<xkbConfigRegistry version="1.1">
  <layoutList>
    <layout>
      <configItem>
        <name>de</name>
        <shortDescription>de</shortDescription>
        <description>German</description>
        <languageList><iso639Id>deu</iso639Id></languageList>
      </configItem>
      <variantList>
        <variant><configItem><name>nodeadkeys</name><description>German (no dead keys)</description></configItem></variant>
        <variant>
          <configItem>
            <name>tr</name>
            <shortDescription>tr</shortDescription>
            <description>Turkish (Germany)</description>
            <languageList><iso639Id>tur</iso639Id><iso639Id>deu</iso639Id></languageList>
          </configItem>
        </variant>
      </variantList>
    </layout>
    <layout><configItem><name>xx</name><description>A &amp; B</description></configItem><variantList/></layout>
  </layoutList>
</xkbConfigRegistry>
"""
# Of each engine: its name, the long one, the language, the layout with its variant, and the sign of the panel.
ENGINES = [
    ["composecheck:de", "German, Compose", "de", "de", "", "de"],
    ["composecheck:de:nodeadkeys", "German (no dead keys), Compose", "de", "de", "nodeadkeys", "de"],
    ["composecheck:de:tr", "Turkish (Germany), Compose", "tr", "de", "tr", "tr"],
    ["composecheck:xx", "A & B, Compose", "other", "xx", "", ""],
]
# (as GNOME Shell has it)
IN_GNOME = [[*it[:3], "+".join(filter(None, it[3:5])), "", it[5]] for it in ENGINES]


def check_engines(asked, setup, folder, results):
    """What the component asks for: an engine for each layout, in the form that GNOME Shell reads where that runs."""
    path = os.path.join(folder, "layouts.xml")
    with open(path, "w", encoding="utf-8") as file:
        file.write(LAYOUTS)
    settings = {"HOME": folder, "LD_LIBRARY_PATH": os.path.dirname(CLIENT_LIBRARY)}
    for desktop, wanted in (("KDE", ENGINES), ("GNOME-Classic:GNOME", IN_GNOME)):
        got = run(*asked, path, env={**settings, "XDG_CURRENT_DESKTOP": desktop})
        listed = xml.etree.ElementTree.fromstring(got.stdout).findall("engine")
        parts = ("name", "longname", "language", "layout", "layout_variant", "symbol")
        results.expect(f"the engines of layouts, {desktop}", [[it.findtext(part) for part in parts] for it in listed], wanted)
        results.expect(f"their settings, {desktop}", {it.findtext("setup") for it in listed}, {setup})
    got = run(*asked, os.path.join(folder, "nosuch"), env=settings)
    results.expect("the engines of layouts, without any", (got.stdout, got.stderr, got.returncode), ("<engines>\n</engines>\n", "", 0))
    os.remove(path)


def check_component(place, prefix, version, results):
    """The component of IBus names files that are there, and runs."""
    component = xml.etree.ElementTree.parse(os.path.join(place, "share", "ibus", "component", "composecheck.xml")).getroot()
    named = [component.findtext("exec").split()[0], component.findtext("engines/engine/setup")]
    asked, = filter(None, (it.get("exec") for it in component.findall("engines")))
    check_engines(asked.replace(prefix, place, 1).split(), named[1], place, results)
    results.expect("the component's version", component.findtext("version"), version)
    results.expect("the component's programs", [os.access(it.replace(prefix, place, 1), os.X_OK) for it in named], [True, True])
    icon = component.findtext("engines/engine/icon")
    results.expect("the component's icon", os.path.isfile(os.path.join(place, "share", "icons", "hicolor", "scalable", "apps", f"{icon}.svg")), True)
    engine = named[0].replace(prefix, place, 1)
    got = run(engine, "--ibus", env={"HOME": place, "IBUS_ADDRESS": "unix:path=none", "LD_LIBRARY_PATH": os.path.dirname(CLIENT_LIBRARY)}, timeout=60)
    results.expect("the engine looks for the daemon", (got.returncode, got.stderr.endswith(f"{engine}: no ibus-daemon is running\n")), (1, True))


def check_units(place, results):
    """systemd finds no fault in the units."""
    folder = os.path.join(place, "lib", "systemd", "user")
    units = [os.path.join(folder, it) for it in sorted(os.listdir(folder))]
    if not shutil.which("systemd-analyze"):
        print("no systemd-analyze here: the units are not verified")
        return
    made = run("systemd-analyze", "verify", "--user", "--man=no", *units, env={**os.environ, "XDG_RUNTIME_DIR": place, "HOME": place})
    results.expect("the units", (made.returncode, made.stderr), (0, ""))


# ---- the packages

def check_package(path, program_version, folder, results):
    """Unpacks a package, and returns where."""
    version = f"{program_version}-{REVISION}"
    check_lintian(os.path.basename(path), [path], results)
    name = os.path.basename(path).split("_")[0]
    place, control = os.path.join(folder, name), os.path.join(folder, f"{name}-control")
    results.expect(f"{name} is unpacked", [run("dpkg-deb", option, path, it).returncode for option, it in (("-x", place), ("-e", control))], [0, 0])
    check_sums(name, read(os.path.join(control, "md5sums")).decode(), hashlib.md5, place, files_below(place), results)
    results.expect(f"{name}: version", run("dpkg-deb", "-f", path, "Version").stdout, f"{version}\n")
    depends = run("dpkg-deb", "-f", path, "Depends").stdout.rstrip("\n")
    needed = [f"{it} (= {version})" in depends.split(", ") for it in ("composecheck", "libcomposecheck-client0")]
    results.expect(f"{name} needs the program and the library of clients of its version", needed, [True, True])
    results.expect(f"{name} recommends the library of tables", run("dpkg-deb", "-f", path, "Recommends").stdout, f"libcomposecheck1 (= {version})\n")
    return os.path.join(place, "usr")


def check_packages(program, folder, results):
    version = version_of(program)
    path = packed("ibus", program, folder, results)
    if "is not made" in path:
        print(path)
    else:
        check_component(check_package(path, version, folder, results), "/usr", version, results)
    path = packed("fcitx5", program, folder, results)
    if "is not made" in path:
        print(path)
        return
    place = check_package(path, version, folder, results)
    with open(os.path.join(place, "share", "fcitx5", "addon", "composecheck.conf"), encoding="utf-8") as file:
        text = file.read()
    results.expect("fcitx5 loads the addon without being asked", (f"Version={version}\n" in text, "OnDemand=False\n" in text), (True, True))
    results.expect("the addon's library", [it for it in files_below(place) if it.endswith("/fcitx5/composecheck.so")] != [], True)


# ---- the unit

def check_unit(program, _, results):
    """The unit's command serves as many connections at once as it says with as many open files as the unit allows; and where it refuses to start,
    systemd doesn't start it again."""
    settings = settings_of_the_unit()
    at_once, files = int(re.search(r"--at-once (\d+)", settings["ExecStart"])[1]), int(settings["LimitNOFILE"])
    with TypingService(program) as service:
        words = service.unit_command()
        never_again = {int(it) for it in settings["RestartPreventExitStatus"].split()}
        refused = subprocess.run(words, cwd=service.folder, capture_output=True, text=True, timeout=60)
        results.expect("a start where nothing was stored is refused", refused.returncode in never_again, True)
        service.store("old")
        limit = lambda: resource.setrlimit(resource.RLIMIT_NOFILE, (files, files))
        with subprocess.Popen(words, cwd=service.folder, stdout=subprocess.PIPE, text=True, preexec_fn=limit) as serving:
            results.expect("the unit's command", serving.stdout.readline(), "listening\n")
            clients = [Client(service.socket, timeout=30) for _ in range(at_once)]
            results.expect("connections at once", [client.open(number) for number, client in enumerate(clients)], [None] * at_once)
            with Client(service.socket, timeout=0.3) as waiting:
                results.expect("one more waits", refusal(waiting.open, at_once), TimedOut)
            for it in clients:
                it.disconnect()
            with Client(service.socket, timeout=30) as client:
                results.expect("as soon as they end, another one is served", client.open(at_once), None)
            serving.kill()
        service.write(".local/state/composecheck/table", "compose")
        refused = subprocess.run(words, cwd=service.folder, capture_output=True, text=True, timeout=60)
        results.expect("a start on what is no table is refused", refused.returncode in never_again, True)


NOTIFY = """#!/bin/sh
printf '%s\\n' "$@" > notified
"""


def check_update(program, _, results):
    """What the unit runs when a Compose file has changed: `update`, whose refusal is shown as a notification too."""
    script = os.path.join(TOP, "share", "composecheck", "update.sh")
    with TypingService(program) as service:
        os.mkdir(service.path("bin"))
        service.write("bin/notify-send", NOTIFY)
        os.chmod(service.path("bin/notify-send"), 0o755)
        service.write("changed.compose", '<dead_acute> <e> : "e"\n')
        given = {**os.environ, "COMPOSECHECK": service.program, "PATH": f"{service.path('bin')}:{os.environ['PATH']}", "XDG_RUNTIME_DIR": service.folder}
        update = lambda name: run("sh", script, f"{name}.compose", "--state", "state", cwd=service.folder, env=given)
        got = update("old")
        results.expect("the first table is stored", (got.returncode, got.stdout, os.path.exists(service.path("notified"))), (0, "stored\n", False))
        got = update("changed")
        results.expect("a table that would change typing is refused", (got.returncode, got.stdout.splitlines()[:1]), (1, ["keys dead_grave a"]))
        notified = shown_by(service)
        results.expect("and that is shown", ("Your Compose table stays as it was\n" in notified, f"would change how you type:\n{got.stdout}" in notified), (True, True))
        results.expect("it is refused again, and not shown again", (update("changed").returncode, shown_by(service)), (1, ""))
        service.write("changed.compose", "<nosuch\n")
        results.expect("another refusal is shown", (update("changed").returncode, "was not taken into use:\n" in shown_by(service)), (2, True))
        results.expect("an update goes through", (update("old").returncode, shown_by(service)), (0, ""))
        results.expect("then the refusal is shown again", (update("changed").returncode, shown_by(service) != ""), (2, True))


def shown_by(service):
    """What was shown since this was last asked."""
    path = service.path("notified")
    if not os.path.exists(path):
        return ""
    with open(path, encoding="utf-8") as file:
        shown = file.read()
    os.remove(path)
    return shown


def refusal(call, *arguments):
    """The class of what a call raises."""
    try:
        call(*arguments)
    except Exception as it:  # (whatever it is, it is compared)
        return type(it)
    return None


def main():
    program, results = os.path.abspath(sys.argv[1]), Results()
    for check in (check_install, check_packages, check_unit, check_update):
        if check is check_packages and not shutil.which("dpkg-deb"):
            print("no dpkg-deb here: the packages are not made")
            continue
        with tempfile.TemporaryDirectory(prefix="installed-") as folder:
            check(program, folder, results)
    return results.end()


if __name__ == "__main__":
    sys.exit(main())
