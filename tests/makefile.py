#!/usr/bin/env python3
"""makefile.py: runs `make` with Makefile in an empty source tree, with and without a kit on the path, and compares what it says; and whether
what `make names` writes is up to date. The last line is `N passed, M failed`."""
import os
import re
import shutil
import subprocess
import sys
import tempfile

from harness import Results

TOP = os.path.dirname(os.path.dirname(os.path.abspath(__file__)))
PROVING = ("all", "composecheck", "compose_trials", "compose_as_reader", "try", "quick", "test", "test-anew", "test-whole")
NO_KIT = re.compile(r'Makefile:\d+: \*\*\* this needs the Rattle kit: `rt` is not on the path; see "Install" in README\.md\.  Stop\.\n')


class Tree:
    """A source tree without crates, and a folder with the few programs that `make` finds."""

    def __init__(self, tools):
        self.parent = tempfile.TemporaryDirectory(prefix="makefile-")
        self.top, self.tools = (os.path.join(self.parent.name, it) for it in ("top", "tools"))
        os.makedirs(os.path.join(self.top, "crates"))
        os.mkdir(self.tools)
        shutil.copy(os.path.join(TOP, "Makefile"), self.top)
        self.write("crates.txt")
        for name in ("find", "sed"):
            os.symlink(shutil.which(name), os.path.join(self.tools, name))
        for name in tools:
            os.symlink("/bin/true", os.path.join(self.tools, name))

    def __enter__(self):
        return self

    def __exit__(self, *_):
        self.parent.cleanup()

    def write(self, name):
        open(os.path.join(self.top, name), "w").close()

    def make(self, *words):
        ran = subprocess.run([shutil.which("make"), *words], cwd=self.top, env={"PATH": self.tools}, capture_output=True, text=True, timeout=60)
        return ran.stdout, ran.stderr, ran.returncode


def check_without_kit(results):
    with Tree([]) as tree:
        for target in PROVING:
            printed, said, status = tree.make(target)
            results.expect(f"make {target} without the kit", (printed, NO_KIT.fullmatch(said) is not None, status), ("", True, 2))
        tree.write("composecheck")
        results.expect("a program that is built needs no kit", tree.make(), ("make: Nothing to be done for 'all'.\n", "", 0))
    with open(os.path.join(TOP, "README.md"), encoding="utf-8") as file:
        install = file.read().split("\n## Install\n", 1)[1].split("\n## ", 1)[0]
    results.expect("README's section Install names the kit", "`rt` on the path" in " ".join(install.split()), True)


def check_build(results):
    with Tree(["rt"]) as tree:
        building = "python3 tools/build.py composecheck\ncp crates/composecheck/out/composecheck composecheck\n"
        results.expect("make alone builds the program", tree.make("-n"), (building, "", 0))
        proved = building.replace("composecheck\n", "composecheck compose_c compose_typing_c\n", 1)
        results.expect("make deb proves the program and the libraries in one run", tree.make("-n", "deb")[0].startswith(proved), True)
        results.expect("make test runs the gate", tree.make("-n", "test"), ("python3 tools/gate.py\n", "", 0))


def check_install(results):
    """Without what the engine of IBus is built with, the rest is installed, and what is lacking is said."""
    words = ("-n", "-o", "composecheck", "-o", "install-lib", "-o", "install-client", "-o", "lib-client", "install")
    with Tree([]) as tree:
        said = "The engine of IBus is left out, for lack of cmake c++ pkg-config libibus-1.0-dev."
        printed = tree.make(*words)[0]
        results.expect("make install without them", (said in printed.split("\n")[0], "install -D composecheck " in printed, "cmake -S" in printed), (True, True, False))
        results.expect("make install-ibus without them", "cmake -S ibus " in tree.make(*words[:-1], "install-ibus")[0], True)
    with Tree(["cmake", "c++", "pkg-config"]) as tree:
        printed = tree.make(*words)[0]
        results.expect("make install with them", (printed.startswith("cmake -S ibus "), "install -D composecheck " in printed), (True, True))


def check_help(results):
    """Each target has a line, which is that of the comments."""
    with open(os.path.join(TOP, "Makefile"), encoding="utf-8") as file:
        text = file.read()
    targets = re.search(r"^\.PHONY: all (.*)$", text, re.M)[1].split()
    with Tree([]) as tree:
        printed, said, status = tree.make("help")
    results.expect("make help", (said, status), ("", 0))
    results.expect("the targets of make help", sorted(re.findall(r"^make (\S+) +\S", printed, re.M)), sorted([*targets, "compose_as_reader", "compose_trials"]))
    results.expect("the first line of make help", printed.split("\n")[0].split(), "make proves and builds ./composecheck".split())
    results.expect("the comments at the top", text.startswith(re.sub("^", "# ", printed.rstrip("\n"), flags=re.M) + "\n"), True)


def check_names(results):
    """The header of the built-in names, and their tables with their hints, of which no proof says that they are right, are those that `make names` writes."""
    with Tree([]) as tree:
        commands = [it.split() for it in tree.make("-n", "names")[0].splitlines()]
    results.expect("the scripts of make names", [it[1] for it in commands], ["packaging/names.py", "packaging/name_tables.py"])
    for _, script, *words in commands:
        ran = subprocess.run([sys.executable, script, "--check", *words], cwd=TOP, capture_output=True, text=True, timeout=60)
        results.expect(f"what {script} writes", (ran.stdout.strip(), ran.stderr, ran.returncode), ("", "", 0))


def main():
    results = Results()
    for check in (check_without_kit, check_build, check_install, check_help, check_names):
        check(results)
    return results.end()


if __name__ == "__main__":
    sys.exit(main())
