"""What the scripts of tests/ share: how they count and print, write files and run one another."""
import os
import re
import subprocess
import sys

TOP = os.path.dirname(os.path.dirname(os.path.abspath(__file__)))
# The library of clients, on which the engines stand, also in a copy of the tree; that of tables, by which they list what can follow; and the static
# libraries that they are built of: proved ones, or in the folder $COMPOSECHECK_STATIC ones that are built without a proof.
STATIC = os.environ.get("COMPOSECHECK_STATIC")
PROVED_CLIENT = os.path.join(STATIC or os.path.join("crates", "compose_typing_c", "out"), "compose_typing_c.a")
PROVED = os.path.join(STATIC or os.path.join("crates", "compose_c", "out"), "compose_c.a")
BUILT = os.environ.get("COMPOSECHECK_BUILT") or os.path.join(TOP, "build", "lib")
CLIENT_LIBRARY = os.path.join(BUILT, "libcomposecheck-client.so.0")
LIBRARY = os.path.join(BUILT, "libcomposecheck.so.1")
os.environ.setdefault("COMPOSECHECK_CLIENT_LIBRARY", CLIENT_LIBRARY)
COUNTS = re.compile(r"(\d+) passed, (\d+) failed(?:; .*)?\n?")


class Results:
    """Counts what passed, and prints what failed."""

    def __init__(self):
        self.passed = self.failed = 0

    def expect(self, what, got, wanted):
        if got == wanted:
            self.passed += 1
        else:
            self.failed += 1
            print(f"FAILED: {what}\n  got      {got!r:.400}\n  expected {wanted!r:.400}", flush=True)

    def end(self, note=""):
        """Prints the last line of a script, with a note if there is one, and returns its status."""
        print(f"{self.passed} passed, {self.failed} failed" + (f"; {note}" if note else ""))
        return 1 if self.failed else 0


def write(folder, files):
    """Writes these files, by their names, into a folder."""
    for name, text in files.items():
        path = os.path.join(folder, name)
        os.makedirs(os.path.dirname(path), exist_ok=True)
        with open(path, "w", encoding="utf-8") as file:
            file.write(text)


def build_libraries():
    """Builds the library of clients from the static library, which is proved and built first if it isn't there; and that of tables, if its own
    one is there."""
    if not STATIC and not os.path.exists(os.path.join(TOP, PROVED_CLIENT)):
        subprocess.run([sys.executable, os.path.join("tools", "build.py"), "compose_typing_c"], cwd=TOP, check=True, stdout=sys.stderr)
    which = [] if os.path.exists(os.path.join(TOP, PROVED)) else ["--client"]
    subprocess.run([sys.executable, os.path.join("lib", "build_library.py"), *which, BUILT], cwd=TOP, check=True)


def follow(command, is_quiet=False):
    """Runs the command at the top of the repository and, unless quietly, prints what it prints. Returns its lines, and its counts, or those of one
    test if it prints none."""
    counts, lines = None, []
    with subprocess.Popen(command, cwd=TOP, stdout=subprocess.PIPE, stderr=subprocess.STDOUT, text=True, errors="replace") as ran:
        for line in ran.stdout:
            if not is_quiet:
                print(line, end="", flush=True)
            lines.append(line)
            found = COUNTS.fullmatch(line)
            if found:
                counts = int(found[1]), int(found[2])
    if counts is None:
        counts = (1, 0) if ran.returncode == 0 else (0, 1)
    return lines, counts if counts[1] > 0 or ran.returncode == 0 else (counts[0], 1)
