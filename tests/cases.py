#!/usr/bin/env python3
"""cases.py PROGRAM [WORD]: runs the program, as `composecheck`, on the cases of tests/cases, or on those with the word in their name.

A case is one text file, NAME.case, whose form tests/README.md says. The last line is `N passed, M failed`."""
import concurrent.futures
import contextlib
import os
import re
import shlex
import shutil
import subprocess
import sys
import tempfile

CASES = os.path.join(os.path.dirname(os.path.abspath(__file__)), "cases")
SECTION = re.compile(rb"^-- (.+?)( without a last newline)? --\n", re.MULTILINE)
EXPECTED = ["stdout", "stderr", "status"]
NOBODY = 65534


class Case:
    """The arguments, the environment beside that of the test, the files by their paths (`files.py` is a script that writes some), and
    what is expected of a run."""

    def __init__(self, name):
        with open(os.path.join(CASES, name + ".case"), "rb") as file:
            command, *parts = SECTION.split(file.read())
        words = [os.fsencode(word) for word in shlex.split(os.fsdecode(command))]
        assert words[0] == b"composecheck", name
        self.args = words[1:]
        sections = {}
        for section, unended, text in zip(parts[0::3], parts[1::3], parts[2::3]):
            sections[section.decode()] = text[:-1] if unended else text
        self.expected = {
            "stdout": sections.pop("stdout", b""),
            "stderr": sections.pop("stderr", b""),
            "status": int(sections.pop("status", b"0")),
        }
        lines = os.fsdecode(sections.pop("env", b"")).splitlines()
        self.environment = dict(line.split("=", 1) for line in lines)
        self.is_unprivileged = sections.pop("unprivileged", None) is not None
        self.standard_input = sections.pop("stdin", b"")
        self.files = sections

    def prepare(self, folder):
        """Puts the files of the case into the folder."""
        for path, text in self.files.items():
            os.makedirs(os.path.join(folder, os.path.dirname(path)), exist_ok=True)
            with open(os.path.join(folder, path), "wb") as file:
                file.write(text)
        if "files.py" in self.files:
            subprocess.run([sys.executable, "files.py"], cwd=folder, check=True)

    def user(self, folder):
        """The user that runs the program in the folder: for an unprivileged case not root, for whom each file is open."""
        if not self.is_unprivileged or os.geteuid():
            return {}
        os.chmod(folder, 0o755)
        return {"user": NOBODY, "group": NOBODY, "extra_groups": []}


def case_names(word=""):
    """The names of the cases that have the word."""
    names = [name.removesuffix(".case") for name in sorted(os.listdir(CASES))]
    return [name for name in names if word in name]


def run(program, name):
    """What differs from what the case expects."""
    case = Case(name)
    with tempfile.TemporaryDirectory() as folder:
        case.prepare(folder)
        ran = subprocess.run(
            [b"composecheck"] + case.args,
            executable=program,
            cwd=folder,
            env=os.environ | case.environment,
            input=case.standard_input,
            capture_output=True,
            timeout=300,
            **case.user(folder),
        )
    got = {"stdout": ran.stdout, "stderr": ran.stderr, "status": ran.returncode}
    wanted = case.expected
    return [f"{part}: got {got[part]!r:.400}, expected {wanted[part]!r:.400}" for part in EXPECTED if got[part] != wanted[part]]


@contextlib.contextmanager
def copy_for_all(program):
    """Yields the path of a copy of the program that every user can run. It is whole before the first case runs: a process that starts while a
    program is written has it open for writing too, and until that ends the program can't be run ("text file busy")."""
    with tempfile.TemporaryDirectory() as folder:
        os.chmod(folder, 0o755)
        yield shutil.copy(program, folder)


def main():
    names = case_names(sys.argv[2] if len(sys.argv) > 2 else "")
    failed = 0
    with copy_for_all(sys.argv[1]) as program, concurrent.futures.ThreadPoolExecutor(os.cpu_count()) as pool:
        for name, differences in zip(names, pool.map(lambda name: run(program, name), names)):
            if differences:
                failed += 1
                print(f"FAILED {os.path.basename(program)}: {name}")
                for difference in differences:
                    print("   ", difference)
    print(f"{len(names) - failed} passed, {failed} failed")
    return 1 if failed else 0


if __name__ == "__main__":
    sys.exit(main())
