#!/usr/bin/env python3
"""own_file.py PROGRAM: what `how`, `list`, `lint` and `type` say of a Compose file as people have them. own_file/XCompose is one, of 259 lines: on top of a
table of the locale (own_file/system) come arrows, Greek, digits, emoji and whole phrases, some of them twice, one that longer ones begin with, modifiers, and four
typing errors. It is read as ~/.XCompose, with the line ends of Windows.

What is expected was written by hand, from the file, docs/FORMATS.md and docs/READERS.md. The last line is `N passed, M failed`."""
import os
import subprocess
import sys
import tempfile

from harness import Results, TOP

FILES = os.path.join(TOP, "tests", "own_file")
OWN = "home/.XCompose"
SYSTEM = "system/en_US.UTF-8/Compose"
NOTE = f"note: the Compose file is {OWN}"
# What has a fault: lines with modifiers, a name that no keysym has, a string without its last quote, a missing colon, and a letter that no escape has.
FAULTY = {
    247: (1, "a modifier list stands here, which is not supported"),
    248: (1, "a modifier list stands here, which is not supported"),
    249: (1, "a modifier list stands here, which is not supported"),
    250: (1, 'no keysym has the name "Multi_kei"'),
    251: (48, "the string is not closed"),
    252: (48, 'expected ":" or "<", found """'),
    254: (49, "the backslash begins no escape"),
}
# libxkbcommon reads the others: it passes over modifiers, and drops the backslash.
SKIPPED = (250, 251, 252)


def faults_of(lines):
    """What is printed of these lines."""
    return [f"composecheck: {OWN}:{line}:{FAULTY[line][0]}: {FAULTY[line][1]}" for line in lines]


LEFT_OUT = [*faults_of(SKIPPED), f"{len(SKIPPED)} faulty lines left out"]
NOT_EQUAL = [
    f'<Multi_key> <exclam> <equal> : "≠"  # {OWN}:17',
    f'<Multi_key> <slash> <equal> : "≠"  # {SYSTEM}:6',
    f'<Multi_key> <bar> <equal> : "≠"  # {OWN}:247',
    f'<Multi_key> <m> <n> <e> : "≠"  # {OWN}:18',
]
# In the order of keysyms; the sequence of line 15 is never typed, and lines 243 and 244 count in the place of 9 and 16.
AFTER_MINUS = [
    f'<Multi_key> <minus> <plus> : "∓"  # {OWN}:21',
    f'<Multi_key> <minus> <minus> <parenright> : "☺"  # {OWN}:246',
    f'<Multi_key> <minus> <minus> <minus> : "—"  # {SYSTEM}:2',
    f'<Multi_key> <minus> <minus> <period> : "–"  # {SYSTEM}:3',
    f'<Multi_key> <minus> <minus> <bar> : "⊣"  # {OWN}:245',
    f'<Multi_key> <minus> <period> : "·"  # {OWN}:244',
    f'<Multi_key> <minus> <colon> : "÷"  # {SYSTEM}:5',
    f'<Multi_key> <minus> <greater> : "⇢"  # {OWN}:243',
    f'<Multi_key> <minus> <backslash> : "\\\\"  # {OWN}:253',
    f'<Multi_key> <minus> <asciicircum> : "↑"  # {OWN}:11',
    f'<Multi_key> <minus> <a> : "ā"  # {SYSTEM}:4',
    f'<Multi_key> <minus> <c> : "ℂ"  # {OWN}:248',
    f'<Multi_key> <minus> <k> : "κ"  # {OWN}:249',
    f'<Multi_key> <minus> <o> : "−"  # {OWN}:22',
    f'<Multi_key> <minus> <u> : "u2212"  # {OWN}:254',
    f'<Multi_key> <minus> <v> : "↓"  # {OWN}:12',
]
# A carriage return after a comment belongs to it: only lines without a comment are lost to libX11.
WITH_RETURN = "libX11: the line is skipped, as it has a carriage return"
FOUND = [
    f"{OWN}:9:1: overridden: line 243 gives the sequence another text, which counts",
    f"{OWN}:15:1: prefix: {SYSTEM}:3 defines a longer sequence that begins with this one, and the longer one is typed",
    f"{OWN}:16:1: repeated: line 244 gives the sequence the same text again",
    f"{OWN}:21:1: keysym: the keysym after the string has another character",
    *(f"{OWN}:{line}:1: {WITH_RETURN}" for line in (22, 23, 246, 253, 257)),
]


def prepare(folder):
    """Puts the file and the table of the system into a folder."""
    os.mkdir(os.path.join(folder, "home"))
    os.symlink(os.path.join(FILES, "system"), os.path.join(folder, "system"))
    with open(os.path.join(FILES, "XCompose"), encoding="utf-8") as file:
        own = file.read()
    with open(os.path.join(folder, OWN), "w", encoding="utf-8", newline="\r\n") as file:
        file.write(own)


def answer(program, folder, command, *words):
    """What a command answers there: its status, its lines, and those of standard error."""
    environment = {name: value for name, value in os.environ.items() if name not in ("XCOMPOSEFILE", "XDG_CONFIG_HOME")}
    ran = subprocess.run(
        [program, command, "--system", "system", "--locale", "en_US.UTF-8", *words],
        cwd=folder,
        env={**environment, "HOME": "home"},
        capture_output=True,
        encoding="utf-8",
        check=False,
    )
    return ran.returncode, ran.stdout.splitlines(), ran.stderr.splitlines()


def main():
    program, results = os.path.abspath(sys.argv[1]), Results()
    with tempfile.TemporaryDirectory(prefix="own-") as folder:
        prepare(folder)
        results.expect("how ≠ is typed", answer(program, folder, "how", "≠"), (0, NOT_EQUAL, [NOTE, *LEFT_OUT]))
        results.expect("that × is typed by no sequence", answer(program, folder, "how", "×"), (1, [], [NOTE, "no sequence gives ×", *LEFT_OUT]))
        for keys in ("Multi_key,minus", "Multi_key minus", "<Multi_key><minus>", "<Multi_key> <minus>", "Multi_key, minus"):
            results.expect(f"what begins with {keys}", answer(program, folder, "list", "--prefix", keys), (0, AFTER_MINUS, [NOTE, *LEFT_OUT]))
        results.expect("what is wrong in the file", answer(program, folder, "lint", "--skip-faulty"), (1, FOUND, [NOTE, *LEFT_OUT]))
        typed = ['composing ""'] * 3 + ['composed "👋"']
        for keys in (["Multi_key", ":", "h", "i"], ["Multi_key : h i"], ["Multi_key,colon", "h,i"], ["<Multi_key><colon><h><i>"]):
            results.expect(f"what the keys {keys} type", answer(program, folder, "type", "-f", OWN, *keys), (0, typed, LEFT_OUT))
        status, printed, said = answer(program, folder, "how", "--strict", "≠")
        # (a hint may follow)
        results.expect("a refusal with --strict", (status, printed, said[: len(FAULTY) + 1]), (2, [], [NOTE, *faults_of(FAULTY)]))
    return results.end()


if __name__ == "__main__":
    sys.exit(main())
