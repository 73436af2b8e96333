#!/usr/bin/env python3
"""lint.py PROGRAM [COUNT]: what `lint --all` finds in random tables, as lines, as JSON and as a list that accepts it, against a second
reading of their lines, and what is left of it where some of it is accepted.

A table is a file of some lines with few keysyms, texts and comments, and includes of two other such files; sequences come again, some go on
after others, some lines are faulty, and some include a file again. What is to be found is worked out here from the lines as lists. COUNT
tables are tried, 300 if none is given. On as many files with lines that other readers skip, the number of lines that `diff` notes is that of
the lines of which `lint` says so. The last line is `N passed, M failed`."""
import json
import os
import random
import re
import subprocess
import sys
import tempfile
import unicodedata
from collections import Counter

from harness import Results

SEED = 51
# Of this number of tables one is tried with lists of accepted findings and as JSON.
OTHERS = 5
# The keysyms of these tables, and how they are written.
WRITTEN = {0x61: ["a", "U0061"], 0x62: ["b"], 0xfe51: ["dead_acute"], 0xff20: ["Multi_key"]}
TEXTS = ["x", "y", "\u00e9", "e\u0301", "\u0445\u0301\u0301"]
NAMES = [None, None, None, None, "x", "y", "eacute"]
CHARACTERS = {"x": "x", "y": "y", "eacute": "\u00e9"}
COMMENTS = [None, "EX", "WHY", "E WITH ACUTE"]
INCLUDES = {"own": ["other", "third"], "other": ["third"], "third": []}
LONGER = "defines a longer sequence that begins with this one, and the longer one is typed"
ALIKE = "gives another text that looks like this one, and is not in normal form C"
MISPLACED = "comment: the comment stands most often beside another text, and the text beside another comment"
STALE = "no finding in these tables is named by the line"
BAD = 'expected the word of a kind, ": " and a line of a Compose file'
KINDS = ["fault", "overridden", "repeated", "prefix", "keysym", "mark", "form", "comment", "redundant", "libX11", "libxkbcommon", "gtk3", "gtk4"]
SAME = "is included, and gives the sequence the same text"


# Lines that libX11 or libxkbcommon skips, each for another reason, and lines that look like these and are read.
SKIPPED = [
    '< a> <b> : "x"', '<a > <b> : "x"', '<a>\r<b> : "x"', '<a> <b> : "x"\r', '<a> : "x" \r # y', " ".join(["<b>"] * 10) + ' : "x"', " ".join(["<b>"] * 11) + ' : "x"',
    '<NoSymbol> <a> : "x"', '<a> <0x0> : "x"', '<b> <0x00000000> : "x"', f'<a> <a> : "{"x" * 255}"', '<b> <b> : "x" 0x61', "<b> <b> : 0x61", 'include\r"none"', '# y \\\n<a> <b> : "x"',
]
READ = [
    '<a> <b> : "x"', '<a><b>:"x"', '  <a>  <b>  :  "x"  # y', " ".join(["<b>"] * 9) + ' : "x"', f'<a> <a> : "{"x" * 254}"', '<a> <a> : "' + "\\x61" * 100 + '"', '<a> <b> : "x\r"',
    '<a> <b> : "0" zero # 0', '<a> <b> : "< a >" # <a > \r', '<a> <0x61> : "x"', "<N> <0> : N", '<N> <0> : "\\n" N', "# y \\", "", "# 0 < a> \r",
]
# What `lint` says of lines that are read, though their texts are not.
OTHER_TEXTS = ("the letter is typed", "the text is cut")


class Line:
    """A line: the file that it includes, or what it defines, or neither where it is faulty."""

    def __init__(self, chance, included=None):
        self.included, self.keysyms, self.is_faulty = included, None, False
        if included:
            self.written = f'include "{included}"'
        elif chance.random() < 0.05:
            self.is_faulty, self.written = True, '<nosuch> : "x" # EX'
        else:
            self.define(chance)

    def define(self, chance):
        self.keysyms = tuple(chance.choice(list(WRITTEN)) for _ in range(chance.choice([1, 2, 2, 2, 3])))
        self.text, self.name, self.comment = chance.choice(TEXTS), chance.choice(NAMES), chance.choice(COMMENTS)
        keys = " ".join(f"<{chance.choice(WRITTEN[it])}>" for it in self.keysyms)
        comment = "" if self.comment is None else chance.choice([" #", " # ", "\t#  "]) + self.comment + chance.choice(["", " "])
        self.written = f'{keys} : "{self.text}"{" " + self.name if self.name else ""}{comment}'


def random_files(chance):
    """The lines of each file by its name, the first of which is the table, in the order in which they are read."""
    files = {}
    for name, includes in INCLUDES.items():
        lines = [Line(chance) for _ in range(chance.randint(0, 9))]
        for included in includes:
            for _ in range(chance.choice([1, 1, 1, 2]) if included == "other" or name == "other" else chance.choice([0, 1])):
                lines.insert(chance.randint(0, len(lines)), Line(chance, included))
        files[name] = lines
    first = [line.included for line in files["own"] if line.included]
    return {name: files[name] for name in ["own", *dict.fromkeys([*first, "third"])]}


def placed(files):
    """Each line of each file with its place."""
    return [(name, number, line) for name, lines in files.items() for number, line in enumerate(lines, 1)]


def read(files, name):
    """The lines that are read from a file, in reading order, each with its place."""
    for number, line in enumerate(files[name], 1):
        yield name, number, line
        if line.included:
            yield from read(files, line.included)


def commonest(values):
    """The value that is there more often than any other, if there is one."""
    counted = Counter(values).most_common(2)
    return None if not counted or len(counted) > 1 and counted[0][1] == counted[1][1] else counted[0][0]


def found_in_file(lines, number, line):
    """What is found in a line by its file alone."""
    last = max(at for at, it in enumerate(lines, 1) if it.keysyms == line.keysyms)
    if last > number and lines[last - 1].text == line.text:
        yield f"repeated: line {last} gives the sequence the same text again"
    elif last > number:
        yield f"overridden: line {last} gives the sequence another text, which counts"
    if line.name and CHARACTERS[line.name] != line.text:
        yield "keysym: the keysym after the string has another character"
    if any(one == two and unicodedata.combining(one) for one, two in zip(line.text, line.text[1:])):
        yield "mark: the text has one combining mark twice in a row"


def normal(text):
    """The text in normal form C."""
    return unicodedata.normalize("NFC", text)


def form_found(files, line):
    """What is found of the form of a line's text."""
    alike = [(at, number) for at, number, it in placed(files) if it.keysyms and it.text != line.text and normal(it.text) == normal(line.text)]
    if normal(line.text) != line.text:
        yield "form: the text is not in normal form C"
    elif alike:
        yield "form: %s:%d %s" % (*alike[0], ALIKE)


def found_in_all(files, name, line):
    """What is found in a line by the lines of all files."""
    yield from form_found(files, line)
    longer = [(at, number) for at, number, it in placed(files) if it.keysyms and len(it.keysyms) > len(line.keysyms) and it.keysyms[: len(line.keysyms)] == line.keysyms]
    if longer:
        yield "prefix: %s:%d %s" % (*longer[-1], LONGER)
    if line.comment is not None:
        noted = [it for _, _, it in placed(files) if it.keysyms and it.comment is not None]
        text = commonest(it.text for it in noted if it.comment == line.comment)
        comment = commonest(it.comment for it in noted if it.text == line.text)
        if text not in (None, line.text) and comment not in (None, line.comment):
            yield MISPLACED
    same = [(at, number, it.text) for at, number, it in read(files, name) if at != name and it.keysyms == line.keysyms]
    if same and same[-1][2] == line.text:
        yield "redundant: %s:%d %s" % (*same[-1][:2], SAME)


def found(files):
    """What is to be found: the file, the line, its number, and what follows the place."""
    for name, number, line in placed(files):
        if line.is_faulty:
            yield name, number, line, 'fault: no keysym has the name "nosuch"'
        if line.keysyms:
            for what in [*found_in_file(files[name], number, line), *found_in_all(files, name, line)]:
                yield name, number, line, what


def listed(one):
    """The line of a list that accepts a finding."""
    _, _, line, what = one
    return what.split(":")[0] + ": " + line.written.strip(" \t\r")


def as_line(one):
    """The line of a finding."""
    name, number, _, what = one
    return f"{name}:{number}:1: {what}"


def as_object(one):
    """The object of a finding."""
    name, number, _, what = one
    kind, message = what.split(": ", 1)
    words, other = message.split(" "), None
    if kind in ("overridden", "repeated"):
        other = {"file": name, "line": int(words[1])}
    elif kind in ("prefix", "redundant") or kind == "form" and message.endswith(ALIKE):
        path, at = words[0].split(":")
        other = {"file": path, "line": int(at)}
    return {"file": name, "line": number, "column": 1, "kind": kind, "message": message, "other": other, "reader": None}


def counts(wanted, left):
    """The object that counts."""
    words = [one[3].split(":")[0] for one in left]
    return {"counts": {**{kind: words.count(kind) for kind in KINDS}, "accepted": len(wanted) - len(left)}}


def run_in(folder, program, *options):
    """What `lint` answers there: its status, its lines, and what it prints to standard error."""
    command = [program, "lint", "--all", "--reader", "gtk4", *options]
    ran = subprocess.run(command, cwd=folder, capture_output=True, encoding="utf-8", check=False)
    return ran.returncode, ran.stdout.splitlines(), ran.stderr


def written(folder, name, lines):
    """Writes a file there."""
    with open(os.path.join(folder, name), "w", encoding="utf-8") as file:
        file.write("".join(line + "\n" for line in lines))


def plain_answers(program, folder, wanted):
    """What is printed on the table that lies there with these findings, and what it is to be."""
    yield "lines", run_in(folder, program, "own"), (1 if wanted else 0, list(map(as_line, wanted)), "")


def answers(chance, program, folder, wanted):
    """The other answers, and what each is to be."""
    status = 1 if wanted else 0
    every = list(dict.fromkeys(map(listed, wanted)))
    accepted = [line for line in every if chance.random() < 0.5]
    chance.shuffle(accepted)
    left = [one for one in wanted if listed(one) not in accepted]
    written(folder, "list", ["# what is meant", "", *accepted])
    written(folder, "all", every)
    written(folder, "stale", [*accepted, 'mark: <a> : "nowhere"', 'form: <a> : "nowhere"'])
    written(folder, "bad", [*accepted, "", 'marks: <a> : "nowhere"'])
    yield "list", run_in(folder, program, "--write-accept", "own"), (status, every, "")
    yield "all accepted", run_in(folder, program, "--accept", "all", "own"), (0, [], "")
    yield "some accepted", run_in(folder, program, "--accept", "list", "own"), (1 if left else 0, list(map(as_line, left)), "")
    rest = list(dict.fromkeys(map(listed, left)))
    yield "rest", run_in(folder, program, "--accept", "list", "--write-accept", "own"), (1 if left else 0, rest, "")
    twice = run_in(folder, program, "--accept", "list", "own", "own")
    yield "two tables", twice, (1 if left else 0, list(map(as_line, left)) * 2, "")
    stale = f"composecheck: stale:{len(accepted) + 1}:1: {STALE}\n"
    yield "stale", run_in(folder, program, "--accept", "stale", "own"), (2, [], stale)
    bad = f"composecheck: bad:{len(accepted) + 2}:1: {BAD}\n"
    yield "bad line", run_in(folder, program, "--accept", "bad", "own"), (2, [], bad)
    status, lines, errors = run_in(folder, program, "--format", "json", "--accept", "list", "own")
    objects = [*map(as_object, left), counts(wanted, left)]
    yield "json", (status, list(map(json.loads, lines)), errors), (1 if left else 0, objects, "")
    yield "order of members", [list(json.loads(line)) for line in lines], list(map(list, objects))


def noted_and_found(program, folder, text):
    """How many lines of a file with this text `diff` notes as lost, and of how many `lint` says so."""
    for name, content in (("own", text), ("none", ""), ("plain", '<a> : "x"\n')):
        with open(os.path.join(folder, name), "w", encoding="utf-8", newline="") as file:
            file.write(content)
    noted = subprocess.run([program, "diff", "plain", "own"], cwd=folder, capture_output=True, encoding="utf-8", check=False).stderr
    counted = re.search(r"loses lines of own .*, (\d+) in all", noted)
    found = subprocess.run([program, "lint", "own"], cwd=folder, capture_output=True, encoding="utf-8", check=False).stdout
    said = re.findall(r"^(.*?:\d+):\d+: (?:libX11|libxkbcommon): (.*)$", found, re.M)
    return int(counted[1]) if counted else 0, len({place for place, what in said if not any(it in what for it in OTHER_TEXTS)})


def check_lost(chance, program, count, results):
    """`diff` and `lint` agree on which lines other readers skip: on each line alone, and on random files of them."""
    with tempfile.TemporaryDirectory() as folder:
        for lines, lost in ((SKIPPED, 1), (READ, 0)):
            for line in lines:
                results.expect(f"whether {line!r} is lost", noted_and_found(program, folder, line + "\n"), (lost, lost))
        for _ in range(count):
            lines = [chance.choice(SKIPPED if chance.random() < 0.2 else READ) for _ in range(chance.randint(1, 12))]
            text = chance.choice(["", "", "", "\ufeff"]) + "\n".join(lines) + chance.choice(["\n", "\n", "\n", ""])
            noted, said = noted_and_found(program, folder, text)
            results.expect(f"lines that are lost of {text!r}", noted, said)


def main():
    program = os.path.abspath(sys.argv[1])
    chance = random.Random(SEED)
    results = Results()
    count = int(sys.argv[2]) if len(sys.argv) > 2 else 300
    for number in range(count):
        files = random_files(chance)
        wanted = list(found(files))
        with tempfile.TemporaryDirectory() as folder:
            for name, lines in files.items():
                written(folder, name, [line.written for line in lines])
            others = answers(chance, program, folder, wanted) if number % OTHERS == 0 else []
            for what, answer, right in [*plain_answers(program, folder, wanted), *others]:
                if answer != right:
                    print(f"table {number}: {[(name, [line.written for line in lines]) for name, lines in files.items()]}")
                results.expect(f"{what} of table {number}", answer, right)
    check_lost(chance, program, count, results)
    return results.end()


if __name__ == "__main__":
    sys.exit(main())
