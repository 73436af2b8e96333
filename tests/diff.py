#!/usr/bin/env python3
"""diff.py PROGRAM [COUNT]: what `diff` prints of random tables, in each form, against a second reading of what happens to a sequence.

Both tables of a pair are files of some lines with few keysyms, some of them written in several ways, with repeated and overlapping sequences, and
comments; the new one is mostly the old one with some lines changed. What is printed of each sequence is worked out here by going
through its keys with a list of definitions. COUNT pairs are tried, 300 if none is given. The last line is `N passed, M failed`."""
import json
import os
import random
import subprocess
import sys
import tempfile

from pages import page_of, read_html, read_markdown

SEED = 27
# The keysyms of these tables: how they are written, their numbers, and the text of each.
WRITTEN = {"a": ["a", "U0061", "0x61"], "b": ["b", "U0062"], "D": ["dead_acute", "0xfe51"], "E": ["dead_grave"]}
NUMBER = {"a": 0x61, "b": 0x62, "D": 0xFE51, "E": 0xFE50}
OWN_TEXT = {"a": "a", "b": "b", "D": "", "E": ""}
TEXTS = ["x", "y", "\u00e9", "a", "b", 'q"q', "\\", "a|b\\|*_`", "&lt;<b>'$", "\u202ex"]
LOSSES = ["changed", "waiting", "removed"]
GROUPS = ["changed", "waiting", "removed", "new start", "added"]


def step(table, pending, key):
    """What a key does: its effect, what is pending after it, and the text that it commits."""
    typed = pending + key
    if any(len(it) > len(typed) and it.startswith(typed) for it in table):
        return "extends", typed, ""
    if typed in table:
        return "completes", "", table[typed]
    return ("cancels", "", "") if pending else ("passes", "", OWN_TEXT[key])


def is_kept(old, new, sequence):
    """Whether the new table does at each key what the old one does."""
    before = after = ""
    for key in sequence:
        mine, other = step(old, before, key), step(new, after, key)
        if other[0] == "cancels" or mine[2] != other[2] or (mine[1] == "" and other[1] != ""):
            return False
        before, after = mine[1], other[1]
    return True


def change(old, new, fresh, sequence):
    """What happens to a sequence of either table."""
    if sequence in old:
        if is_kept(old, new, sequence):
            return "kept"
        if sequence in new:
            return "changed"
        return "waiting" if any(it != sequence and it.startswith(sequence) for it in new) else "removed"
    first = sequence[0]
    is_known = first in fresh or any(it.startswith(first) for it in old)
    types_itself = sequence == first and new[sequence] == OWN_TEXT[first]
    return "added" if is_known or types_itself else "new start"


def is_extended(sequence, sequences):
    """Whether a longer one of the sequences begins with this one."""
    return any(it != sequence and it.startswith(sequence) for it in sequences)


def is_prefix_free(sequences):
    return not any(is_extended(it, sequences) for it in sequences)


class Table:
    """A random Compose file: the definition of each sequence that counts, and where it stands."""

    def __init__(self, name, ways):
        """Each keysym is written in one of its first `ways` ways."""
        self.name, self.ways, self.lines, self.overlaps = name, ways, [], 0
        self.texts, self.places, self.keys = {}, {}, {}

    def define(self, chance, sequence, text):
        """Adds a line. Where two sequences would then overlap, mostly not."""
        if not is_prefix_free({*self.texts, sequence}) and chance.random() < 0.8:
            return
        if chance.random() < 0.2:
            self.lines.append(chance.choice(["", "# a comment"]))
        written = [chance.choice(WRITTEN[key][: self.ways]) for key in sequence]
        quoted = text.replace("\\", "\\\\").replace('"', '\\"')
        self.lines.append(" ".join(f"<{it}>" for it in written) + f' : "{quoted}"')
        self.texts[sequence], self.places[sequence], self.keys[sequence] = text, len(self.lines), written

    def settle(self):
        """Leaves out the sequences with which longer ones begin."""
        shorter = [it for it in self.texts if is_extended(it, self.texts)]
        self.overlaps = len(shorter)
        for it in shorter:
            del self.texts[it], self.places[it], self.keys[it]

    def write(self, folder):
        with open(os.path.join(folder, self.name), "w", encoding="utf-8") as file:
            file.write("".join(line + "\n" for line in self.lines))


def random_sequence(chance, keys, lengths):
    return "".join(chance.choice(keys) for _ in range(chance.choice(lengths)))


def random_pair(chance):
    """An old and a new table, and the keysyms that are fresh. One of five pairs has more and longer sequences, so that some share a line."""
    fresh = chance.sample("abDE", chance.choice([0, 0, 0, 1]))
    known = [it for it in "abDE" if it not in fresh]
    lengths, most_old, most_new, ways = chance.choice([([1, 1, 2, 2, 3], 7, 4, 3)] * 4 + [([2, 3, 3, 3, 3], 40, 40, 1)])
    old, new = Table("old", ways), Table("new", ways)
    for _ in range(chance.randint(0, most_old)):
        old.define(chance, random_sequence(chance, known, lengths), chance.choice(TEXTS))
    stays = chance.choice([0.8, 0.8, 0.4, 0])
    for sequence, text in old.texts.items():
        if chance.random() < stays:
            new.define(chance, sequence, text if chance.random() < 0.8 else chance.choice(TEXTS))
    for _ in range(chance.randint(0, most_new)):
        new.define(chance, random_sequence(chance, "abDE", lengths), chance.choice(TEXTS))
    old.settle()
    new.settle()
    return old, new, fresh


def typed_now(old, new, sequence):
    """Of the new table's sequences that give the old text, the shortest, and of these the first."""
    giving = [it for it, text in new.texts.items() if text == old.texts[sequence]]
    return min(giving, key=lambda it: (len(it), [NUMBER[key] for key in it]), default=None)


def first_longer(new, sequence):
    """Of the new table's sequences that begin with this one and go on, the shortest, and of these the first."""
    longer = [it for it in new.texts if it != sequence and it.startswith(sequence)]
    return min(longer, key=lambda it: (len(it), [NUMBER[key] for key in it]))


def told(old, new, fresh):
    """What `--format json` says of each sequence of either table."""
    found = []
    for sequence in {**old.texts, **new.texts}:
        what = change(old.texts, new.texts, fresh, sequence)
        written = old.keys.get(sequence) or new.keys[sequence]
        is_in = [sequence in it.texts for it in (old, new)]
        longer = first_longer(new, sequence) if what == "waiting" else None
        now = typed_now(old, new, sequence) if what in LOSSES else None
        found.append({
            "change": what,
            "keys": written,
            "old": old.texts.get(sequence),
            "new": new.texts.get(sequence),
            "old_file": "old" if is_in[0] else None,
            "old_line": old.places.get(sequence),
            "new_file": "new" if is_in[1] else None,
            "new_line": new.places.get(sequence),
            "longer": new.keys.get(longer),
            "longer_file": None if longer is None else "new",
            "longer_line": new.places.get(longer),
            "now": new.keys.get(now),
            "now_file": None if now is None else "new",
            "now_line": new.places.get(now),
        })
    return found


def quoted(text):
    return '"' + text.replace("\\", "\\\\").replace('"', '\\"').replace("\u202e", "\\u{202e}") + '"'


def line_of(row, with_places=True):
    """The line that is printed of a sequence."""
    parts = [f"{row['change']}:", *(f"<{it}>" for it in row["keys"])]
    if row["change"] in ("changed", "waiting", "removed"):
        parts.append(quoted(row["old"]))
    if row["change"] in ("changed", "new start", "added"):
        parts.append(quoted(row["new"]))
    if with_places and row["change"] in ("changed", "waiting", "removed"):
        parts.append(f"old:{row['old_line']}")
    if with_places and row["change"] in ("changed", "new start", "added"):
        parts.append(f"new:{row['new_line']}")
    if with_places and row["change"] == "waiting":
        parts += ["longer:", *(f"<{it}>" for it in row["longer"]), f"new:{row['longer_line']}"]
    if with_places and row["change"] in LOSSES:
        typing = [f"<{it}>" for it in row["now"]] + [f"new:{row['now_line']}"] if row["now"] else ["none"]
        parts += ["now:", *typing]
    return " ".join(parts)


def overlaps_of(old, new):
    """The line of the overlaps, if there are any."""
    line = f"overlaps: {old.overlaps} in the old table, {new.overlaps} in the new one; the longer sequences count"
    return [line] if old.overlaps or new.overlaps else []


def rows_in_order(rows):
    """Those that are printed: group by group, in each by the line."""
    line = lambda row: row["old_line"] if row["old_line"] is not None else row["new_line"]
    return [row for group in GROUPS for row in sorted((it for it in rows if it["change"] == group), key=line)]


def common(row, is_gone):
    """What a row has in common with those that share its line: the word and the first two keys as they are written, or the first of two. None where
    it has a line of its own."""
    keys = row["keys"]
    if row["change"] == "removed" and is_gone:
        return "removed with its file"
    if row["change"] not in ("removed", "added") or len(keys) < 2:
        return None
    return (row["change"], *(keys[:2] if len(keys) > 2 else keys[:1]))


def line_of_group(group, is_gone):
    """The line of some rows, the first of which has the place."""
    first, count = group[0], len(group)
    if first["change"] == "removed" and is_gone:
        return f"removed: all {count} sequences of old, from which the new table has none"
    if count == 1:
        return line_of(first)
    side = "old" if first["change"] == "removed" else "new"
    keys = [f"<{it}>" for it in common(first, is_gone)[1:]]
    texts = [quoted(it[side]) for it in group[:3]]
    return " ".join([f"{first['change']}:", *keys, "..", f"{count} sequences", *texts, "..", f"{side}:{first[f'{side}_line']}"])


def folded_lines(rows, shown):
    """The lines of the rows that are shown of all rows: each group in one, where its first row stands."""
    ordered = rows_in_order(shown)
    of_old = sum(1 for it in rows if it["old_line"] is not None)
    is_gone = of_old > 1 and sum(1 for it in ordered if it["change"] == "removed") == of_old
    groups = {}
    for number, row in enumerate(ordered):
        what = common(row, is_gone)
        groups.setdefault(number if what is None else what, []).append(row)
    return [line_of_group(group, is_gone) for group in groups.values()]


def is_lost(row):
    """Whether no sequence of the new table gives the old text of a lost sequence."""
    return row["change"] in LOSSES and row["now"] is None


def counts(rows, accepted=0):
    """How often each thing happens. Accepted ones are counted apart."""
    count = lambda what: sum(1 for it in rows if it["change"] == what)
    return {
        "kept": count("kept"),
        "changed": count("changed"),
        "waiting": count("waiting"),
        "removed": count("removed"),
        "new_starts": count("new start"),
        "added": count("added"),
        "accepted": accepted,
        "lost_texts": len({it["old"] for it in rows if is_lost(it)}),
    }


def counts_of(rows, accepted=0):
    """The last line."""
    its = counts(rows, accepted)
    starts = "new start" if its["new_starts"] == 1 else "new starts"
    texts = "text" if its["lost_texts"] == 1 else "texts"
    parts = [f"{its[it]} {it}" for it in ("kept", "changed", "waiting", "removed")]
    parts += [f"{its['new_starts']} {starts}", f"{its['added']} added", f"{accepted} accepted; {its['lost_texts']} {texts} lost"]
    return "diff: " + ", ".join(parts)


def cause(old, new, fresh, sequence):
    """Why a merge leaves out a sequence of the new table; None if it is taken, and "" if the old table has the same."""
    if sequence in old:
        return "" if old[sequence] == new[sequence] else "text"
    if any(it.startswith(sequence) for it in old):
        return "shorter"
    if any(sequence.startswith(it) for it in old):
        return "longer"
    is_known = sequence[0] in fresh or any(it[0] == sequence[0] for it in old)
    return None if is_known or sequence == sequence[0] and new[sequence] == OWN_TEXT[sequence] else "start"


def merge_lines(old, new, fresh, rows):
    """The last line of folded ones, if people lose something: what a merge of both tables would have."""
    if all(it["change"] in ("kept", "added") for it in rows):
        return []
    added = sum(cause(old.texts, new.texts, fresh, it) is None for it in new.texts)
    return [f"merge: would keep {len(old.texts)} of OLD's sequences and add {added} of NEW's"]


class Trial:
    """Runs of the program on pairs of tables."""

    def __init__(self, program):
        self.program, self.passed, self.failed = program, 0, 0

    def expect(self, what, expected, got):
        if expected == got:
            self.passed += 1
        else:
            self.failed += 1
            print(f"FAILED {what}:\n  expected {expected!r:.700}\n  got      {got!r:.700}")

    def run(self, folder, *arguments):
        return subprocess.run([self.program, "diff", *arguments, "old", "new"], cwd=folder, capture_output=True, text=True)

    def pages(self, folder, rows, last_lines, *options):
        """Reads the pages of these rows in both forms."""
        for name, read in {"markdown": read_markdown, "html": read_html}.items():
            for more, its in {(): {}, ("--no-fold",): {"folds": False}, ("--lost",): {"lost_alone": True}}.items():
                ran = self.run(folder, "--format", name, *more, *options)
                self.expect(f"{name} {more} {options}", (page_of(rows_in_order(rows), last_lines, **its), ""), (read(ran.stdout), ran.stderr))
                status = 1 if any(it["change"] not in ("kept", "added") for it in rows) else 0
                self.expect(f"{name} {more} {options}: status", status, ran.returncode)

    def pair(self, number, chance):
        """Tries one pair: every sequence as JSON, the lines, the list of accepted ones, and one that is not there."""
        old, new, fresh = random_pair(chance)
        rows = told(old, new, fresh)
        options = ["--fresh", ",".join(WRITTEN[it][0] for it in fresh)] if fresh else []
        losses = [it for it in rows if it["change"] not in ("kept", "added")]
        overlaps = overlaps_of(old, new)
        with tempfile.TemporaryDirectory() as folder:
            for it in (old, new):
                it.write(folder)
            ran = self.run(folder, "--format", "json", *options)
            objects = [json.loads(line) for line in ran.stdout.splitlines()]
            self.expect(f"{number}: json of the counts", {"counts": {**counts(rows), "old_overlaps": old.overlaps, "new_overlaps": new.overlaps}}, objects.pop())
            by_keys = lambda row: (row["keys"], row["change"])
            self.expect(f"{number}: json", sorted(rows, key=by_keys), sorted(objects, key=by_keys))
            self.expect(f"{number}: status", 1 if losses else 0, ran.returncode)
            ran = self.run(folder, "--no-fold", *options)
            self.expect(f"{number}: lines", [*map(line_of, rows_in_order(rows)), *overlaps, counts_of(rows)], ran.stdout.splitlines())
            ran = self.run(folder, *options)
            last = merge_lines(old, new, fresh, rows)
            self.expect(f"{number}: folded lines", [*folded_lines(rows, rows), *overlaps, counts_of(rows), *last], ran.stdout.splitlines())
            lost = [it for it in rows if is_lost(it)]
            ran = self.run(folder, "--lost", *options)
            self.expect(f"{number}: folded lost ones", [*folded_lines(rows, lost), *overlaps, counts_of(rows), *last], ran.stdout.splitlines())
            ran = self.run(folder, "--no-fold", "--lost", *options)
            self.expect(f"{number}: lost ones", [*map(line_of, rows_in_order(lost)), *overlaps, counts_of(rows)], ran.stdout.splitlines())
            self.expect(f"{number}: status with --lost", 1 if losses else 0, ran.returncode)
            self.pages(folder, rows, [*overlaps, counts_of(rows)], *options)
            ran = self.run(folder, "--write-accept", *options)
            self.expect(f"{number}: accepted ones", [line_of(it, False) for it in rows_in_order(losses)], ran.stdout.splitlines())
            with open(os.path.join(folder, "accepted"), "w", encoding="utf-8") as file:
                file.write("# meant\n" + ran.stdout)
            ran = self.run(folder, "--no-fold", "--accept", "accepted", *options)
            others = [it for it in rows if it not in losses]
            self.expect(f"{number}: all accepted", ([*map(line_of, rows_in_order(others)), *overlaps, counts_of(others, len(losses))], 0), (ran.stdout.splitlines(), ran.returncode))
            ran = self.run(folder, "--accept", "accepted", *options)
            self.pages(folder, others, [*overlaps, counts_of(others, len(losses))], "--accept", "accepted", *options)
            self.expect(f"{number}: all accepted, folded", [*folded_lines(rows, others), *overlaps, counts_of(others, len(losses))], ran.stdout.splitlines())
            with open(os.path.join(folder, "accepted"), "a", encoding="utf-8") as file:
                file.write('removed: <a> <a> <a> <a> "x"\n')
            ran = self.run(folder, "--accept", "accepted", *options)
            stale = len(losses) + 2
            message = f"composecheck: accepted:{stale}:1: no change of these tables is named by the line\n"
            self.expect(f"{number}: a stale one", (message, 2), (ran.stderr, ran.returncode))


def main():
    program = os.path.abspath(sys.argv[1])
    count = int(sys.argv[2]) if len(sys.argv) > 2 else 300
    trial, chance = Trial(program), random.Random(SEED)
    for number in range(count):
        trial.pair(number, chance)
    print(f"{trial.passed} passed, {trial.failed} failed")
    return 1 if trial.failed else 0


if __name__ == "__main__":
    sys.exit(main())
