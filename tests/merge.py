#!/usr/bin/env python3
"""merge.py PROGRAM [COUNT]: what `merge` prints of random tables, against a second reading of what is taken and left out.

The pairs of tables are those of `diff.py`. Of each pair the merged table and what is left out are worked out here from lists of definitions; then the
merged table is compared with the old one by `diff`, and merged again in the place of either. COUNT pairs are tried, 100 if none is given. The last
line is `N passed, M failed`."""
import os
import random
import subprocess
import sys
import tempfile

from diff import NUMBER, WRITTEN, cause, quoted, random_pair
from harness import Results

SEED = 31
MOST_LINES = 20
MORE = {
    "text": "have another text in OLD",
    "shorter": "begin a sequence of OLD",
    "longer": "go on from a sequence of OLD",
    "start": "begin with a key that begins nothing in OLD",
}


def in_order(sequences):
    return sorted(sequences, key=lambda it: [NUMBER[key] for key in it])


def keys(table, sequence):
    return " ".join(f"<{it}>" for it in table.keys[sequence])


def place(table, sequence):
    return f"{table.name}:{table.places[sequence]}"


def line(table, sequence):
    """The line of a Compose file."""
    text = table.texts[sequence].replace("\\", "\\\\").replace('"', '\\"')
    return f'{keys(table, sequence)} : "{text}"  # {place(table, sequence)}'


def reason(old, new, why, sequence):
    if why == "start":
        return f"{new.keys[sequence][0]} begins nothing in OLD"
    other = next(it for it in in_order(old.texts) if it.startswith(sequence) or sequence.startswith(it))
    text = quoted(old.texts[other])
    words = {
        "text": f"it has another text, {text}",
        "shorter": f"it begins {keys(old, other)} {text}",
        "longer": f"{keys(old, other)} types {text} at once,",
    }
    return f"{words[why]} {place(old, other)}"


def expected(old, new, fresh):
    """What is printed to both streams."""
    causes = {it: cause(old.texts, new.texts, fresh, it) for it in in_order(new.texts)}
    taken = [it for it, why in causes.items() if why is None]
    left = {it: why for it, why in causes.items() if why}
    lines, counts = [], dict.fromkeys(MORE, 0)
    for sequence, why in left.items():
        counts[why] += 1
        if counts[why] <= MOST_LINES:
            lines.append(f"left out: {keys(new, sequence)} {quoted(new.texts[sequence])} {place(new, sequence)}: {reason(old, new, why, sequence)}")
    lines += [f"left out: {count - MOST_LINES} more that {MORE[why]}" for why, count in counts.items() if count > MOST_LINES]
    firsts = [it[0] for it, why in left.items() if why == "start" and not any(it[0] in other for other in old.texts)]
    could = f"; --fresh {','.join(WRITTEN[it][0] for it in dict.fromkeys(firsts))} takes {len(firsts)} more" if firsts else ""
    lines.append(f"merge: {len(old.texts)} kept, {len(taken)} taken, {len(left)} left out{could}")
    return [line(old, it) for it in in_order(old.texts)] + [line(new, it) for it in taken], lines


def without_places(lines):
    return [it.rsplit("  # ", 1)[0] for it in lines]


def main():
    program, results, chance = os.path.abspath(sys.argv[1]), Results(), random.Random(SEED)
    with tempfile.TemporaryDirectory() as folder:

        def run(*words):
            ran = subprocess.run([program, *words], cwd=folder, capture_output=True, text=True, timeout=300)
            return ran.returncode, ran.stdout.splitlines(), ran.stderr.splitlines()

        for number in range(int(sys.argv[2]) if len(sys.argv) > 2 else 100):
            old, new, fresh = random_pair(chance)
            old.write(folder)
            new.write(folder)
            options = ["--fresh", ",".join(WRITTEN[it][0] for it in fresh)] if fresh else []
            table, lines = expected(old, new, fresh)
            results.expect(f"pair {number}", run("merge", *options, "old", "new"), (0, table, lines))
            with open(os.path.join(folder, "merged"), "w", encoding="utf-8") as file:
                file.write("".join(it + "\n" for it in table))
            results.expect(f"pair {number}: diff loses nothing", run("diff", *options, "old", "merged")[0], 0)
            status, again, _ = run("merge", *options, "old", "merged")
            results.expect(f"pair {number}: merged as the new table", (status, without_places(again)), (0, without_places(table)))
            status, again, _ = run("merge", "merged", "new")
            results.expect(f"pair {number}: merged as the old table", (status, sorted(without_places(again))), (0, sorted(without_places(table))))
    return results.end()


if __name__ == "__main__":
    sys.exit(main())
