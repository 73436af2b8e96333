#!/usr/bin/env python3
"""growth.py PROGRAM [SVG]: how time and memory grow with a table, from 1,000 to 10,000 to 100,000 lines.

Each command is a whole process; its time is the least of some turns, its memory the most that the process held. No step to ten times the lines
may take more than eleven times the time or the memory: the last line says whether all steps keep to that, and the exit status is 1 if one doesn't.
With SVG and Debian's gnuplot it also draws the figures there."""
import os
import shutil
import subprocess
import sys
import tempfile

from run import process

SIZES = [1_000, 10_000, 100_000]
TURNS = {1_000: 20, 10_000: 8, 100_000: 3}
MOST = 11.0


def sequences(lines, text):
    """A table with this number of lines, of sequences of three keys. `text` begins each text, so that two tables differ in every line."""
    second = [f"U{0x4E00 + number:04X}" for number in range((lines + 99) // 100)]
    rows = (f'<Multi_key> <{key}> <U{0x3400 + other:04X}> : "{text}{other}"\n' for key in second for other in range(100))
    return "".join(row for _, row in zip(range(lines), rows))


def write(folder, name, text):
    with open(os.path.join(folder, name), "w", encoding="utf-8") as file:
        file.write(text)


def prepare(program, folder, lines):
    """Writes the tables with their manifests, a repertoire, and the certificate that the table follows itself."""
    write(folder, "old", sequences(lines, "a"))
    write(folder, "new", sequences(lines, "b"))
    write(folder, "faulty", sequences(lines, "a").replace("<Multi_key>", "<Multi_kei>"))
    write(folder, "table", "root\told\n")
    write(folder, "repertoire", "")
    made = subprocess.run([program, "make", "table", "table", "repertoire"], cwd=folder, capture_output=True, text=True, check=True)
    write(folder, "certificate", made.stdout)


def commands(program):
    """The commands that are measured, by name: those that this program has."""
    every = {
        "type": ["type", "table", "Multi_key", "U4E00", "U3400"],
        "check": ["check", "table", "table", "repertoire", "certificate"],
        "diff": ["diff", "old", "new"],
        "lint": ["lint", "old"],
        "list": ["list", "old"],
        "list, each line faulty": ["list", "faulty"],
    }
    named = subprocess.run([program, "--help"], capture_output=True, text=True, check=True).stdout.split()
    return {name: [program, *words] for name, words in every.items() if words[0] in named}


def measure(program):
    """The least seconds and the most bytes of each command at each size: rows by command, each with a pair for each size."""
    rows = {name: [] for name in commands(program)}
    for lines in SIZES:
        with tempfile.TemporaryDirectory() as folder:
            prepare(program, folder, lines)
            for name, command in commands(program).items():
                turns = [process(command, folder, subprocess.DEVNULL) for _ in range(TURNS[lines])]
                rows[name].append((min(seconds for seconds, _ in turns), max(memory for _, memory in turns)))
    return rows


def steps(figures):
    """How much more each size takes than the one before it."""
    return [after / before for before, after in zip(figures, figures[1:])]


def table(rows):
    """The figures as a table in Markdown."""
    head = [f"| | {' | '.join(f'{lines:,} lines' for lines in SIZES)} | Steps in time | Steps in memory |", f"|---|{'---:|' * (len(SIZES) + 2)}"]
    lines = []
    for name, figures in rows.items():
        seconds, memory = zip(*figures)
        cells = [f"{1000 * second:.1f} ms, {size / 1e6:.1f} MB" for second, size in figures]
        cells += [" and ".join(f"{step:.1f}" for step in steps(it)) for it in (seconds, memory)]
        lines.append(f"| `{name}` | {' | '.join(cells)} |")
    return "\n".join([*head, *lines])


def draw(rows, path):
    """Draws the times over the lines, both on scales by powers of ten, by gnuplot."""
    script = ['set terminal svg size 720,480 font "sans,13"', f'set output "{path}"', "set logscale xy", "set key left top", "set grid"]
    script += ['set xlabel "lines of the table"', 'set ylabel "milliseconds of a whole process"', 'set format x "%.0f"']
    script += ["plot " + ", ".join(f'"-" using 1:2 with linespoints linewidth 2 title "{name}"' for name in rows)]
    for figures in rows.values():
        script += [*(f"{lines} {1000 * seconds}" for lines, (seconds, _) in zip(SIZES, figures)), "e"]
    subprocess.run(["gnuplot"], input="\n".join(script), text=True, check=True)


def main():
    program, *svg = (os.path.abspath(path) for path in sys.argv[1:3])
    rows = measure(program)
    print(table(rows))
    if svg and shutil.which("gnuplot"):
        draw(rows, svg[0])
    elif svg:
        print("growth.py: gnuplot is not installed, so nothing is drawn")
    worst = max(step for figures in rows.values() for column in zip(*figures) for step in steps(column))
    print(f"the greatest step: {worst:.1f} times, for ten times the lines ({MOST:.0f} at most)")
    return 1 if worst > MOST else 0


if __name__ == "__main__":
    sys.exit(main())
