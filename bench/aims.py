"""What the benchmarks aim at: ratios by time in one interleaved run, and by instructions, which do not depend on the machine's mood."""
import dataclasses
import os
import re
import shutil
import subprocess


def instructions(command, folder):
    """Returns the number of instructions of a process, as valgrind counts them, or None if valgrind is not installed."""
    if shutil.which("valgrind") is None:
        return None
    counted = ["valgrind", "--tool=callgrind", f"--callgrind-out-file={os.devnull}", *command]
    ran = subprocess.run(counted, cwd=folder, stdout=subprocess.DEVNULL, stderr=subprocess.PIPE, text=True, check=False)
    found = re.search(r"Collected : (\d+)", ran.stderr)
    return int(found[1]) if found else None


def instructions_between(less, more, times, folder):
    """Returns the instructions of one turn of a call: those of a process that does it more often, without those of one that does it `times` turns less."""
    low, high = instructions(less, folder), instructions(more, folder)
    return None if low is None or high is None else (high - low) / times


def ratio(ours, theirs):
    """Returns the ratio of two figures, or None if one of them is missing."""
    return None if ours is None or theirs is None else ours / theirs


@dataclasses.dataclass
class Aim:
    """A ratio that is aimed at, and what was measured."""

    name: str
    unit: str
    aim: float
    measured: float | None

    def line(self):
        """Returns the row of the table."""
        if self.measured is None:
            return f"| {self.name} | {self.unit} | {self.aim:.2f} | not measured | |"
        return f"| {self.name} | {self.unit} | {self.aim:.2f} | {self.measured:.2f} | {'yes' if self.measured <= self.aim else 'no'} |"


class Aims:
    """The aims of a run, in the order in which they were measured."""

    def __init__(self):
        self.rows = []

    def add(self, name, unit, aim, measured):
        self.rows.append(Aim(name, unit, aim, measured))

    def table(self):
        """Returns all aims as a table in Markdown, and a line that counts those that are met."""
        met = sum(it.measured is not None and it.measured <= it.aim for it in self.rows)
        head = ["| | Ratio of | Aim | Measured | Met |", "|---|---|---:|---:|---|"]
        return "\n".join([*head, *(it.line() for it in self.rows), "", f"{met} of {len(self.rows)} aims are met"])
