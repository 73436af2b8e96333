"""The processor time that each crate takes: measured as its checks and its tests run, printed as the table of docs/made/TIMES.md, and read from
there."""
import collections
import os
import re
import sys

TOP = os.path.dirname(os.path.dirname(os.path.abspath(__file__)))
TABLE = os.path.join(TOP, "docs", "made", "TIMES.md")
HEAD = "| Crate | Proof s | Its tests s | Edits s | Edits | Proof, wall s | Most memory GB |"
KINDS = ("proof", "tests", "edits")
# Runs a command, and adds a line to a file: the crate, the kind of check, its processor seconds, its wall seconds and its memory in bytes. It gives way
# to the proofs of the crates that come first, if it is none of them, and a check of edits to all proofs.
METER = """
import os, signal, sys, time
file, first, words, began = sys.argv[1], sys.argv[2].split(","), sys.argv[3:], time.monotonic()
if "--crate-name" in words:
    os.nice(10 if "--incremental" in words else 0 if words[words.index("--crate-name") + 1] in first else 5)
_, status, used = os.wait4(os.posix_spawnp(words[0], words, os.environ, setsigdef=[signal.SIGPIPE, signal.SIGXFSZ]), 0)
if "--crate-name" in words:
    crate = words[words.index("--crate-name") + 1]
    kind = "edits" if "--incremental" in words else "proof"
    row = f"{crate} {kind} {used.ru_utime + used.ru_stime:.1f} {time.monotonic() - began:.1f} {used.ru_maxrss * 1024}\\n"
    with open(file, "a") as it:
        it.write(row)
if os.WIFSIGNALED(status):
    os.kill(os.getpid(), os.WTERMSIG(status))
sys.exit(os.waitstatus_to_exitcode(status))
"""


def measure(rtlib, file, first):
    """Has each check that the kit starts from here on be measured into a file. `first` has the names of the crates whose proofs come first, at each time."""
    guarded = rtlib.guarded
    rtlib.guarded = lambda: [*guarded(), sys.executable, "-ISc", METER, file, ",".join(first)]


def add(file, crate, kind, processor, wall, memory):
    """Adds to a file what something took, as METER does."""
    with open(file, "a", encoding="utf-8") as rows:
        rows.write(f"{crate} {kind} {processor:.1f} {wall:.1f} {memory}\n")


def rows_of(file):
    """Returns what was measured, by crate and kind: processor seconds, wall seconds, the most memory and how many checks."""
    found = collections.defaultdict(lambda: [0.0, 0.0, 0, 0])
    with open(file, encoding="utf-8") as lines:
        for crate, kind, processor, wall, memory in map(str.split, lines):
            row = found[crate, kind]
            found[crate, kind] = [row[0] + float(processor), row[1] + float(wall), max(row[2], int(memory)), row[3] + 1]
    return found


def table_of(found, edits):
    """Returns the table's lines, of the crates that were proved or tried. `edits` says how many each crate has, in the crates' order."""
    lines, sums = [HEAD, "|---|" + "---:|" * 6], collections.Counter()
    for crate, count in edits.items():
        row = {it: found[crate, it] for it in KINDS}
        if not any(it[3] for it in row.values()):
            continue
        seconds = [round(row[it][0]) for it in KINDS]
        memory = max(it[2] for it in row.values()) / 1e9
        lines.append(f"| `{crate}` | {seconds[0]} | {seconds[1] or '-'} | {seconds[2] or '-'} | {count or '-'} | {row['proof'][1]:.0f} | {memory:.1f} |")
        sums.update(dict(zip(KINDS, seconds)), edits_count=count)
    minutes = [f"{sums[it] / 60:.0f} min" for it in KINDS]
    return [*lines, f"| all | {' | '.join(minutes)} | {sums['edits_count']} | | |"]


def rows_known():
    """Returns the rows of the table of docs/made/TIMES.md: what stands in the columns of each crate."""
    if not os.path.isfile(TABLE):
        return {}
    with open(TABLE, encoding="utf-8") as file:
        below = file.read().partition(HEAD)[2]
    return {crate: rest.split(" | ") for crate, rest in re.findall(r"^\| `(\w+)` \| (.+) \|$", below, re.M)}


def seconds_of(crate, kind="proof"):
    """Returns the processor seconds that a kind of check of a crate is likely to take: those that were measured, or else by its lines."""
    row = rows_known().get(crate.name)
    return int(row[KINDS.index(kind)].replace("-", "0")) if row else 0.3 * crate.count(rb"\n")


def memory_of(crate, planned):
    """Returns the bytes that a check of a crate is likely to take: a fifth more than was measured, or else what the kit plans."""
    row = rows_known().get(crate.name)
    return round(1.2e9 * float(row[-1])) if row else planned
