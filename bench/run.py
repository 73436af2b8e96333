#!/usr/bin/env python3
"""run.py PROGRAM TRIALS: times of the program and of single calls, and libxkbcommon at the same work, in turns.

PROGRAM is `composecheck`, TRIALS is `compose_trials` (crates/compose_trials). It needs Debian's libx11-data
and libxkbcommon-dev, a C compiler, and valgrind for the counts of instructions. Each figure is the least of some runs,
on the table of en_US.UTF-8; those of keys in sessions are medians. The last lines are a table of all aims, and which are met."""
import atexit
import functools
import glob
import os
import re
import shutil
import statistics
import subprocess
import sys
import tempfile

TOP = os.path.dirname(os.path.dirname(os.path.abspath(__file__)))
sys.path.insert(0, os.path.join(TOP, "tests"))
import key_streams
import reference
from aims import Aims, instructions, instructions_between, ratio

SHORT_NAMES = os.path.join(TOP, "share", "composecheck", "short-unicode-names.h")
BUILT_IN = os.path.join(TOP, "crates", "builtin_names", "src", "lines.rt")
ENGLISH = "/usr/share/X11/locale/en_US.UTF-8/Compose"
FINNISH = "/usr/share/X11/locale/fi_FI.UTF-8/Compose"
TABLES = "/usr/share/X11/locale/*.UTF-8/Compose"
KEYS = 10_000_000
# Of how many keys the instructions are counted, and how often `compose_trials` compiles a table.
COUNTED_KEYS = 200_000
COMPILE_ROUNDS = 200
CHARACTERS = 1000
MOST_NODES = 1_048_576
MOST_CHARACTERS = 65_536
MOST_DEFINITIONS = 100_000
ADDED = 20
KEYS_IN_SESSIONS = 1_000_000
KEY_TURNS = 9
MOST_SESSIONS = 4_096


def figures(command, folder):
    """What a program prints: a name, a tab and a number on each line."""
    ran = subprocess.run(command, cwd=folder, capture_output=True, text=True, check=True)
    return {name: int(number) for name, number in (line.split("\t") for line in ran.stdout.splitlines())}


def least_figures(commands, folder, rounds):
    """The least figures of each command, taken in turns."""
    least = {name: {} for name in commands}
    for _ in range(rounds):
        for name, command in commands.items():
            for figure, number in figures(command, folder).items():
                least[name][figure] = min(number, least[name].get(figure, number))
    return least


@functools.cache
def spent():
    """The program that measures one process, built from spent.c."""
    folder = tempfile.mkdtemp(prefix="spent-")
    atexit.register(shutil.rmtree, folder, ignore_errors=True)
    program = os.path.join(folder, "spent")
    subprocess.run(["cc", "-O2", "-o", program, os.path.join(TOP, "bench", "spent.c")], check=True)
    return program


def process(command, folder, errors=None):
    """The seconds of a whole process and the most memory that it held, in bytes. What it prints on standard error goes to `errors`, if that is given."""
    measured = os.path.join(folder, "measured")
    with open(os.path.join(folder, "output"), "wb") as output:
        subprocess.run([spent(), measured, *command], cwd=folder, stdout=output, stderr=errors, check=True)
    seconds, kilobytes, code = read(measured).split()
    if int(code) > 1:
        sys.exit(f"run.py: {' '.join(command)} was refused")
    return float(seconds), int(kilobytes) * 1024


def least_processes(commands, folder, rounds):
    """The least seconds of each process, taken in turns."""
    best = {name: float("inf") for name in commands}
    for _ in range(rounds):
        for name, command in commands.items():
            best[name] = min(best[name], process(command, folder)[0])
    return best


def write(folder, name, text):
    with open(os.path.join(folder, name), "w", encoding="utf-8") as file:
        file.write(text)


def read(path):
    with open(path, encoding="utf-8") as file:
        return file.read()


def prepare(folder):
    """The names that are built in, and a header that is read; the manifests; and the other program."""
    write(folder, "names", read(BUILT_IN).split('"')[1])
    write(folder, "header", read(reference.HEADER) + read(SHORT_NAMES))
    write(folder, "english", f"root\t{ENGLISH}\n")
    write(folder, "nothing", "root\tempty\n")
    write(folder, "empty", "")
    write(folder, "more", read(ENGLISH) + "".join(f'<Multi_key> <F1> <{chr(97 + i)}> : "{i}"\n' for i in range(ADDED)))
    write(folder, "longer", "root\tmore\n")
    subprocess.run(["cc", "-O2", "-o", "xkb", os.path.join(TOP, "bench", "xkb.c"), "-lxkbcommon"], cwd=folder, check=True)


def compile_instructions(trials, folder):
    """The instructions of compiling a table once, ours and libxkbcommon's: our rounds over the table without those over an empty one."""
    bench = [trials, "bench", "compile", "names"]
    ours = instructions_between([*bench, "empty"], [*bench, ENGLISH], COMPILE_ROUNDS, folder)
    theirs = instructions_between(["./xkb", "compile", ENGLISH, "1"], ["./xkb", "compile", ENGLISH, "3"], 2, folder)
    return ours, theirs


def compare_compiling(trials, folder, aims):
    """From bytes to a table."""
    times = least_figures({"ours": [trials, "bench", "compile", "names", ENGLISH], "theirs": ["./xkb", "compile", ENGLISH, "200"]}, folder, 5)
    ours, theirs = times["ours"], times["theirs"]
    memory = ours["bytes"]
    print(f"table: {ours['nodes']} nodes, {ours['edges']} edges, {ours['root edges']} root edges, {ours['sequences']} sequences")
    print(f"memory: {memory} bytes of arrays; libxkbcommon {theirs['memory']}; ratio {memory / theirs['memory']:.2f}")
    for part in ["read", "settle", "build", "compile"]:
        print(f"{part}: {ours[part] / 1e6:.3f} ms")
    print(f"libxkbcommon compiles in {theirs['compile'] / 1e6:.3f} ms; ratio {ours['compile'] / theirs['compile']:.2f}")
    aims.add("compile", "time", 0.30, ours["compile"] / theirs["compile"])
    aims.add("compile", "instructions", 0.50, ratio(*compile_instructions(trials, folder)))
    aims.add("a table in memory", "bytes", 0.80, memory / theirs["memory"])


def feed_instructions(trials, folder, keys):
    """The instructions of typing keys, ours and libxkbcommon's. Of our keys one turn more is counted, since reading them takes some thirty
    instructions each, and of libxkbcommon's, which are read by the system, as many keys more."""
    key_streams.write(keys[:COUNTED_KEYS], os.path.join(folder, "counted"))
    key_streams.write(keys[: 2 * COUNTED_KEYS], os.path.join(folder, "twice"))
    ours = [trials, "bench", "type", "names", ENGLISH, "counted"]
    theirs = ["./xkb", "type", ENGLISH]
    return instructions_between([*ours, "1"], [*ours, "2"], 1, folder), instructions_between([*theirs, "counted"], [*theirs, "twice"], 1, folder)


def compare_typing(trials, folder, aims):
    """Ten million keys."""
    keys = key_streams.stream(reference.sequences(ENGLISH, reference.header_values(BUILT_IN)), KEYS, 1)
    key_streams.write(keys, os.path.join(folder, "keys"))
    times = least_figures({"ours": [trials, "bench", "type", "names", ENGLISH, "keys", "1"], "theirs": ["./xkb", "type", ENGLISH, "keys"]}, folder, 5)
    ours, theirs = times["ours"], times["theirs"]
    statuses = ["nothing", "composing", "composed", "cancelled"]
    same = all(ours[status] == theirs[status] for status in statuses)
    print(f"{KEYS} keys: {ours['type'] / KEYS:.1f} ns a key; libxkbcommon {theirs['type'] / KEYS:.1f}; ratio {ours['type'] / theirs['type']:.2f}")
    aims.add("feed", "time", 0.15, ours["type"] / theirs["type"])
    aims.add("feed", "instructions", 0.28, ratio(*feed_instructions(trials, folder, keys)))
    print("statuses:", ", ".join(f"{ours[status]} {status}" for status in statuses), "(as libxkbcommon)" if same else f"(libxkbcommon: {theirs})")


def measure_calls(trials, folder):
    """Lexing, and reading names."""
    lexing = least_figures({"lex": [trials, "bench", "lex", ENGLISH]}, folder, 3)["lex"]["lex"]
    headers = least_figures({it: [trials, "bench", "names", it] for it in ("header", "names")}, folder, 3)
    print(f"lexing: {lexing / 1e6:.3f} ms, {lexing / 1e6 / os.path.getsize(ENGLISH) * 100_000:.3f} ms for 100 KB")
    print(f"reading {os.path.getsize(os.path.join(folder, 'header'))} bytes of names: {headers['header']['names'] / 1e6:.3f} ms")
    print(f"the built-in names, which are compared and not read: {headers['names']['names'] / 1e6:.3f} ms")


def compare_processes(program, folder, aims):
    """Whole processes."""
    keys = ["Multi_key", "apostrophe", "e"]
    typing = [program, "type", "--names", "builtin"]
    times = least_processes(
        {
            "ours": [*typing, "english", *keys],
            "ours, empty table": [*typing, "nothing", *keys],
            "theirs": ["./xkb", "process", ENGLISH, *keys],
        },
        folder,
        60,
    )
    print(f"process, three keys: {times['ours'] * 1000:.2f} ms; libxkbcommon {times['theirs'] * 1000:.2f}; ratio {times['ours'] / times['theirs']:.2f}")
    counted = [instructions(command, folder) for command in ([*typing, "english", *keys], ["./xkb", "process", ENGLISH, *keys])]
    aims.add("a whole process", "time", 0.65, times["ours"] / times["theirs"])
    aims.add("a whole process", "instructions", 0.60, ratio(*counted))
    return times["ours, empty table"] + 2 * (times["ours"] - times["ours, empty table"])


def typed_characters():
    """Characters that sequences of the table type."""
    texts = re.findall(r':\s*"(.)"', read(ENGLISH))
    return sorted({text for text in texts if ord(text) > 0xA0})[:CHARACTERS]


def measure_migration(program, folder, reading, aims):
    """Making and checking a certificate for a table with some more sequences."""
    characters = typed_characters()
    write(folder, "repertoire", "keys 0x20 0x1fffffff\n" + "".join(f"U+{ord(c):04X}\n" for c in characters))
    make = [program, "make", "--names", "builtin", "english", "longer", "repertoire"]
    check = [program, "check", "--names", "builtin", "english", "longer", "repertoire", "certificate"]
    write(folder, "certificate", subprocess.run(make, cwd=folder, capture_output=True, text=True, check=True).stdout)
    times = least_processes({"make": make, "check": check}, folder, 40)
    print(f"reading names and two tables: {reading * 1000:.2f} ms")
    for name, seconds in times.items():
        print(f"{name}, {len(characters)} characters: {seconds * 1000:.2f} ms; {seconds / reading:.2f} of reading")
    aims.add("check, of reading both tables", "time", 1.05, times["check"] / reading)


def compare_keys(trials, service, folder, aims):
    """Keys through a service beside the same keys by a bare `feed`, with the first byte of each text read: the medians of some turns."""
    turns = {sessions: [] for sessions in (1, 100, MOST_SESSIONS)}
    for _ in range(KEY_TURNS):
        for sessions, rounds in turns.items():
            times = figures([trials, "bench", "keys", *service, "pressed", str(sessions)], folder)
            rounds.append([times[name] / times["keys"] for name in ("feed", "key", "whole reply")])
    for sessions, rounds in turns.items():
        bare = statistics.median(feed for feed, _, _ in rounds)
        print(f"keys in {sessions} sessions: {bare:.1f} ns a key by a bare feed")
        for column, name, aim in ((1, "its status and text read", 1.2), (2, "its reply handed out whole", 1.5)):
            ratios = sorted(row[column] / row[0] for row in rounds)
            served = statistics.median(row[column] for row in rounds)
            aims.add(f"a key in {sessions} sessions, {name}, of a bare feed", "time", aim, statistics.median(ratios))
            print(f"  through a service, {name}: {served:.1f} ns; ratio {statistics.median(ratios):.2f} ({ratios[0]:.2f} to {ratios[-1]:.2f})")


def measure_service(program, trials, folder, aims):
    """Calls of a service: keys beside a bare `feed`, loads beside `check_bytes`, and opening and closing sessions."""
    write(folder, "nobody", "")
    made = subprocess.run([program, "make", "--names", "builtin", "english", "english", "nobody"], cwd=folder, capture_output=True, text=True, check=True)
    write(folder, "itself", made.stdout)
    keys = key_streams.stream(reference.sequences(ENGLISH, reference.header_values(BUILT_IN)), KEYS_IN_SESSIONS, 2)
    key_streams.write(keys, os.path.join(folder, "pressed"))
    service = ["names", ENGLISH, "itself"]
    compare_keys(trials, service, folder, aims)
    times = least_figures({"load": [trials, "bench", "load", *service]}, folder, 5)["load"]
    loading, checking = times["load"] / 1e6, times["check"] / 1e6
    print(f"an accepted load of the same table: {loading:.3f} ms; check_bytes on the same bytes {checking:.3f} ms; ratio {loading / checking:.2f}")
    times = least_figures({"sessions": [trials, "bench", "sessions", *service, str(MOST_SESSIONS)]}, folder, 5)["sessions"]
    each = times["close the others"] / (MOST_SESSIONS - 1) / 1000
    print(f"opening {MOST_SESSIONS} sessions: {times['open all'] / MOST_SESSIONS / 1000:.2f} us each")
    print(f"closing them, the first one first: {times['close the first'] / 1000:.1f} us for the first, {each:.1f} us each for the others")


def measure_limits(program, trials, folder):
    """Tables, repertoires and certificates at their limits."""
    write(folder, "deep", "".join(f"<0x{0x1000100 + i:x}>{'<a>' * 31} : \"x\"\n" for i in range((MOST_NODES - 1) // 31)))
    write(folder, "deepest", "root\tdeep\n")
    characters = [c for c in range(0x1_0000, 0x11_0000)][:MOST_CHARACTERS]
    write(folder, "repertoire", "keys 0x20 0x1fffffff\n" + "".join(f"U+{c:04X}\n" for c in characters))
    make = [program, "make", "deepest", "deepest", "repertoire"]
    made, memory = process(make, folder)
    os.rename(os.path.join(folder, "output"), os.path.join(folder, "certificate"))
    print(f"make, {MOST_NODES} nodes, {MOST_CHARACTERS} characters: {made:.2f} s, at most {memory / 1e6:.0f} MB")
    checked, memory = process([program, "check", "deepest", "deepest", "repertoire", "certificate"], folder)
    print(f"check of its certificate: {checked:.2f} s, at most {memory / 1e6:.0f} MB; {read(os.path.join(folder, 'output')).strip()}")
    found = figures([trials, "bench", "certificate", "certificate"], folder)
    _, memory = process([trials, "bench", "certificate", "certificate"], folder)
    size = os.path.getsize(os.path.join(folder, "certificate"))
    print(f"certificate of {found['pairs']} pairs, {size} bytes: read in {found['read certificate'] / 1e6:.0f} ms, written in {found['write certificate'] / 1e6:.0f} ms, at most {memory / 1e6:.0f} MB with its text twice")


def many_definitions(first):
    """A table of as many sequences of three keys as there may be, of which each has another text by the letter that it begins with."""
    keys = [f"U{0x4e00 + number:04X}" for number in range(MOST_DEFINITIONS // 100)]
    return "".join(f'<Multi_key> <{key}> <U{0x3400 + other:04X}> : "{first}{other}"\n' for key in keys for other in range(100))


def measure_differences(program, folder, aims):
    """`diff` on two real tables beside `explain --all` on their manifests, in turns; and on two tables of the most definitions."""
    for name, table in {"english": ENGLISH, "finnish": FINNISH}.items():
        write(folder, name, subprocess.run([program, "manifest", table], capture_output=True, text=True, check=True).stdout)
    explain = [program, "explain", "--all", "--names", "builtin", "english", "finnish"]
    times = least_processes({"diff": [program, "diff", ENGLISH, FINNISH], "explain": explain}, folder, 15)
    print(f"diff of two tables: {times['diff'] * 1000:.2f} ms; explain --all {times['explain'] * 1000:.2f}; ratio {times['diff'] / times['explain']:.2f}")
    aims.add("diff, of explain --all", "time", 1.2, times["diff"] / times["explain"])
    write(folder, "many old", many_definitions("a"))
    write(folder, "many new", many_definitions("b"))
    seconds, memory = process([program, "diff", "many old", "many new"], folder)
    print(f"diff of two tables of {MOST_DEFINITIONS} sequences: {seconds:.2f} s, at most {memory / 1e6:.0f} MB")


def measure_lint(program, folder, aims):
    """`lint` on each UTF-8 table of the system beside `type` of one key, which reads the table and does nothing else, and beside `list`, in turns."""
    sums = {"lint": 0, "type": 0, "list": 0}
    for table in sorted(glob.glob(TABLES)):
        times = least_processes({"lint": [program, "lint", table], "type": type_one(program, table), "list": [program, "list", table]}, folder, 9)
        sums = {name: sums[name] + times[name] for name in sums}
    print(f"lint of all tables: {sums['lint'] * 1000:.2f} ms; type of a key by each {sums['type'] * 1000:.2f}; list of them {sums['list'] * 1000:.2f}")
    linted = instructions([program, "lint", ENGLISH], folder)
    for name, command in {"type": type_one(program, ENGLISH), "list": [program, "list", ENGLISH]}.items():
        aims.add(f"lint, of {name}", "time", 1.5, sums["lint"] / sums[name])
        aims.add(f"lint, of {name}", "instructions", 1.5, ratio(linted, instructions(command, folder)))


def type_one(program, table):
    """The command that types one key by a table."""
    return [program, "type", "--files", table, "a"]


def measure_how(program, folder, aims):
    """`how` of one character beside `type` of one key by the same table, in turns."""
    commands = {"how": [program, "how", "--from", ENGLISH, "é"], "type": type_one(program, ENGLISH)}
    times = least_processes(commands, folder, 60)
    print(f"how of a character: {times['how'] * 1000:.2f} ms; type of a key {times['type'] * 1000:.2f}; ratio {times['how'] / times['type']:.2f}")
    aims.add("how, of type", "time", 1, times["how"] / times["type"])
    aims.add("how, of type", "instructions", 1, ratio(*(instructions(it, folder) for it in commands.values())))


def main():
    program, trials = (os.path.abspath(path) for path in sys.argv[1:3])
    aims = Aims()
    with tempfile.TemporaryDirectory() as folder:
        prepare(folder)
        compare_compiling(trials, folder, aims)
        measure_calls(trials, folder)
        compare_typing(trials, folder, aims)
        reading = compare_processes(program, folder, aims)
        measure_migration(program, folder, reading, aims)
        measure_service(program, trials, folder, aims)
        measure_differences(program, folder, aims)
        measure_lint(program, folder, aims)
        measure_how(program, folder, aims)
        measure_limits(program, trials, folder)
    print(aims.table())


if __name__ == "__main__":
    main()
