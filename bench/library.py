#!/usr/bin/env python3
"""library.py: how long a key takes from C by libcomposecheck, and by libxkbcommon in turns in the same process.

The library has to be there (`make lib`). It needs Debian's libx11-data and libxkbcommon-dev, a C compiler, and valgrind for the counts of
instructions. Each figure is the least of some rounds on the table of en_US.UTF-8. The last lines are a table of the aims."""
import os
import subprocess
import sys
import tempfile

TOP = os.path.dirname(os.path.dirname(os.path.abspath(__file__)))
sys.path[:0] = [os.path.join(TOP, "tests"), os.path.join(TOP, "lib")]
import build_library
import key_streams
import reference
from aims import Aims, instructions_between, ratio

ENGLISH = "/usr/share/X11/locale/en_US.UTF-8/Compose"
KEYS, ROUNDS, COUNTED_KEYS = 1_048_576, 12, 200_000


def built(folder):
    build_library.build(f"{folder}/lib")
    source = os.path.join(TOP, "bench", "library.c")
    words = ["-O2", *build_library.WARNINGS, f"-I{TOP}/lib", source, f"{folder}/lib/libcomposecheck.a", "-lxkbcommon"]
    subprocess.run([build_library.compiler(), *words, "-o", f"{folder}/library"], check=True)


def feed_instructions(folder, whose):
    command = ["./library", whose, ENGLISH]
    return instructions_between([*command, "half"], [*command, "counted"], COUNTED_KEYS // 2, folder)


def main():
    aims = Aims()
    keys = key_streams.stream(reference.sequences(ENGLISH, reference.header_values(f"{TOP}/crates/builtin_names/src/lines.rt")), KEYS, 1)
    with tempfile.TemporaryDirectory(prefix="library-") as folder:
        built(folder)
        for name, count in (("keys", KEYS), ("counted", COUNTED_KEYS), ("half", COUNTED_KEYS // 2)):
            key_streams.write(keys[:count], os.path.join(folder, name))
        # (the user has no table of his own, and a cache that is empty)
        env = {**{name: it for name, it in os.environ.items() if name not in ("XCOMPOSEFILE", "XDG_CONFIG_HOME", "XLOCALEDIR")}, "HOME": folder, "XDG_CACHE_HOME": f"{folder}/caches"}
        ran = subprocess.run(["./library", ENGLISH, "keys", str(ROUNDS)], cwd=folder, env=env, stdout=subprocess.PIPE, text=True, check=True)
        figures = {name: int(number) for name, number in (line.split("\t") for line in ran.stdout.splitlines())}
        counted = [feed_instructions(folder, whose) for whose in ("ours", "theirs")]
    print(f"{figures['differences']} of {KEYS} keys are answered otherwise")
    for name in ("ours", "theirs", "our feed", "their feed"):
        print(f"{name}: {figures[name] / KEYS:.1f} ns a key")
    for name in ("our compiling", "our table", "our check", "their table", "our locale", "our cached locale", "their locale"):
        print(f"{name}: {figures[name] / 1e6:.2f} ms")
    for whose, number in zip(("ours", "theirs"), counted):
        print(f"{whose}: {number and round(number)} instructions a key")
    aims.add("a key, its status and text, from C", "time", 0.70, ratio(figures["ours"], figures["theirs"]))
    aims.add("a key, its status and text, from C", "instructions", 0.70, ratio(*counted))
    aims.add("compile, from C", "time", 0.50, ratio(figures["our compiling"], figures["their table"]))
    aims.add("a table with result keysyms, from C", "time", 0.50, ratio(figures["our table"], figures["their table"]))
    aims.add("the table of a locale from the cache, from C", "time", 0.20, ratio(figures["our cached locale"], figures["their locale"]))
    print(aims.table())


if __name__ == "__main__":
    main()
