#!/usr/bin/env python3
"""figures.py [FUNCTION ..]: how large the house of the commands is.

It prints, of the sources as they stand:

  - the definitions that a reader follows to know what a contract says: those of specs/ that the contract of the function names, and all that
    these name in turn, with their lines (of `run_question`, and of `check` and `explain` in both ways, or of the named functions),
  - the structs that hold two or more of names, an old table, a new table, a repertoire and a certificate,
  - the contracts that say no more than `result` is their own name,
  - the lines of the crates of the commands: code, definitions, proofs.

Nothing is proved or built here. How often the same parts are packed on the way of a run isn't counted: that takes reading."""
import glob
import os
import re
import sys

import measured

COMMANDS = [f"compose_{it}" for it in ("input", "details", "tool", "report", "arguments", "runs", "program")]
FUNCTIONS = ["run_question", "run_check", "run_check_files", "run_explain", "run_explain_files"]
TESTS = {"compose_examples", "compose_trials"}
PARTS = {"names", "old", "new", "repertoire", "certificate"}
WORD = re.compile(r"[A-Za-z_][\w'-]*(?:\.[A-Za-z_][\w'-]*)*|[◌⊎×]\S*")
USE = re.compile(r"^[ \t]*(?:pub |ghost )?use ((?:Rattle\.)?[\w.]+?)(?:\.\{([^}]*)\}| as ([\w-]+))?;?[ \t]*$", re.M)
HEAD = re.compile(r"^(?:pub |abbrev )*(?:record |data )?([A-Za-z_][\w'-]*)(?= )(?=.*(?: : |where))", re.M)
CONTRACT = re.compile(r"\bfn (\w+)(?:<[^{;]*?>)?\((.*?)\n *\{\n", re.S)


def read(path):
    with open(path, encoding="utf-8") as file:
        return file.read()


def without_comments(text, mark):
    return re.sub(rf"(?m)^[ \t]*{mark}.*\n", "", text)


def imported(text):
    """Returns the module and the name there of each name that these lines import, and the module of each that is imported whole."""
    names, modules = {}, {}
    for module, listed, alias in USE.findall(text):
        if listed:
            for item in listed.split(","):
                name, _, other = item.strip().partition(" as ")
                names[other or name] = (module, name)
        elif alias:
            modules[alias] = module
        else:
            module, _, name = module.rpartition(".")
            names[name] = (module, name)
    return names, modules


class Specs:
    """The definitions of all crates, each by its module and name."""

    def __init__(self):
        self.bodies, self.scopes, self.types = {}, {}, set()
        for path in glob.glob("crates/*/specs/**/*.antt", recursive=True):
            crate, inner = re.fullmatch(r"crates/(\w+)/specs/(.*)\.antt", path).groups()
            self.add(f"Rattle.{crate}.specs.{inner.replace('/', '.')}", without_comments(read(path), "--"))

    def add(self, module, text):
        self.scopes[module] = imported(text)
        heads = [it for it in HEAD.finditer(text) if not it.group(0).startswith(("use", "pub use", "pub mod", "mod"))]
        for at, head in enumerate(heads):
            end = heads[at + 1].start() if at + 1 < len(heads) else len(text)
            self.bodies.setdefault((module, head.group(1)), text[head.start():end].rstrip() + "\n")

    def named(self, text, module, scope):
        """Returns the definitions that a text names."""
        names, modules = scope
        for word in set(WORD.findall(text)):
            first, _, rest = word.partition(".")
            if (module, first) in self.bodies:
                yield module, first
            elif first in names and ".declared." in names[first][0]:
                self.types.add(names[first][0].removesuffix(".TheVariants"))
            elif first in names:
                yield from self.found(*names[first])
            elif first in modules:
                yield from self.found(modules[first], rest.split(".")[0])

    def found(self, module, name):
        """Returns the definition with this name in a module, or in the one from which that has it."""
        while (module, name) not in self.bodies:
            if module not in self.scopes or name not in self.scopes[module][0]:
                return
            module, name = self.scopes[module][0][name]
        yield module, name

    def behind(self, found):
        """Returns these definitions and all that they name in turn."""
        self.types = set()
        seen, left = set(), list(found)
        while left:
            name = left.pop()
            if name not in seen:
                seen.add(name)
                left.extend(self.named(self.bodies[name], name[0], self.scopes[name[0]]))
        return seen


def contracts():
    """Returns the contracts of each function: the file, its text, and what the contract says."""
    found = {}
    for path in sorted(glob.glob("crates/*/src/**/*.rt", recursive=True)):
        text = without_comments(read(path), "//")
        for name, rest in CONTRACT.findall(text):
            says = re.split(r"\n\s*(?:\*?requires|\*?ensures)\b", rest, 1)
            found.setdefault(name, []).append((path, text, says[1] if len(says) > 1 else ""))
    return found


def print_followed(specs, functions, known):
    for function in functions:
        for path, text, says in known.get(function, []):
            names = specs.behind(specs.named(says, "", imported(text)))
            lines = sum(specs.bodies[it].count("\n") for it in names)
            print(f"{function} ({path.split('/')[1]}): {len(names):,} definitions, {lines:,} lines, and {len(specs.types)} types of the code")


def print_structs():
    found = []
    for path in sorted(glob.glob("crates/*/src/**/*.rt", recursive=True)):
        for name, body in re.findall(r"^\s*(?:pub(?:\(crate\))? )?struct (\w+)[^{;(]*\{(.*?)^\s*\}", without_comments(read(path), "//"), re.M | re.S):
            fields = set(re.findall(r"^\s*(?:pub(?:\(crate\))? )?(\w+):", body, re.M))
            if len(fields & PARTS) >= 2 and path.split("/")[1] not in TESTS:
                found.append(f"{path.split('/')[1]}::{name}")
    print(f"structs with two or more of {', '.join(sorted(PARTS))}: {len(found)}")
    print("  " + ", ".join(found))


def print_named_by_themselves(known):
    says_its_name = r"\s*(?:\w+ )?\{ result(?:\.now)?\s*≡ (?:\w+\.)?%s\b[^∷≡]*\}\s*$"
    same = [name for name, each in known.items() for _, _, says in each if re.match(says_its_name % name, says)]
    print(f"contracts that are `result ≡ (their own name)`: {len(same)}")


def count(pattern):
    return sum(read(it).count("\n") for it in glob.glob(pattern, recursive=True))


def print_lines():
    total = [0, 0, 0]
    for crate in COMMANDS:
        each = [count(f"crates/{crate}/{it}") for it in ("src/**/*.rt", "specs/**/*.antt", "proofs/**/*.antt")]
        total = [a + b for a, b in zip(total, each)]
        print(f"{crate}: {each[0]:,} lines of code, {each[1]:,} of definitions, {each[2]:,} of proofs")
    print(f"together: {total[0]:,}, {total[1]:,}, {total[2]:,}")


def main():
    os.chdir(measured.TOP)
    known = contracts()
    print_followed(Specs(), sys.argv[1:] or FUNCTIONS, known)
    print_structs()
    print_named_by_themselves(known)
    print_lines()
    return 0


if __name__ == "__main__":
    sys.exit(main())
