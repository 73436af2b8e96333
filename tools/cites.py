#!/usr/bin/env python3
"""cites.py NAME: lists where a definition of specs/ (or a lemma, or a ghost member) is defined and who cites it: contracts first, then other definitions,
then proofs. A name that several crates define is listed for all of them. It reads the files as text, and proves nothing."""
import os
import re
import sys

TOP = os.path.dirname(os.path.dirname(os.path.abspath(__file__)))
# The head of a function of a source, and the line that begins a clause.
FUNCTION = re.compile(r"\s*(?:pub(?:\(\w+\))? )?(?:const |unsafe |final )*fn (\w+)")
CLAUSE = re.compile(r"\s*(?:requires|ensures|ghost|invariant)\b")
HEADINGS = ("defined", "contracts", "definitions", "proofs")


def files_below(folder, endings):
    for at, folders, names in os.walk(folder):
        folders[:] = sorted(it for it in folders if it not in ("out", "must-fail"))
        yield from (os.path.join(at, it) for it in sorted(names) if it.endswith(endings))


def contract_citations(lines, word):
    """Yields the number and the function of each clause that cites the word. What follows a clause's first line is indented as deep, up to its brace."""
    function, in_clause = "(module)", False
    for number, line in enumerate(lines, 1):
        head = FUNCTION.match(line)
        function = head[1] if head else function
        in_clause = bool(CLAUSE.match(line)) or in_clause and line.strip() not in ("{", "}") and not line.startswith("ghost use")
        if in_clause and not line.startswith("ghost use") and word.search(line):
            yield number, f"fn {function}"


def kind_of(path, line, name):
    """Returns under which heading a line of a specs or proofs file is listed, or None if it only imports the name."""
    if re.match(r"\s*(?:pub )?use\b", line):
        return None
    if re.match(rf"\s*(?:(?:abbrev|unfoldable) )?(?:pub )?(?:data |record )?{re.escape(name)} [:({{]", line):
        return "defined"
    return "definitions" if "/specs/" in path else "proofs"


def citations(name):
    """Returns the lines to print under each heading."""
    found, word = {it: [] for it in HEADINGS}, re.compile(rf"(?<![\w.-]){re.escape(name)}(?![\w'-])")
    for path in files_below(os.path.join(TOP, "crates"), (".rt", ".antt")):
        with open(path, encoding="utf-8") as file:
            lines = file.read().split("\n")
        at = os.path.relpath(path, TOP)
        if path.endswith(".rt"):
            found["contracts"] += [f"{at}:{number}: {where}" for number, where in contract_citations(lines, word)]
            continue
        for number, line in enumerate(lines, 1):
            kind = word.search(line) and kind_of(path, line, name)
            if kind:
                found[kind].append(f"{at}:{number}: {line.strip()[:100]}")
    return found


def main():
    if len(sys.argv) != 2 or sys.argv[1].startswith("-"):
        print(__doc__)
        return 2
    found = citations(sys.argv[1])
    for heading in HEADINGS:
        print(f"{heading}: {len(found[heading])}", *(f"  {it}" for it in found[heading]), sep="\n")
    return 0 if any(found.values()) else 1


if __name__ == "__main__":
    sys.exit(main())
