#!/usr/bin/env python3
"""readme.py PROGRAM: pastes the blocks of README, the guide and CONTRIBUTING, one after another, and compares what is printed. Each document
has a folder of its own, with PROGRAM as ./composecheck beside links to what the repository has. A block ```sh is pasted; a block ``` that
follows it is what it must print. A block ```console is not pasted: it installs, proves or takes long. The last line is `N passed, M failed`."""
import os
import re
import shutil
import subprocess
import sys
import tempfile

TOP = os.path.dirname(os.path.dirname(os.path.abspath(__file__)))
DOCUMENTS = ["README.md", "docs/GUIDE.md", "CONTRIBUTING.md"]
# What a block may make, and so is no link to what lies in the repository.
MADE = {"composecheck", "try", "intended", "old", "new", "report.md", ".git"}
BLOCK = re.compile(r"^```(\w*)\n(.*?)^```$", re.M | re.S)
MARK = "-- the next block --"


def blocks_of(text):
    """Returns each block that is pasted, with what it must print, or None where the document doesn't say."""
    blocks = BLOCK.findall(text)
    return [(pasted, after[1] if after[0] == "" else None) for (kind, pasted), after in zip(blocks, [*blocks[1:], ("sh", "")]) if kind == "sh"]


def prepare(folder, program):
    shutil.copy(program, os.path.join(folder, "composecheck"))
    for name in set(os.listdir(TOP)) - MADE:
        os.symlink(os.path.join(TOP, name), os.path.join(folder, name))


def run(document, program):
    """Pastes the blocks of a document; how many did what they must, and how many did not."""
    with open(os.path.join(TOP, document), encoding="utf-8") as file:
        blocks = blocks_of(file.read())
    script = f"echo '{MARK}'\n".join(pasted for pasted, _ in blocks)
    with tempfile.TemporaryDirectory(prefix="readme-") as folder:
        prepare(folder, program)
        ran = subprocess.run(["bash", "-e"], cwd=folder, input=script, stdout=subprocess.PIPE, stderr=subprocess.STDOUT, text=True, timeout=400)
    printed = ran.stdout.split(f"{MARK}\n")
    failed = 0
    for index, (pasted, wanted) in enumerate(blocks):
        got = printed[index] if index < len(printed) else None
        is_last_of_failed = ran.returncode != 0 and index == len(printed) - 1
        if got is None or is_last_of_failed or wanted is not None and got != wanted:
            failed += 1
            print(f"FAILED: block {index + 1} of {document}\n{pasted}printed\n{got}")
    if not blocks:
        failed += 1
        print(f"FAILED: {document} has no block to paste")
    return len(blocks) - failed, failed


def main():
    program = os.path.abspath(sys.argv[1])
    passed, failed = map(sum, zip(*(run(it, program) for it in DOCUMENTS)))
    print(f"{passed} passed, {failed} failed")
    return 1 if failed else 0


if __name__ == "__main__":
    sys.exit(main())
