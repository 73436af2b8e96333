#!/usr/bin/env python3
"""any_body.py: compares the public functions that any body passes, since no contract says what they do, with those that any_body.txt lists. The list
may not grow: a function that is new there wants an `ensures`. A line that names none any more is to be deleted. The last line is
`N passed, M failed`."""
import collections
import os
import sys
import tempfile

from harness import Results, TOP, write

sys.path.append(os.path.join(TOP, "tools"))
import edits
import without_contract

LIST = os.path.join(TOP, "tests", "any_body.txt")
# A crate with a function of each kind: those that are found have `bare` in their names.
ROOT = """mod inner;

pub struct Count(u8);

impl Count {
    pub fn bare_value(&self) -> u8 { 1 }
    pub fn bare_change(&mut self) {}
    pub fn said(&self) -> u8 ensures { result \u2261 1 } { 1 }
    pub fn nothing(&self) {}
    fn private(&self) -> u8 { 1 }
}

pub trait Give {
    fn bare_method(&self) -> u8;
    fn said_method(&self) -> u8 ensures { result \u2261 1 };
}

impl Give for Count {
    fn bare_method(&self) -> u8 { 1 }
    fn said_method(&self) -> u8 { 1 }
}
"""
INNER = "pub fn bare_function(out: &mut u8) {}\n"
FOUND = ["src/inner.rt inner::bare_function", "src/lib.rt Count::bare_value", "src/lib.rt Count::bare_change", "src/lib.rt <Self as Give>::bare_method"]


def main():
    rt, results = edits.load_rt(), Results()
    with tempfile.TemporaryDirectory() as folder:
        write(folder, {"src/lib.rt": ROOT, "src/inner.rt": INNER})
        results.expect("functions of each kind", sorted(without_contract.passed_in(without_contract.kit_reader(rt), folder, "src/lib.rt")), sorted(FOUND))
    with open(LIST, encoding="utf-8") as file:
        listed = collections.Counter(file.read().splitlines())
    found = collections.Counter(without_contract.listed(rt))
    results.expect("functions that any body passes, and that aren't listed", sorted((found - listed).elements()), [])
    results.expect("lines of the list that name no such function", sorted((listed - found).elements()), [])
    return results.end()


if __name__ == "__main__":
    sys.exit(main())
