#!/usr/bin/env python3
"""ci.py PROGRAM: runs share/composecheck/ci.sh with PROGRAM over small trees of tables, by their relative and by their absolute paths, and
compares the report, what is printed on standard error, the exit status and what is left. The last line is `N passed, M failed`."""
import html
import os
import re
import shutil
import subprocess
import sys
import tempfile
from typing import NamedTuple

from harness import Results

TOP = os.path.dirname(os.path.dirname(os.path.abspath(__file__)))
SCRIPT = os.path.join(TOP, "share", "composecheck", "ci.sh")
ENGLISH = '<Multi_key> <a> : "x"\n<Multi_key> <b> : "y"\n'
INCLUDING = 'include "/usr/share/X11/locale/en_US.UTF-8/Compose"\n'
CZECH = 'include "%S/en_US.UTF-8/Compose"\n<Multi_key> <b> : "z"\n'
OLD = {"en_US.UTF-8": ENGLISH, "fi_FI.UTF-8": INCLUDING, "cs_CZ.UTF-8": CZECH, "C": "<a> : "}
# The second sequence is dropped, but not where Czech has its own.
NEW = {**OLD, "en_US.UTF-8": '<Multi_key> <a> : "x"\n'}
# A file in no tree, which a table includes by its absolute path.
OUTSIDE = {**OLD, "fi_FI.UTF-8": INCLUDING + 'include "ROOM/elsewhere/Compose"\n'}
RENAMED = {it: text for it, text in OLD.items() if it != "fi_FI.UTF-8"}
DROPPED = 'removed: <Multi_key> <b> "y"\n'

HEADING = "# Changes of Compose tables\n"
UNCHANGED = "\nNothing changes for people, and nothing is added.\n"
INTENDED = "\nNothing changes but what is intended.\n"
CHANGED = """
## en_US.UTF-8, fi_FI.UTF-8

    removed: <Multi_key> <b> "y" old/en_US.UTF-8/Compose:2 now: none
"""
ACCEPTED = """
## fi_FI.UTF-8

    removed: <Multi_key> <b> "y" old/en_US.UTF-8/Compose:2 now: none

## Intended

### en_US.UTF-8

    removed: <Multi_key> <b> "y"
"""
BOTH_ACCEPTED = INTENDED + """
## Intended

### en_US.UTF-8, fi_FI.UTF-8

    removed: <Multi_key> <b> "y"
"""
NEW_ONE = "\nsv_SE.UTF-8 is new.\n"
READS_OUTSIDE = "\n**fi_FI.UTF-8 reads files outside of its tree:**\n\n    note: ROOM/elsewhere/Compose lies outside of new\n"
LOSES = "\n**Other readers lose lines of fi_FI.UTF-8:**\n\n    note: libX11 or libxkbcommon loses lines of new/fi_FI.UTF-8/Compose or of its includes, 1 in all: `composecheck lint` tells which\n"
ONE, TWO, THREE, NONE = "\n1 locale was compared.\n", "\n2 locales were compared.\n", "\n3 locales were compared.\n", "\n0 locales were compared.\n"


def merges(kept, added, locales):
    """The last line of a report in which people of so many locales lose something."""
    return f"\nmerge: would keep {kept} of OLD's sequences and add {added} of NEW's, in {locales} locale{'' if locales == 1 else 's'}\n"


# The locales that include the English table, and one that doesn't.
MANY = {"en_US.UTF-8": ENGLISH, **{f"{it}.UTF-8": INCLUDING for it in ("fi_FI", "pt_PT", "ru_RU", "th_TH")}, "el_GR.UTF-8": '<Multi_key> <c> : "c"\n'}
# The tables of locales, in both forms that libX11 writes, and the names that others have.
TABLES_OF = """# tables
en_US.UTF-8/Compose: C.UTF-8
en_US.UTF-8/Compose\t\tde_DE.UTF-8
en_US.UTF-8/Compose en_US.UTF-8
fi_FI.UTF-8/Compose: fi_FI.UTF-8
cs_CZ.UTF-8/Compose: cs_CZ.UTF-8
C/Compose: de_DE.ISO8859-1
"""
ALIASES = "# names\nde: de_DE.UTF-8\nde_DE.utf8 de_DE.UTF-8\nfi: fi_FI.UTF-8\nc.utf8: C.UTF-8\n"


def another_table(*lines):
    return "\n## Locales with another table\n\n" + "".join(f"    {it}\n" for it in lines)


def missing(*locales):
    return another_table(*(f"{it}: {it}/Compose, now none" for it in locales))


def parted(report):
    """Returns a report without its counts, and these by locale and word, but for those that are 0."""
    found = re.search(r"\n## Counts\n\n((?:\|.*\n)+)", report)
    if not found:
        return report, {}
    head, _, *rows = [[cell.strip() for cell in it.strip("|").split("|")] for it in found[1].splitlines()]
    counts = {locale: {word: int(count) for word, count in zip(head[1:], row) if count != "0"} for locale, *row in rows}
    return report.replace(found[0], ""), counts


class Report(NamedTuple):
    """A name, the new tree, the lists of intended changes, the report and the exit status."""

    name: str
    new: dict
    accepted: dict
    wanted: str
    status: int


REPORTS = [
    Report("nothing changes", OLD, {}, HEADING + UNCHANGED + THREE, 0),
    Report("a change of an included table is shown once", NEW, {}, HEADING + CHANGED + THREE + merges(4, 0, 2), 1),
    Report("one table is missing and one is new", {**RENAMED, "sv_SE.UTF-8": ENGLISH}, {}, HEADING + NEW_ONE + missing("fi_FI.UTF-8") + TWO, 2),
    Report("a change is intended in one of two locales", NEW, {"en_US.UTF-8": DROPPED}, HEADING + ACCEPTED + THREE + merges(2, 0, 1), 1),
    Report("a change is intended in each of two locales", NEW, {"en_US.UTF-8": DROPPED, "fi_FI.UTF-8": DROPPED}, HEADING + BOTH_ACCEPTED + THREE, 0),
    Report("a change is intended in all locales", NEW, {"all": f"# dropped\n\n{DROPPED}"}, HEADING + BOTH_ACCEPTED + THREE, 0),
    Report("one list is empty", NEW, {"all": DROPPED, "en_US.UTF-8": "# none\n"}, HEADING + BOTH_ACCEPTED + THREE, 0),
    Report("a table reads a file outside of its tree", OUTSIDE, {}, HEADING + READS_OUTSIDE + UNCHANGED + THREE, 2),
    Report("the last line of a table has no newline", {**OLD, "fi_FI.UTF-8": OLD["fi_FI.UTF-8"].rstrip("\n")}, {}, HEADING + LOSES + UNCHANGED + THREE, 0),
    Report("one table is missing, and the next one changes", {it: text for it, text in NEW.items() if it != "cs_CZ.UTF-8"}, {}, HEADING + missing("cs_CZ.UTF-8") + CHANGED + TWO + merges(4, 0, 2), 2),
    Report("a single locale is compared", {"en_US.UTF-8": ENGLISH}, {}, HEADING + missing("cs_CZ.UTF-8", "fi_FI.UTF-8") + ONE, 2),
    Report("no locale is in both trees", {"sv_SE.UTF-8": ENGLISH}, {}, HEADING + NEW_ONE + missing("cs_CZ.UTF-8", "en_US.UTF-8", "fi_FI.UTF-8") + NONE, 2),
]


class Trees:
    """Two trees, and lists of intended changes, in a room of their own in which each name has a blank."""

    def __init__(self, old, new, accepted):
        self.parent = tempfile.TemporaryDirectory(prefix="ci-")
        self.room = os.path.join(self.parent.name, "a room")
        for name in ("temporary [files]", "intended changes", "elsewhere"):
            os.makedirs(os.path.join(self.room, name))
        self.write("elsewhere/Compose", '<Multi_key> <b> : "y"\n')
        for name, tables in {"old tree": old, "new tree": new}.items():
            os.mkdir(os.path.join(self.room, name))
            for locale, text in tables.items():
                self.write(f"{name}/{locale}/Compose", text.replace("ROOM", self.room))
        for locale, text in accepted.items():
            self.write(f"intended changes/{locale}", text)

    def __enter__(self):
        return self

    def __exit__(self, *_):
        self.parent.cleanup()

    def write(self, path, text):
        whole_path = os.path.join(self.room, path)
        os.makedirs(os.path.dirname(whole_path), exist_ok=True)
        with open(whole_path, "w", encoding="utf-8") as file:
            file.write(text)

    def compare(self, program, *options, prefix="", old="old tree", accepted="intended changes", preprocessor=""):
        """Runs the script on the two trees, by paths with this prefix; returns what it prints, what it says, and its exit status."""
        settings = {"COMPOSECHECK": program, "ACCEPTED": prefix + accepted, "RAWCPP": preprocessor, "XLOCALEDIR": "/nowhere"}
        settings = {**os.environ, **settings, "TMPDIR": os.path.join(self.room, "temporary [files]")}
        words = ["sh", SCRIPT, prefix + old, f"{prefix}new tree", *options]
        ran = subprocess.run(words, cwd=self.room, env=settings, capture_output=True, text=True, timeout=300)
        return ran.stdout.replace(self.room, "ROOM"), ran.stderr, ran.returncode

    def answer(self, program, **where):
        """Returns what the script answers, without the counts of its report."""
        printed, said, status = self.compare(program, **where)
        return parted(printed)[0], said, status

    def left(self):
        """Returns what the script left among the temporary files."""
        return os.listdir(os.path.join(self.room, "temporary [files]"))


def check_reports(program, results):
    for it in REPORTS:
        with Trees(OLD, it.new, it.accepted) as trees:
            results.expect(f"{it.name}, by relative paths", trees.answer(program), (it.wanted, "", it.status))
            results.expect(f"{it.name}, by absolute paths", trees.answer(program, prefix=f"{trees.room}/"), (it.wanted, "", it.status))
            results.expect(f"{it.name}: temporary files that are left", trees.left(), [])


def check_refused_tables(program, results):
    """A table that is refused is shown with the reason, which is the program's to say; the other locales are compared."""
    begin, end = f"{HEADING}\n**fi_FI.UTF-8 is refused:**\n\n    composecheck: ", UNCHANGED + TWO
    with Trees(OLD, {**OLD, "fi_FI.UTF-8": "<a>\n"}, {}) as trees:
        printed, said, status = trees.answer(program)
        results.expect("a table is refused", (printed.startswith(f"{begin}new/fi_FI.UTF-8/Compose:1:4: "), printed.endswith(end), said, status), (True, True, "", 2))
    with Trees(RENAMED, OLD, {}) as trees:
        os.mkdir(os.path.join(trees.room, "old tree", "fi_FI.UTF-8"))
        os.symlink("nothing", os.path.join(trees.room, "old tree", "fi_FI.UTF-8", "Compose"))
        printed, said, status = trees.answer(program)
        results.expect("a table is a link to nothing", (printed.startswith(begin), printed.endswith(end), said, status), (True, True, "", 2))


def check_folders(program, results):
    """A folder without tables is refused, and the folder below it that has some is named."""
    rows = {
        "a package, not the folder in it": ({"usr/share/X11/locale/en_US.UTF-8": ENGLISH}, "ci.sh: no LOCALE.UTF-8/Compose in old tree; try old tree/usr/share/X11/locale\n"),
        "an empty folder": ({}, "ci.sh: no LOCALE.UTF-8/Compose in old tree\n"),
        "tables in other encodings alone": ({"C": ENGLISH}, "ci.sh: no LOCALE.UTF-8/Compose in old tree\n"),
    }
    for what, (tables, wanted) in rows.items():
        with Trees(tables, OLD, {}) as trees:
            results.expect(what, trees.compare(program), ("", wanted, 2))
    with Trees({}, OLD, {}) as trees:
        trees.write("old tree/libX11/nls/en_US.UTF-8/Compose.pre", ENGLISH)
        results.expect("a folder above a source tree", trees.compare(program), ("", "ci.sh: no LOCALE.UTF-8/Compose in old tree; try old tree/libX11/nls\n", 2))
        results.expect("no folder", trees.compare(program, old="other tree"), ("", "ci.sh: no folder other tree\n", 2))
    with Trees(OLD, {"locale/en_US.UTF-8": ENGLISH}, {}) as trees:
        results.expect("the wrong level of the new tree", trees.compare(program), ("", "ci.sh: no LOCALE.UTF-8/Compose in new tree; try new tree/locale\n", 2))


def check_program(program, results):
    """What is wrong with the program or an option is printed once, without a report."""
    with Trees(OLD, OLD, {}) as trees:
        results.expect("no program", trees.compare("./no program"), ("", "ci.sh: can't run ./no program\n", 2))
        printed, said, status = trees.compare(program, "--nonsense")
        results.expect("an unknown option", (printed, said.splitlines()[:1], said.count("unexpected"), status), ("", ["ci.sh: error: unexpected argument '--nonsense' found"], 1, 2))
        printed, said, status = trees.compare(program, "third folder")
        results.expect("a third folder", (printed, said.splitlines()[:1], said.count("unexpected"), status), ("", ["ci.sh: error: unexpected argument 'third folder' found"], 1, 2))
        results.expect("temporary files that are left after that", trees.left(), [])
    with Trees({"en_US.UTF-8": ENGLISH}, OLD, {}) as trees:
        trees.write("silent", "#!/bin/sh\nexit 70\n")
        os.chmod(os.path.join(trees.room, "silent"), 0o755)
        refusal = "\n**en_US.UTF-8 is refused:**\n\n    composecheck ended with status 70\n"
        wanted = HEADING + refusal + "\ncs_CZ.UTF-8 is new.\n\nfi_FI.UTF-8 is new.\n" + NONE
        results.expect("a program that ends without a word", trees.compare("./silent"), (wanted, "", 2))


def check_output(program, results):
    """A report that can't be written is no answer, though nothing changes."""
    with Trees(OLD, OLD, {}) as trees, open("/dev/full", "w", encoding="utf-8") as full:
        ran = subprocess.run(["sh", SCRIPT, "old tree", "new tree"], cwd=trees.room, env={**os.environ, "COMPOSECHECK": program}, stdout=full, stderr=subprocess.DEVNULL, timeout=300)
        results.expect("a report that can't be written", ran.returncode, 2)


def check_lists(program, results):
    """A list of intended changes that nothing is compared with is refused, and so is a line that matches nothing or is of several sequences."""
    for name in ("en_US.UTF8", "fi_FI.UTF-8", "sv_SE.UTF-8", "C"):
        with Trees(OLD, {**RENAMED, "sv_SE.UTF-8": ENGLISH}, {"en_US.UTF-8": "", name: DROPPED}) as trees:
            wanted = "", f"ci.sh: intended changes/{name} is of no locale that is compared\n", 2
            results.expect(f"a list of the changes of {name}", trees.compare(program), wanted)
    with Trees(OLD, OLD, {}) as trees:
        results.expect("no folder of lists", trees.compare(program, accepted="lists"), ("", "ci.sh: no folder lists\n", 2))
    for line in ('removed: <Multi_key> <a> .. 4 sequences "a" "b" "c" .. old/en_US.UTF-8/Compose:1', "removed: all 3 sequences of old/en_US.UTF-8/Compose, from which the new table has none"):
        for name in ("all", "en_US.UTF-8"):
            with Trees(OLD, NEW, {name: f"# many\n    {line}\r\n"}) as trees:
                wanted = "", f"ci.sh: intended changes/{name}:2: a line of several sequences; with --no-fold after the two folders each has its own\n", 2
                results.expect(f"a line of several sequences in {name}", trees.compare(program), wanted)
    for name in ("all", "en_US.UTF-8"):
        with Trees(NEW, OLD, {name: '# new\n    added: <Multi_key> <b> "y" new/en_US.UTF-8/Compose:2\n'}) as trees:
            wanted = "", f"ci.sh: intended changes/{name}:2: a sequence that is added needs no line; take it out\n", 2
            results.expect(f"a line of an added sequence in {name}", trees.compare(program), wanted)
    with Trees(OLD, NEW, {"all": f"{DROPPED}removed: <Multi_key> <c> \"y\"\n"}) as trees:
        stale = '\n**intended changes/all is refused:**\n\n    line 2 matches no change: removed: <Multi_key> <c> "y"\n'
        results.expect("a line of `all` that matches nothing", trees.answer(program), (HEADING + stale + BOTH_ACCEPTED + THREE, "", 2))
    with Trees(OLD, NEW, {"all": DROPPED, "fi_FI.UTF-8": f"# one\n{DROPPED}removed: <Multi_key> <c> \"y\"\n"}) as trees:
        printed, said, status = trees.answer(program)
        begin = f"{HEADING}\n**fi_FI.UTF-8 is refused:**\n\n    composecheck: intended changes/fi_FI.UTF-8:3:1: "
        results.expect("a line of a locale that matches nothing", (printed.startswith(begin), said, status), (True, "", 2))


# Two sequences that share a line, and one that is added: it needs no line.
FOLDED = {**OLD, "en_US.UTF-8": '<Multi_key> <a> : "x"\n<Multi_key> <a> <b> : "y"\n<Multi_key> <a> <c> : "z"\n', "cs_CZ.UTF-8": "# none\n"}
LEFT = {**FOLDED, "en_US.UTF-8": '<Multi_key> <a> <d> : "d"\n', "fi_FI.UTF-8": INCLUDING}


def check_copied(program, results):
    """Lines that are copied from the report are taken as they are: each makes the next report the shorter by itself. Blanks, tabs and carriage returns
    around them, and the mark at the beginning of a file of Windows, are no part of them, with the places and without."""
    with Trees(OLD, NEW, {}) as trees:
        printed, _, _ = trees.compare(program)
        lines = [it for it in printed.splitlines() if it.startswith("    ")]
        for begin, end in (("", "\r\n"), ("\ufeff\t", " \t\r\n")):
            trees.write("intended changes/all", begin + "".join(it + end for it in lines))
            results.expect(f"copied lines, between {begin!r} and {end!r}", trees.answer(program), (HEADING + BOTH_ACCEPTED + THREE, "", 0))
        os.remove(os.path.join(trees.room, "intended changes", "all"))
        for locale in ("en_US.UTF-8", "fi_FI.UTF-8"):
            trees.write(f"intended changes/{locale}", f"\ufeff\t {DROPPED[:-1]} \t\r\n \t\r\n")
        results.expect("copied lines without places", trees.answer(program), (HEADING + BOTH_ACCEPTED + THREE, "", 0))
    with Trees(FOLDED, LEFT, {}) as trees:
        for form in ("markdown", "html"):
            printed, _, _ = trees.compare(program, "--format", form)
            listed = html.unescape(printed[printed.index("Lines for lists") :].replace("<pre>", "").replace("</pre>", ""))
            trees.write("intended changes/all", "".join(f"{it}\n" for it in listed.splitlines() if it.strip().startswith(("removed: ", "added: "))))
            _, said, status = trees.compare(program)
            results.expect(f"lines of a page that are copied, {form}", (said, status), ("", 0))
            os.remove(os.path.join(trees.room, "intended changes", "all"))


def check_counts(program, results):
    """Each locale has its counts, and all together."""
    with Trees(OLD, NEW, {"fi_FI.UTF-8": DROPPED}) as trees:
        dropped = {"kept": 1, "removed": 1, "texts lost": 1}
        wanted = {"cs_CZ.UTF-8": {"kept": 2}, "en_US.UTF-8": dropped, "fi_FI.UTF-8": {"kept": 1, "accepted": 1}, "all": {"kept": 4, "removed": 1, "accepted": 1, "texts lost": 1}}
        results.expect("counts", parted(trees.compare(program)[0])[1], wanted)
    with Trees(OLD, {"en_US.UTF-8": ENGLISH}, {}) as trees:
        results.expect("counts of one locale", parted(trees.compare(program)[0])[1], {"en_US.UTF-8": {"kept": 2}})


def check_headings(program, results):
    """Many locales that include a table, and have its change, are counted in a heading and named below it."""
    line = '    removed: <Multi_key> <b> "y" old/en_US.UTF-8/Compose:2 now: none\n'
    new = {**MANY, "en_US.UTF-8": NEW["en_US.UTF-8"]}
    with Trees(MANY, new, {}) as trees:
        heading = "\n## en_US.UTF-8 and 4 that include it\n\nfi_FI.UTF-8, pt_PT.UTF-8, ru_RU.UTF-8, th_TH.UTF-8\n\n"
        results.expect("all that include a table", trees.answer(program), (f"{HEADING}{heading}{line}\n6 locales were compared.\n{merges(10, 0, 5)}", "", 1))
    with Trees(MANY, {**new, "pt_PT.UTF-8": CZECH.replace('"z"', '"y"')}, {}) as trees:
        heading = "\n## en_US.UTF-8 and 3 of the 4 that include it\n\nfi_FI.UTF-8, ru_RU.UTF-8, th_TH.UTF-8\n\n"
        results.expect("some that include a table", trees.answer(program), (f"{HEADING}{heading}{line}\n6 locales were compared.\n{merges(8, 0, 4)}", "", 1))
    others = {it: ENGLISH for it in MANY}
    with Trees(others, {it: NEW["en_US.UTF-8"] for it in MANY}, {}) as trees:
        printed = trees.answer(program)[0]
        results.expect("the same table six times, without an include", "that include it" in printed, False)


# A program that finds lost texts in one locale, and what others give otherwise.
FINDING = """#!/bin/sh
[ $1 = diff ] || exit 1
echo 'removed: <a> <b> "x" OLD:1 now: <b> <a> NEW:1'
case $* in *fi_FI*) printf '%s\\n' 'added: <a> <c> "y" NEW:2' 'changed: <a> <d> "z" "q" OLD:3 NEW:3 now: none' ;; esac
echo 'overlaps: 1 in the old table, 0 in the new one; the longer sequences count'
echo 'diff: 5 kept, 1 new start; 1 text lost'
echo "merge: would keep 5 of OLD's sequences and add 2 of NEW's"
exit 1
"""


def check_order(_, results):
    """Lost texts come first, then what is typed otherwise, then the rest; each count of the program has its column."""
    both = {it: ENGLISH for it in ("en_US.UTF-8", "fi_FI.UTF-8")}
    with Trees(both, both, {}) as trees:
        trees.write("finding", FINDING)
        os.chmod(os.path.join(trees.room, "finding"), 0o755)
        printed, said, status = trees.compare("./finding")
        lost, rest = '    changed: <a> <d> "z" "q" OLD:3 NEW:3 now: none\n', '    added: <a> <c> "y" NEW:2\n'
        otherwise = '    removed: <a> <b> "x" OLD:1 now: <b> <a> NEW:1\n'
        wanted = f"{HEADING}\n## fi_FI.UTF-8\n\n{lost}{rest}\n## en_US.UTF-8, fi_FI.UTF-8\n\n{otherwise}{TWO}{merges(10, 4, 2)}"
        results.expect("the order of lines", (parted(printed)[0], said, status), (wanted, "", 1))
        results.expect("other counts", parted(printed)[1]["all"], {"kept": 10, "new starts": 2, "texts lost": 2, "overlaps before": 2})


def check_tables_of_locales(program, results):
    """A locale that gets another table by compose.dir and locale.alias has a line, which may be intended."""
    lines = ["C.UTF-8: en_US.UTF-8/Compose, now none", "de_DE.UTF-8: en_US.UTF-8/Compose, now C/Compose", "fi: fi_FI.UTF-8/Compose, now en_US.UTF-8/Compose"]
    changed = TABLES_OF.replace("en_US.UTF-8/Compose: C.UTF-8\n", "").replace("en_US.UTF-8/Compose\t", "C/Compose\t")
    names = ALIASES.replace("fi: fi_FI.UTF-8", "fi: en_US.UTF-8")

    def trees_of(tables, aliases, accepted):
        trees = Trees(OLD, OLD, accepted)
        for tree, files in {"old tree": (TABLES_OF, ALIASES), "new tree": (tables, aliases)}.items():
            trees.write(f"{tree}/compose.dir", files[0])
            trees.write(f"{tree}/locale.alias", files[1])
        return trees

    with trees_of(TABLES_OF, ALIASES, {}) as trees:
        results.expect("each locale has its table", trees.answer(program), (HEADING + UNCHANGED + THREE, "", 0))
    with trees_of(changed, names, {}) as trees:
        results.expect("locales with another table", trees.answer(program), (HEADING + another_table(*lines) + THREE, "", 1))
    with trees_of(changed, names, {"all": f"{lines[0]}\n"}) as trees:
        intended = f"\n## Intended\n\n    {lines[0]}\n"
        results.expect("one of them is intended", trees.answer(program), (HEADING + another_table(*lines[1:]) + intended + THREE, "", 1))
    with trees_of(changed, names, {"all": "".join(f"  {it}\r\n" for it in lines)}) as trees:
        intended = "\n## Intended\n\n" + "".join(f"    {it}\n" for it in lines)
        results.expect("all of them are intended", trees.answer(program), (HEADING + INTENDED + intended + THREE, "", 0))
    with Trees(OLD, RENAMED, {"all": "fi_FI.UTF-8: fi_FI.UTF-8/Compose, now none\n"}) as trees:
        intended = "\n## Intended\n\n    fi_FI.UTF-8: fi_FI.UTF-8/Compose, now none\n"
        results.expect("a table is dropped, as intended", trees.answer(program), (HEADING + INTENDED + intended + TWO, "", 0))
    with Trees(OLD, OLD, {}) as trees:
        trees.write("old tree/compose.dir", TABLES_OF)
        results.expect("one tree has no compose.dir", trees.answer(program), (HEADING + UNCHANGED + THREE, "", 0))


# A table of a source tree: a comment of C, empty lines that the preprocessor would leave out, and marks of comments.
SOURCE = """/* a comment
   of two lines */
XCOMM a comment
{blanks}include "X11_LOCALEDATADIR/en_US.UTF-8/Compose"
 XCOMM another
<Multi_key> <c> : "{text}"
"""


def check_sources(program, results):
    """Source trees are made into tables first, and the places are those of Compose.pre."""
    old = {"en_US.UTF-8": 'XCOMM English\n<Multi_key> <a> : "x"\n', "fi_FI.UTF-8": SOURCE.format(blanks="\n" * 20, text="c")}
    new = {**old, "fi_FI.UTF-8": SOURCE.format(blanks="\n" * 22, text="C")}
    line = '    changed: <Multi_key> <c> "c" "C" old/fi_FI.UTF-8/Compose.pre:26 new/fi_FI.UTF-8/Compose.pre:28 now: none\n'
    wanted = f"{HEADING}\n## fi_FI.UTF-8\n\n{line}{TWO}{merges(2, 0, 1)}"
    for folder in ("", "nls/"):
        with Trees({}, {}, {}) as trees:
            for tree, tables in {"old tree": old, "new tree": new}.items():
                for locale, text in tables.items():
                    trees.write(f"{tree}/{folder}{locale}/Compose.pre", text)
                trees.write(f"{tree}/{folder}compose.dir.pre", "XCOMM tables\nen_US.UTF-8/Compose: en_US.UTF-8\n")
            results.expect(f"source trees, in {folder or 'the folder itself'}", trees.answer(program), (wanted, "", 1))
            results.expect("what is left in a source tree", os.path.exists(os.path.join(trees.room, "old tree", folder, "fi_FI.UTF-8", "Compose")), False)
            printed, said, status = trees.compare(program, preprocessor="no preprocessor")
            refusal = f"ci.sh: no C preprocessor no preprocessor, which makes the tables of {trees.room}/old tree{'/' + folder[:-1] if folder else ''}; set RAWCPP\n"
            results.expect("no preprocessor", (printed, said, status), ("", refusal, 2))
            printed, said, status = trees.compare(program, preprocessor="false")
            results.expect("a preprocessor that ends with a fault", (printed, said.startswith("ci.sh: false refuses "), status), ("", True, 2))


TABLES = """
## en_US.UTF-8, fi_FI.UTF-8

### Texts that can't be typed any more (1 sequence)

No sequence of the new table types the text.

| Text | Characters | Keys | What happens | Places |
|---|---|---|---|---|
| <b>y</b> | U+0079 | <kbd>Multi\\_key</kbd> <kbd>b</kbd> | removed | old/en\\_US.UTF-8/Compose:2 |

## fi_FI.UTF-8

<details>
<summary>Added (2 sequences)</summary>

Nobody who types with the old table meets these.

| Text | Characters | Keys | Places |
|---|---|---|---|
| <b>c</b> | U+0063 | <kbd>Multi\\_key</kbd> <kbd>c</kbd> | new/fi\\_FI.UTF-8/Compose:2 |
| <b>d</b> | U+0064 | <kbd>Multi\\_key</kbd> <kbd>d</kbd> | new/fi\\_FI.UTF-8/Compose:3 |

</details>

<details>
<summary>Lines for lists of intended changes</summary>

### en_US.UTF-8, fi_FI.UTF-8

    removed: <Multi_key> <b> "y" old/en_US.UTF-8/Compose:2 now: none

</details>
"""
MORE = INCLUDING + '<Multi_key> <c> : "c"\n<Multi_key> <d> : "d"\n'


def check_forms(program, results):
    """The report in Markdown with tables, and in HTML, whose tables have the same."""
    with Trees(OLD, {**NEW, "fi_FI.UTF-8": MORE}, {}) as trees:
        printed, said, status = trees.compare(program, "--format", "markdown")
        results.expect("the counts come first", printed.startswith(f"{HEADING}\n## Counts\n"), True)
        report, counts = parted(printed)
        results.expect("Markdown", (report, said, status), (HEADING + TABLES + THREE + merges(4, 2, 2), "", 1))
        results.expect("the counts of Markdown", counts["all"], {"kept": 4, "removed": 2, "added": 2, "texts lost": 2})
        printed, said, status = trees.compare(program, "--format=html")
        results.expect("HTML: what is printed", (said, status, printed.startswith("<!DOCTYPE html>"), printed.endswith("</html>\n")), ("", 1, True, True))
        rows = re.findall(r"<tr>(.*)</tr>", printed)
        results.expect("HTML: the first row of counts", rows[1], '<th scope="row">cs_CZ.UTF-8</th><td>2</td><td>0</td><td>0</td><td>0</td><td>0</td><td>0</td><td>0</td><td>0</td>')
        lost = "<td> <b>y</b></td><td> U+0079</td><td> <kbd>Multi_key</kbd> <kbd>b</kbd></td><td> removed</td><td> old/en_US.UTF-8/Compose:2</td>"
        results.expect("HTML: the row of a lost text", rows.count(lost), 1)
        last = "<p>3 locales were compared.</p>\n<p>merge: would keep 4 of OLD's sequences and add 2 of NEW's, in 2 locales</p>\n"
        results.expect("HTML: what a merge would keep", last in printed, True)
        results.expect("HTML: the lines", "<pre>\nremoved: &#60;Multi_key&#62; &#60;b&#62; &#34;y&#34; old/en_US.UTF-8/Compose:2 now: none\n</pre>" in printed, True)
        printed, said, status = trees.compare(program, "--no-fold")
        results.expect("a line for each sequence: no line about a merge", (parted(printed)[0].endswith(THREE), said, status), (True, "", 1))
        for words in (["--format"], ["--format", "json"]):
            printed, said, status = trees.compare(program, *words)
            results.expect(f"{words} is refused", (printed, said.startswith("ci.sh: --format "), status), ("", True, 2))
    with Trees(OLD, NEW, {"all": DROPPED}) as trees:
        report, _ = parted(trees.compare(program, "--format", "markdown")[0])
        results.expect("Markdown, where the changes are intended", report, HEADING + BOTH_ACCEPTED + THREE)


def main():
    program, results = os.path.abspath(sys.argv[1]), Results()
    checks = [check_reports, check_refused_tables, check_folders, check_program, check_output, check_lists, check_copied, check_counts, check_headings, check_order, check_tables_of_locales, check_forms]
    if shutil.which("cpp"):
        checks.append(check_sources)
    for check in checks:
        check(program, results)
    return results.end()


if __name__ == "__main__":
    sys.exit(main())
