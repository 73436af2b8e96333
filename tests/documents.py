#!/usr/bin/env python3
"""documents.py [FOLDER]: what the documents of the repository, or of a copy of it in FOLDER, name is there:

  - links lead to a file, and to a heading of it,
  - the pages of docs/made are those that tools/pages.py makes of the sources, and the documents that people write have at most 250 KiB,
  - each function, clause and definition that docs/PROVED.md, docs/DEFINITIONS.md and docs/PROMISE.md name in backquotes is in the sources of its crate, and each
    crate is in one row of docs/ARCHITECTURE.md,
  - each crate, file, target of make and option that a document names exists, the manual and the completions have each option, and there is each fault of OUTPUT, PROTOCOL and the manual,
    under its number, and each limit among the numbers of the crates' sources,
  - README has at most 9,216 bytes, the version of the program is that of README, CHANGELOG and the manual, and the headers of which `--version` says
    that the built-in names are those are the ones that packaging/xorgproto has, by its page and by the guide,
  - lines of code in CONTRIBUTING stand in the sources, and no document cites a paper or a numbered issue,
  - no picture of docs/ has more than 60 KiB,
  - no line has more than 100 columns but in tables and code (tools/wrap.py breaks them), and words that are no plain English for a stranger
    aren't used.

The last line is `N passed, M failed`."""
import glob
import os
import re
import sys

TOP = os.path.abspath(sys.argv[1]) if len(sys.argv) > 1 else os.path.dirname(os.path.dirname(os.path.abspath(__file__)))
MOST_README = 9216
# Of README.md, CONTRIBUTING.md and docs/*.md together.
MOST_WRITTEN = 250 * 1024
COMPLETIONS = {"composecheck.bash": "--", "_composecheck": "--", "composecheck.fish": "-l "}
MANUALS = ["docs/composecheck.1", "docs/composecheck.5"]
MOST_COLUMNS = 100
MOST_PICTURE = 60 * 1024
# Words that the documents used in senses of their own: plain English has print, report, after, is, idle, checked, costly and again for them.
RETIRED = re.compile(r"\b(?:told|tell(?:s|ing)?|said|so many|behind|stands(?! for\b)|stood|rests|rested|look(?:s|ed)? at|dear(?:er)?|anew)\b", re.I)
# Documents whose numbers with a thousands' comma are limits of the program.
WITH_LIMITS = ["README.md", "docs/FORMATS.md", "docs/GUIDE.md", "docs/OUTPUT.md", "docs/PROTOCOL.md", "docs/SERVICE.md", *MANUALS]
# Options of other programs stand in commands that begin so.
FOREIGN = re.compile(r"\b(?:rt|systemctl|dpkg-deb|taskset|valgrind|perf|python3|git|sed|cc) [^`\n]*")
FILE = re.compile(r"(?<![\w./$~%-])(?:[\w-]+/)*[\w-]+\.(?:py|sh|md|rt|antt|txt|service|socket|case|edit|c|h)\b(?!\()")
# Files that are not of the repository, and names that stand for any.
OTHER_FILES = {"SHORTER_PROOFS.md", "keysymdef.h", "XF86keysym.h", "report.md", "files.py", "first.c", "report.c", "stdio.h", "string.h"}
FOLDERS = ["", "docs/", "share/composecheck/", "tests/", "tools/", "bench/", "packaging/", "lib/", "crates/*/"]
# Paths in which a word in capitals stands for any, and the file that the worked change of CONTRIBUTING doesn't need.
PLACEHOLDER = re.compile(r"(?:^|/)(?:NAME|FILE|WHAT_IS_WRONG)\b|is_invisible")
CITATION = re.compile(r"\bet al\b|\barXiv\b|\bdoi\b|\bthis paper\b|\bthe paper\b|\bpapers\b|\bissue \d|(?<![\w&])#\d+\b|\bTheorem \d|\bSection \d|\[\d+\](?!\()", re.I)
WORD = re.compile(r"(?:[A-Z]\w*::)?[A-Za-z_][\w'-]*")
# Words and the crate that has them: `follows` of `check` (`compose_check`), or `serve` of `compose_serve`.
WORDS = r"((?:`(?!compose_|keysym_core|std`)[\w:]+`(?:, | and )?)+)"
NAMES = r"(?:`\w+[\w/]*`(?:, )?)+"
NAMED = re.compile(rf"{WORDS}(?: of {WORDS})? (?:of |\()`(compose_\w+|keysym_core)`")
FAULT = re.compile(r"\b(\d\d?) ([A-Z][a-z]+(?:[A-Z][a-z0-9]*)+|[A-Z][a-z]+)(?= [a-z]+=|`|:|$)", re.M)


def read(path):
    with open(os.path.join(TOP, path), encoding="utf-8") as file:
        return file.read()


def without_comments(text, mark):
    return re.sub(rf"(?m)(?:^|(?<=\s)){mark}.*$", "", text)


class Results:
    def __init__(self):
        self.passed, self.wrong = 0, []

    def expect(self, document, what, holds):
        if holds:
            self.passed += 1
        else:
            self.wrong.append(f"FAILED: {document}: {what}")


class Crates:
    """The sources of the crates, as text."""

    def __init__(self):
        self.names = re.findall(r"^(\w+)(?: staticlib)?:", read("crates.txt"), re.M)
        self.texts = {it: self.text_of(it, "src/**/*.rt", "specs/**/*.antt") for it in self.names}
        self.proofs = {it: self.text_of(it, "proofs/**/*.antt", "must-fail/*.edit") for it in self.names}
        self.words = {it: set(re.findall(r"[A-Za-z_][\w'-]*", text)) for it, text in self.texts.items()}
        self.every = "\n".join(self.texts.values())
        self.numbers = {int(it.replace("_", ""), 0) for it in re.findall(r"\b(?:0x[\da-f][\da-f_]*|[1-9][\d_]*)\b", self.every, re.I)}
        self.numbers |= {2 ** int(it) for it in re.findall(r"\b2 \^ (\d+)\b", self.every)}

    @staticmethod
    def text_of(crate, *patterns):
        found = sorted(path for it in patterns for path in glob.glob(os.path.join(TOP, "crates", crate, it), recursive=True))
        return "\n".join(without_comments(read(it), "//" if it.endswith(".rt") else "-- ") for it in found)

    def have(self, crates, word):
        """Whether the word stands in one of these crates. Of `Type::function` each part does."""
        return any(all(part in self.words[it] for part in word.split("::")) for it in crates if it in self.words)


def documents():
    """Returns the text of each document by its path."""
    found = [os.path.relpath(it, TOP) for pattern in ("*.md", "docs/*.md", "tests/*.md") for it in glob.glob(os.path.join(TOP, pattern))]
    return {it: read(it) for it in [*sorted(found), *MANUALS]}


def without_roff(text):
    return text.replace("\\-", "-").replace("\\fR", "").replace("\\fP", "")


def anchors(text):
    """Returns the anchors of a document's headings."""
    text = re.sub(r"^```.*?^```$", "", text, flags=re.M | re.S)
    heads = [re.sub(r"[^\w\- ]", "", it.lower().replace("`", "")).replace(" ", "-") for it in re.findall(r"^#+ (.+)$", text, re.M)]
    return set(heads)


def check_links(results, texts):
    for document, text in texts.items():
        for target in re.findall(r"\[[^\]\n]*\]\(([^)\s]+)\)", text):
            if "://" in target:
                continue
            path, _, anchor = target.partition("#")
            whole = os.path.normpath(os.path.join(os.path.dirname(document), path)) if path else document
            there = os.path.exists(os.path.join(TOP, whole))
            results.expect(document, f"the link {target} leads to no file", there)
            if there and anchor:
                results.expect(document, f"the link {target} leads to no heading", anchor in anchors(read(whole)))


def quoted(text):
    """Returns what stands in backquotes, but in blocks of code."""
    return re.findall(r"`([^`\n]+)`", re.sub(r"^```.*?^```$", "", text, flags=re.M | re.S))


def crate_sections(text):
    """Returns of each section whose heading is names in backquotes these names, and the items of its list, or its whole text if it has none."""
    found = []
    for first, rest in re.findall(rf"^### ({NAMES})\n(.*?)(?=^#|\Z)", text, re.M | re.S):
        found.append((quoted(first), re.split(r"^- ", rest, flags=re.M)))
    return found


def check_sections(results, document, text, crates):
    """Each word in backquotes of a crate's section is in the sources of that crate, or of another one that the same item names."""
    for own, items in crate_sections(text):
        for crate in own:
            results.expect(document, f"there is a section of {crate}, which is no crate", crate in crates.names)
        for item in items:
            words = quoted(re.sub(r"\s+", " ", item))
            near = own + [it for it in words if it in crates.names]
            for word in words:
                if word not in crates.names and WORD.fullmatch(word) and not is_outside(word):
                    results.expect(document, f"`{word}` is in no source of {', '.join(near)}", crates.have(near, word))


def is_outside(word):
    """Whether a word in backquotes is none of a crate: a value that is printed, or a name of the kit or the system."""
    return word in {"yes", "no", "clap", "mio", *"diff type check explain make manifest how list lint update serve load session".split()}


def check_laws(results, document, text, crates):
    """In any document, each law and each word that is followed by its crate, as `law_gone` or `serve` of `compose_serve`, is there."""
    for word in quoted(text):
        if re.fullmatch(r"law_\w+", word):
            results.expect(document, f"`{word}` stands in no crate", crates.have(crates.names, word))
    for first, second, crate in NAMED.findall(text):
        for word in quoted(first + second):
            results.expect(document, f"`{word}` stands in no source of {crate}", crate not in crates.names or crates.have([crate], word))


def check_crates(results, texts, crates):
    folders = {os.path.basename(it) for it in glob.glob(os.path.join(TOP, "crates", "*"))}
    for document, text in texts.items():
        for word in re.findall(r"\bcompose_[a-z_]+\b(?!\.[a-z])|\bkeysym_core\b|\bbuiltin_names\b", text):
            known = word in folders or word in crates.every
            results.expect(document, f"there is no crate {word}", known)
    rows = "".join(re.findall(r"^\|.*$", texts["docs/ARCHITECTURE.md"], re.M))
    for crate in crates.names:
        results.expect("docs/ARCHITECTURE.md", f"{crate} is in no row, or more than once", rows.count(f"`{crate}`") == 1)


def check_made(results, texts):
    """The pages that a script makes are those that it makes now, and what people write stays short enough to be read."""
    sys.path.insert(0, os.path.join(TOP, "tools"))
    import pages

    made, there = pages.pages(), {f"{pages.FOLDER}/{it}" for it in os.listdir(os.path.join(TOP, pages.FOLDER)) if it not in pages.OTHERS}
    for path in sorted(there | set(made)):
        results.expect(path, "it isn't what `make pages` makes", path in there and read(path) == made.get(path))
    check_links(results, {it: made[it] for it in made})
    written = sum(len(text.encode()) for it, text in texts.items() if it in ("README.md", "CONTRIBUTING.md") or it.startswith("docs/") and it not in MANUALS)
    results.expect("docs", f"README, CONTRIBUTING and docs have {written} bytes, more than {MOST_WRITTEN}", written <= MOST_WRITTEN)


def check_pictures(results):
    for path in glob.glob(os.path.join(TOP, "docs", "*.png")):
        size = os.path.getsize(path)
        results.expect(os.path.relpath(path, TOP), f"it has {size} bytes, more than {MOST_PICTURE}", size <= MOST_PICTURE)


def names_below(folder):
    """Returns the names of all files below a folder, but for what the kit built."""
    found = set()
    for _, folders, names in os.walk(os.path.join(TOP, folder), followlinks=True):
        folders[:] = [it for it in folders if it != "out"]
        found.update(names)
    return found


def check_files(results, texts):
    known = OTHER_FILES | names_below("crates") | names_below("share") | names_below("tests") | names_below("tools")
    for document, text in texts.items():
        text = re.sub(r"\b\w+://\S+|\bcompose\.socket\b", "", without_roff(text))
        text = text.replace("/usr/local/share/composecheck/", "share/composecheck/")
        for name in FILE.findall(text):
            if PLACEHOLDER.search(name):
                continue
            there = any(glob.glob(os.path.join(TOP, it, name)) for it in FOLDERS) or "/" not in name and name in known
            results.expect(document, f"there is no file {name}", there)


def check_commands(results, texts, crates):
    targets = {it for line in re.findall(r"^([\w -]+):(?!=)", read("Makefile"), re.M) for it in line.split()}
    options = set(re.findall(r'name: "([\w-]+)"', crates.texts["compose_arguments"])) | {"help", "version"}
    manual = without_roff(texts[MANUALS[0]]).partition("\n.SH OPTIONS\n")[2]
    for word in re.findall(r'name: "([\w-]+)",\s+letter:', crates.texts["compose_arguments"]):
        results.expect(MANUALS[0], f"its section of options has no --{word}", re.search(rf"--{word}(?![\w-])", manual) is not None)
        for name, begin in COMPLETIONS.items():
            results.expect(name, f"it has no option {word}", re.search(rf"{begin}{word}(?![\w-])", read(f"share/completions/{name}")) is not None)
    options |= set(re.findall(r"--([\w-]+)", read("tools/gate.py")))
    for document, text in texts.items():
        text = without_roff(text)
        for word in re.findall(r"(?:^|`)make ([a-z][\w-]*)`?", text, re.M):
            results.expect(document, f"make has no target {word}", word in targets)
        if document in ("CONTRIBUTING.md", "docs/GATE.md", "docs/PERFORMANCE.md", "docs/DECISIONS.md"):
            text = FOREIGN.sub("", text)
        else:
            text = re.sub(r"\b(?:systemctl|journalctl|git|cc) [^`\n]*", "", text)
        for word in re.findall(r"(?<![\w-])--([a-z][\w-]*)", text):
            results.expect(document, f"there is no option --{word}", word in options)


def check_faults(results, texts, crates):
    kinds = set(re.findall(r'"(?:[a-z]+: )?(\d+ [A-Z]\w+)', crates.every)) | set(re.findall(r"(\d+ [A-Z]\w+)", crates.texts["compose_serving"]))
    kinds |= {f"{number} {name}" for name, number in re.findall(r"::(\w+) => (\d+),", crates.texts["compose_service"])}
    # (the client's errors, and the settings of the units)
    shared = "".join(read(f"share/composecheck/{it}") for it in ("composecheck_client.py", "composecheck.service"))
    for document in WITH_LIMITS:
        text = re.sub(r"^```.*?^```$", "", texts[document], flags=re.M | re.S)
        for words in quoted(text):
            for number, name in FAULT.findall(words):
                results.expect(document, f"no fault is printed as {number} {name}", f"{number} {name}" in kinds)
            if re.fullmatch(r"(?:[A-Z][a-z]+){2,}|Full|Overlap|Malformed", words):
                results.expect(document, f"there is no {words}", re.search(rf"\b{words}\b", crates.every + shared) is not None)
    for number, name in re.findall(r"^\| (\d+) \| (\w+) \|", texts["docs/PROTOCOL.md"], re.M):
        there = f"{number} {name}" in kinds or re.search(rf"\b{name}\b", crates.every, re.I) is not None and int(number) == 10
        results.expect("docs/PROTOCOL.md", f"no refusal {number} is {name}", there)


def check_limits(results, texts, crates):
    for document in WITH_LIMITS:
        for text in re.findall(r"(?<![\d,.])\d{1,3}(?:,\d{3})+(?!\d)", texts[document]):
            number = int(text.replace(",", ""))
            results.expect(document, f"{text} is no number of the program", bool({number, number - 1} & crates.numbers))


def check_versions(results, texts, crates):
    version = re.search(r'\.version\("([\d.]+)"\)', crates.texts["compose_arguments"])[1]
    results.expect("README.md", f"it doesn't say version {version}", f"Version {version}" in texts["README.md"])
    results.expect("CHANGELOG.md", f"it has no section {version}", re.search(rf"^## {re.escape(version)}\b", texts["CHANGELOG.md"], re.M) is not None)
    for manual in MANUALS:
        results.expect(manual, f"its head doesn't say {version}", f'"composecheck {version.rsplit(".", 1)[0]}' in texts[manual].split("\n", 1)[0])
    names = re.search(r'"([\d.]+)\\nnames: (xorgproto [\d.]+) \((.*)\)"', crates.texts["compose_arguments"])
    results.expect("--version", f"it says {names[1]}, and -V {version}", names[1] == version)
    for document in ("packaging/xorgproto/README.md", "docs/GUIDE.md"):
        results.expect(document, f"it doesn't say that the names are of {names[2]}", names[2] in " ".join(read(document).split()))
    headers = {os.path.basename(it) for it in glob.glob(os.path.join(TOP, "packaging", "xorgproto", "*.h"))}
    results.expect("packaging/xorgproto", f"it has other headers than {names[3]}", headers == set(names[3].split(", ")))
    size = len(texts["README.md"].encode())
    results.expect("README.md", f"it has {size} bytes, more than {MOST_README}", size <= MOST_README)


def check_contributing(results, texts, crates):
    """The indented lines that are code stand in the sources, but for the worked change, whose lines have what is new in them."""
    sources = crates.every + "\n".join(crates.proofs.values())
    for line in re.findall(r"^    (\S.*)$", texts["CONTRIBUTING.md"], re.M):
        if "0xad" in line or "is_invisible" in line:
            continue
        results.expect("CONTRIBUTING.md", f"the line stands in no source: {line}", line in sources)


def check_citations(results, texts):
    for document, text in texts.items():
        found = CITATION.search(re.sub(r"`[^`\n]*`", "", re.sub(r"^```.*?^```$", "", text, flags=re.M | re.S)))
        results.expect(document, f"it cites something: {found and found[0]}", found is None)


def without_code(text):
    """Returns a text without its blocks of code: those between fences, and indented lines after an empty one."""
    return re.sub(r"^ *```.*?^ *```$|(?<=\n\n)(?:    [^\n]*\n|\n(?=    ))+", "", text, flags=re.M | re.S)


def check_words(results, texts):
    for document in sorted(set(texts) - set(MANUALS)):
        text = without_code(texts[document])
        longest = max(re.sub(r"^\|[^\n]*$", "", text, flags=re.M).split("\n"), key=len)
        results.expect(document, f"a line has {len(longest)} columns: {longest[:60]} ..", len(longest) <= MOST_COLUMNS)
        found = RETIRED.search(re.sub(r"`[^`\n]*`", "", text))
        results.expect(document, f"it says: {found and found[0]}", found is None)


def main():
    results, texts, crates = Results(), documents(), Crates()
    check_links(results, texts)
    for document in ("docs/PROVED.md", "docs/DEFINITIONS.md", "docs/PROMISE.md"):
        check_sections(results, document, texts[document], crates)
    for document, text in texts.items():
        check_laws(results, document, text, crates)
    check_crates(results, texts, crates)
    check_made(results, texts)
    check_pictures(results)
    check_files(results, texts)
    check_commands(results, texts, crates)
    check_faults(results, texts, crates)
    check_limits(results, texts, crates)
    check_versions(results, texts, crates)
    check_contributing(results, texts, crates)
    check_citations(results, texts)
    check_words(results, texts)
    print("".join(f"{it}\n" for it in dict.fromkeys(results.wrong)), end="")
    print(f"{results.passed} passed, {len(results.wrong)} failed")
    return 1 if results.wrong else 0


if __name__ == "__main__":
    sys.exit(main())
