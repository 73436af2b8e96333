#!/usr/bin/env python3
"""pages.py: writes the pages of docs/made, which retell the sources of the crates: of each crate the head of its doc, its public functions with the first
sentence of their docs and the labels of their `ensures` clauses, and the definitions of its specs/ with the comments above them. README.md there has the
list of the crates, in the order of crates.txt.

`make pages` runs it, and tests/documents.py fails where a page isn't what it makes."""
import glob
import os
import re

TOP = os.path.dirname(os.path.dirname(os.path.abspath(__file__)))
FOLDER = "docs/made"
# What something else makes: the gate.
OTHERS = ["TIMES.md"]
FUNCTION = re.compile(r"( *)(pub )?(?:const )?(?:unsafe )?(?:extern \"C\" )?fn (\w+)")
BLOCK = re.compile(r"(impl|pub trait)\b(?:<(?:[^<>]|<[^<>]*>)*>)? *(\w+)(.*)|}$")
LABEL = re.compile(r" *ensures(?: (\w+))? \{")
DEFINITION = re.compile(r"(?:abbrev|record|data) pub (\S+)|pub (?:record|data) (\S+)")
INDEX = """# What each crate promises and defines

`make pages` writes the pages of this folder from the sources of the crates, from the lowest up. A
page has the public functions of its crate, each with the first sentence of its doc and the labels
of the clauses of its contract, and the definitions of its `specs/` that have a comment, each with
this comment. A clause itself is below the head of its function, after `ensures` and the label, and
what callers have to know after `requires`; `result` is any clause without a label. A function
without a clause is proved to be safe and to end.

[PROVED](../PROVED.md) says which of them carry the promises and what is not proved, and
[DEFINITIONS](../DEFINITIONS.md) has the words of the promises in the order of reading.

| Crate | What it is | Depends on | Functions | Definitions |
|---|---|---|---|---|
"""


def read(path):
    with open(os.path.join(TOP, path), encoding="utf-8") as file:
        return file.read()


def crates():
    """Returns the crates that each crate depends on, from the lowest up."""
    lines = re.findall(r"^(\w+)(?: staticlib)?:(.*)$", read("crates.txt"), re.M)
    return {crate: [it for it in rest.split() if it in dict(lines)] for crate, rest in lines}


def nearest(crate, direct):
    """Returns the crates that a crate depends on, but for those that others of them depend on."""

    def below(crates):
        return set().union(*({*direct[it], *below(direct[it])} for it in crates))

    further = below(direct[crate])
    return [it for it in direct[crate] if it not in further]


def files(crate, folder, ending):
    """Returns the paths of the files of a crate in one of its folders."""
    return sorted(os.path.relpath(it, TOP) for it in glob.glob(os.path.join(TOP, "crates", crate, folder, "**", f"*{ending}"), recursive=True))


def first_sentence(lines):
    """Returns the first sentence of a doc, without the links that rustdoc makes."""
    paragraph = " ".join(lines[: lines.index("")] if "" in lines else lines)
    return re.sub(r"\[(`[^`]+`)\](?:\([^)]*\))?", r"\1", re.split(r"(?<=\.) (?=[A-Z`\[])", paragraph)[0])


def shown(text):
    """Returns a text as Markdown shows it: what is outside of backquotes marks nothing."""
    if text.count("`") % 2 == 1:
        return re.sub(r"([`<*\[\]|\\])", r"\\\1", text)
    return "`".join(part if index % 2 else re.sub(r"([<*\[\]|])", r"\\\1", part) for index, part in enumerate(text.split("`")))


def comment_above(lines, index, mark):
    """Returns the lines of the comment that ends above a line, without their mark. Attributes may stand between."""
    found = []
    for line in reversed(lines[:index]):
        if line.strip().startswith(mark):
            found.insert(0, line.strip()[len(mark) :].lstrip("- ").rstrip())
        elif not line.strip().startswith("#["):
            break
    return found


def labels_below(lines, index, indentation):
    """Returns the labels of the `ensures` clauses below the head of a function."""
    found = []
    for line in lines[index + 1 :]:
        if line.startswith((f"{indentation}{{", f"{indentation}}}")) or FUNCTION.match(line):
            break
        if label := LABEL.match(line):
            found.append(label[1] or "result")
    return found


def functions(text):
    """Yields of each public function of a source its name, the first sentence of its doc and the labels of its clauses."""
    lines, owner, is_trait = text.split("\n"), "", False
    for index, line in enumerate(lines):
        if block := BLOCK.match(line):
            # (what a type does for a trait is said by the trait)
            head = line if line.endswith("{") else " ".join(lines[index : index + 3])
            is_of_a_trait = block[1] == "impl" and " for " in head
            owner, is_trait = None if is_of_a_trait else block[2] or "", block[1] == "pub trait"
        head = FUNCTION.match(line)
        if head and owner is not None and (head[2] or is_trait):
            name = f"{owner}::{head[3]}" if owner else head[3]
            yield name, first_sentence(comment_above(lines, index, "///")), labels_below(lines, index, head[1])


def is_exported(name, path, library):
    """Whether a public function of a source can be named from outside, by the file src/lib.rt of its crate."""
    exported = " ".join(re.findall(r"^pub use ([^;]+);", library, re.M))
    inside = path.split("/src/")[1]
    module = inside.split("/")[0].removesuffix(".rt")
    return inside == "lib.rt" or re.search(rf"\b{name.split('::')[0]}\b", exported) is not None or f"\npub mod {module}" in library


def definitions(text):
    """Yields the name and the comment of each definition that has one."""
    lines = text.split("\n")
    for index, line in enumerate(lines):
        found = DEFINITION.match(line)
        if found and (comment := comment_above(lines, index, "--")):
            yield found[1] or found[2], " ".join(comment)


def section(title, rows_of_paths):
    """Returns a title and the rows of each path, below a link to it; nothing if there are none. And the number of rows."""
    parts = [f"[{path.split('/', 2)[2]}](../../{path}):\n\n" + "".join(f"- {it}\n" for it in rows) for path, rows in rows_of_paths if rows]
    return (f"\n## {title}\n\n" + "\n".join(parts) if parts else ""), sum(len(rows) for _, rows in rows_of_paths)


def function_rows(crate, library):
    for path in files(crate, "src", ".rt"):
        found = [it for it in functions(read(path)) if is_exported(it[0], path, library)]
        yield path, [f"`{name}`: {shown(doc)}" + (f" ({', '.join(f'`{it}`' for it in dict.fromkeys(labels))})" if labels else "") for name, doc, labels in found]


def definition_rows(crate):
    for path in files(crate, "specs", ".antt"):
        yield path, [f"`{name}`: {shown(comment)}" for name, comment in definitions(read(path))]


def page(crate, direct):
    """Returns the page of a crate, and its row in the list of crates."""
    root = "lib" if files(crate, "src", "lib.rt") else "main"
    source = read(f"crates/{crate}/src/{root}.rt")
    doc = [it[3:].strip() for it in source.split("\n") if it.startswith("//!")]
    first, function_count = section("Functions", list(function_rows(crate, source)) if root == "lib" else [])
    second, definition_count = section("Definitions", list(definition_rows(crate)))
    what, others = shown(first_sentence(doc)), ", ".join(it.removeprefix("compose_") for it in nearest(crate, direct)) or "-"
    row = f"| [`{crate}`]({crate}.md) | {what} | {others} | {function_count or '-'} | {definition_count or '-'} |\n"
    return f"# `{crate}`\n\n{what}\n{first}{second}", row


def pages():
    """Returns the text of each page by its path."""
    direct = crates()
    made = {it: page(it, direct) for it in direct}
    found = {f"{FOLDER}/{crate}.md": text for crate, (text, _) in made.items()}
    return {f"{FOLDER}/README.md": INDEX + "".join(row for _, row in made.values()), **found}


def main():
    os.makedirs(os.path.join(TOP, FOLDER), exist_ok=True)
    for path in glob.glob(os.path.join(TOP, FOLDER, "*.md")):
        if os.path.basename(path) not in OTHERS:
            os.remove(path)
    for path, text in pages().items():
        with open(os.path.join(TOP, path), "w", encoding="utf-8") as file:
            file.write(text)


if __name__ == "__main__":
    main()
