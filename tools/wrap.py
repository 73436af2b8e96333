#!/usr/bin/env python3
"""wrap.py FILE..: breaks the paragraphs and list items of Markdown files at 100 columns. Tables, headings and code stay as they are, and what is in
backquotes, and a link, is never broken."""
import re
import sys

COLUMNS = 100
WORD = re.compile(r"(?:`[^`]*`|\[[^\]]*\]\([^)]*\)|\S)+")
ITEM = re.compile(r" *(?:[-*]|\d+\.) +")
# What would begin an item, a heading or a quotation at the beginning of a line.
MARK = re.compile(r"[-+*#>|]+|\d+[.)]")
AS_IT_IS = re.compile(r"\||#|<|    |$")


def filled(text, first, rest):
    """Returns the lines of a paragraph, with what the first and the other ones begin with."""
    lines, begin, line = [], first, []
    for word in WORD.findall(text):
        if line and len(begin) + len(" ".join([*line, word])) > COLUMNS:
            # (a mark takes the word before it along)
            kept = len(line) - 1 if MARK.fullmatch(word) and len(line) > 1 else len(line)
            lines.append(begin + " ".join(line[:kept]))
            begin, line = rest, line[kept:]
        line.append(word)
    return [*lines, begin + " ".join(line)]


def paragraphs(lines):
    """Yields lines that stay as they are, as texts, and paragraphs, as lists of lines."""
    held, is_code = [], False
    for line in lines:
        is_fence = line.lstrip().startswith("```")
        starts = is_fence or is_code or AS_IT_IS.match(line) and not (held and line.startswith("    ")) or ITEM.match(line)
        if held and starts:
            yield held
            held = []
        is_code ^= is_fence
        if is_fence or is_code or starts and not ITEM.match(line):
            yield line
        else:
            held = [*held, line]
    if held:
        yield held


def wrapped(text):
    """Returns a text with its paragraphs filled."""
    out = []
    for it in paragraphs(text.split("\n")):
        if isinstance(it, str):
            out.append(it)
            continue
        item = ITEM.match(it[0])
        first = item[0] if item else re.match(" *", it[0])[0]
        out += filled(" ".join([it[0][len(first):], *it[1:]]), first, " " * len(first))
    return "\n".join(out)


def main():
    for path in sys.argv[1:]:
        with open(path, encoding="utf-8") as file:
            old = file.read()
        with open(path, "w", encoding="utf-8") as file:
            file.write(wrapped(old))


if __name__ == "__main__":
    main()
