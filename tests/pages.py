"""A second reading of the pages of `diff`: what a page has to show of some rows, and readers of both forms that refuse what they don't know.

A page is the list of its parts and its last lines. A part is its title, its number of sequences, whether it is folded, and its rows by the headings of
their columns. What a cell shows is a list of pieces: the tags around a text, and the text."""
import html.parser
import re

LOSSES = ["changed", "waiting", "removed"]
TITLES = ["Texts that can't be typed any more", "Texts that are typed otherwise", "Keys that begin a sequence now", "Added"]
CAPTIONS = {
    TITLES[0]: "No sequence of the new table types the text.",
    TITLES[1]: "The new keys are the shortest sequence of the new table that types the text.",
    TITLES[2]: "No sequence of the old table begins with the first key.",
    TITLES[3]: "Nobody who types with the old table meets these.",
}
# What can be in a cell.
INLINE = ("b", "kbd", "del", "ins")


# ---- what a page has to show

def shown(text):
    """A text with the numbers of what may steer a terminal or the direction of writing."""
    return "".join(f"U+{ord(it):04X}" if re.fullmatch("[\0-\x1f\x7f-\x9f\u202a-\u202e\u2066-\u2069]", it) else it for it in text)


def numbers(text):
    return [((), " ".join(f"U+{ord(it):04X}" for it in text))]


def bold(text):
    return [(("b",), shown(text))]


def keys_of(keys):
    return [(("kbd",), it) for it in keys]


def marked(keys, others, tag):
    """Keys beside those of another sequence: between those with which both begin and both end, they have a tag."""
    start = end = 0
    while start < min(len(keys), len(others)) and keys[start] == others[start]:
        start += 1
    while end < min(len(keys), len(others)) - start and keys[-1 - end] == others[-1 - end]:
        end += 1
    return [((tag, "kbd") if start <= n < len(keys) - end else ("kbd",), it) for n, it in enumerate(keys)]


def part_of(row):
    """The number of the part that a row is in, if it is in one."""
    if row["change"] in LOSSES:
        return 0 if row["now"] is None else 1
    return {"new start": 2, "added": 3}.get(row["change"])


def cells_of(row):
    text = row["new"] if row["old"] is None else row["old"]
    cells = {"Text": bold(text), "Characters": numbers(text)}
    if part_of(row) == 1:
        cells["Old keys"], cells["New keys"] = marked(row["keys"], row["now"], "del"), marked(row["now"], row["keys"], "ins")
    else:
        cells["Keys"] = keys_of(row["keys"])
    if row["change"] == "changed":
        cells["What happens"] = [((), "changed to"), *bold(row["new"]), *numbers(row["new"])]
    elif row["change"] == "waiting":
        cells["What happens"] = [((), "waiting for"), *keys_of(row["longer"])]
    elif row["change"] == "removed":
        cells["What happens"] = [((), "removed")]
    places = [f"{row[f'{it}_file']}:{row[f'{it}_line']}" for it in ("old", "new", "longer", "now") if row[f"{it}_file"] is not None]
    cells["Places"] = [((), " ".join(places))]
    return cells


def page_of(rows, last_lines, folds=True, lost_alone=False):
    """The page of these rows, which are in order."""
    parts = []
    for number, title in enumerate(TITLES[:1] if lost_alone else TITLES):
        its = [cells_of(row) for row in rows if part_of(row) == number]
        parts.append((title, len(its), folds and number > 1 and its != [], its))
    return parts, last_lines


# ---- Markdown

def split_cells(line):
    """The cells of a row of a table: a bar after a backslash is none between two cells."""
    cells = re.split(r"((?:\\.|[^\\|])*)\|", line)
    assert cells[0] == "" and cells[1] == "" and cells[-1] == "", line
    return [it.strip(" ") for it in cells[3::2]]


def inline_of(cell):
    """The pieces of a cell of Markdown: tags, characters after a backslash, and others that mean nothing."""
    pieces, tags, text = [], [], ""
    for it in re.findall(r"\\.|<[^>]*>|.", cell):
        if it[0] == "<":
            pieces.append((tuple(tags), text))
            text = ""
            tag = re.fullmatch("<(/?)([a-z]+)>", it)
            assert tag and tag[2] in INLINE, it
            if tag[1]:
                assert tags.pop() == tag[2], cell
            else:
                tags.append(tag[2])
        elif it[0] == "\\":
            assert re.fullmatch(r"[!-/:-@[-`{-~]", it[1]), it
            text += it[1]
        else:
            assert it not in "\\`*_[]<>&|~$#!", cell
            text += it
    assert not tags, cell
    pieces.append(((), text))
    return [(tags, text if tags else text.strip(" ")) for tags, text in pieces if text.strip(" ") or "b" in tags]


def take(lines, pattern):
    """Takes the first line, which has to match, and returns the match."""
    match = re.fullmatch(pattern, lines.pop(0))
    assert match, pattern
    return match


def markdown_table(lines, title):
    """Takes a table with its caption, and returns its rows."""
    assert take(lines, "(.*)")[1] == CAPTIONS[title]
    take(lines, "")
    head = split_cells(lines.pop(0))
    assert split_cells(lines.pop(0)) == ["---"] * len(head)
    rows = []
    while lines[0]:
        rows.append(dict(zip(head, map(inline_of, split_cells(lines.pop(0))), strict=True)))
    take(lines, "")
    return rows


def read_markdown(text):
    lines, parts = text.split("\n"), []
    while lines[0] != "<pre>":
        folded = lines[0] == "<details>"
        if folded:
            lines.pop(0)
        heading = take(lines, r"<summary>(.*) \((\d+) (sequences?)\)</summary>" if folded else r"## (.*) \((\d+) (sequences?)\)")
        take(lines, "")
        title, count = heading[1], int(heading[2])
        assert (heading[3] == "sequence") == (count == 1), heading
        parts.append((title, count, folded, markdown_table(lines, title) if count else []))
        if folded:
            take(lines, "</details>")
            take(lines, "")
    assert lines[-2:] == ["</pre>", ""], lines
    return parts, lines[1:-2]


# ---- HTML

VOID = ("meta",)
KNOWN = {"html": ["lang"], "meta": ["charset", "name", "content"], "th": ["scope"]}
PLAIN = ["head", "title", "style", "body", "h1", "h2", "details", "summary", "table", "caption", "thead", "tbody", "tr", "td", "pre", *INLINE]


class Page(html.parser.HTMLParser):
    """What a page shows. Each tag is closed, by its own name, and none is unknown, so that there is no script and no link."""

    def __init__(self):
        super().__init__(convert_charrefs=True)
        self.open, self.parts, self.last_lines, self.cells, self.head, self.text, self.folded, self.styles = [], [], None, None, [], "", False, ""

    def handle_decl(self, decl):
        assert decl == "DOCTYPE html" and not self.open, decl

    def handle_starttag(self, tag, attributes):
        assert tag in PLAIN or tag in KNOWN, tag
        assert all(name in KNOWN.get(tag, []) for name, _ in attributes), attributes
        if tag in VOID:
            return
        if tag in INLINE:
            self.end_piece()
        self.open.append(tag)
        if tag == "details":
            self.folded = True
        if tag == "thead":
            self.head = []
        if tag == "tr" and "tbody" in self.open:
            self.cells = []
        if tag == "td":
            self.cells.append([])
        if tag not in INLINE:
            self.text = ""

    def end_piece(self):
        """Ends a piece of a cell."""
        if "td" in self.open:
            tags = tuple(it for it in self.open if it in INLINE)
            text = self.text if tags else self.text.strip(" ")
            if text.strip(" ") or "b" in tags:
                self.cells[-1].append((tags, text))
            self.text = ""

    def handle_endtag(self, tag):
        assert self.open[-1] == tag, (self.open, tag)
        if tag in INLINE or tag == "td":
            self.end_piece()
        self.open.pop()
        if tag in ("h2", "summary"):
            heading = re.fullmatch(r"(.*) \((\d+) (sequences?)\)", self.text)
            assert (heading[3] == "sequence") == (heading[2] == "1"), heading
            self.parts.append((heading[1], int(heading[2]), self.folded, []))
        elif tag == "caption":
            assert self.text == CAPTIONS[self.parts[-1][0]], self.text
        elif tag == "details":
            self.folded = False
        elif tag == "th":
            self.head.append(self.text)
        elif tag == "tr" and self.cells is not None:
            self.parts[-1][3].append(dict(zip(self.head, self.cells, strict=True)))
            self.cells = None
        elif tag == "pre":
            self.last_lines = self.text.removeprefix("\n").splitlines()
        elif tag == "style":
            self.styles = self.text

    def handle_data(self, data):
        self.text += data


def read_html(text):
    page = Page()
    page.feed(text)
    page.close()
    assert text.startswith("<!DOCTYPE html>\n<html lang=\"en\">\n") and not page.open, page.open
    assert not re.search("url|import|http", page.styles), page.styles
    return page.parts, page.last_lines
