"""What `lint` is to find in tables as they lie on the system, read a second time, for `tests/real.py`: each line of a table and of what it
includes by itself, and what other lines say of it. Nothing here comes from the program."""
import re
import unicodedata
from collections import Counter, defaultdict

import reference


class Found:
    """A line that defines a sequence: its file and number, and what it says."""

    def __init__(self, path, number, raw, parts, characters, values):
        events, string, name = parts
        self.path, self.number = path, number
        self.keysyms = tuple(reference.keysym(it.decode(), values) for it in events)
        self.named = characters(reference.keysym(name.decode(), values)) if name else None
        self.has_string, self.comment = string is not None, None
        self.text = reference.read_text(string).decode() if self.has_string else self.named
        if self.has_string:
            behind = raw[re.search(rb'["#]', raw).start() + 2 + len(string) :]
            self.comment = behind.partition(b"#")[2].decode().strip() if b"#" in behind else None


def files_of(path, locales):
    """The paths of a table and of all that it includes."""
    paths = [path]
    for it in paths:
        with open(it, encoding="utf-8") as file:
            for included in re.findall(r'^\s*include\s+"(.*)"', file.read(), re.M):
                included = included.replace("%L", f"{locales}/en_US.UTF-8/Compose").replace("%S", locales)
                if included not in paths:
                    paths.append(included)
    return paths


def definitions(paths, values, characters):
    """The lines of these files that define sequences."""
    for path in paths:
        with open(path, "rb") as file:
            for number, raw in enumerate(file.read().split(b"\n"), 1):
                parts = reference.read_line(raw)
                if isinstance(parts, tuple):
                    yield Found(path, number, raw, parts, characters, values)


def leading(counted):
    """What is counted more often than anything else, if there is such a thing."""
    most = counted.most_common(2)
    return None if not most or len(most) > 1 and most[0][1] == most[1][1] else most[0][0]


def words_by_itself(line):
    """The words of what is wrong in a line by itself."""
    if line.has_string and line.named and line.named != line.text:
        yield "keysym"
    if any(one == two and unicodedata.combining(one) for one, two in zip(line.text, line.text[1:])):
        yield "mark"


def normal(text):
    """The text in normal form C."""
    return unicodedata.normalize("NFC", text)


def found(path, locales, values, characters):
    """The file, the line and the word of each finding of the kinds that are not about other readers, in order."""
    lines = list(definitions(files_of(path, locales), values, characters))
    last = {(it.path, it.keysyms): it for it in lines}
    shorter = {it.keysyms[:count] for it in lines for count in range(len(it.keysyms))}
    texts, comments = defaultdict(Counter), defaultdict(Counter)
    alike = defaultdict(set)
    for it in lines:
        alike[normal(it.text)].add(it.text)
        if it.comment is not None:
            texts[it.comment][it.text] += 1
            comments[it.text][it.comment] += 1
    for it in lines:
        counts = last[it.path, it.keysyms]
        words = [] if counts is it else ["repeated" if counts.text == it.text else "overridden"]
        words += words_by_itself(it)
        words += ["form"] if normal(it.text) != it.text or len(alike[normal(it.text)]) > 1 else []
        words += ["prefix"] if it.keysyms in shorter else []
        if it.comment is not None and leading(texts[it.comment]) not in (None, it.text) and leading(comments[it.text]) not in (None, it.comment):
            words.append("comment")
        for word in words:
            yield it.path, it.number, word
