#!/usr/bin/env python3
"""valid_pages.py PROGRAM [--pictures FOLDER]: whether the validator `tidy` takes the pages of `diff` and of `ci.sh` in HTML, and whether those in
Markdown have the same cells once GitHub's renderer (`cmark-gfm`) made HTML of them. With --pictures a browser (chromium, headless) draws them into
FOLDER, in light and dark colours, for somebody to look at. The last line is `N passed, M failed`, and names a program of these that isn't there."""
import html
import os
import re
import shutil
import subprocess
import sys
import tempfile

from harness import TOP, Results, write
from pages import read_html

# Texts that are hard to tell apart, sequences in which one key differs, a reader's own marks, and what may steer a browser.
OLD = r"""<dead_hook> <ohorn> : "ở" U1edf
<dead_hook> <dead_horn> <o> : "ở"
<Multi_key> <a> <e> : "æ"
<Multi_key> <o> <e> : "œ"
<Multi_key> <bar> <bar> : "‖"
<Multi_key> <colon> <equal> : "≔"
<Multi_key> <s> <s> : "ß"
<Multi_key> <minus> <minus> <minus> : "—"
<Multi_key> <minus> <minus> <period> : "–"
<Multi_key> <less> <b> : "<b>&lt;\"'|`\\"
<Multi_key> <x> : "\033[31m‮"
<dead_acute> <a> : "á"
"""
NEW = r"""<dead_hook> <ohorn> : "ờ"
<dead_horn> <dead_hook> <o> : "ở"
<Multi_key> <e> <a> <e> : "æ"
<Multi_key> <colon> <colon> <equal> : "≔"
<Multi_key> <s> <s> : "ẞ"
<Multi_key> <minus> <minus> <minus> : "—"
<Multi_key> <period> <minus> <minus> : "–"
<dead_acute> <a> <e> : "ǽ"
<F13> <a> : "↑"
"""
PAIRS = {"all parts": (OLD, NEW), "nothing": (OLD, OLD), "everything is gone": (OLD, ""), "everything is new": ("", NEW)}
ENGLISH, OTHERS = OLD, {"fi_FI": 'include "%S/en_US.UTF-8/Compose"\n', "cs_CZ": 'include "%S/en_US.UTF-8/Compose"\n<Multi_key> <o> <e> : "ö"\n'}


def diff_pages(program, folder, form):
    """Yields the pages of `diff` in a form, by their names."""
    for name, (old, new) in PAIRS.items():
        write(folder, {"old & <new>'s": old, "new": new})
        for options in ([], ["--no-fold"], ["--lost"]):
            words = [program, "diff", "--format", form, *options, "old & <new>'s", "new"]
            yield " ".join([name, *options]), subprocess.run(words, cwd=folder, capture_output=True, text=True, timeout=60).stdout


def report(program, folder):
    """Returns the report of ci.sh on trees in which a table is refused, one is missing, and changes are intended."""
    trees = {"old": OLD, "new": NEW}
    for tree, english in trees.items():
        write(folder, {f"{tree}/{it}.UTF-8/Compose": text for it, text in {"en_US": english, **OTHERS}.items()})
    write(folder, {"old/el_GR.UTF-8/Compose": OLD, "new/el_GR.UTF-8/Compose": "<a : \n", "old/pt_PT.UTF-8/Compose": OLD, "new/sv_SE.UTF-8/Compose": NEW})
    write(folder, {"meant/all": 'removed: <Multi_key> <bar> <bar> "‖"\n'})
    settings = {**os.environ, "COMPOSECHECK": program, "ACCEPTED": "meant"}
    words = ["sh", os.path.join(TOP, "share", "composecheck", "ci.sh"), "old", "new", "--format", "html"]
    return subprocess.run(words, cwd=folder, env=settings, capture_output=True, text=True, timeout=120).stdout


def cells_of(page):
    """What the cells of a page in HTML have, with their tags."""
    return [html.unescape(it).strip() for it in re.findall("<td>(.*?)</td>", page, re.S)]


def rendered(page):
    """What the renderer makes of a page in Markdown."""
    words = ["cmark-gfm", "--unsafe", "-e", "table", "-e", "strikethrough", "-e", "autolink"]
    return subprocess.run(words, input=page, capture_output=True, text=True, check=True, timeout=60).stdout


def complaints(page):
    """What the validator says of a page."""
    ran = subprocess.run(["tidy", "-quiet", "-errors", "-utf8"], input=page, capture_output=True, text=True, timeout=60)
    return ran.returncode, ran.stderr


def draw(page, path, *words):
    """Has the browser draw a page."""
    with tempfile.TemporaryDirectory(prefix="pictures-") as folder:
        write(folder, {"page.html": page})
        browser = ["chromium", "--headless", "--no-sandbox", "--disable-gpu", "--hide-scrollbars", "--window-size=1200,1600", f"--user-data-dir={folder}/home"]
        subprocess.run([*browser, *words, f"--screenshot={path}", f"file://{folder}/page.html"], check=True, capture_output=True, timeout=120)


def main():
    program, results = os.path.abspath(sys.argv[1]), Results()
    pictures = os.path.abspath(sys.argv[3]) if sys.argv[2:3] == ["--pictures"] else None
    with tempfile.TemporaryDirectory(prefix="pages-") as folder:
        pages, sources = dict(diff_pages(program, folder, "html")), dict(diff_pages(program, folder, "markdown"))
        for name, page in pages.items():
            parts, last_lines = read_html(page)
            results.expect(f"{name}: the strict reader", (len(parts), last_lines[-1][:6]), (1 if "--lost" in name else 4, "diff: "))
    with tempfile.TemporaryDirectory(prefix="pages-") as folder:
        pages["a report of ci.sh"] = report(program, folder)
        results.expect("a report of ci.sh", pages["a report of ci.sh"].endswith("</html>\n"), True)
    if pictures:
        os.makedirs(pictures, exist_ok=True)
        for name in ("all parts --no-fold", "a report of ci.sh"):
            draw(pages[name], os.path.join(pictures, f"{name}.png"))
            draw(pages[name], os.path.join(pictures, f"{name}, dark.png"), "--blink-settings=preferredColorScheme=0")
    missing = [it for it in ("tidy", "cmark-gfm") if not shutil.which(it)]
    for name, page in pages.items():
        if "tidy" not in missing:
            results.expect(f"{name}: tidy", complaints(page), (0, ""))
    for name, source in sources.items():
        if "cmark-gfm" not in missing:
            results.expect(f"{name}: cmark-gfm", cells_of(rendered(source)), cells_of(pages[name]))
    if missing:
        print(f"{results.passed} passed, {results.failed} failed, and nothing was tried with {' and '.join(missing)}: Debian has them, and they aren't installed")
        return 1 if results.failed else 0
    return results.end()


if __name__ == "__main__":
    sys.exit(main())
