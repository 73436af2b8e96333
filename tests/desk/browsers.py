#!/usr/bin/env python3
"""browsers.py [--fcitx5] PROGRAM: types into a page of Firefox and of Chromium through IBus, or fcitx5, on a display that nobody sees, as far as they
are installed. The page shows its text as the title of the window. The last line is `N passed, M failed`."""
import os
import re
import shutil
import sys
import time

from desk import Desk, end, wait_for
from trial import Trials

PAGE = """<!DOCTYPE html>
<meta charset="utf-8">
<title>[]</title>
<textarea autofocus rows="20" cols="80" oninput="document.title = '[' + this.value + ']'"></textarea>
"""
# (neither finds a network, nor asks questions)
PREFERENCES = {
    "browser.aboutwelcome.enabled": "false", "browser.shell.checkDefaultBrowser": "false", "datareporting.policy.dataSubmissionEnabled": "false",
    "network.proxy.type": "1", "network.proxy.http": '"127.0.0.1"', "network.proxy.http_port": "9", "network.proxy.ssl": '"127.0.0.1"', "network.proxy.ssl_port": "9",
    "termsofuse.bypassNotification": "true",
}
BROWSERS = {
    "firefox-esr": ("--no-remote", "--new-instance", "--profile"),
    "chromium": ("--no-sandbox", "--no-first-run", "--password-store=basic", "--proxy-server=127.0.0.1:9", "--disable-gpu", "--user-data-dir"),
}


class Page(Desk):
    """A desk with a browser in the place of the window with entries."""

    def start_browser(self, name):
        """Starts a browser, with the focus in its text field."""
        self.write("page.html", PAGE)
        profile = self.path(name)
        os.makedirs(profile)
        self.write(f"{name}/user.js", "".join(f'user_pref("{key}", {value});\n' for key, value in PREFERENCES.items()))
        *options, last = BROWSERS[name]
        where = [f"{last}={profile}"] if "data" in last else [last, profile]
        browser = self.start(name, *options, *where, "file://" + self.path("page.html"))
        window = wait_for("the page", lambda: self.windows(), 120)
        self.run("xdotool", "windowsize", "--sync", window[0], "600", "300", "windowmove", window[0], "0", "0")
        self.run("xdotool", "windowfocus", "--sync", window[0])
        time.sleep(3)
        self.click(200, 200)
        time.sleep(1)
        return browser

    def windows(self):
        return self.told("xdotool", "search", "--onlyvisible", "--name", r"^\[").split()

    def entry(self):
        """What the page holds, in the form of a window with entries. (What is pending in it can't be seen.)"""
        names = [self.told("xdotool", "getwindowname", it) for it in self.windows()]
        held = re.match(r"\[(.*)\]", names[0]) if names else None
        return {"texts": [held[1] if held else ""], "pending": [""], "focus": 0}


def try_browser(trials):
    type_keys, expect = trials.desk.type, trials.expect
    type_keys("a", "B", "ssharp", "1", delay=60)
    expect("plain keys", text="aBß1")
    type_keys("Multi_key", "apostrophe", "e", "x", "dead_acute", "e", delay=60)
    expect("sequences between letters", text="aBß1ⓔxé")
    type_keys("dead_acute", "x", delay=60)
    expect("a cancelled dead key becomes an accent", text="aBß1ⓔxé´x")
    # (one after another: Firefox loses some that come quickly on a busy machine, through ibus' own engine too)
    text = "aBß1ⓔxé´x"
    for end_at in range(len(text) - 1, -1, -1):
        type_keys("BackSpace", delay=60)
        expect("BackSpace erases a character", text=text[:end_at])
    type_keys(*["Multi_key", "apostrophe", "e", "x", "dead_acute", "e"] * 10, delay=12)
    expect("60 keys, 12 ms apart", text="ⓔxé" * 10)


def main():
    *options, program = sys.argv[1:]
    passed, failed = 0, 0
    with Page(program) as desk:
        desk.start_bus()
        desk.start_display()
        desk.service.start("old")
        desk.start_fcitx5() if options else desk.start_ibus()
        for name in BROWSERS:
            if not shutil.which(name):
                print(f"no {name} here: it is not tried")
                continue
            trials = Trials(desk, f"{name}, {'fcitx5' if options else 'ibus'}", None)
            browser = desk.start_browser(name)
            try_browser(trials)
            end(browser)
            passed, failed = passed + trials.passed, failed + trials.failed
    print(f"{passed} passed, {failed} failed")
    return 1 if failed else 0


if __name__ == "__main__":
    sys.exit(main())
