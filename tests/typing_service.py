"""A service to type with, in a folder of its own: its tables, its certificates, loads, restarts, and a stop."""
import os
import re
import shlex
import shutil
import signal
import subprocess
import tempfile

UNIT = os.path.join(os.path.dirname(os.path.dirname(os.path.abspath(__file__))), "share", "composecheck", "composecheck.service")

# `old` has a detour that `new` drops: dead_grave before dead_acute changes nothing.
# The texts "ⓔ" and "ⓐ" are in no table of a toolkit.
OLD = """<Multi_key> <apostrophe> <e> : "ⓔ"
<Multi_key> <apostrophe> <minus> <o> : "ṓ"
<dead_acute> <e> : "é"
<dead_grave> <dead_acute> <e> : "é"
<dead_grave> <a> : "à"
"""
NEW = OLD + """<Multi_key> <apostrophe> <a> : "ⓐ"
<dead_acute> <a> : "á"
"""
REPERTOIRE = "keys 0x20 0x7e\nkeys 0xfe50 0xfe51\nkeys 0xff20 0xff20\nU+00E9\n"


def settings_of_the_unit():
    """The settings of the unit of systemd."""
    with open(UNIT, encoding="utf-8") as file:
        return dict(re.findall(r"^(\w+)=(.*)$", file.read(), re.M))


class TypingService:
    """A service that types with one of the tables `old` and `new`, which is started again and loaded as a test wants it."""

    def __init__(self, program):
        self.program = os.path.realpath(program)
        self.folder = tempfile.mkdtemp(prefix="typing-")
        self.socket, self.states = self.path("composecheck.socket"), self.path(".local/state")
        self.process = None

    def __enter__(self):
        self.write("repertoire", REPERTOIRE)
        self.write_table("old", OLD)
        self.write_table("new", NEW)
        for old, new in (("old", "old"), ("old", "new"), ("new", "new")):
            self.certify(old, new)
        return self

    def __exit__(self, *_):
        self.end()
        shutil.rmtree(self.folder)

    def path(self, name):
        return os.path.join(self.folder, name)

    def write(self, name, content):
        with open(self.path(name), "w", encoding="utf-8") as file:
            file.write(content)

    def write_table(self, name, content):
        self.write(f"{name}.compose", content)
        self.write(f"{name}.manifest", f"root\t{name}.compose\n")

    def run(self, *words):
        """What the program prints."""
        return subprocess.run([self.program, *words], cwd=self.folder, check=True, capture_output=True, text=True, timeout=600).stdout

    def certify(self, old, new):
        """Makes the certificate old-new."""
        self.run("make", "--names", "builtin", "-o", f"{old}-{new}", f"{old}.manifest", f"{new}.manifest", "repertoire")

    def store(self, name, *options):
        """Has `update` store the table of one of the Compose files here, which the service takes if it runs, and returns what is printed."""
        return self.store_file(f"{name}.compose", *options)

    def store_file(self, path, *options):
        """The same of any Compose file."""
        running = ["--socket", self.socket] if self.process else []
        return self.run("update", "--state", os.path.join(self.states, "composecheck"), *running, *options, path)

    def store_anew(self, name, *options):
        """Has `update` store a table in the place of any other, and returns the path of what it stored. The service ends."""
        self.end()
        shutil.rmtree(self.states, ignore_errors=True)
        self.store(name, *options)
        return os.path.join(self.states, "composecheck", "table")

    def unit_command(self):
        """The command of the unit of systemd, for the table that is stored."""
        words = settings_of_the_unit()["ExecStart"].replace("%t", self.folder)
        return ["env", f"XDG_STATE_HOME={self.states}", self.program, *shlex.split(words)[1:]]

    def start(self, table):
        """Starts the service on a table, in the place of the one that runs."""
        words = ["serve", "--names", "builtin", "--at-once", "16", "--replace", f"{table}.manifest", "repertoire", f"{table}-{table}", self.socket, "65535"]
        self.start_by([self.program, *words])

    def start_by(self, command):
        """Starts a service by a command, in the place of the one that runs."""
        self.end()
        self.process = subprocess.Popen(command, cwd=self.folder, stdout=subprocess.PIPE, text=True)
        if self.process.stdout.readline() != "listening\n":
            raise ChildProcessError("the service doesn't start")

    def end(self):
        """Ends the service, if it runs."""
        if self.process:
            self.go_on()
            self.process.terminate()
            self.process.wait()
            self.process.stdout.close()
            self.process = None

    def load(self, old, new):
        """Loads the table `new` over `old`, and returns what is printed."""
        return self.run("load", self.socket, f"{new}.manifest", f"{old}-{new}")

    def stop(self):
        """Has the service hang, until it goes on."""
        self.process.send_signal(signal.SIGSTOP)

    def go_on(self):
        if self.process:
            self.process.send_signal(signal.SIGCONT)
