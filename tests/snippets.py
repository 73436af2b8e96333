#!/usr/bin/env python3
"""snippets.py PROGRAM: runs what the snippets of share/composecheck/ci have for a shell, with PROGRAM, in a repository and with packages of
small tables, in the places that the snippets name. What needs a service of others, as an upload, is left out. The last line is
`N passed, M failed`."""
import os
import re
import subprocess
import sys
import tempfile

from harness import TOP, Results, write

SNIPPETS = os.path.join(TOP, "share", "composecheck", "ci")
OLD = 'XCOMM English\n<Multi_key> <a> : "x"\n<Multi_key> <b> : "y"\n'
NEW = 'XCOMM English\n<Multi_key> <a> : "x"\n'
DROPPED = 'removed: <Multi_key> <b> "y"\n'
SOURCE = "nls/en_US.UTF-8/Compose.pre"
ROW = '    removed: <Multi_key> <b> "y" old/en_US.UTF-8/Compose'
# How a report ends, by whether the change is intended.
END = {True: "\n1 locale was compared.\n", False: "\n1 locale was compared.\n\nmerge: would keep 2 of OLD's sequences and add 0 of NEW's, in 1 locale\n"}


def run(folder, script, settings, shell="bash"):
    """Runs a script in a folder, and returns its status and what it prints."""
    ran = subprocess.run([shell, "-e"], cwd=folder, input=script, env={**os.environ, **settings}, stdout=subprocess.PIPE, stderr=subprocess.STDOUT, text=True, timeout=120)
    return ran.returncode, ran.stdout


def block_of(name, head):
    """Returns the last block of a YAML file that follows such a line, and is further in."""
    with open(os.path.join(SNIPPETS, name), encoding="utf-8") as file:
        blank, text = re.findall(rf"^( *){head}\n((?:\1  +.*\n)+)", file.read(), re.M)[-1]
    return re.sub(rf"^{blank}  +?(?=\S)", "", text, flags=re.M)


class Repository:
    """A repository of a source tree: a commit of the old table, and one of the new table, and a program and a ci.sh that snippets find."""

    def __init__(self, program, folder, accepted):
        self.folder, self.top = folder, os.path.join(folder, "work")
        os.makedirs(os.path.join(folder, "bin"))
        os.symlink(program, os.path.join(folder, "bin", "composecheck"))
        self.settings = {"PATH": f"{folder}/bin:{os.environ['PATH']}", "GITHUB_STEP_SUMMARY": f"{folder}/summary", "GIT_CONFIG_GLOBAL": "/dev/null"}
        os.mkdir(self.top)
        self.git("init", "-q")
        for text in (OLD, NEW):
            write(self.top, {SOURCE: text, **({"compose-changes/all": DROPPED} if accepted else {})})
            self.git("add", "-A")
            self.git("-c", "user.name=a", "-c", "user.email=a@b", "commit", "-qm", "a table")

    def git(self, *words):
        return subprocess.run(["git", *words], cwd=self.top, env={**os.environ, **self.settings}, check=True, capture_output=True, text=True).stdout.strip()

    def here(self, script):
        """Returns a script with its places in this folder."""
        return script.replace("/usr/share/composecheck/ci.sh", f"sh {TOP}/share/composecheck/ci.sh").replace("/tmp/", f"{self.folder}/")


def check_repositories(program, results):
    for accepted in (False, True):
        wanted = (0 if accepted else 1, not accepted, True)
        with tempfile.TemporaryDirectory(prefix="snippets-") as folder:
            its = Repository(program, folder, accepted)
            status, printed = run(its.top, its.here(block_of("github.yml", r"run: \|")), its.settings)
            with open(its.settings["GITHUB_STEP_SUMMARY"], encoding="utf-8") as file:
                report = file.read()
            results.expect(f"GitHub, {accepted=}", (status, f"{ROW}.pre:3" in report, report.endswith(END[accepted])), wanted)
            results.expect(f"GitHub: tables, {accepted=}", "\n### Texts that can't be typed any more (1 sequence)\n" in report, not accepted)
        with tempfile.TemporaryDirectory(prefix="snippets-") as folder:
            its = Repository(program, folder, accepted)
            its.git("remote", "add", "origin", ".")
            its.settings["CI_MERGE_REQUEST_DIFF_BASE_SHA"] = its.git("rev-parse", "HEAD^")
            status, printed = run(its.top, its.here(block_of("gitlab.yml", r"- \|")), its.settings)
            results.expect(f"GitLab, {accepted=}", (status, f"{ROW}.pre:3" in printed, printed.endswith(END[accepted])), wanted)
            with open(os.path.join(its.top, "report.html"), encoding="utf-8") as file:
                report = file.read()
            results.expect(f"GitLab: tables, {accepted=}", ("<h3>Texts that can't be typed any more (1 sequence)</h3>" in report, report.endswith("</html>\n")), (not accepted, True))


# Commands of a machine with the new package, whose archive has an old one.
ARCHIVE = {
    "dpkg-query": "printf 2",
    "apt-cache": "printf ' libx11-data | 2 | a\\n libx11-data | 1 | b\\n'",
    "apt-get": "[ \"$*\" = '-q download libx11-data=1' ] && touch libx11-data_1_all.deb",
    "dpkg-deb": '[ "$1 $2" = "-x libx11-data_1_all.deb" ] && cp -r ../package "$3"',
}


def check_autopkgtest(program, results):
    with open(os.path.join(SNIPPETS, "autopkgtest"), encoding="utf-8") as file:
        script = file.read()
    commands = {"an old version": ARCHIVE, "no other version": {**ARCHIVE, "dpkg-query": "printf 1", "apt-cache": "echo 'libx11-data | 1 | a'"}}
    for accepted in (False, True):
        for what, its in commands.items():
            with tempfile.TemporaryDirectory(prefix="snippets-") as folder:
                write(folder, {"package/usr/share/X11/locale/en_US.UTF-8/Compose": OLD.replace("XCOMM", "#"), "new/en_US.UTF-8/Compose": NEW.replace("XCOMM", "#")})
                write(folder, {f"bin/{name}": f"#!/bin/sh\n{text}\n" for name, text in its.items()})
                if accepted:
                    write(folder, {"work/debian/compose-changes/en_US.UTF-8": DROPPED})
                for it in ("work", "temporary"):
                    os.makedirs(os.path.join(folder, it), exist_ok=True)
                os.symlink(program, os.path.join(folder, "bin", "composecheck"))
                for it in its:
                    os.chmod(os.path.join(folder, "bin", it), 0o755)
                settings = {"PATH": f"{folder}/bin:{os.environ['PATH']}", "AUTOPKGTEST_TMP": f"{folder}/temporary"}
                here = script.replace("/usr/share/composecheck/ci.sh", f"sh {TOP}/share/composecheck/ci.sh").replace(" /usr/share/X11/locale", f" {folder}/new")
                status, printed = run(os.path.join(folder, "work"), here, settings, "sh")
                wanted = (77, False) if what == "no other version" else (0, False) if accepted else (1, True)
                results.expect(f"autopkgtest, {what}, {accepted=}", (status, f"{ROW}:3" in printed), wanted)


def check_yaml(_, results):
    """The files are YAML, where there is a reader of that."""
    try:
        import yaml
    except ImportError:
        return
    for name in ("github.yml", "gitlab.yml"):
        with open(os.path.join(SNIPPETS, name), encoding="utf-8") as file:
            results.expect(f"{name} is YAML", isinstance(yaml.safe_load(file), dict), True)


def main():
    program, results = os.path.abspath(sys.argv[1]), Results()
    for check in (check_repositories, check_autopkgtest, check_yaml):
        check(program, results)
    return results.end()


if __name__ == "__main__":
    sys.exit(main())
