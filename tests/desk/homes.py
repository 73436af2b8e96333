#!/usr/bin/env python3
"""homes.py: what the folder of the table asks of a file system, tried over NFS 4 between two machines and a server, each a Linux that runs as a process
of this one (user-mode Linux). Packages are fetched as apt is set up, and unpacked into a folder; nothing is installed. `make desk` leaves it out.

A lock that one machine has is refused on the other, and free again when it is given back, or some time after its machine has lost power. A file that is
written, synced and renamed over another one, again and again, is whole each time that the other machine reads it, and never an older one than before.
Two machines with one host name are one to the server, so that both have the lock: that is tried too, and printed. It needs root; where a package can't
be fetched, nothing is tried. The last line is `N passed, M failed`."""
import errno
import fcntl
import glob
import json
import os
import signal
import socket
import subprocess
import sys
import tempfile
import time

HERE = os.path.dirname(os.path.realpath(__file__))
sys.path.insert(0, os.path.dirname(HERE))
from harness import Results, write  # noqa: E402

PACKAGES = ("user-mode-linux", "nfs-kernel-server", "nfs-common", "libnfsidmap1", "libevent-core-2.1-7", "libwrap0", "kmod", "libkmod2", "iproute2")
# The server's lease, in seconds, and how long machines wait for one another.
LEASE, MOST_SECONDS = 10, 900
# A file of so many lines, each the number of the file.
LINES, SWAPPING = 40_000, 20
# What a machine does first. (Its file system is that of this one, so programs are where they are here.)
BOOT = """#!/bin/bash
export PATH=ROOT/bin:ROOT/sbin:ROOT/usr/sbin:$PATH:/usr/local/bin:/usr/bin:/bin:/usr/sbin:/sbin LD_LIBRARY_PATH=ROOT/lib/x86_64-linux-gnu:ROOT/usr/lib/x86_64-linux-gnu
mount -t proc proc /proc
mount -t sysfs sysfs /sys
for it in /run /mnt /var/lib; do mount -t tmpfs tmpfs $it; done
hostname "$name"
ip link set lo up
load() { ROOT/modprobe -d ROOT/base "$1"; }
mkdir -p /mnt/home
"""
SERVER = BOOT + """for it in 1 2; do ip addr add 10.77.$it.1/24 dev vec$((it - 1)); ip link set vec$((it - 1)) up; done
load nfsd
mkdir -p /var/lib/nfs/v4recovery /run/rpc_pipefs
touch /var/lib/nfs/etab /var/lib/nfs/rmtab
mount -t nfsd nfsd /proc/fs/nfsd
chmod 777 /mnt/home
rpc.mountd --no-nfs-version 3
exportfs -o rw,no_root_squash,no_subtree_check,fsid=0,insecure '*:/mnt/home'
echo LEASE > /proc/fs/nfsd/nfsv4gracetime
echo LEASE > /proc/fs/nfsd/nfsv4leasetime
rpc.nfsd -N 3 4
touch SYNC/is-up
until [ -e SYNC/is-over ]; do sleep 1; done
echo o > /proc/sysrq-trigger
sleep 9
"""
CLIENT = BOOT + """ip addr add 10.77.$n.2/24 dev vec0
ip link set vec0 up
load nfsv4
until [ -e SYNC/is-up ]; do sleep 0.5; done
for it in 1 2 3 4 5; do mount.nfs4 "10.77.$n.1:/" /mnt/home && break; sleep 1; done
PYTHON SCRIPT --machine "$n" SYNC
echo o > /proc/sysrq-trigger
sleep 9
"""


# ---- on a machine

class Machine:
    """One of both machines: what it does with files in the home that both have."""

    def __init__(self, number, sync):
        self.number, self.sync, self.found, self.held = number, sync, {}, None

    def mark(self, name):
        """Says to the other one that it may go on."""
        write(self.sync, {name: ""})

    def wait(self, name):
        end = time.monotonic() + MOST_SECONDS
        while not os.path.exists(os.path.join(self.sync, name)):
            if time.monotonic() > end:
                sys.exit(f"machine {self.number} waited for: {name}")
            time.sleep(0.05)

    def say(self, name, value):
        """Writes down what was found."""
        self.found[name] = value
        write(self.sync, {f"found-{self.number}": json.dumps(self.found)})

    def lock(self):
        """Takes the lock, and returns whether it has got it."""
        file = os.open("/mnt/home/lock", os.O_RDWR | os.O_CREAT, 0o600)
        try:
            fcntl.flock(file, fcntl.LOCK_EX | fcntl.LOCK_NB)
        except OSError as error:
            os.close(file)
            return errno.errorcode[error.errno]
        self.held = file
        return "granted"

    def unlock(self):
        os.close(self.held)

    @staticmethod
    def put(number):
        """Writes a file in the place of the one that is there, as the service does."""
        with open("/mnt/home/next", "wb") as file:
            file.write(b"%06d\n" % number * LINES)
            file.flush()
            os.fsync(file.fileno())
        os.rename("/mnt/home/next", "/mnt/home/table")
        folder = os.open("/mnt/home", os.O_RDONLY)
        os.fsync(folder)
        os.close(folder)

    @staticmethod
    def get():
        """The number of the file that is there; or what is wrong with it."""
        try:
            with open("/mnt/home/table", "rb") as file:
                data = file.read()
        except OSError as error:
            return errno.errorcode[error.errno]
        return int(data[:6]) if data == data[:7] * LINES else "torn"

    def first(self):
        """The machine that writes, and that loses power at last."""
        self.say("the lock", self.lock())
        self.put(1)
        self.mark("locked")
        self.wait("refused")
        if self.found["the lock"] == "granted":
            self.unlock()
        self.mark("unlocked")
        number, end = 1, time.monotonic() + SWAPPING
        while time.monotonic() < end:
            number += 1
            self.put(number)
        self.say("files", number)
        self.mark("written")
        self.wait("given-back")
        self.say("the lock again", self.lock())
        self.mark("cut-me")
        time.sleep(MOST_SECONDS)

    def second(self):
        """The machine that reads, and that goes on."""
        self.wait("locked")
        self.say("beside a lock", self.lock())
        if self.found["beside a lock"] == "granted":
            self.unlock()
        self.mark("refused")
        self.wait("unlocked")
        self.say("after a lock", self.lock())
        reads, wrong, last = 0, [], 0
        while not os.path.exists(os.path.join(self.sync, "written")):
            got = self.get()
            reads += 1
            if isinstance(got, str) or got < last:
                wrong.append(got)
            else:
                last = got
        # (what another machine did to a folder is seen within some seconds)
        time.sleep(5)
        self.say("reads", [reads, wrong, self.get()])
        self.unlock()
        self.mark("given-back")
        self.wait("cut")
        began, first = time.monotonic(), self.lock()
        got = first
        while got != "granted" and time.monotonic() - began < 20 * LEASE:
            time.sleep(0.5)
            got = self.lock()
        self.say("after a power cut", [first, got, round(time.monotonic() - began, 1)])


# ---- here

def fetch(folder):
    """Unpacks the packages, and lays out what a machine needs of them."""
    debs, root = os.path.join(folder, "debs"), os.path.join(folder, "root")
    os.makedirs(debs)
    subprocess.run(["apt-get", "download", *PACKAGES], cwd=debs, check=True, capture_output=True, timeout=600)
    for it in glob.glob(os.path.join(debs, "*.deb")):
        subprocess.run(["dpkg-deb", "-x", it, root], check=True)
    os.makedirs(os.path.join(root, "base", "lib", "modules"))
    modules, = glob.glob(os.path.join(root, "usr", "lib", "uml", "modules", "*"))
    os.symlink(modules, os.path.join(root, "base", "lib", "modules", os.path.basename(modules)))
    os.symlink(os.path.join(root, "bin", "kmod"), os.path.join(root, "modprobe"))
    return root


class Machines:
    """A server and two machines, which are wired to it."""

    def __init__(self, folder, root, names):
        self.folder, self.root, self.names, self.running = folder, root, names, []
        self.sync = os.path.join(folder, "sync")
        os.makedirs(self.sync)

    def start(self, kind, script, sockets, *words):
        path = os.path.join(self.folder, f"{kind}.sh")
        for name, value in {"ROOT": self.root, "SYNC": self.sync, "PYTHON": os.path.realpath(sys.executable), "SCRIPT": os.path.abspath(__file__), "LEASE": str(LEASE)}.items():
            script = script.replace(name, value)
        write(self.folder, {f"{kind}.sh": script})
        os.chmod(path, 0o755)
        wires = [f"vec{at}:transport=fd,fd={it.fileno()},depth=64" for at, it in enumerate(sockets)]
        mark = f"umid=homes-{os.getpid()}-{kind}"
        command = [os.path.join(self.root, "usr/bin/linux.uml"), "mem=384M", "root=/dev/root", "rootfstype=hostfs", "rootflags=/", "rw", "quiet", "con=null", "con0=null,fd:1", mark, f"init={path}"]
        with open(os.path.join(self.folder, f"{kind}.log"), "w", encoding="utf-8") as log:
            process = subprocess.Popen([*command, *words, *wires], stdin=subprocess.DEVNULL, stdout=log, stderr=log, pass_fds=[it.fileno() for it in sockets])
        self.running.append((process, mark))
        return process

    def cut(self, index):
        """Takes the power from a machine: each of its processes has its mark among its words."""
        process, mark = self.running[index]
        for it in filter(str.isdigit, os.listdir("/proc")):
            try:
                with open(f"/proc/{it}/cmdline", "rb") as file:
                    is_its = mark.encode() in file.read().split(b"\0")
                if is_its:
                    os.kill(int(it), signal.SIGKILL)
            except OSError:
                continue
        process.wait()

    def run(self):
        """What both machines found."""
        wires = [socket.socketpair(socket.AF_UNIX, socket.SOCK_DGRAM) for _ in range(2)]
        self.start("server", SERVER, [it for it, _ in wires], "name=server")
        clients = [self.start(f"client{at + 1}", CLIENT, [wires[at][1]], f"n={at + 1}", f"name={name}") for at, name in enumerate(self.names)]
        end = time.monotonic() + MOST_SECONDS
        while clients[1].poll() is None and time.monotonic() < end:
            time.sleep(0.2)
            if os.path.exists(os.path.join(self.sync, "cut-me")) and clients[0].poll() is None:
                self.cut(1)
                write(self.sync, {"cut": ""})
        for index in range(3):
            self.cut(index)
        for it in (it for pair in wires for it in pair):
            it.close()
        return [self.found(it) for it in (1, 2)]

    def found(self, number):
        try:
            with open(os.path.join(self.sync, f"found-{number}"), encoding="utf-8") as file:
                return json.load(file)
        except FileNotFoundError:
            return {}


def judge(first, second, results):
    """What both machines found, where each has a name of its own."""
    print(first, second, flush=True)
    results.expect("one machine has the lock", (first.get("the lock"), second.get("beside a lock")), ("granted", "EAGAIN"))
    results.expect("after that the other one has it", second.get("after a lock"), "granted")
    reads, wrong, last = second.get("reads", [0, None, None])
    results.expect("files were written and read", (first.get("files", 0) > 5, reads > 5), (True, True))
    results.expect("each was whole, and none older than the one before", wrong, [])
    results.expect("the last one is seen", last, first.get("files"))
    results.expect("a lock of a machine without power", second.get("after a power cut", ["", ""])[:2], ["EAGAIN", "granted"])


def main():
    if sys.argv[1:2] == ["--machine"]:
        machine = Machine(int(sys.argv[2]), sys.argv[3])
        machine.first() if machine.number == 1 else machine.second()
        return 0
    results = Results()
    if os.geteuid() != 0:
        return results.end("skipped, as this needs root")
    with tempfile.TemporaryDirectory(prefix="homes-", dir="/tmp") as folder:
        try:
            root = fetch(folder)
        except (OSError, ValueError, subprocess.SubprocessError) as error:
            return results.end(f"skipped: {error}")
        judge(*Machines(os.path.join(folder, "two"), root, ("one", "two")).run(), results)
        first, second = Machines(os.path.join(folder, "same"), root, ("same", "same")).run()
        print("with one host name:", first.get("the lock"), second.get("beside a lock"), flush=True)
    return results.end()


if __name__ == "__main__":
    sys.exit(main())
