#!/usr/bin/env python3
"""devices.py TRIALS: streams over devices that fail, move little or are interrupted. TRIALS is the built program `compose_trials`.

Each trial serves a part of a stream over devices that behave in a given way, and then, by the same service and over good devices, the
stream from the first request that was not answered. How the first one ends and the bytes that it writes follow from the frames that
came in and the bytes that went out; the second one is answered as if nothing had happened. The streams are the worked ones of
service.py, cut at each byte, with each call of a reader or a writer failing, and random ones as streams.py makes them.

Then the worked streams over a socket inside the program; 16,777,217 frames; and the text of a certificate, cut at each place and with
each byte replaced by every other. The last line is `N passed, M failed`."""
import bisect
import dataclasses
import itertools
import os
import random
import struct
import subprocess
import sys
import tempfile
import time

import calls
import service
import streams

SEED, RANDOM_STREAMS, TRIALS_A_STREAM = 20, 300, 20
# As many bytes as are read at once, and more than a reply has.
WHOLE = 4_096
SECONDS_OF_ENDLESS = 60
SERVED = {"header": b"", "repertoire": b"", "old": service.OLD, "certificate": service.ITSELF}
EMPTY = SERVED | {"old": b"", "certificate": streams.CERTIFICATE}
# How many replies have room in a socket.
MOST_SENT = 100


@dataclasses.dataclass(frozen=True)
class Device:
    """The most bytes of a call, the call that fails, the one that moves nothing (0 is none), and of how many calls one is interrupted."""
    most: int = WHOLE
    failing: int = 0
    idle: int = 0
    interrupted: int = 0

    def words(self):
        return f"{self.most} {self.failing} {self.idle} {self.interrupted}"

    def stops_at(self):
        """The call after which nothing more is moved."""
        stops = [it for it in (self.failing, self.idle) if it]
        return 1 if self.most == 0 else min(stops, default=None)


@dataclasses.dataclass(frozen=True)
class Trial:
    """How much of the stream comes first, and the devices of it; then how many bytes the devices of the second stream move a call."""
    end: int
    reader: Device = Device()
    writer: Device = Device()
    second: int = WHOLE


def split(replies):
    """The frames of replies."""
    found = []
    while replies:
        size = 9 + struct.unpack(">I", replies[5:9])[0]
        found.append(replies[:size])
        replies = replies[size:]
    return found


class Stream:
    """A stream: where its requests end, their replies, and how it ends."""

    def __init__(self, sent, wanted, end):
        self.sent, self.end = sent, end.removeprefix("fault ")
        self.ends = [0]
        while not streams.is_faulty(rest := sent[self.ends[-1]:]) and len(rest) >= 9:
            size = 9 + struct.unpack(">I", rest[5:9])[0]
            if len(rest) < size:
                break
            self.ends.append(self.ends[-1] + size)
        replies = split(wanted)
        self.replies, self.last = replies[: len(self.ends) - 1], replies[len(self.ends) - 1:]
        assert self.last == ([service.MALFORMED] if self.end == "malformed" else [])

    def come_in(self, trial):
        """How many bytes come in, and whether a read fails then."""
        reader, most = trial.reader, max(trial.reader.most, 1)
        stop = reader.stops_at()
        if stop is None or stop > -(-trial.end // most) + 1:
            return trial.end, False
        return min(trial.end, (stop - 1) * most), stop == reader.failing

    def read_end(self, trial):
        """How many requests come in, what is written where all can be, and how the stream ends then."""
        size, has_failed = self.come_in(trial)
        count = bisect.bisect_right(self.ends, size) - 1
        rest = self.sent[self.ends[count]:size]
        if streams.is_faulty(rest):
            return count, [*self.replies[:count], service.MALFORMED], "malformed"
        return count, self.replies[:count], "1 Read" if has_failed else "3 Cut" if rest else "ended"

    def first(self, trial):
        """How many requests are answered, the bytes that are written, and how the stream ends."""
        count, replies, end = self.read_end(trial)
        stop, most = trial.writer.stops_at(), max(trial.writer.most, 1)
        written, calls_before = b"", 0
        for number, reply in enumerate(replies, 1):
            taken = (stop - 1 - calls_before) * most if stop else len(reply)
            if taken < len(reply):
                return min(number, count), written + reply[:taken], "2 Write"
            written += reply
            calls_before += -(-len(reply) // most)
        return count, written, end

    def line(self, trial):
        count, _, _ = self.first(trial)
        return f"{trial.end} {self.ends[count]} {trial.reader.words()} {trial.writer.words()} {trial.second} {trial.second}\n"

    def wanted(self, trial):
        """The four lines that are printed of a trial."""
        count, written, end = self.first(trial)
        behind = b"".join([*self.replies[count:], *self.last])
        return [end, written.hex(), self.end, behind.hex()]


def trials_of(stream):
    """Each cut, each failing call, a byte at a time, and calls that are interrupted."""
    whole, written = len(stream.sent), len(b"".join(stream.replies + stream.last))
    ends, pieces = range(whole + 1), (1, 7, WHOLE)
    yield from (Trial(end, Device(most)) for end in ends for most in (1, WHOLE))
    yield from (Trial(end, Device(5, interrupted=2), Device(3, interrupted=3), second=1) for end in ends[::7])
    for most, kind in itertools.product(pieces, ("failing", "idle")):
        reads, writes = -(-whole // most) + 2, -(-written // most) + len(stream.replies) + 2
        yield from (Trial(whole, Device(most, **{kind: call})) for call in range(1, reads + 1))
        yield from (Trial(whole, Device(most, interrupted=2, **{kind: call})) for call in range(1, reads + 1, 11))
        yield from (Trial(whole, Device(), Device(most, **{kind: call})) for call in range(1, writes + 1))
    yield Trial(whole, Device(0))
    yield Trial(whole, Device(), Device(0))
    yield Trial(whole, Device(1, interrupted=2), Device(1, interrupted=2), second=1)


def random_device(chance, calls_most):
    """A device of any behaviour."""
    troubles = [{}, {}, {"failing": chance.randrange(1, calls_most + 2)}, {"idle": chance.randrange(1, calls_most + 2)}]
    return Device(chance.choice([1, 2, 3, 10, WHOLE]), interrupted=chance.choice([0, 2, 3, 5]), **chance.choice(troubles))


def random_trials(chance, stream):
    """Any ends, and devices of any behaviours."""
    for _ in range(TRIALS_A_STREAM):
        end = chance.randrange(len(stream.sent) + 1)
        yield Trial(end, random_device(chance, end), random_device(chance, 11 * len(stream.replies)), chance.choice([1, 4, WHOLE]))


class Program:
    """The built program, and a folder of its own with the files of a service."""

    def __init__(self, path, folder, files):
        self.path, self.folder = path, folder
        calls.prepare(folder, files)

    def run(self, *words, **files):
        calls.prepare(self.folder, files)
        ran = subprocess.run([self.path, *words], cwd=self.folder, stdin=subprocess.DEVNULL, capture_output=True, text=True, timeout=300)
        return ran.stdout.split("\n")[:-1] if ran.returncode == 0 else [f"status {ran.returncode}"]

    def check(self, what, stream, trials, results):
        """Serves all trials of a stream."""
        trials = list(trials)
        got = self.run("devices", stream=stream.sent, trials="".join(stream.line(it) for it in trials))
        for number, trial in enumerate(trials):
            results.expect(f"{what}, {trial}", got[4 * number : 4 * number + 4], stream.wanted(trial))


def check_devices(path, results):
    with tempfile.TemporaryDirectory(prefix="devices-") as folder:
        program = Program(path, folder, SERVED)
        for what, (sent, wanted, end) in service.WORKED.items():
            stream = Stream(sent, wanted, end)
            trials = trials_of(stream) if len(stream.replies) < MOST_SENT else random_trials(random.Random(SEED), stream)
            program.check(what, stream, trials, results)


def check_random(path, results):
    chance = random.Random(SEED)
    with tempfile.TemporaryDirectory(prefix="devices-") as folder:
        program = Program(path, folder, EMPTY)
        for number in range(RANDOM_STREAMS):
            sent = streams.random_stream(chance)
            stream = Stream(sent, *streams.expected(streams.Service(), sent))
            program.check(f"random stream {number}", stream, random_trials(chance, stream), results)


def check_sockets(path, results):
    for what, (sent, wanted, end) in service.WORKED.items():
        stream = Stream(sent, wanted, end)
        if len(stream.replies) < MOST_SENT:
            with tempfile.TemporaryDirectory(prefix="devices-") as folder:
                got = Program(path, folder, SERVED).run("sockets", stream=sent)
            results.expect(f"{what}, over a socket", got, [stream.end, wanted.hex()])


def check_endless(path, results):
    """As many frames as are answered, and one more."""
    began = time.monotonic()
    with tempfile.TemporaryDirectory(prefix="devices-") as folder:
        got = Program(path, folder, EMPTY).run("endless")
    results.expect("16,777,217 frames", got, ["4 TooManyFrames", "16777216", "0"])
    taken = time.monotonic() - began
    results.expect(f"16,777,217 frames took {taken:.0f} seconds", taken < SECONDS_OF_ENDLESS, True)


def check_certificates(path, results):
    """A prefix of a certificate is no certificate, and of all changes of a byte only those of the bound to 3 to 9 are valid."""
    files = {"header": "", "old": calls.ENGLISH, "new": calls.WITH_A, "repertoire": calls.PEOPLE, "certificate": calls.TYPED}
    with tempfile.TemporaryDirectory(prefix="devices-") as folder:
        got = Program(path, folder, files).run("certificates")
    text = calls.TYPED
    bound = text.index("bound ") + len("bound ")
    prefixes = [f"5 Certificate: 1 NotText line={1 + text[:end].count(chr(10))}" for end in range(len(text))]
    results.expect("each prefix of a certificate", got[: len(text)], prefixes)
    changes = [str(it) for byte in b"3456789" for it in (bound, byte)]
    results.expect("each byte of a certificate replaced by every other", got[len(text):], changes)


def main():
    path, results = os.path.abspath(sys.argv[1]), service.Results()
    for check in (check_devices, check_random, check_sockets, check_certificates, check_endless):
        began = time.monotonic()
        check(path, results)
        print(f"{check.__name__}: {time.monotonic() - began:.1f} s", file=sys.stderr)
    print(f"{results.passed} passed, {results.failed} failed")
    return 1 if results.failed else 0


if __name__ == "__main__":
    sys.exit(main())
