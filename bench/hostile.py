#!/usr/bin/env python3
"""hostile.py PROGRAM [SECONDS]: how many seconds of a processor `composecheck` takes over input that is made to be slow.

Each table, with its certificate where it has one, fits the greatest payload of a load, 8,388,608 bytes, so a client can send it to a
service, which answers nobody else until it is done. A case that takes more than SECONDS (60 if none are given) is stopped.

At the end it types on a service while clients send dear loads without a pause: how long a key waits, beside none, one and eight of them.
And it types while a connection with 4,095 sessions ends that end with it, beside a load of 5,000 sequences.

With `write FOLDER` in place of PROGRAM the files of all cases are written there, each with its command in `command`."""
import multiprocessing
import os
import resource
import signal
import socket
import struct
import subprocess
import sys
import tempfile
import time

MOST_BYTES = 8_388_608
MOST_LINES = 1_000_000
MOST_DEFINITIONS = 100_000
MOST_NODES = 1_048_576


def table(**sources):
    """The files of a table: its sources, the first one being the root, and a manifest."""
    files = {name: text.encode() for name, text in sources.items()}
    files["table"] = "".join(f"{name}\t{name}\n" for name in sources).encode()
    return files


def typing(files):
    """The command that reads, settles and builds the table."""
    return files, ["type", "table", "a"]


def included_often(line, levels=2, copies=706):
    """A source of one line that is visited some half a million times: `copies` includes in each of some levels above it."""
    names = [f"level{level}" for level in range(levels)] + ["line"]
    sources = {name: f'include "{below}"\n' * copies for name, below in zip(names, names[1:])}
    return table(**sources, line=line)


def room(files):
    """How many bytes are left beside these files."""
    return MOST_BYTES - sum(len(content) for content in files.values()) - 1000


def blank_line_included_often():
    return typing(included_often(" " * room(included_often("")) + "\n"))


def comment_included_often():
    return typing(included_often("#" * room(included_often("")) + "\n"))


def include_with_a_long_line():
    """A line of 4 MB that includes an empty source, 300,000 times."""
    sources = {
        "root": 'include "middle"\n' * 548,
        "middle": 'include "long"\n' * 548,
        "long": 'include "empty"' + " " * 4_194_304 + "\n",
        "empty": "",
    }
    return typing(table(**sources))


def sources_include_one_another():
    """Seven levels of six sources, each of which includes all of the next level, and a line of 4 MB below them, read 279,936 times."""
    sources = {"root": "".join(f'include "s1_{place}"\n' for place in range(6))}
    for level in range(1, 8):
        below = [f"s{level + 1}_{place}" for place in range(6)] if level < 7 else ["long"]
        text = "".join(f'include "{name}"\n' for name in below)
        sources.update({f"s{level}_{place}": text for place in range(6)})
    return typing(table(**sources, long=" " * 4_194_304 + "\n"))


def definition_included_often():
    """A definition in a line of 8 MB, read as often as definitions may be."""
    files = included_often("", copies=316)
    line = '<a> : "x" #' + "x" * room(files) + "\n"
    return typing(included_often(line, copies=316))


def greatest_table(last=""):
    """33,825 sequences of 32 keysyms, which have 1,048,576 nodes."""
    lines = [f"<U{0x100 + index:04X}> " + "<a> " * 31 + ': "x"\n' for index in range(33_825)]
    return typing(table(root="".join(lines) + last))


def overlap_at_the_end():
    """The same, and at the end a sequence that is a proper prefix of the last one."""
    return greatest_table(f"<U{0x100 + 33_824:04X}> " + "<a> " * 30 + ': "x"\n')


def most_definitions_in_reverse():
    """As many definitions as may be read, in falling order, with long common prefixes."""
    lines = [f"<a> <b> <c> <d> <e> <f> <0x{0x1000100 + index:x}> : \"x\"\n" for index in range(MOST_DEFINITIONS)]
    return typing(table(root="".join(reversed(lines))))


def same_sequence_again():
    """As many definitions of one sequence as may be read."""
    return typing(table(root=('<a> ' * 15 + ': "x"\n') * MOST_DEFINITIONS))


def most_lines():
    return typing(table(root="\n" * MOST_LINES))


def most_includes():
    """Half a million includes of a source of one blank line."""
    return typing(included_often("\n"))


def every_node_with_every_node():
    """A table whose nodes below the root are alike, against itself, with a pair for each two of them: each pair has every edge."""
    first, second = 866, 115
    lines = [f"<U{0x1000 + p:04X}><U{0x3000 + k:04X}>:\"x\"\n" for p in range(first) for k in range(second)]
    files = table(root="".join(lines))
    head = "compose-certificate 1\nbound 1\n"
    pairs = ["0 0\n"] + [f"{p} {q}\n" for p in range(1, first + 1) for q in range(1, first + 1)]
    while sum(map(len, pairs)) > room(files):
        # the pairs of the last old node but that with itself, which an edge of the root asks for
        first_unpaired = len(pairs) - 1000
        pairs = [pair for number, pair in enumerate(pairs) if number < first_unpaired or len(set(pair.split())) == 1]
    files["certificate"] = (head + f"pairs {len(pairs)}\n" + "".join(pairs) + "typings 0\n").encode()
    files["repertoire"] = b""
    return files, ["check", "table", "table", "repertoire", "certificate"]


CASES = [
    most_lines,
    most_includes,
    greatest_table,
    overlap_at_the_end,
    most_definitions_in_reverse,
    same_sequence_again,
    every_node_with_every_node,
    definition_included_often,
    sources_include_one_another,
    include_with_a_long_line,
    comment_included_often,
    blank_line_included_often,
]


# ---- a burst of dear loads

# This number of clients load at the same time, and this number of keys are timed.
LOADERS, TIMED_KEYS = (0, 1, 8), 300


def dear_sources():
    """98,304 definitions of one sequence: seven levels of four includes each over six lines of 32 keysyms."""
    names = [f"{level}" for level in range(7)]
    sources = {name: f'include "{below}"\n' * 4 for name, below in zip(names, names[1:] + ["x"])}
    return sources | {"x": ("<a>" * 32 + ':"x"\n') * 6}


def frame(kind, session, payload=b""):
    return struct.pack(">BII", kind, session, len(payload)) + payload


def bundle(sources, certificate):
    parts = [struct.pack(">H", len(sources))]
    for name, text in sources.items():
        parts.append(struct.pack(">H", len(name)) + name.encode() + struct.pack(">I", len(text)) + text.encode())
    return b"".join(parts) + struct.pack(">I", len(certificate)) + certificate


def read_reply(connection):
    """The next reply, whole."""
    got = b""
    while len(got) < 9 or len(got) < 9 + struct.unpack(">I", got[5:9])[0]:
        piece = connection.recv(4096)
        if not piece:
            raise EOFError
        got += piece
    return got


def connected(path):
    connection = socket.socket(socket.AF_UNIX, socket.SOCK_STREAM)
    connection.connect(path)
    return connection


def load_on(path, load):
    """Sends the load again and again."""
    with connected(path) as connection:
        while True:
            connection.sendall(load)
            read_reply(connection)


def times_of_keys(path):
    """How long each key takes to be answered, in order of length."""
    times = []
    with connected(path) as connection:
        connection.sendall(frame(1, 7))
        read_reply(connection)
        for _ in range(TIMED_KEYS):
            start = time.perf_counter()
            connection.sendall(frame(2, 7, struct.pack(">I", 0x62)))
            read_reply(connection)
            times.append(time.perf_counter() - start)
            time.sleep(0.005)
    return sorted(times)


def keys_beside(path, load, loaders):
    """How long keys take while this number of clients send the load."""
    context = multiprocessing.get_context("fork")
    processes = [context.Process(target=load_on, args=(path, load), daemon=True) for _ in range(loaders)]
    for process in processes:
        process.start()
    time.sleep(0.5)
    try:
        return times_of_keys(path)
    finally:
        for process in processes:
            os.kill(process.pid, signal.SIGKILL)
            process.join()


def type_beside_loads(program):
    """Prints how long a key waits beside clients that send dear loads without a pause."""
    with tempfile.TemporaryDirectory() as folder:
        write(folder, table(**dear_sources()) | {"repertoire": b""})
        made = subprocess.run([program, "make", "-o", "certificate", "table", "table", "repertoire"], cwd=folder, capture_output=True)
        assert made.returncode == 0, made.stderr
        with open(os.path.join(folder, "certificate"), "rb") as file:
            load = frame(5, 0, bundle(dear_sources(), file.read()))
        count = sum(LOADERS) + len(LOADERS)
        words = [program, "serve", "--at-once", str(max(LOADERS) + 1), "table", "repertoire", "certificate", "socket", str(count)]
        with subprocess.Popen(words, cwd=folder, stdout=subprocess.PIPE) as service:
            assert service.stdout.readline() == b"listening\n"
            for loaders in LOADERS:
                times = keys_beside(os.path.join(folder, "socket"), load, loaders)
                figures = [1000 * times[TIMED_KEYS // 2], 1000 * times[TIMED_KEYS * 99 // 100], 1000 * times[-1]]
                print("a key beside {} clients that load {:,} bytes: {:.3f} ms at the median, {:.3f} at the 99th of 100, {:.3f} at most".format(loaders, len(load), *figures), flush=True)
            service.kill()


# ---- the end of a connection with many sessions

# As many sessions as may be open beside one, opened in batches of this number; and this number of keys are timed while they are closed.
SESSIONS, BATCH, KEYS_AT_END = 4_095, 585, 20


def open_sessions(connection):
    """Opens as many sessions on the connection as may be open beside the session 0."""
    for first in range(1, SESSIONS, BATCH):
        connection.sendall(b"".join(frame(1, number) for number in range(first, first + BATCH)))
        for _ in range(BATCH):
            assert read_exactly(connection, 9)[0] == 0x81


def read_exactly(connection, count):
    got = b""
    while len(got) < count:
        got += connection.recv(count - len(got))
    return got


def seconds_of(connection, request):
    """How long a request takes to be answered."""
    start = time.perf_counter()
    connection.sendall(request)
    read_reply(connection)
    return time.perf_counter() - start


def end_beside_keys(program):
    """Prints how long a key waits at most while a connection with 4,095 sessions ends, and how long a load of 5,000 sequences takes then."""
    text = "".join(f'<U{0x1000 + index // 64:04X}><U{0x3000 + index % 64:04X}>:"x"\n' for index in range(5_000))
    with tempfile.TemporaryDirectory() as folder:
        write(folder, table(root=text) | {"repertoire": b""})
        made = subprocess.run([program, "make", "-o", "certificate", "table", "table", "repertoire"], cwd=folder, capture_output=True)
        assert made.returncode == 0, made.stderr
        with open(os.path.join(folder, "certificate"), "rb") as file:
            load = frame(5, 0, bundle({"root": text}, file.read()))
        words = [program, "serve", "--at-once", "2", "--own-sessions", "table", "repertoire", "certificate", "socket", "2"]
        with subprocess.Popen(words, cwd=folder, stdout=subprocess.PIPE) as service:
            assert service.stdout.readline() == b"listening\n"
            path, key = os.path.join(folder, "socket"), frame(2, 0, struct.pack(">I", 0x62))
            with connected(path) as typing, connected(path) as many:
                seconds_of(typing, frame(1, 0))
                open_sessions(many)
                loading = seconds_of(typing, load)
                many.close()
                waiting = max(seconds_of(typing, key) for _ in range(KEYS_AT_END))
            service.kill()
    print(f"a key while a connection with {SESSIONS:,} sessions ends: {1000 * waiting:.3f} ms at most; a load of 5,000 sequences: {1000 * loading:.3f} ms", flush=True)


def write(folder, files):
    os.makedirs(folder, exist_ok=True)
    for name, content in files.items():
        with open(os.path.join(folder, name), "wb") as file:
            file.write(content)


def timed(program, folder, words, most):
    """The seconds of a processor that the program takes and the first of what it prints; no seconds where it was stopped."""
    before = resource.getrusage(resource.RUSAGE_CHILDREN)
    try:
        ran = subprocess.run([program, *words], cwd=folder, capture_output=True, timeout=most)
    except subprocess.TimeoutExpired:
        return None, b""
    after = resource.getrusage(resource.RUSAGE_CHILDREN)
    return after.ru_utime + after.ru_stime - before.ru_utime - before.ru_stime, (ran.stdout + ran.stderr)[:60]


def main():
    if sys.argv[1] == "write":
        for case in CASES:
            files, words = case()
            folder = os.path.join(sys.argv[2], case.__name__)
            write(folder, {**files, "command": (" ".join(words) + "\n").encode()})
        return
    program = os.path.abspath(sys.argv[1])
    most = float(sys.argv[2]) if len(sys.argv) > 2 else 60
    for case in CASES:
        files, words = case()
        size = sum(len(content) for name, content in files.items() if name not in ("table", "repertoire"))
        with tempfile.TemporaryDirectory() as folder:
            write(folder, files)
            seconds, printed = timed(program, folder, words, most)
        took = f"{seconds:8.2f} s" if seconds is not None else f" more than {most:.0f} s"
        print(f"{case.__name__:32} {size:9,} bytes {took}  {printed.decode(errors='replace').strip()}", flush=True)
    type_beside_loads(program)
    end_beside_keys(program)


if __name__ == "__main__":
    main()
