#!/usr/bin/env python3
"""calls.py TRIALS: single calls, with each growth of their memory refused in turn. TRIALS is the built program `compose_trials`.

The program does a call between two marks. A library that is preloaded (tests/refuse.c) refuses the first growth between them, in the
next run the second one, and so on until a run meets no refusal. With no refusal the answer is the call's own. With one it is the call's
own, or the outermost NoMemory and what has to follow it: after a request that was refused, out of memory, each Ask is answered as
before, the request that is made again is answered, and so are the requests after it; `add`, `feed` and `next_request` are tried again
and go on. Each answer that is listed has to come. In every run all memory is given back, and no other descriptor is open at the end.

At the end come calls that are wrong on purpose, each of which has to be printed. The last line is `N passed, M failed`.

Where each public call that takes memory is called with ample memory, and its answer compared:

  Names::core, look_up_keys                          compose_examples/keysyms, compose_examples/tables
  Names::read                                        here; tests/cases/names-*
  Names::print, quote, unescape, push_text           compose_examples/keysyms, compose_examples/lines; tests/cases/prints-*, text-*
  Sources::add                                       here; compose_examples/sources
  read_definitions, settle                           compose_examples/sources
  ComposeTable::build, read_table, read_first_table  compose_examples/forms; tests/cases
  Certificate::read, write_text; Repertoire::read    compose_examples/certificates; tests/cases/check-*, repertoire-*
  Migration::read, Named::read                       tests/cases/check-*, explain-*
  check_bytes                                        here; devices.py
  walk, differences                                  compose_examples/explaining, compose_examples/differing
  find_typings                                       compose_examples/typings
  make                                               here; compose_examples/making
  explain, explain_all                               here; tests/cases/explain-*
  compare                                            compose_examples/telling; diff.py
  write_bundle, read_bundle                          here (read_bundle by the loads)
  Feeder::feed, Feeder::next_request                 here; compose_examples/frames
  Service::start                                     here; service.py
  Service::answer and answer_into (Open, Load,
    LoadLongest)                                     here; service.py, streams.py
  Service::run                                       here
  Service::serve                                     devices.py, service.py
  begin, allow_fresh, end_text, unprinted_text, unprinted_after,
    SocketFile::bind                                 service.py
  read_manifest, read_named, read_only_table,
    read_migration, read_repertoire, in_rising_order,
    type_lines, type_keys, tell, make_migration,
    check_migration, explain_migration,
    explain_all_migration                            tests/cases
  read_request, command_line                         tests/cases/words-*
"""
import concurrent.futures
import dataclasses
import os
import subprocess
import sys
import tempfile

import refusals
import service
from service import ACUTE, DROPPED, E, GRAVE, ITSELF, NEW, NOTHING_FOLLOWS, OLD, frame, key, load, loaded

MOST_REFUSALS = 10_000
# Standard input, output and error, and the file to which the library writes what it counted.
DESCRIPTORS = 4


@dataclasses.dataclass
class Call:
    """A call by the words of the program, the files that it reads, its own answer, and the answers that a refusal may lead to.

    In `complaint` is what is printed of a call that is wrong on purpose."""
    name: str
    words: str
    files: dict
    own: str
    refused: list
    complaint: str = ""


# ---- calls on bytes and tables

ENGLISH = '<Multi_key> <apostrophe> <e> : "é" eacute # e acute\n<dead_acute> <e> : "é"\n'
WITH_A = ENGLISH + '<Multi_key> <apostrophe> <a> : "á"\n'
WITHOUT_DEAD = '<Multi_key> <apostrophe> <e> : "é" eacute # e acute\n<Multi_key> <apostrophe> <a> : "á"\n'
PEOPLE = "keys 0x20 0x7e\nkeys 0xfe51 0xfe51\nkeys 0xff20 0xff20\nU+00E1\nU+00E9\n"
TYPED = "compose-certificate 1\nbound 2\npairs 4\n0 0\n1 1\n2 2\n3 3\ntypings 2\nU+00E1 ff20 27 61\nU+00E9 fe51 65\n"
DIFFERS = 'keys dead_acute e\nkind text\nold "é"\nnew "e"\n'
OVERLAP = '<a> <b> : "x"\n<a> : "y"\n'
PLAIN = {"header": "", "repertoire": ""}


def checked(name, answer, old=ENGLISH, new=WITH_A, repertoire=PEOPLE, certificate=TYPED):
    files = PLAIN | {"old": old, "new": new, "repertoire": repertoire, "certificate": certificate}
    return Call(f"check_bytes, {name}", "read check", files, f"{answer}\n", ["6 NoMemory\n"])


def over_tables(name, words, answer, refusal, **files):
    return Call(name, f"table {words}", PLAIN | {"old": ENGLISH, "new": WITH_A} | files, f"{answer}\n", [f"{refusal}\n"])


GREEK = {"header": "#define XK_Greek_alpha 0x07e1  /* U+03B1 GREEK SMALL LETTER ALPHA */\n", "word": "Greek_alpha"}
STARTED = PLAIN | {"old": OLD, "certificate": ITSELF}
SECOND = {"old": "abc", "new": "de"}
BYTES = [
    Call("Names::read", "read names", GREEK, "α\n", ["6 NoMemory\n"]),
    Call("Names::read, a faulty line", "read names", GREEK | {"header": "#define XK_odd 12\n"}, "2 BadLine line=1\n", ["6 NoMemory\n"]),
    Call("Sources::add", "read add", SECOND, "old\n3\nnew\n2\n", ["3 NoMemory\nold\n3\nold\n3\nnew\n2\n"]),
    checked("yes", "yes"),
    checked("no", "7 TextDiffers pair=1 keysym=0x65", new=WITHOUT_DEAD, repertoire="",
            certificate="compose-certificate 1\nbound 2\npairs 4\n0 0\n1 0\n2 1\n3 2\ntypings 0\n"),
    checked("a bound that is exceeded", "9 BoundExceeded node=3", certificate=TYPED.replace("bound 2", "bound 1")),
    checked("an overlap", "2 Old: 2 Settle: 1 Overlap short=0x61 long=0x61,0x62", old=OVERLAP),
    checked("a faulty certificate", "5 Certificate: 1 NotText line=2", certificate=TYPED.replace("bound 2", "bound 02")),
    over_tables("make, a certificate", "make", TYPED, "1 NoMemory", repertoire=PEOPLE),
    over_tables("make, a difference", "make", DIFFERS, "1 NoMemory", new=WITHOUT_DEAD),
    over_tables("make, an unreachable character", "make", "U+00E9", "1 NoMemory", repertoire="keys 0x61 0x7a\nU+00E9\n"),
    over_tables("explain", "explain", DIFFERS, "1 NoMemory", new=WITHOUT_DEAD),
    Call("Service::start", "read start", STARTED, "0\n", ["4 NoMemory\n"]),
    Call("Service::start, no", "read start", STARTED | {"certificate": NOTHING_FOLLOWS},
         "3 No: 8 PairMissing pair=0 keysym=0xfe50\n", ["4 NoMemory\n"]),
    Call("Service::start, an overlap", "read start", STARTED | {"old": OVERLAP},
         "1 Table: 2 Settle: 1 Overlap short=0x61 long=0x61,0x62\n", ["4 NoMemory\n"]),
    Call("write_bundle", "read bundle", {"new": NEW, "certificate": DROPPED},
         f"{service.composecheck_client.bundle([('new', NEW)], DROPPED).hex()}\n", ["3 NoMemory\n"]),
]


# ---- requests

OPENED_7, OPENED_9 = frame(0x81, 7), frame(0x81, 9)
ASK_7, ASK_9, OPEN_7, OPEN_9 = frame(6, 7), frame(6, 9), frame(1, 7), frame(1, 9)
REST = service.state
REFUSED = service.refused


def said(*replies):
    """What is printed of replies."""
    return "".join(it if isinstance(it, str) else f"{it.hex()}\n" for it in replies)


def requested(name, before, tried, after, own, refused, words="answer one"):
    files = PLAIN | {"old": OLD, "certificate": ITSELF, "before": b"".join(before), "tried": tried, "after": b"".join(after)}
    return Call(name, words, files, said(*own), [said(*it) for it in refused])


# After this many other sessions and session 7 an Open takes memory.
GROWS_BEHIND = (8, 17, 35)
OTHERS = [range(100, 100 + count) for count in GROWS_BEHIND]


def opened(others):
    """An Open after other sessions, made again, and then a key."""
    before = [frame(1, it) for it in others] + [OPEN_7, key(7, GRAVE)]
    after = [ASK_7, ASK_9, OPEN_9, ASK_9, key(9, 0x61), key(7, ACUTE)]
    first = [frame(0x81, it) for it in others] + [OPENED_7, service.fed(7, 1)]
    rest = [REST(9, 0), service.fed(9, 0, b"a"), service.fed(7, 1)]
    own = [*first, OPENED_9, REST(7, 1, GRAVE), REST(9, 0), REFUSED(9, 1), *rest]
    refused = [*first, REFUSED(9, 9), REST(7, 1, GRAVE), REFUSED(9, 2), OPENED_9, *rest]
    return requested(f"Open, after {len(others) + 1} sessions", before, OPEN_9, after, own, [refused])


def loading(name, sent, answer, again, state_7, behind):
    """A Load in the middle of a sequence, made again, and the keys after it. `again` is the answer where the first one was accepted."""
    before, first = [OPEN_7, key(7, GRAVE), OPEN_9], [OPENED_7, service.fed(7, 1), OPENED_9]
    after = [ASK_7, ASK_9, sent, ASK_7, ASK_9, key(7, ACUTE), key(7, E)]
    rest = [state_7, REST(9, 0), *behind]
    own = [*first, answer, state_7, REST(9, 0), again, *rest]
    refused = [*first, REFUSED(0, 9), REST(7, 1, GRAVE), REST(9, 0), answer, *rest]
    return requested(name, before, sent, after, own, [refused])


AT_REST = REST(7, 0), [service.fed(7, 1), service.fed(7, 2, b"x")]
GOES_ON = REST(7, 1, GRAVE), [service.fed(7, 1), service.fed(7, 2, b"x")]
OVERLAPPING = OLD + b'<a> <b> : "x"\n<a> : "y"\n'


BEFORE_RUN = [*(frame(0x81, it) for it in OTHERS[0]), OPENED_7, service.fed(7, 1)]


def ran(**others):
    """The replies to the requests that `run` is given, some of them other ones."""
    replies = {"open": OPENED_9, "load": loaded(1), "ask": REST(7, 0)} | others
    return [*BEFORE_RUN, *replies.values()]


RUN = requested(
    "Service::run", [*(frame(1, it) for it in OTHERS[0]), OPEN_7, key(7, GRAVE)], OPEN_9 + load(NEW, DROPPED) + ASK_7, [ASK_7, ASK_9, OPEN_9, load(NEW, DROPPED), ASK_7, ASK_9],
    [*ran(), REST(7, 0), REST(9, 0), REFUSED(9, 1), REFUSED(0, 8), REST(7, 0), REST(9, 0)],
    [
        [*BEFORE_RUN, "1 NoMemory\n", REST(7, 1, GRAVE), REFUSED(9, 2), OPENED_9, loaded(1), REST(7, 0), REST(9, 0)],
        [*ran(open=REFUSED(9, 9)), REST(7, 0), REFUSED(9, 2), OPENED_9, REFUSED(0, 8), REST(7, 0), REST(9, 0)],
        [*ran(load=REFUSED(0, 9), ask=REST(7, 1, GRAVE)), REST(7, 1, GRAVE), REST(9, 0), REFUSED(9, 1), loaded(1), REST(7, 0), REST(9, 0)],
    ],
    words="answer run",
)
REQUESTS = [
    requested("Open, the first session", [], OPEN_9, [ASK_9, OPEN_9, ASK_9], [OPENED_9, REST(9, 0), REFUSED(9, 1), REST(9, 0)],
              [[REFUSED(9, 9), REFUSED(9, 2), OPENED_9, REST(9, 0)]]),
    *(opened(others) for others in OTHERS),
    loading("Load, yes", load(NEW, DROPPED), loaded(1), REFUSED(0, 8), *AT_REST),
    loading("Load, the same table", load(OLD, ITSELF), loaded(1), loaded(2), *GOES_ON),
    loading("Load, no", load(b"", NOTHING_FOLLOWS), REFUSED(0, 8), REFUSED(0, 8), *GOES_ON),
    loading("Load, a faulty table", load(b"<a> ", ITSELF), REFUSED(0, 6), REFUSED(0, 6), *GOES_ON),
    loading("Load, an overlap", load(OVERLAPPING, ITSELF), REFUSED(0, 6), REFUSED(0, 6), *GOES_ON),
    loading("Load, a faulty certificate", load(NEW, b"compose"), REFUSED(0, 7), REFUSED(0, 7), *GOES_ON),
    loading("LoadLongest, no", load(OVERLAPPING, ITSELF, kind=7), REFUSED(0, 8), REFUSED(0, 8), *GOES_ON),
    loading("LoadLongest, yes", load(OLD, ITSELF, kind=7), loaded(1), loaded(2), *GOES_ON),
    RUN,
]


# ---- bytes of a stream

def printed(session, body):
    return f"Request {{ session: {session}, body: {body} }}\n"


PAYLOAD = service.composecheck_client.bundle([("r", b"")], NOTHING_FOLLOWS)
LOAD_PRINTED = printed(0, f"Load(Payload {{ bytes: {list(PAYLOAD)} }})")
STREAM = {"before": load(b"", NOTHING_FOLLOWS) + OPEN_7}
TAKEN_IN = {"before": OPEN_7[:5], "tried": OPEN_7[5:] + key(7, GRAVE) + ASK_7[:3]}
ALL_PRINTED = printed(7, "Open") + printed(7, f"Key({GRAVE})") + "3\n"
STREAMS = [
    Call("Feeder::next_request", "stream next", STREAM, f"{LOAD_PRINTED}{printed(7, 'Open')}0\n",
         [f"4 NoMemory\n{len(STREAM['before'])}\n{LOAD_PRINTED}{printed(7, 'Open')}0\n"]),
    Call("Feeder::feed, after a part of a frame", "stream feed", TAKEN_IN, ALL_PRINTED, [f"4 NoMemory\n5\n{ALL_PRINTED}"]),
    Call("Feeder::feed, the first piece", "stream feed", {"before": b"", "tried": OPEN_7 + key(7, GRAVE) + ASK_7[:3]}, ALL_PRINTED,
         [f"4 NoMemory\n0\n{ALL_PRINTED}"]),
]


# ---- calls that are wrong on purpose

PLANTED = [
    Call("a block that is never given back", "planted leak", {}, "yes\n", ["NoMemory\n"], "are not given back"),
    Call("a block that is lost at a refusal", "planted leak-at-a-refusal", {}, "yes\n", ["NoMemory\n"], "are not given back"),
    Call("NoMemory though nothing is refused", "planted refusal-of-nothing", {}, "yes\n", ["NoMemory\n"], "0 refused: answers 'NoMemory"),
    dataclasses.replace(REQUESTS[0], name="an Open that is done and then refused", words="planted change-before-a-refusal", complaint="1 refused: answers"),
]


# ---- running

def prepare(folder, files):
    for name, content in files.items():
        with open(os.path.join(folder, name), "wb") as file:
            file.write(content if isinstance(content, bytes) else content.encode())


def run(program, library, folder, words, refuse):
    """What a run prints, its status, and what the library counted: growths and refusals between the marks, marks, blocks and bytes that
    were not given back, and open descriptors."""
    with tempfile.TemporaryFile() as counted:
        environment = {"LD_PRELOAD": library, "MARKED": "1", "REFUSE": str(refuse), "COUNT_TO": str(counted.fileno())}
        ran = subprocess.run([program, *words.split()], cwd=folder, env=environment, stdin=subprocess.DEVNULL, capture_output=True,
                             timeout=60, pass_fds=[counted.fileno()])
        counted.seek(0)
        numbers = [int(it) for it in counted.read().split()]
    return ran.stdout.decode(errors="replace"), ran.returncode, numbers


def complaints(call, answer, status, numbers):
    """What is wrong with a run."""
    _, refused, marks, blocks, size, descriptors = numbers
    allowed = [call.own] + (call.refused if refused else [])
    found = []
    if answer not in allowed or status != 0:
        found.append(f"{refused} refused: answers {answer!r} with status {status}, not {allowed!r}")
    if (blocks, size) != (0, 0):
        found.append(f"{blocks} blocks, {size} bytes, are not given back")
    if (marks, descriptors) != (2, DESCRIPTORS):
        found.append(f"{marks} marks, {descriptors} open descriptors")
    return found


def refuse_each(program, library, call):
    """What is wrong with the runs of a call, each growth refused in turn."""
    found, answers = [], set()
    with tempfile.TemporaryDirectory(prefix="calls-") as folder:
        prepare(folder, call.files)
        for refuse in range(1, MOST_REFUSALS):
            answer, status, numbers = run(program, library, folder, call.words, refuse)
            found += [f"growth {refuse}, {it}" for it in complaints(call, answer, status, numbers)]
            answers.add(answer)
            if not numbers[1]:
                break
        else:
            found.append(f"more than {MOST_REFUSALS} growths")
    found += [f"never answers {it!r}" for it in call.refused if it not in answers]
    return found


def is_as_expected(call, found):
    return any(call.complaint in it for it in found) if call.complaint else not found


def main():
    program = os.path.abspath(sys.argv[1])
    calls = [*BYTES, *REQUESTS, *STREAMS, *PLANTED]
    failed = 0
    with tempfile.TemporaryDirectory() as folder, concurrent.futures.ThreadPoolExecutor(os.cpu_count()) as pool:
        library = refusals.compile_library(folder)
        for call, found in zip(calls, pool.map(lambda call: refuse_each(program, library, call), calls)):
            if not is_as_expected(call, found):
                failed += 1
                found_as = f"not printed as {call.complaint!r}: " if call.complaint else ""
                print(f"FAILED {call.name}: {found_as}" + "\n    ".join(found[:5]))
    print(f"{len(calls) - failed} passed, {failed} failed")
    return 1 if failed else 0


if __name__ == "__main__":
    sys.exit(main())
