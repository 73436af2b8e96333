"""Proved Compose tables and compose states in Python, over libcomposecheck.so.1 by ctypes.

    table = Table({"root": '<Multi_key> <apostrophe> <e> : "é"'})
    state = State()
    for keysym in (0xff20, 0x27, 0x65):
        print(state.feed(table, keysym), state.status)     # the last line: é composed

A table may be used by any number of threads and states at once, a state by one at a time. docs/LIBRARY.md says what each call does."""
import ctypes
import os

ABI = 1
STATUSES = ("nothing", "composing", "composed", "cancelled")
PARTS = ("", "names", "bundle", "source", "overlap", "nodes", "memory", "repertoire", "certificate", "condition", "search", "table")
DONE, REFUSED, TOO_SMALL, WANTED = range(4)
SYSTEM = "/usr/share/X11/locale"
LIBRARY = "libcomposecheck.so.1"
MOST_TEXT, MOST_PENDING = 255, 31


class _State(ctypes.Structure):
    _fields_ = [
        ("pending", ctypes.c_uint32 * MOST_PENDING), ("hints", ctypes.c_uint32 * MOST_PENDING),
        ("count", ctypes.c_uint32), ("status", ctypes.c_uint32), ("reserved", ctypes.c_uint32 * 4),
    ]  # fmt: skip


class _Source(ctypes.Structure):
    _fields_ = [("name", ctypes.c_char_p), ("bytes", ctypes.c_char_p), ("length", ctypes.c_size_t)]


class _Input(ctypes.Structure):
    _fields_ = [
        ("header", ctypes.c_char_p), ("header_length", ctypes.c_size_t), ("sources", ctypes.POINTER(_Source)), ("source_count", ctypes.c_size_t),
        ("certificate", ctypes.c_char_p), ("certificate_length", ctypes.c_size_t), ("repertoire", ctypes.c_char_p),
        ("repertoire_length", ctypes.c_size_t), ("longest", ctypes.c_bool), ("bundle", ctypes.c_char_p), ("bundle_length", ctypes.c_size_t),
        ("reserved", ctypes.c_void_p * 2),
    ]  # fmt: skip


class Fault(ctypes.Structure):
    """Why something is refused: a part, a code, and where. Lines and columns count from 1, sources from 0."""

    _fields_ = [(it, ctypes.c_uint32) for it in ("part", "code", "lexical", "value")] + [
        (it, ctypes.c_uint64) for it in ("source", "line", "column", "at")
    ] + [("reserved", ctypes.c_uint64 * 2)]  # fmt: skip


class _Options(ctypes.Structure):
    _fields_ = [("system", ctypes.c_char_p), ("is_strict", ctypes.c_bool), ("is_cached", ctypes.c_bool), ("context", ctypes.c_void_p), ("reserved", ctypes.c_void_p * 5)]


class _Message(ctypes.Structure):
    _fields_ = [("text", ctypes.c_char_p), ("fault", Fault), ("is_left_out", ctypes.c_bool)]


_Report = ctypes.CFUNCTYPE(None, ctypes.c_void_p, ctypes.POINTER(_Message))


class Refused(Exception):
    """A table, or a certificate, is refused."""

    def __init__(self, fault, said):
        super().__init__(said or f"{PARTS[fault.part]} {fault.code}")
        self.fault = fault


def _load(path):
    library = ctypes.CDLL(path)
    block, table, length = ctypes.c_void_p, (ctypes.c_void_p, ctypes.c_size_t), ctypes.POINTER(ctypes.c_size_t)
    state, words = ctypes.POINTER(_State), ctypes.POINTER(ctypes.c_uint32)
    text, given, fault = ctypes.c_char * MOST_TEXT, ctypes.POINTER(_Input), ctypes.POINTER(Fault)
    for name, result, arguments in (
        ("table_new", block, (given, length, fault)),
        ("table_load", block, (*table, given, length, fault)),
        ("table_copy", block, (*table, fault)),
        ("table_free", None, (block,)),
        ("table_from_locale", block, (ctypes.c_char_p, ctypes.POINTER(_Options), _Report, length)),
        ("table_explain", ctypes.c_size_t, (given, ctypes.c_char_p, ctypes.c_size_t)),
        ("table_check", ctypes.c_bool, (*table, *table, given, fault)),
        ("table_is_table", ctypes.c_uint32, table),
        ("table_feed", ctypes.c_uint32, (*table, state, ctypes.c_uint32, text, words)),
        ("table_refeed", None, (*table, state)),
        ("table_following", ctypes.c_bool, (*table, state, ctypes.c_uint32, words, words, text, words)),
        ("characters", ctypes.c_uint32, (ctypes.c_char_p, ctypes.c_size_t, words, ctypes.c_size_t, words, ctypes.c_size_t, fault)),
        ("find", ctypes.c_uint32, (ctypes.c_char_p, ctypes.c_size_t) * 8 + (length, fault)),
        ("locale_file", ctypes.c_uint32, (ctypes.c_char_p, ctypes.c_size_t) * 5 + (length,)),
        ("builtin_names", ctypes.c_void_p, (length,)),
        ("table_result", ctypes.c_uint32, (*table, state, ctypes.c_uint32)),
        ("reset", None, (state,)),
        ("status", ctypes.c_uint32, (state,)),
        ("pending", ctypes.c_uint32, (state, ctypes.c_uint32 * MOST_PENDING)),
    ):
        function = getattr(library, f"composecheck_{name}")
        function.restype, function.argtypes = result, arguments
    return library


def _path():
    """Where the library is: below the prefix of this file, which Python may have in lib/pythonN/, in its source tree, or where the system looks."""
    above = os.path.dirname(os.path.dirname(os.path.dirname(os.path.realpath(__file__))))
    places = [os.path.join(above, *it, LIBRARY) for it in ((), ("lib",), ("build", "lib"))]
    return os.environ.get("COMPOSECHECK_LIBRARY") or next(filter(os.path.exists, places), LIBRARY)


_library = _load(_path())


def _bytes(it):
    return it.encode() if isinstance(it, str) else it


def _input(sources, header, longest, certificate, repertoire, bundle=None):
    rows = [(_bytes(name), _bytes(text)) for name, text in sources.items()]
    array = (_Source * len(rows))(*(_Source(name, text, len(text)) for name, text in rows))
    header, certificate, repertoire = _bytes(header), _bytes(certificate), _bytes(repertoire)
    return _Input(
        header, len(header or b""), array, len(rows), certificate, len(certificate or b""), repertoire, len(repertoire or b""), longest,
        bundle, len(bundle or b""),
    )  # fmt: skip


def _explain(given):
    text = ctypes.create_string_buffer(1024)
    _library.composecheck_table_explain(given, text, len(text))
    return text.value.decode(errors="replace")


def texts(keysyms, header=None):
    """Returns the text of each of these keysyms, that which a key commits that is part of no sequence: a character, or nothing."""
    header, fault = _bytes(header), Fault()
    length = ctypes.c_size_t(len(header or b""))
    lines = header if header is not None else ctypes.string_at(_library.composecheck_builtin_names(length), length.value)
    given, found = ((ctypes.c_uint32 * max(len(keysyms), 1))(*it) for it in (keysyms, ()))
    done = _library.composecheck_characters(lines, length, given, len(keysyms), found, len(keysyms), fault)
    if done == 1:
        raise Refused(fault, "")
    return [chr(it) if it else "" for it in found[: len(keysyms)]]


def _pairs(*values):
    """Returns each of these bytes with its length, one after another."""
    return [it for value in values for it in (value, len(value))]


def locale_file(locale, folder=SYSTEM, compose_dir=None, aliases=None):
    """Returns the path of the table of a locale, by the folder's files compose.dir and locale.alias, or None where there is none."""
    compose_dir = (_look(f"{folder}/compose.dir".encode()) or b"") if compose_dir is None else _bytes(compose_dir)
    aliases = (_look(f"{folder}/locale.alias".encode()) or b"") if aliases is None else _bytes(aliases)
    room, length = 4096, ctypes.c_size_t()
    while True:
        path = ctypes.create_string_buffer(room)
        done = _library.composecheck_locale_file(*_pairs(_bytes(folder), compose_dir, aliases, _bytes(locale)), path, room, length)
        if done == 3:
            raise MemoryError
        if done != 2:
            return path.raw[: length.value].decode() if done == 1 else None
        room = length.value


def _look(path):
    """Returns the bytes of the file at a path, or None where there is none."""
    try:
        with open(path, "rb") as file:
            return file.read()
    except (OSError, ValueError):
        return None


def _answer(path, found):
    """Returns an answer of a search: the path, and the bytes of its file or None."""
    kept = b"\0" if found is None else b"\1" + len(found).to_bytes(4, "big") + found
    return len(path).to_bytes(2, "big") + path + kept


def find(root, system=SYSTEM, locale="", home="", sysroot="", certificate="", look=_look):
    """Returns the bundle of the table at the path `root`, with all files that it includes, each as `look` returns its bytes, or raises Refused.

    %S is `system`, %L the path `locale`, %H `home`; an absolute path is looked for below `sysroot` first. What is empty is not known."""
    paths = [_bytes(it) for it in (root, system, locale, home, sysroot)]
    answers, room, length, fault = [], 1 << 16, ctypes.c_size_t(), Fault()
    while True:
        payload, target = len(answers).to_bytes(2, "big") + b"".join(answers), ctypes.create_string_buffer(room)
        done = _library.composecheck_find(*_pairs(payload, *paths, _bytes(certificate)), target, room, length, fault)
        given = target.raw[: length.value] if done in (DONE, WANTED) else b""
        if done == DONE:
            return given
        if done == REFUSED:
            raise Refused(fault, "")
        if done == TOO_SMALL:
            room = length.value
        else:
            answers.append(_answer(given, look(given)))


class Table:
    """A table, read from sources: a dict of names and contents, the root first. Refused says why there is none. `bytes` of it is its block."""

    def __init__(self, sources, header=None, longest=True, certificate=None, repertoire=None, in_use=None, bundle=None):
        given, fault, length = _input(sources, header, longest, certificate, repertoire, bundle), Fault(), ctypes.c_size_t()
        if in_use is None:
            self._own(_library.composecheck_table_new(given, length, fault), length)
        else:
            self._own(_library.composecheck_table_load(*in_use._table, given, length, fault), length)
        if not self._block:
            raise Refused(fault, _explain(given))

    def _own(self, block, length):
        """Keeps a block of the library, and what calls have for it: its address and its length."""
        self._block, self._table = block, (block, length.value)

    @classmethod
    def from_bytes(cls, block):
        """Returns the table of a block, a copy of these bytes, which may be any: from a file, a cache or another process. Refused if they are none."""
        table, fault, kept = cls.__new__(cls), Fault(), bytes(block)
        table._own(_library.composecheck_table_copy(kept, len(kept), fault), ctypes.c_size_t(len(kept)))
        if not table._block:
            raise Refused(fault, "the bytes are no table" if PARTS[fault.part] == "table" else "")
        return table

    def __bytes__(self):
        return ctypes.string_at(*self._table)

    @classmethod
    def from_file(cls, path, header=None, longest=True, **places):
        """Returns the table of the file at this path, with all files that it includes; `find` says what the places are."""
        return cls({}, header, longest, bundle=find(path, **places))

    @classmethod
    def from_locale(cls, locale=None, report=None, system=None, strict=False, cached=False):
        """Returns the table of the user, as composecheck_table_from_locale finds it; without a locale that of the environment.

        Up to ten faulty lines are left out, unless `strict`: `report` is called for each, with its fault and a line FILE:LINE:COLUMN: SENTENCE. With
        `cached` the table is kept in the user's cache, and taken from there while its files are the same."""
        messages = []

        def keep(_, message):
            message = message.contents
            messages.append((bool(message.is_left_out), Fault.from_buffer_copy(message.fault), message.text.decode(errors="replace")))

        table = cls.__new__(cls)
        options, length = _Options(_bytes(system), strict, cached), ctypes.c_size_t()
        table._own(_library.composecheck_table_from_locale(_bytes(locale), options, _Report(keep), length), length)
        for is_left_out, fault, said in messages:
            if not is_left_out:
                raise Refused(fault, said)
            if report:
                report(fault, said)
        return table

    def __del__(self):
        if getattr(self, "_block", None):
            _library.composecheck_table_free(self._block)

    def load(self, sources, certificate, repertoire, header=None, longest=True):
        """Returns the table of these sources where the certificate is valid for a move to it from this one, or raises Refused."""
        return Table(sources, header, longest, certificate, repertoire, self)

    def check(self, new, certificate, repertoire, header=None):
        """Raises Refused unless the certificate is valid for a move from this table to the new one."""
        fault = Fault()
        if not _library.composecheck_table_check(*self._table, *new._table, _input({}, header, True, certificate, repertoire), fault):
            raise Refused(fault, "")

    def following(self, keysyms):
        """Yields what may follow these keysyms from rest, as `State.following` does; nothing where no sequence goes on after them."""
        state = State()
        for it in keysyms:
            state.feed(self, it)
        if state.pending == list(keysyms):
            yield from state.following(self)

    def is_table(self):
        """Returns whether the block is a table still: 1, 0, or 2 where memory is wanting."""
        return _library.composecheck_table_is_table(*self._table)


class State:
    """What is pending, and a status."""

    def __init__(self):
        self._state = _State()

    def feed(self, table, keysym):
        """Feeds a keysym, and returns the text that a sequence commits which it completes; None where the keysym is ignored."""
        text, length = ctypes.create_string_buffer(MOST_TEXT), ctypes.c_uint32()
        fed = _library.composecheck_table_feed(*table._table, self._state, keysym, text, length)
        if fed == 2:
            raise ValueError("no keysym")
        return text.raw[: length.value].decode() if fed == 1 else None

    def result(self, table, keysym):
        """Returns the result keysym of the sequence that feeding the keysym would complete: 0 where it completes none, or has none."""
        return _library.composecheck_table_result(*table._table, self._state, keysym)

    def refeed(self, table):
        """Goes over to another table, also in the middle of a sequence."""
        _library.composecheck_table_refeed(*table._table, self._state)

    def reset(self):
        _library.composecheck_reset(self._state)

    @property
    def status(self):
        return STATUSES[_library.composecheck_status(self._state)]

    @property
    def pending(self):
        keysyms = (ctypes.c_uint32 * MOST_PENDING)()
        return list(keysyms[: _library.composecheck_pending(self._state, keysyms)])

    def following(self, table):
        """Yields each keysym that may follow, the status that it would give, and the text that it would commit."""
        keysym, status, length, text = ctypes.c_uint32(), ctypes.c_uint32(), ctypes.c_uint32(), ctypes.create_string_buffer(MOST_TEXT)
        index = 0
        while _library.composecheck_table_following(*table._table, self._state, index, keysym, status, text, length):
            yield keysym.value, STATUSES[status.value], text.raw[: length.value].decode()
            index += 1
