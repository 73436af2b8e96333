"""Typing by a composecheck service, for input methods: one `Service` in each process, and one `Typing` in each place where somebody types.

    typing = Typing(Service("/run/user/1000/composecheck.socket"))
    typed = typing.key(0xFE51)          # Typed(status='composing', accepted=True, text='', pending=(0xfe51,))
    typed = typing.key(0x65)            # Typed(status='composed', accepted=True, text='é', pending=())

A key that returns None reached no service: the application gets the key itself. No call takes longer than `PATIENCE` seconds, and after one
that took so long none is made for `PAUSE` seconds, so that a service which hangs doesn't hold up each key.

What is sent, and what a reply or a lost connection means, is decided by a proved library, libcomposecheck-client.so.0 (composecheck_client.h); this
module connects, sends, reads and waits for it. $COMPOSECHECK_CLIENT_LIBRARY names another file. A sequence goes on over a restart of the service.
What happens is logged by `logging`, in the logger `composecheck`, and what goes on happening only once.
"""
import ctypes
import logging
import os
import random
import select
import socket
import time
from typing import Callable, NamedTuple, Optional, Tuple, Union

from composecheck_client import STATUSES, ConnectionEnded, TimedOut, UnexpectedReply

PATIENCE = 0.5
PAUSE = 2.0
LOG = logging.getLogger("composecheck")
LIBRARY = "libcomposecheck-client.so.0"
WAIT, SEND, CONNECT, VERDICT, ABANDON, CLOSE = range(6)
ENOUGH, GREATEST_KEYSYM = 4096, 0x1FFFFFFF


class _Answer(ctypes.Structure):
    _fields_ = [(name, ctypes.c_uint32) for name in ("status", "accepted", "text_length")] + [("text", ctypes.c_ubyte * 255), ("reserved", ctypes.c_ubyte)]


class _Stage(ctypes.Structure):
    _fields_ = [("left", ctypes.c_size_t), ("number", ctypes.c_uint32), ("key", ctypes.c_uint32), ("is_again", ctypes.c_uint32), ("answer", _Answer)]


class _Client(ctypes.Structure):
    _fields_ = [
        ("stage", _Stage), *((name, ctypes.c_uint32) for name in ("session", "is_opened", "is_current", "count")), ("pending", ctypes.c_uint32 * 31),
        ("held_count", ctypes.c_uint32), ("held", ctypes.c_ubyte * 266), ("reserved", ctypes.c_ubyte * 62),
    ]


class _Action(ctypes.Structure):
    _fields_ = [
        *((name, ctypes.c_uint32) for name in ("kind", "verdict", "text_length", "byte_count")), ("text", ctypes.c_ubyte * 255),
        ("bytes", ctypes.c_ubyte * 448), ("reserved", ctypes.c_ubyte * 33),
    ]


def _path():
    """Where the library is: below the prefix of this file, in its source tree, or where the system looks."""
    above = os.path.dirname(os.path.dirname(os.path.dirname(os.path.realpath(__file__))))
    places = [os.path.join(above, *it, LIBRARY) for it in (("lib",), ("build", "lib"))]
    return os.environ.get("COMPOSECHECK_CLIENT_LIBRARY") or next(filter(os.path.exists, places), LIBRARY)


def _load(path):
    # (its functions are short, so that Python's lock is kept over each)
    library = ctypes.PyDLL(path)
    client, action, number = ctypes.POINTER(_Client), ctypes.POINTER(_Action), ctypes.c_uint32
    for name, result, arguments in (
        ("press", None, (client, number, action)),
        ("connected", None, (client, number, action)),
        ("receive", ctypes.c_bool, (client, ctypes.c_char_p, ctypes.c_size_t, ctypes.POINTER(ctypes.c_size_t), action, ctypes.POINTER(_Answer))),
        ("lose", None, (client, action)),
        ("time_out", None, (client, action)),
        ("erase", None, (client, action)),
        ("drop", None, (client,)),
        ("close", None, (client, action)),
        ("pending", number, (client, number * 31)),
        ("is_idle", ctypes.c_bool, (client,)),
    ):
        function = getattr(library, f"composecheck_client_{name}")
        function.restype, function.argtypes = result, arguments
    return library


_library = _load(_path())


class Typed(NamedTuple):
    """What a key did, and what is pending after it."""

    status: str
    accepted: bool
    text: str
    pending: Tuple[int, ...]


class Service:
    """The way to a service. It is connected to when a key needs it."""

    def __init__(self, path: str, patience: float = PATIENCE, pause: float = PAUSE):
        self._path, self.patience, self._pause = path, patience, pause
        self._socket: Optional[socket.socket] = None
        self._replies = select.poll()
        self._silent_until = 0.0
        self._told = ""
        # How many connections there were. What is known of a session holds on the connection where it was seen.
        self.connections = 0

    def is_connected(self) -> bool:
        return self._socket is not None

    def connect(self) -> bool:
        """Connects, unless there is a connection. False: nobody listens, or somebody has just not answered in time."""
        if self._socket is None and time.monotonic() >= self._silent_until:
            made = socket.socket(socket.AF_UNIX, socket.SOCK_STREAM)
            made.settimeout(self.patience)
            try:
                made.connect(self._path)
            except OSError as error:
                made.close()
                self.lost(error)
                return False
            # (a timeout of the socket would be set anew at each call, and costs a call of the system)
            made.setblocking(False)
            self._socket, self._replies = made, select.poll()
            self._replies.register(made, select.POLLIN)
            self.connections += 1
        return self.is_connected()

    def send(self, sent: Union[bytes, memoryview]) -> bool:
        """Sends bytes, for which there is room, since each request is answered before the next one. False: the connection is lost."""
        try:
            self._socket.sendall(sent)
        except (BrokenPipeError, ConnectionResetError):
            pass  # (what the service sent before it closed may still be read)
        except OSError as error:
            self.lost(error)
            return False
        return True

    def read(self, end: float) -> Optional[bytes]:
        """Reads some bytes: none if the connection is lost, and None at the end of the time."""
        left = end - time.monotonic()
        if left <= 0 or not self._replies.poll(left * 1000):
            return None
        try:
            return self._socket.recv(ENOUGH)
        except OSError:
            return b""

    def lost(self, error: Exception) -> None:
        """Gives the connection up. A reply that still comes on it answers nothing that is asked later."""
        self.disconnect()
        # (where nobody listens, that is found out at once, at each key; where somebody doesn't answer, that took a while)
        if isinstance(error, (TimedOut, TimeoutError, socket.timeout, BlockingIOError, UnexpectedReply)):
            self._silent_until = time.monotonic() + self._pause
            self.tell(f"no reply from {self._path}: {error!r}; keys pass for {self._pause:g} s")
        elif isinstance(error, OSError):
            self.tell(f"nobody listens on {self._path}: {error}; keys pass")

    def tell(self, what: str) -> None:
        """Logs what keeps keys from the service, once while it lasts."""
        if what != self._told:
            LOG.warning("%s", what)
        self._told = what

    def answered(self) -> None:
        """Says that the service answers; it is logged where it didn't before."""
        if self._told:
            LOG.info("%s answers", self._path)
        self._told = ""

    def disconnect(self) -> None:
        """Closes the connection, if there is one."""
        if self._socket is not None:
            self._socket.close()
            self._socket = None


class Typing:
    """A session of a service, and what is pending in it."""

    def __init__(self, service: Service):
        self._service = service
        self._client, self._action, self._answer = _Client(), _Action(), _Answer()
        # Made once: what the library fills at each key, and views of bytes in it. (A slice of its arrays would be a list of numbers.)
        self._keysyms, self._used = (ctypes.c_uint32 * 31)(), ctypes.c_size_t()
        self._bytes, self._text = memoryview(self._action.bytes), memoryview(self._answer.text)
        # The connection on which the session was used last, by its number.
        self._connection = 0
        self._rest = b""
        # The keysyms that are pending.
        self.pending: Tuple[int, ...] = ()

    @property
    def _number(self) -> Optional[int]:
        return self._client.session if self._client.is_opened == 1 else None

    def deadline(self) -> float:
        """When a call that begins now is given up. Several calls may share it: then they take no longer together."""
        return time.monotonic() + self._service.patience

    def key(self, keysym: int, end: Optional[float] = None) -> Optional[Typed]:
        """Types a key. None: no service was reached, and nothing is pending any more. `end` is a deadline that was taken before."""
        if keysym > GREATEST_KEYSYM or self._run(end, _library.composecheck_client_press, keysym) != VERDICT:
            return None
        self._service.answered()
        answer = self._answer
        return Typed(STATUSES[answer.status], answer.accepted == 1, str(self._text[: answer.text_length], "utf-8"), self.pending)

    def erase(self) -> bool:
        """Takes the last pending key back. False: the service doesn't answer."""
        return self._run(None, _library.composecheck_client_erase) == WAIT

    def reset(self) -> None:
        """Drops what is pending."""
        _library.composecheck_client_drop(self._client)
        self._read_pending()

    def close(self) -> None:
        """Ends the session, if it was opened. A key opens another one."""
        self._run(None, _library.composecheck_client_close)
        self._connection = 0

    def _run(self, end: Optional[float], event: Callable[..., None], *words: int) -> int:
        """Has the library handle an event, and does what it says, until nothing is waited for. Returns the kind of the last action."""
        end = self.deadline() if end is None else end
        if self._connection != self._service.connections or not self._service.is_connected():
            # (another place found that the connection is lost)
            self._event(_library.composecheck_client_lose)
        kind = self._event(event, *words)
        while kind in (SEND, CONNECT) or not _library.composecheck_client_is_idle(self._client):
            if kind == CONNECT:
                kind = self._connected() if self._connects() else self._event(_library.composecheck_client_lose)
            elif kind == SEND and not self._service.send(self._bytes[: self._action.byte_count]):
                kind = self._event(_library.composecheck_client_lose)
            else:
                kind = self._next(end)
        if kind in (ABANDON, CLOSE):
            self._give_up()
        self._read_pending()
        return kind

    def _event(self, event: Callable[..., None], *words: int) -> int:
        event(self._client, *words, self._action)
        return self._action.kind

    def _read_pending(self) -> None:
        count = _library.composecheck_client_pending(self._client, self._keysyms)
        self.pending = tuple(self._keysyms[:count])

    def _connected(self) -> int:
        return self._event(_library.composecheck_client_connected, random.SystemRandom().getrandbits(32))

    def _connects(self) -> bool:
        """Takes the connection that there is, or a new one if this place had it already. False: there is none."""
        if self._connection == self._service.connections:
            self._service.disconnect()
        if not self._service.connect():
            return False
        self._connection, self._rest = self._service.connections, b""
        return True

    def _next(self, end: float) -> int:
        """What to do at the next reply."""
        while not _library.composecheck_client_receive(self._client, self._rest, len(self._rest), self._used, self._action, self._answer):
            came = self._service.read(end)
            if came is None:
                self._service.lost(TimedOut("the service did not go on in time"))
                return self._event(_library.composecheck_client_time_out)
            if not came:
                self._service.lost(ConnectionEnded("the service closed the connection"))
                return self._event(_library.composecheck_client_lose)
            self._rest = came
        self._rest = self._rest[self._used.value:]
        return self._action.kind

    def _give_up(self) -> None:
        """Closes the connection. Bytes that are no reply of the protocol are still held."""
        if not self._service.is_connected():
            return
        if self._client.held_count:
            self._service.lost(UnexpectedReply("the bytes are no reply"))
            return
        self._service.disconnect()
        self._service.tell("the service refuses the session; keys pass")
