"""A client of `composecheck serve`, in one file without dependencies.

    from composecheck_client import Client, Request

    with Client("/run/user/1000/composecheck.socket") as client:
        client.open(7)
        for keysym in (0xFF20, 0x27, 0x65):         # Multi_key apostrophe e
            fed = client.key(7, keysym)
        print(fed.status, fed.text)                 # composed é
        client.exchange([Request.key(7, 0x61), Request.ask(7)], within=0.5)
        client.close_session(7)

A call sends one request and waits for its reply; `exchange` sends several in one write. A request that the service refuses raises the
subclass of `Refused` that says why; a connection that ends before the reply raises `ConnectionEnded`, and a wait that is too long
`TimedOut`. Whatever ends a call before its reply is read closes the connection: the reply may still come, and would be taken for that to
the next request. So each later call raises `ConnectionEnded`, and one connects anew and asks where the session stands. The frames are
those of docs/PROTOCOL.md.
"""
import socket
import struct
import time
from typing import Iterable, List, NamedTuple, Optional, Tuple, Union

OPEN, KEY, RESET, CLOSE, LOAD, ASK, LOAD_LONGEST = range(1, 8)
OPENED, FED, WAS_RESET, CLOSED, LOADED, STATE, REFUSED = 0x81, 0x82, 0x83, 0x84, 0x85, 0x86, 0xFF
STATUSES = ("nothing", "composing", "composed", "cancelled")
HEAD = struct.Struct(">BII")
# No reply has a longer payload: two bytes and the text of a key.
LONGEST_REPLY = 257
# So many bytes of requests are sent before their replies are read, so that neither side waits for the other one to read first.
ONE_WRITE = 16384


class Fed(NamedTuple):
    """What happened at a key: the status after it, whether the key was accepted (a Shift is not), and the text that it committed."""

    status: str
    accepted: bool
    text: str


class State(NamedTuple):
    """A session: its status, and the keysyms that are pending."""

    status: str
    pending: Tuple[int, ...]


class ClientError(Exception):
    """Why a call of the client gave no answer."""


class ConnectionEnded(ClientError):
    """The connection was closed before the reply came, by the service or by an earlier failure. Requests that were answered stand."""


class TimedOut(ClientError):
    """The service didn't go on within the timeout; the connection is closed. The request may be answered all the same, and then stands."""


class UnexpectedReply(ClientError):
    """The bytes that came are not the reply to this request, so the other side is no composecheck service of this version."""


class Refused(ClientError):
    """The service refused the request, and nothing was changed by it."""

    code = 0


class SessionTaken(Refused):
    """Open: a session with this number is open."""

    code = 1


class NoSession(Refused):
    """No session with this number is open."""

    code = 2


class Full(Refused):
    """Open: 4,096 sessions are open."""

    code = 3


class BadKeysym(Refused):
    """Key: the keysym is above 0x1fffffff."""

    code = 4


class BadBundle(Refused):
    """Load: the payload is no bundle."""

    code = 5


class TableRefused(Refused):
    """Load: the table has a fault, or an overlap under the rule that refuses these."""

    code = 6


class CertificateRefused(Refused):
    """Load: the text is no certificate."""

    code = 7


class VerdictNo(Refused):
    """Load: the certificate is not valid for the current table and the new one, or lists fresh keysyms that the service doesn't allow."""

    code = 8


class NoMemory(Refused):
    """The service was out of memory."""

    code = 9


class Malformed(Refused):
    """The bytes that were sent are no request; the service has ended the connection."""

    code = 10


REASONS = {it.code: it for it in Refused.__subclasses__()}


def bundle(sources: Iterable[Tuple[str, bytes]], certificate: bytes) -> bytes:
    """Returns the payload of a load: the sources of a table by their names, the root first, and the text of a certificate."""
    listed = list(sources)
    parts = [struct.pack(">H", len(listed))]
    for name, content in listed:
        encoded = name.encode()
        parts += [struct.pack(">H", len(encoded)), encoded, struct.pack(">I", len(content)), content]
    return b"".join([*parts, struct.pack(">I", len(certificate)), certificate])


class Request(NamedTuple):
    """A request, for `Client.exchange`."""

    kind: int
    session: int
    payload: bytes = b""

    @classmethod
    def open(cls, session: int) -> "Request":
        """To open a session, at rest. Answered by None."""
        return cls(OPEN, session)

    @classmethod
    def key(cls, session: int, keysym: int) -> "Request":
        """To feed a keysym to a session. Answered by a `Fed`."""
        return cls(KEY, session, struct.pack(">I", keysym))

    @classmethod
    def reset(cls, session: int) -> "Request":
        """To put a session to rest. Answered by None."""
        return cls(RESET, session)

    @classmethod
    def close(cls, session: int) -> "Request":
        """To close a session. Answered by None."""
        return cls(CLOSE, session)

    @classmethod
    def ask(cls, session: int) -> "Request":
        """Asks for the state of a session. Answered by a `State`."""
        return cls(ASK, session)

    @classmethod
    def load(cls, sources: Iterable[Tuple[str, bytes]], certificate: bytes, longest: bool = False) -> "Request":
        """To load a table. Answered by the number of loads that were accepted so far."""
        return cls(LOAD_LONGEST if longest else LOAD, 0, bundle(sources, certificate))

    def frame(self) -> bytes:
        """The bytes that are sent."""
        return HEAD.pack(self.kind, self.session, len(self.payload)) + self.payload


Reply = Union[None, Fed, State, int, Refused]


def _nothing(payload: bytes) -> None:
    if payload:
        raise ValueError("a payload where there is none")


def _fed(payload: bytes) -> Fed:
    status, accepted = payload[:2]
    return Fed(STATUSES[status], (False, True)[accepted], payload[2:].decode())


def _state(payload: bytes) -> State:
    status, count = payload[:2]
    return State(STATUSES[status], struct.unpack(f">{count}I", payload[2:]))


def _count(payload: bytes) -> int:
    return struct.unpack(">Q", payload)[0]


def _refused(payload: bytes) -> Refused:
    (code,) = struct.unpack(">H", payload)
    return REASONS.get(code, Refused)(f"refused with code {code}")


# The kind of the reply to a request, and how its payload is read.
ANSWERS = {
    OPEN: (OPENED, _nothing), KEY: (FED, _fed), RESET: (WAS_RESET, _nothing), CLOSE: (CLOSED, _nothing),
    LOAD: (LOADED, _count), ASK: (STATE, _state), LOAD_LONGEST: (LOADED, _count),
}


def _writes(requests: Iterable[Request]) -> Iterable[List[Request]]:
    """The requests in lists, each of which is one write: of as many bytes as `ONE_WRITE`, or of one request that is longer."""
    together: List[Request] = []
    size = 0
    for it in requests:
        length = HEAD.size + len(it.payload)
        if together and size + length > ONE_WRITE:
            yield together
            together, size = [], 0
        together.append(it)
        size += length
    if together:
        yield together


class Client:
    """A connection to a service."""

    def __init__(self, path: str, timeout: Optional[float] = None):
        """Connects to the socket at `path`, or raises an `OSError`.

        `timeout`, in seconds, is how long a call waits for the service to go on; by default it waits forever.
        """
        self._timeout = timeout
        self._socket = socket.socket(socket.AF_UNIX, socket.SOCK_STREAM)
        self._socket.settimeout(timeout)
        try:
            self._socket.connect(path)
        except OSError:
            self._socket.close()
            raise

    def __enter__(self) -> "Client":
        return self

    def __exit__(self, *_) -> None:
        self.disconnect()

    def disconnect(self) -> None:
        """Closes the connection. Sessions stay open in the service."""
        self._socket.close()

    def open(self, session: int) -> None:
        """Opens a session, at rest."""
        self._call(Request.open(session))

    def key(self, session: int, keysym: int) -> Fed:
        """Feeds a keysym to a session."""
        return self._call(Request.key(session, keysym))

    def reset(self, session: int) -> None:
        """Puts a session to rest: nothing is pending in it, and its status is nothing."""
        self._call(Request.reset(session))

    def close_session(self, session: int) -> None:
        """Closes a session."""
        self._call(Request.close(session))

    def ask(self, session: int) -> State:
        """Returns a session's status and what is pending in it."""
        return self._call(Request.ask(session))

    def load(self, sources: Iterable[Tuple[str, bytes]], certificate: bytes, longest: bool = False) -> int:
        """Loads a table, which the certificate has to show to follow the current one, and returns how many loads were accepted so far.

        With `longest`, a sequence that is a proper prefix of another one is left out; else the table is refused for it.
        """
        return self._call(Request.load(sources, certificate, longest))

    def exchange(self, requests: Iterable[Request], within: Optional[float] = None) -> List[Reply]:
        """Sends requests together, and returns for each what it is answered, or the `Refused` that says why it was refused.

        A request that is refused has changed nothing, and those behind it are answered all the same; but for `Malformed`, with which the
        service ends the connection, and which is raised. They go out in one write, or in several where they are longer than `ONE_WRITE`
        bytes: then the replies to a write are read before the next one. With `within`, in seconds, all of it takes no longer, or `TimedOut`
        is raised, however slowly the service goes on.
        """
        end = None if within is None else time.monotonic() + within
        replies: List[Reply] = []
        try:
            for together in _writes(requests):
                self._send(b"".join(it.frame() for it in together), end)
                replies += [self._reply(it, end) for it in together]
        except BaseException as failure:  # (an interrupt, too, leaves a reply that may still come)
            self.disconnect()
            if isinstance(failure, socket.timeout):
                raise TimedOut("the service did not go on in time") from failure
            if isinstance(failure, OSError):
                raise ConnectionEnded("the connection is closed") from failure
            raise
        return replies

    def _call(self, request: Request) -> Reply:
        (reply,) = self.exchange([request])
        if isinstance(reply, Refused):
            raise reply
        return reply

    def _reply(self, request: Request, end: Optional[float]) -> Reply:
        """Reads the reply to a request."""
        head = self._read(HEAD.size, end)
        kind, session, size = HEAD.unpack(head)
        wanted, decode = ANSWERS[request.kind]
        if kind not in (wanted, REFUSED) or size > LONGEST_REPLY:
            raise UnexpectedReply(head.hex())
        payload = self._read(size, end)
        try:
            reply = _refused(payload) if kind == REFUSED else decode(payload)
        except (ValueError, IndexError, struct.error) as failure:
            raise UnexpectedReply((head + payload).hex()) from failure
        if isinstance(reply, Malformed):
            raise reply
        if session != request.session:
            raise UnexpectedReply((head + payload).hex())
        return reply

    def _send(self, frames: bytes, end: Optional[float]) -> None:
        self._wait_until(end)
        try:
            self._socket.sendall(frames)
        except (BrokenPipeError, ConnectionResetError):
            pass  # (what the service sent before it closed may still be read)

    def _read(self, size: int, end: Optional[float]) -> bytes:
        parts, left = [], size
        while left:
            self._wait_until(end)
            part = self._socket.recv(min(left, 65536))
            if not part:
                raise ConnectionEnded("the service closed the connection")
            parts.append(part)
            left -= len(part)
        return b"".join(parts)

    def _wait_until(self, end: Optional[float]) -> None:
        """Has the next step wait no longer than the timeout, and not beyond the end."""
        if end is None:
            self._socket.settimeout(self._timeout)
            return
        left = end - time.monotonic()
        if left <= 0:
            raise socket.timeout
        self._socket.settimeout(left if self._timeout is None else min(left, self._timeout))
