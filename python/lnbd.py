"""An NBD client over liblnbd, a proved library without I/O: Python owns the socket and the loop, the library owns the protocol.

    import lnbd
    with lnbd.Handle() as h:
        h.connect_unix("/tmp/socket")
        print(h.size, h.pread(4096, 0))

A Handle is used by one thread at a time. The calls named as in lnbd.h (`out`, `wrote`, `arrive`, `aio_pread` ..) do no input and output: with them
the loop is the caller's own. The others (`connect_unix`, `pread`, `block_status` ..) wait on the handle's socket until they are done.
"""

from __future__ import annotations

import ctypes
import os
import select
import socket
from ctypes import POINTER, byref, c_bool, c_char_p, c_int32, c_size_t, c_ubyte, c_uint32, c_uint64, c_void_p
from typing import Dict, Iterator, List, NamedTuple, Optional, Tuple, Type, Union

__version__ = "0"
__all__ = [
    "BadRequest", "BadState", "CommandError", "Chunk", "Completed", "Dead", "Error", "Extent", "Extents", "Full", "Handle", "NoCookie", "NotYet",
    "OutOfMemory", "TooMany", "Unsupported", "FLAG_DF", "FLAG_FAST_ZERO", "FLAG_FUA", "FLAG_NO_HOLE", "FLAG_REQ_ONE", "HOLE", "MAX_DATA", "ZERO",
]

CREATED, NEGOTIATING, OPT_MODE, READY, CLOSING, CLOSED, DEAD = range(7)
FLAG_FUA, FLAG_NO_HOLE, FLAG_DF, FLAG_REQ_ONE, FLAG_FAST_ZERO = 1, 2, 4, 8, 16
# Flags of base:allocation.
HOLE, ZERO = 1, 2
# The most bytes of one read or write.
MAX_DATA = 33_554_432
# The most bytes that are asked for at once by block_status: requests without extended headers have 32 bits.
MAX_STATUS = 1 << 31
# The bytes that one read of the socket takes.
RECEIVE = 262_144


class Error(Exception):
    """A call that did not do what it says; `code` is its answer in lnbd.h."""

    code = 0


class OutOfMemory(Error, MemoryError):
    code = -1


class BadState(Error):
    """Not in this state."""

    code = -4


class TooMany(Error, IndexError):
    """More bytes than were lent, or an index past the end."""

    code = -5


class NotYet(Error):
    """The command is in flight, or nothing is told yet."""

    code = -6


class NoCookie(Error, KeyError):
    """No command has this cookie."""

    code = -7


class Unsupported(Error):
    """The server does not offer it, or did not tell it."""

    code = -8


class BadRequest(Error, ValueError):
    """Flags, length, range, alignment or text are not allowed."""

    code = -9


class Full(Error):
    """1,024 commands are not taken, or 16 contexts are asked for."""

    code = -10


class Dead(Error, ConnectionError):
    """The connection is gone."""

    code = -11


class CommandError(OSError):
    """A command that failed, with the number of its NBD error as `errno`."""


_EXCEPTIONS: Dict[int, Type[Error]] = {it.code: it for it in (OutOfMemory, BadState, TooMany, NotYet, NoCookie, Unsupported, BadRequest, Full, Dead)}


class Extent(NamedTuple):
    """So many bytes with these flags of a meta context."""

    length: int
    flags: int


class Extents(NamedTuple):
    """Extents of one meta context that a command was told; the first begins at `offset`."""

    cookie: int
    context: str
    offset: int
    error: int
    extents: List[Extent]


class Chunk(NamedTuple):
    """A piece of a read that a command was told: data 1, a hole 2, an error 3."""

    cookie: int
    offset: int
    length: int
    status: int
    error: int


class Completed(NamedTuple):
    """The result of a command: its NBD error, 0 for none, and its bytes."""

    error: int
    data: bytes


class _Slot(ctypes.Structure):
    _fields_ = [("holds", c_uint32), ("at", c_void_p)]


_BYTES, _SIZE, _U32, _U64 = POINTER(c_ubyte), c_size_t, c_uint32, c_uint64
_LENT = [POINTER(_BYTES), POINTER(_SIZE)]
_TEXT = [c_char_p, _SIZE]
_ISSUED = [POINTER(_U64)]
# Each call behind its handle, with what it takes.
_CALLS: Dict[str, list] = {
    "create": [], "set_export_name": _TEXT, "add_meta_context": _TEXT, "set_request_structured_replies": [c_bool], "set_request_extended_headers": [c_bool],
    "set_opt_mode": [c_bool], "set_strict_mode": [_U32], "get_strict_mode": [POINTER(_U32)], "start": [],
    "aio_get_direction": [], "out": _LENT, "wrote": [_SIZE], "arrive": [c_char_p, _SIZE, POINTER(_SIZE)], "place": _LENT, "placed": [_SIZE], "ended": [], "link_failed": [],
    "state": [], "get_death": [POINTER(_U32)] * 2, "get_size": [POINTER(_U64)], "get_flags": [POINTER(_U32)], "get_block_sizes": [POINTER(_U32)] * 3,
    "get_agreed": [POINTER(_U32)] * 2, "get_canonical_export_name": _LENT, "get_export_description": _LENT, "get_meta_context": [_SIZE, POINTER(_U32), *_LENT],
    "opt_list": [], "opt_info": [], "opt_set_meta_context": [], "opt_go": [], "opt_abort": [], "opt_answer": [POINTER(_U32)] * 2, "get_listed": [_SIZE, *_LENT, *_LENT],
    "aio_pread": [_SIZE, _U64, _U32, *_ISSUED], "aio_pread_structured": [_SIZE, _U64, _U32, *_ISSUED], "aio_pwrite": [c_char_p, _SIZE, _U64, _U32, *_ISSUED],
    "aio_flush": [_U32, *_ISSUED], "aio_trim": [_U64, _U64, _U32, *_ISSUED], "aio_zero": [_U64, _U64, _U32, *_ISSUED], "aio_cache": [_U64, _U64, _U32, *_ISSUED],
    "aio_block_status": [_U64, _U64, _U32, *_ISSUED], "aio_disconnect": [], "aio_in_flight": [POINTER(_SIZE)], "aio_peek_command_completed": _ISSUED,
    "aio_command_completed": [_U64, POINTER(_U32), *_LENT], "failure": [_U64, POINTER(_U32), POINTER(_U32)],
    "get_extents": [_SIZE, POINTER(_U64), *_LENT, POINTER(_U64), POINTER(_U32), POINTER(_SIZE)], "get_extent": [_SIZE, _SIZE, POINTER(_U64), POINTER(_U64)], "clear_extents": [],
    "get_chunk": [_SIZE, POINTER(_U64), POINTER(_U64), POINTER(_U64), POINTER(_U32), POINTER(_U32)], "clear_chunks": [],
}
_LIBRARY: Optional[ctypes.CDLL] = None


def _library() -> ctypes.CDLL:
    """liblnbd: that of LNBD_LIBRARY, a path, or else liblnbd.so.0 as the system finds it."""
    global _LIBRARY
    if _LIBRARY is None:
        library = ctypes.CDLL(os.environ.get("LNBD_LIBRARY") or "liblnbd.so.0")
        for name, takes in _CALLS.items():
            call = getattr(library, "lnbd_" + name)
            call.argtypes, call.restype = [POINTER(_Slot), *takes], c_int32
        library.lnbd_close.argtypes, library.lnbd_close.restype = [POINTER(_Slot)], None
        _LIBRARY = library
    return _LIBRARY


class Handle:
    """One connection, from its making to `close`."""

    def __init__(self) -> None:
        self._slot = _Slot()
        self._library = _library()
        self._socket: Optional[socket.socket] = None
        self._call("create")

    def __enter__(self) -> Handle:
        return self

    def __exit__(self, kind: object, value: object, trace: object) -> None:
        if kind is None and self._socket is not None and self.state == READY:
            self.shutdown()
        self.close()

    def __del__(self) -> None:
        if getattr(self, "_library", None) is not None:
            self.close()

    def close(self) -> None:
        """Closes the handle and its socket, whatever is in flight. It may be called again."""
        self._library.lnbd_close(self._slot)
        if self._socket is not None:
            self._socket.close()
            self._socket = None

    def _call(self, name: str, *takes: object) -> int:
        code = getattr(self._library, "lnbd_" + name)(self._slot, *takes)
        if code < 0:
            raise self._why(code, name)
        return code

    def _why(self, code: int, name: str) -> Error:
        text = name
        kind = _EXCEPTIONS.get(code, Error)
        if kind is Dead:
            death = self.death
            text = f"{name}: the connection is gone, {death}" if death else name
        error = kind(text)
        error.code = code
        return error

    def _lent(self, name: str, *takes: object) -> bytes:
        at, n = _BYTES(), _SIZE()
        self._call(name, *takes, byref(at), byref(n))
        return ctypes.string_at(at, n.value)

    # ---- Before the start

    def set_export_name(self, name: str) -> None:
        text = name.encode()
        self._call("set_export_name", text, len(text))

    def add_meta_context(self, name: str) -> None:
        text = name.encode()
        self._call("add_meta_context", text, len(text))

    def set_request_structured_replies(self, on: bool) -> None:
        self._call("set_request_structured_replies", on)

    def set_request_extended_headers(self, on: bool) -> None:
        self._call("set_request_extended_headers", on)

    def set_opt_mode(self, on: bool) -> None:
        self._call("set_opt_mode", on)

    @property
    def strict_mode(self) -> int:
        bits = _U32()
        self._call("get_strict_mode", byref(bits))
        return bits.value

    @strict_mode.setter
    def strict_mode(self, bits: int) -> None:
        self._call("set_strict_mode", _bits(bits))

    def start(self) -> None:
        self._call("start")

    # ---- The loop

    @property
    def direction(self) -> int:
        """0 for nothing, 1 to read, 3 to read and write."""
        return self._call("aio_get_direction")

    def out(self) -> bytes:
        """The first of the bytes that wait to be written."""
        return self._lent("out")

    def wrote(self, n: int) -> None:
        self._call("wrote", _whole(n))

    def arrive(self, data: bytes) -> None:
        """Hands in bytes that were read."""
        taken = _SIZE()
        while True:
            try:
                return void(self._call("arrive", data, len(data), byref(taken)))
            except OutOfMemory:
                if taken.value == 0:
                    raise
                data = data[taken.value :]

    def ended(self) -> None:
        self._call("ended")

    def link_failed(self) -> None:
        self._call("link_failed")

    # ---- Where it stands

    @property
    def state(self) -> int:
        return self._call("state")

    @property
    def death(self) -> Optional[Tuple[int, int]]:
        """Why the connection is gone: a breach of the protocol 0, a refusal 1, an end 2, the link 3; and the number of the breach or the refusal."""
        kind, detail = _U32(), _U32()
        try:
            self._call("get_death", byref(kind), byref(detail))
        except BadState:
            return None
        return kind.value, detail.value

    @property
    def size(self) -> int:
        size = _U64()
        self._call("get_size", byref(size))
        return size.value

    @property
    def flags(self) -> int:
        flags = _U32()
        self._call("get_flags", byref(flags))
        return flags.value

    @property
    def block_sizes(self) -> Tuple[int, int, int]:
        """The minimum, the preferred and the maximum, in bytes."""
        sizes = _U32(), _U32(), _U32()
        self._call("get_block_sizes", *map(byref, sizes))
        return sizes[0].value, sizes[1].value, sizes[2].value

    @property
    def agreed(self) -> Tuple[bool, bool]:
        """Whether structured replies and extended headers are on."""
        structured, extended = _U32(), _U32()
        self._call("get_agreed", byref(structured), byref(extended))
        return bool(structured.value), bool(extended.value)

    @property
    def canonical_export_name(self) -> str:
        return self._lent("get_canonical_export_name").decode()

    @property
    def export_description(self) -> str:
        return self._lent("get_export_description").decode()

    def meta_contexts(self) -> Dict[str, int]:
        """The meta contexts that are agreed, with their numbers."""
        found: Dict[str, int] = {}
        number = _U32()
        try:
            while True:
                found[self._lent("get_meta_context", len(found), byref(number)).decode()] = number.value
        except TooMany:
            return found

    # ---- Opt mode

    def opt_list(self) -> None:
        self._call("opt_list")

    def opt_info(self) -> None:
        self._call("opt_info")

    def opt_set_meta_context(self) -> None:
        self._call("opt_set_meta_context")

    def opt_go(self) -> None:
        self._call("opt_go")

    def opt_abort(self) -> None:
        self._call("opt_abort")

    def opt_answer(self) -> Tuple[int, int]:
        """The option that was refused with its code, or (0, 0)."""
        option, refusal = _U32(), _U32()
        self._call("opt_answer", byref(option), byref(refusal))
        return option.value, refusal.value

    def listed(self) -> List[Tuple[str, str]]:
        """The names and descriptions that the server listed last."""
        found: List[Tuple[str, str]] = []
        name, n, about, m = _BYTES(), _SIZE(), _BYTES(), _SIZE()
        try:
            while True:
                self._call("get_listed", len(found), byref(name), byref(n), byref(about), byref(m))
                found.append((ctypes.string_at(name, n.value).decode(), ctypes.string_at(about, m.value).decode()))
        except TooMany:
            return found

    # ---- Commands without waiting: each tells its cookie

    def _issue(self, name: str, *takes: object) -> int:
        cookie = _U64()
        self._call(name, *takes, byref(cookie))
        return cookie.value

    def aio_pread(self, count: int, offset: int, flags: int = 0) -> int:
        return self._issue("aio_pread", _whole(count), _whole(offset), _bits(flags))

    def aio_pread_structured(self, count: int, offset: int, flags: int = 0) -> int:
        return self._issue("aio_pread_structured", _whole(count), _whole(offset), _bits(flags))

    def aio_pwrite(self, data: bytes, offset: int, flags: int = 0) -> int:
        return self._issue("aio_pwrite", bytes(data), len(data), _whole(offset), _bits(flags))

    def aio_flush(self, flags: int = 0) -> int:
        return self._issue("aio_flush", _bits(flags))

    def aio_trim(self, count: int, offset: int, flags: int = 0) -> int:
        return self._issue("aio_trim", _whole(count), _whole(offset), _bits(flags))

    def aio_zero(self, count: int, offset: int, flags: int = 0) -> int:
        return self._issue("aio_zero", _whole(count), _whole(offset), _bits(flags))

    def aio_cache(self, count: int, offset: int, flags: int = 0) -> int:
        return self._issue("aio_cache", _whole(count), _whole(offset), _bits(flags))

    def aio_block_status(self, count: int, offset: int, flags: int = 0) -> int:
        return self._issue("aio_block_status", _whole(count), _whole(offset), _bits(flags))

    def aio_disconnect(self) -> None:
        self._call("aio_disconnect")

    # ---- Results

    @property
    def in_flight(self) -> int:
        count = _SIZE()
        self._call("aio_in_flight", byref(count))
        return count.value

    def peek(self) -> Optional[int]:
        """The cookie of the command that completed first and is not taken."""
        cookie = _U64()
        try:
            self._call("aio_peek_command_completed", byref(cookie))
        except (NotYet, NoCookie):
            return None
        return cookie.value

    def command_completed(self, cookie: int) -> Completed:
        """Takes the result of a command."""
        error = _U32()
        data = self._lent("aio_command_completed", _whole(cookie), byref(error))
        return Completed(error.value, data)

    def failure(self, cookie: int) -> Tuple[int, int]:
        """The first error of a completed command that is not taken, and where it came from: told 1, content 2, memory 3, the connection lost 4."""
        error, origin = _U32(), _U32()
        self._call("failure", _whole(cookie), byref(error), byref(origin))
        return error.value, origin.value

    def extents(self) -> Iterator[Extents]:
        """What commands were told and is not cleared, the earliest first."""
        cookie, context, n, offset, error, count = _U64(), _BYTES(), _SIZE(), _U64(), _U32(), _SIZE()
        length, flags = _U64(), _U64()
        index = 0
        while True:
            try:
                self._call("get_extents", index, byref(cookie), byref(context), byref(n), byref(offset), byref(error), byref(count))
            except TooMany:
                return
            name = ctypes.string_at(context, n.value).decode()
            found = []
            for place in range(count.value):
                self._call("get_extent", index, place, byref(length), byref(flags))
                found.append(Extent(length.value, flags.value))
            yield Extents(cookie.value, name, offset.value, error.value, found)
            index += 1

    def clear_extents(self) -> None:
        self._call("clear_extents")

    def chunks(self) -> Iterator[Chunk]:
        """The pieces that reads by `aio_pread_structured` were told and that are not cleared, the earliest first."""
        cookie, offset, length, status, error = _U64(), _U64(), _U64(), _U32(), _U32()
        index = 0
        while True:
            try:
                self._call("get_chunk", index, byref(cookie), byref(offset), byref(length), byref(status), byref(error))
            except TooMany:
                return
            yield Chunk(cookie.value, offset.value, length.value, status.value, error.value)
            index += 1

    def clear_chunks(self) -> None:
        self._call("clear_chunks")

    # ---- With a socket

    def connect(self, link: socket.socket) -> None:
        """Starts over this connected socket, which is the handle's from now on, and waits until commands may be issued, or opt mode is reached."""
        link.setblocking(False)
        self._socket = link
        self.start()
        while self.state == NEGOTIATING and self.turn():
            pass
        if self.state not in (READY, OPT_MODE):
            raise self._why(Dead.code, "connect")

    def connect_unix(self, path: Union[str, os.PathLike[str]]) -> None:
        link = socket.socket(socket.AF_UNIX)
        link.connect(os.fspath(path))
        self.connect(link)

    def connect_tcp(self, host: str, port: int = 10809) -> None:
        link = socket.create_connection((host, port))
        link.setsockopt(socket.IPPROTO_TCP, socket.TCP_NODELAY, 1)
        self.connect(link)

    def fileno(self) -> int:
        """The socket's, for a selector."""
        return self._connected().fileno()

    def _connected(self) -> socket.socket:
        if self._socket is None:
            raise BadState("there is no socket")
        return self._socket

    def write_out(self) -> None:
        """Writes what waits, as far as the socket takes it."""
        link = self._connected()
        while data := self.out():
            try:
                self.wrote(link.send(data))
            except BlockingIOError:
                return
            except OSError:
                return self.link_failed()

    def read_in(self) -> None:
        """Reads once what came."""
        try:
            data = self._connected().recv(RECEIVE)
        except BlockingIOError:
            return
        except ConnectionResetError:
            return self.ended()
        except OSError:
            return self.link_failed()
        self.arrive(data) if data else self.ended()

    def turn(self, timeout: Optional[float] = None) -> bool:
        """Writes what waits, waits until something may be done, and reads what came. False once nothing may be read or written any more."""
        self.write_out()
        direction = self.direction
        if direction == 0:
            return False
        link = self._connected()
        ready, _, _ = select.select([link], [link] if direction == 3 else [], [], timeout)
        if ready:
            self.read_in()
        return True

    def wait(self, cookie: int) -> bytes:
        """Takes the result of a command once it has completed."""
        while True:
            try:
                failure = None
                try:
                    failure = self.failure(cookie)
                except NoCookie:
                    pass
                done = self.command_completed(cookie)
            except NotYet:
                if not self.turn():
                    raise self._why(Dead.code, "wait") from None
                continue
            if done.error:
                origin = {1: "told by the server", 2: "no lawful answer", 3: "no memory", 4: "the connection was lost"}.get(failure[1] if failure else 0, "")
                raise CommandError(done.error, f"{os.strerror(done.error)}: {origin}")
            return done.data

    def pread(self, count: int, offset: int, flags: int = 0) -> bytes:
        return self.wait(self.aio_pread(count, offset, flags))

    def pwrite(self, data: bytes, offset: int, flags: int = 0) -> None:
        self.wait(self.aio_pwrite(data, offset, flags))

    def flush(self) -> None:
        self.wait(self.aio_flush())

    def trim(self, count: int, offset: int, flags: int = 0) -> None:
        self.wait(self.aio_trim(count, offset, flags))

    def zero(self, count: int, offset: int, flags: int = 0) -> None:
        self.wait(self.aio_zero(count, offset, flags))

    def cache(self, count: int, offset: int, flags: int = 0) -> None:
        self.wait(self.aio_cache(count, offset, flags))

    def block_status(self, count: int, offset: int, flags: int = 0) -> Dict[str, List[Extent]]:
        """What a range consists of, by meta context, from `offset` on; a server may tell less, or more, than was asked for."""
        self.clear_extents()
        cookie = self.aio_block_status(count, offset, flags)
        self.wait(cookie)
        told: Dict[str, List[Extent]] = {}
        for it in self.extents():
            if it.cookie == cookie:
                told.setdefault(it.context, []).extend(it.extents)
        self.clear_extents()
        return told

    def allocation(self, context: str = "base:allocation") -> Iterator[Tuple[int, Extent]]:
        """Each extent of the whole export, with its offset."""
        at, size = 0, self.size
        while at < size:
            start = at
            for extent in self.block_status(min(size - at, MAX_STATUS), at).get(context, []):
                length = min(extent.length, size - at)
                yield at, Extent(length, extent.flags)
                at += length
            if at == start:
                raise Unsupported(f"nothing was told of {context} at {at}")

    def shutdown(self) -> None:
        """Asks for the end and waits for it; replies to commands in flight still come."""
        self.aio_disconnect()
        while self.turn():
            pass


def void(_: object) -> None:
    return None


def _whole(number: int) -> int:
    """A count, an offset or a cookie: ctypes would cut one that 64 bits do not hold."""
    if not 0 <= number < 1 << 64:
        raise BadRequest(f"{number} is no number of 64 bits")
    return number


def _bits(number: int) -> int:
    """Flags, which have 32 bits."""
    if not 0 <= number < 1 << 32:
        raise BadRequest(f"{number} are no flags of 32 bits")
    return number
