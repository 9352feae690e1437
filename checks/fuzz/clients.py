"""Clients of `lnbd serve`: one that keeps to the protocol, and hostile ones; and what is asked of what they are answered."""

import os
import random
import signal
import socket
import struct
import tempfile
import time

import judge
import wire
from runs import LONGEST, MOST_MEMORY, Ran, reset

PATIENCE = 10
PERM, INVAL, NOSPC = 1, 22, 28
ALLOWED = {wire.WRITE: wire.FUA, wire.TRIM: wire.FUA, wire.WRITE_ZEROES: wire.FUA | wire.NO_HOLE, wire.BLOCK_STATUS: wire.REQ_ONE}


def contents(seed, size):
    """What the page of serve says that an export of this seed holds."""
    made = bytearray()
    for block in range((size + 4095) // 4096):
        number = (2 * seed + 1) * (block + 1) * 2654435761 % 2**32
        made += bytes(4096) if number < 2**30 else bytes((number // 256 + at) % 256 for at in range(256)) * 16
    return bytes(made[:size])


class Unlawful(Exception):
    """What the server sent is not what this client may be sent."""


class Client:
    """A connection to the server, with its handshake done as drawn."""

    def __init__(self, address, rng):
        self.rng, self.link = rng, socket.socket(socket.AF_INET if isinstance(address, tuple) else socket.AF_UNIX)
        self.link.settimeout(PATIENCE)
        self.link.connect(address)
        self.structured = self.extended = self.context = self.was_reset = False

    def exactly(self, count):
        data = bytearray()
        while len(data) < count:
            part = self.link.recv(count - len(data))
            if not part:
                raise Unlawful(f"the server ended the connection where {count - len(data)} bytes were to come")
            data += part
        return bytes(data)

    def hello(self, flags=3):
        if self.exactly(18) != wire.HELLO + wire.OPTION_MAGIC + struct.pack(">H", 3):
            raise Unlawful("the hello is another")
        self.link.sendall(struct.pack(">I", flags))

    def ask(self, option, body=b""):
        """Sends an option; the type of its last reply."""
        self.link.sendall(wire.option_request(option, body))
        while True:
            magic, told, kind, length = struct.unpack(">QIII", self.exactly(20))
            if (magic, told) != (wire.OPTION_REPLY_MAGIC, option):
                raise Unlawful(f"option {option} is answered by {magic:x} {told}")
            self.exactly(length)
            if kind == wire.ACK or kind & 2**31:
                return kind

    def options(self, mode, name=b"x"):
        """The handshake up to transmission."""
        self.hello()
        if mode == "extended" and self.ask(wire.EXTENDED_HEADERS) == wire.ACK:
            self.extended = self.structured = True
        if mode == "structured" and self.ask(wire.STRUCTURED_REPLY) == wire.ACK:
            self.structured = True
        if self.structured and self.rng.random() < 0.8:
            query = b"base:allocation"
            body = struct.pack(">I", len(name)) + name + struct.pack(">II", 1, len(query)) + query
            self.context = self.ask(wire.SET_META_CONTEXT, body) == wire.ACK
        if self.ask(wire.GO, struct.pack(">I", len(name)) + name + struct.pack(">HH", 1, 3)) != wire.ACK:
            raise Unlawful("GO is refused")

    def request(self, kind, cookie, offset, length, flags=0, data=b""):
        if self.extended and kind == wire.WRITE:
            flags |= 32
        return wire.request(self.extended, kind, cookie, offset, length, flags) + data

    def rest(self):
        """All that the server sends until it ends the connection, which resets it where bytes came that it didn't read."""
        data = bytearray()
        try:
            while part := self.link.recv(1 << 18):
                data += part
        except ConnectionResetError:
            self.was_reset = True
        return data


class Good(Client):
    """The client beside the hostile ones: it reads, and where it may it writes and reads back."""

    def __init__(self, address, rng, held, read_only):
        super().__init__(address, rng)
        self.options("structured")
        self.held, self.read_only, self.cookie = held, read_only, 0

    def exchange(self, kind, offset, length, data=b""):
        self.cookie += 1
        self.link.sendall(self.request(kind, self.cookie, offset, length, data=data))
        sent = bytearray()
        while True:
            sent += self.link.recv(1 << 16) or b""
            reading = judge.Reading(sent, {self.cookie: (kind, 0, offset, length)}, True, False, {1})
            command = reading.commands[self.cookie]
            if reading.breach or command.done and command.error:
                raise Unlawful(f"the good client's request is answered by {reading.breach or command.error}")
            if command.done:
                return bytes(command.data)

    def served(self):
        """Whether this client is served as it should be."""
        rng, size = self.rng, len(self.held)
        offset = rng.randrange(size)
        length = min(rng.choice((1, 100, 5000)), size - offset)
        if self.read_only:
            return self.exchange(wire.READ, offset, length) == self.held[offset:offset + length]
        # (a write of a hostile client may come between)
        for _ in range(3):
            data = rng.randbytes(length)
            self.exchange(wire.WRITE, offset, length, data)
            if self.exchange(wire.READ, offset, length) == data:
                return True
        return False


class Hostile(Client):
    """A client that asks what it likes. `play` ends its connection or leaves it open, and says what was wrong; `broke` is whether its bytes were no client's, where that is known."""

    def __init__(self, address, rng, held, read_only):
        super().__init__(address, rng)
        self.held, self.read_only, self.broke = held, read_only, None

    def play(self):
        how = self.rng.choice(("leaves", "half", "options", "garbage", "requests", "requests", "requests", "unread", "mutated"))
        return getattr(self, how)()

    def leaves(self):
        """Leaves in the middle of nothing."""
        self.broke = False
        reset(self.link) if self.rng.random() < 0.5 else self.link.close()
        return ""

    def half(self):
        """Leaves in the middle of a lawful handshake or request."""
        rng, name = self.rng, b"x"
        all_bytes = struct.pack(">I", 3) + wire.option_request(wire.GO, struct.pack(">I", 1) + name + struct.pack(">H", 0)) + self.request(wire.WRITE, 1, 0, 100, 0, bytes(100))
        cut = rng.randrange(len(all_bytes))
        for at in range(cut) if rng.random() < 0.3 else ():
            self.link.sendall(all_bytes[at:at + 1])
        self.link.sendall(all_bytes[:cut]) if cut else None
        reset(self.link) if rng.random() < 0.5 else self.link.close()
        return ""

    def options(self, mode=None, name=b"x"):
        if mode is not None:
            return super().options(mode, name)
        rng = self.rng
        self.hello()
        for _ in range(rng.randrange(1, 12)):
            option = rng.choice((2, 3, 4, 5, 6, 6, 8, 9, 10, 11, 12, 0, 99, 2**32 - 1))
            name = rng.choice((b"x", b"x", b"", b"y", b"\xff", b"x" * 4097))
            body = struct.pack(">I", len(name)) + name + struct.pack(">H", 0) if option in (6, 10) else rng.choice((b"", b"", rng.randbytes(9)))
            kind = self.ask(option, body)
            if option == wire.ABORT and kind == wire.ACK:
                break
        self.link.close()
        return ""

    def garbage(self):
        try:
            self.link.sendall(self.rng.randbytes(self.rng.choice((1, 4, 16, 100, 3000))))
            self.link.shutdown(socket.SHUT_WR)
            self.rest()
        except ConnectionError:
            pass
        self.link.close()
        return ""

    def expected(self, kind, flags, offset, length):
        """The error by which the page of serve has this request answered."""
        size = len(self.held)
        allowed = ALLOWED.get(kind, wire.DF if kind == wire.READ and self.structured else 0)
        if kind not in (wire.READ, wire.WRITE, wire.FLUSH, wire.TRIM, wire.CACHE, wire.WRITE_ZEROES, wire.BLOCK_STATUS) or flags & ~allowed:
            return INVAL
        if kind == wire.READ and length > wire.MOST_READ or kind == wire.BLOCK_STATUS and (length == 0 or not self.context):
            return INVAL
        if self.read_only and kind in (wire.WRITE, wire.TRIM, wire.WRITE_ZEROES):
            return PERM
        if kind != wire.FLUSH and offset + length > size:
            return NOSPC if kind in (wire.WRITE, wire.WRITE_ZEROES) else INVAL
        return 0

    def drawn(self, cookie):
        """A request, as its fields."""
        rng, size = self.rng, len(self.held)
        kind = rng.choice((0, 0, 0, 1, 3, 4, 5, 6, 7, 7, 8, 99))
        flags = rng.choice((0, 0, 0, 0, 1, 2, 4, 8, 16, 0x8000, 3))
        offset = rng.choice((0, 1, size - 1, size, rng.randrange(size), 2**63, 2**64 - 1))
        length = rng.choice((0, 1, 100, 4096, size - min(offset, size), 33554433, 2**32 - 1))
        if kind == wire.WRITE:
            length = min(length, 5000)
        return kind, flags, offset, 0 if kind == wire.FLUSH else length

    def requests(self):
        """Lawful records whatever they ask, each answered by the page; then DISC, or garbage behind which nothing more is answered."""
        rng = self.rng
        self.options(rng.choice(("simple", "structured", "extended")))
        asked, data = {}, b""
        for cookie in range(1, rng.choice((2, 5, 20))):
            kind, flags, offset, length = self.drawn(cookie)
            # (an error of a read has no bytes behind it, so a request without end is asked of all three)
            asked[cookie] = (kind, flags, offset, length)
            data += self.request(kind, cookie, offset, length, flags, rng.randbytes(length) if kind == wire.WRITE else b"")
        self.broke = rng.random() < 0.3
        data += struct.pack(">I", 0xDEADBEEF) + bytes(28) if self.broke else self.request(wire.DISC, 0, 0, 0)
        self.send_in_parts(data)
        sent = self.rest()
        self.link.close()
        # (a reset over TCP takes with it what was not read yet)
        return "" if self.was_reset and self.link.family == socket.AF_INET else self.judged(sent, asked)

    def send_in_parts(self, data):
        """(what comes behind bytes that were no client's may find the link shut)"""
        cut = self.rng.choice((len(data), len(data), self.rng.randrange(len(data) + 1)))
        try:
            self.link.sendall(data[:cut])
            self.link.sendall(data[cut:])
        except ConnectionError:
            pass

    def judged(self, sent, asked):
        reads = {cookie: (kind, flags, offset, length if length <= wire.MOST_READ else 0) for cookie, (kind, flags, offset, length) in asked.items()}
        reading = judge.Reading(sent, reads, self.structured, self.extended, {1} if self.context else set())
        if reading.breach or reading.at != len(sent):
            return f"what it sent shows {reading.breach or 'a part of a reply'}"
        for cookie, request in asked.items():
            command = reading.commands[cookie]
            if not command.done or command.error != self.expected(*request):
                return f"request {request} has the error {command.error if command.done else 'of no answer'} in place of {self.expected(*request)}"
            if request[0] == wire.READ and not command.error and self.read_only and bytes(command.data) != self.held[request[2]:request[2] + request[3]]:
                return f"request {request} is answered by other bytes"
        return ""

    def unread(self):
        """Asks for much, reads nothing and leaves."""
        self.options(self.rng.choice(("simple", "structured", "extended")))
        self.broke = False
        for cookie in range(self.rng.choice((1, 20, 200))):
            self.link.sendall(self.request(wire.READ, cookie, 0, len(self.held)))
        reset(self.link) if self.rng.random() < 0.5 else self.link.close()
        return ""

    def mutated(self):
        """Lawful bytes, of which some bits are others."""
        rng = self.rng
        name, query = b"x", b"base:allocation"
        data = bytearray(struct.pack(">I", 3))
        data += wire.option_request(wire.STRUCTURED_REPLY)
        data += wire.option_request(wire.SET_META_CONTEXT, struct.pack(">I", 1) + name + struct.pack(">II", 1, len(query)) + query)
        data += wire.option_request(wire.GO, struct.pack(">I", 1) + name + struct.pack(">H", 0))
        for cookie in range(5):
            kind, flags, offset, length = self.drawn(cookie)
            data += self.request(kind, cookie, offset, length, flags, rng.randbytes(length) if kind == wire.WRITE else b"")
        for _ in range(rng.choice((1, 3, 10))):
            data[rng.randrange(len(data))] ^= 1 << rng.randrange(8)
        try:
            self.link.sendall(data)
            self.link.shutdown(socket.SHUT_WR)
            self.rest()
        except ConnectionError:
            pass
        self.link.close()
        return ""


class Serving:
    """`lnbd serve` with a good client and hostile ones, until as many as it was told have left."""

    def __init__(self, rng, folder):
        self.rng = rng
        self.size, self.seed, self.read_only = rng.choice((1, 4096, 65536, 100000)), rng.randrange(9), rng.random() < 0.5
        self.held = contents(self.seed, self.size)
        self.hostile = rng.choice((1, 2, 5))
        self.path, self.address = f"{folder}/served", None
        self.status = None

    def start(self, program):
        rng = self.rng
        if rng.random() < 0.2:
            with socket.socket() as free:
                free.bind(("127.0.0.1", 0))
                port = free.getsockname()[1]
            place, self.address = f"nbd://127.0.0.1:{port}/x", ("127.0.0.1", port)
        else:
            place, self.address = f"nbd+unix:///x?socket={self.path}", self.path
        words = ["serve", place, "--size", str(self.size), "--seed", str(self.seed), "--sessions", str(self.hostile + 1)] + ["--read-only"] * self.read_only
        lines, told = os.pipe()
        self.err = tempfile.TemporaryFile(dir="/dev/shm")
        actions = [(os.POSIX_SPAWN_DUP2, told, 1), (os.POSIX_SPAWN_DUP2, self.err.fileno(), 2)]
        self.child = os.posix_spawn(program, [program, *words], {"PATH": "/usr/bin:/bin"}, file_actions=actions, setsigdef=[signal.SIGPIPE])
        os.close(told)
        self.out = os.fdopen(lines, "rb")
        return self.out.readline() == b"serving %d\n" % self.size

    def play(self, program):
        began = time.monotonic()
        wrong, broken, held_open = "", [], []
        if not self.start(program):
            wrong = "it does not serve"
        else:
            try:
                good = Good(self.address, random.Random(self.rng.random()), self.held, self.read_only)
                for _ in range(self.hostile):
                    one = Hostile(self.address, self.rng, self.held, self.read_only)
                    wrong = wrong or one.play()
                    broken.append(one.broke)
                    held_open.append(one)
                    if not good.served():
                        wrong = wrong or "the good client was not served"
                good.link.close()
            except (OSError, Unlawful) as fault:
                wrong = wrong or f"{type(fault).__name__}: {fault}"
        ran = self.finish(began, wrong)
        return wrong or self.ends_well(ran, broken)

    def finish(self, began, wrong):
        if wrong:
            os.kill(self.child, signal.SIGKILL)
        while not wrong:
            done, status, used = os.wait4(self.child, os.WNOHANG)
            if done:
                break
            if time.monotonic() - began > LONGEST:
                os.kill(self.child, signal.SIGKILL)
            time.sleep(0.0005)
        else:
            _, status, used = os.wait4(self.child, 0)
        self.err.seek(0)
        ran = Ran(os.waitstatus_to_exitcode(status), self.out.read(), self.err.read(), used.ru_maxrss, time.monotonic() - began)
        self.out.close()
        self.err.close()
        if os.path.exists(self.path):
            os.unlink(self.path)
        self.status = ran.status
        return ran

    def ends_well(self, ran, broken):
        lines = {0: b"", 4: b"lnbd: peer broke Client\n"}
        if ran.status not in lines or ran.err != lines[ran.status] or ran.out != b"sessions %d\n" % (self.hostile + 1):
            return f"it ended with {ran.status} after {ran.seconds:.1f} s, '{ran.out}' and '{ran.err}'"
        if ran.memory > MOST_MEMORY + self.size // 1024:
            return f"it took {ran.memory} KiB"
        if True in broken and ran.status == 0 or all(one is False for one in broken) and ran.status == 4:
            return f"it ended with {ran.status}, and of its clients {broken} broke the protocol"
        return ""
