"""An NBD server that serves a file to many clients and misbehaves on purpose, for the checks of copies.

    peer.py SOCKET FILE [SETTING=VALUE ..]

It listens at the Unix socket SOCKET. What is written goes into FILE.

mode=simple, structured or extended  the most that it agrees to (structured)
sizes=, flags=, blocks=              what the first connection is told, the second, and so on, divided by commas; the last counts for all further
                                     ones. Blocks are MINIMUM:PREFERRED:MAXIMUM; without them none are told
extents=data, exact or exact:N       all is data (the default); or pieces of N bytes (512), zeros told as such
handshake=NAME                       this fault in each handshake, from connection `since` (1) on
fault=KIND:N:NAME                    the Nth READ, WRITE or STATUS of all connections has this fault
log=PATH                             `came KIND OFFSET LENGTH` for each command, and `done ..` as soon as its right answer goes out; `came LINK N 0` for
                                     connection N, from 0, and `came DISC 0 0`
"""

import mmap
import os
import socket
import struct
import sys
import threading

OPTION_REPLY = 0x0003E889045565A9
INFO, GO, STRUCTURED, SET_CONTEXT, EXTENDED = 6, 7, 8, 10, 11
ACK, TOLD, CONTEXT, UNSUP, INVALID, UNKNOWN = 1, 3, 4, 2**31 + 1, 2**31 + 3, 2**31 + 6
READ, WRITE, DISC, FLUSH, TRIM, ZEROES, STATUS = 0, 1, 2, 3, 4, 6, 7
NAMES = {READ: "READ", WRITE: "WRITE", FLUSH: "FLUSH", TRIM: "TRIM", ZEROES: "ZEROES", STATUS: "STATUS"}
NONE, DATA, HOLE, EXTENTS, EXTENTS_EXT, ERROR = 0, 1, 2, 5, 6, 32769
SIMPLE_MAGIC, CHUNK_MAGIC, EXTENDED_MAGIC = 0x67446698, 0x668E33EF, 0x6E8A278C
# HAS_FLAGS, SEND_FLUSH, SEND_FUA, SEND_TRIM, SEND_WRITE_ZEROES, CAN_MULTI_CONN
FLAGS = 0x16D


class Gone(Exception):
    """The connection is over."""


class Peer:
    """What all connections share."""

    def __init__(self, path, settings):
        self.settings = settings
        self.file = open(path, "r+b")
        self.size = os.path.getsize(path)
        self.disk = mmap.mmap(self.file.fileno(), self.size)
        self.lock = threading.Lock()
        self.counts = {}
        kind, number, name = settings.get("fault", "-:0:-").split(":")
        self.fault = (kind, int(number), name)
        self.log = os.open(settings["log"], os.O_WRONLY | os.O_APPEND | os.O_CREAT) if "log" in settings else None

    def nth(self, setting, connection, default):
        """What this setting tells the connection, the first of which is 0."""
        told = self.settings.get(setting, default).split(",")
        return told[min(connection, len(told) - 1)]

    def note(self, word, name, offset, length):
        if self.log is not None:
            os.write(self.log, f"{word} {name} {offset} {length}\n".encode())

    def fault_of(self, kind):
        """The name of the fault that this command has, one more of its kind, or nothing."""
        with self.lock:
            self.counts[kind] = self.counts.get(kind, 0) + 1
            wanted, number, name = self.fault
            return name if NAMES[kind] == wanted and (self.counts[kind] == number or name == "silent" and self.counts[kind] > number) else ""

    def pieces(self, offset, length):
        """The extents of this range, as (length, flags)."""
        rule, _, step = self.settings.get("extents", "data").partition(":")
        if rule == "data":
            return [(length, 0)]
        step, told, at = int(step or 512), [], offset
        while at < offset + length and len(told) < 20000:
            end = min((at // step + 1) * step, offset + length)
            told.append((end - at, 0 if any(self.disk[at:end]) else 3))
            at = end
        return told


class Client:
    """One connection."""

    def __init__(self, peer, link, number):
        self.peer, self.link, self.number = peer, link, number
        self.mode = "simple"
        self.lock = threading.Lock()

    def exactly(self, count):
        """The next bytes of the client, so many."""
        taken = bytearray()
        while len(taken) < count:
            part = self.link.recv(min(count - len(taken), 1 << 20))
            if not part:
                raise Gone
            taken += part
        return bytes(taken)

    def leave(self):
        """Ends the connection in good order: what the client still sends is read."""
        self.link.shutdown(socket.SHUT_WR)
        self.exactly(2**62)

    def send(self, data):
        with self.lock:
            self.link.sendall(data)

    # The handshake.

    def handshake_fault(self):
        since = int(self.peer.settings.get("since", "1"))
        return self.peer.settings.get("handshake", "") if self.number + 1 >= since else ""

    def handshake(self):
        fault = self.handshake_fault()
        first = b"NBDMAGIX" if fault == "hello" else b"NBDMAGIC"
        second = struct.pack(">Q", 0x0000420281861253) if fault == "oldstyle" else b"IHAVEOPT"
        if fault == "silent":
            self.exactly(2**40)
        self.send(first + second + struct.pack(">H", 2 if fault == "notfixed" else 3))
        self.exactly(4)
        while not self.option(fault):
            pass

    def option_reply(self, option, kind, body=b"", magic=OPTION_REPLY):
        self.send(struct.pack(">QIII", magic, option, kind, len(body)) + body)

    def option(self, fault):
        """Takes one option and answers it; true where the handshake is over."""
        option, length = struct.unpack(">8xII", self.exactly(16))
        body = self.exactly(length)
        most = self.peer.settings.get("mode", "structured")
        if option in (EXTENDED, STRUCTURED):
            if most == "extended" or (most, option) == ("structured", STRUCTURED):
                self.mode = "extended" if option == EXTENDED else "structured"
                self.option_reply(option, ACK)
            else:
                self.option_reply(option, UNSUP)
        elif option == SET_CONTEXT and self.mode != "simple":
            self.option_reply(option, CONTEXT, struct.pack(">I", 1) + b"base:allocation")
            self.option_reply(option, ACK)
        elif option == GO:
            return self.go(fault)
        else:
            self.option_reply(option, UNSUP if option != SET_CONTEXT else INVALID)
        return False

    def go(self, fault):
        if fault == "leave":
            self.leave()
        if fault == "unknown":
            self.option_reply(GO, UNKNOWN)
            return False
        if fault == "optionmagic":
            self.option_reply(GO, ACK, magic=OPTION_REPLY + 1)
        if fault == "option":
            self.option_reply(INFO, ACK)
        size = 2**63 if fault == "big" else int(self.peer.nth("sizes", self.number, str(self.peer.size)))
        flags = int(self.peer.nth("flags", self.number, str(FLAGS)), 0)
        if fault != "nosize":
            self.option_reply(GO, TOLD, struct.pack(">HQH", 0, size, flags))
        blocks = self.peer.nth("blocks", self.number, "")
        if blocks:
            self.option_reply(GO, TOLD, struct.pack(">HIII", 3, *map(int, blocks.split(":"))))
        self.option_reply(GO, ACK)
        return True

    # Replies.

    def chunk(self, kind, cookie, offset, payload=b"", flags=1, magic=None, count=None):
        """The bytes of one chunk, in the form that was agreed; with `count` it tells so many bytes in place of the payload's."""
        count = len(payload) if count is None else count
        if self.mode == "extended":
            return struct.pack(">IHHQQQ", magic or EXTENDED_MAGIC, flags, kind, cookie, offset, count) + payload
        return struct.pack(">IHHQI", magic or CHUNK_MAGIC, flags, kind, cookie, count) + payload

    def simple(self, cookie, error=0, data=b"", magic=SIMPLE_MAGIC):
        return struct.pack(">IIQ", magic, error, cookie) + data

    def plain(self, kind, cookie, offset, length):
        """The right reply to a command that has no fault."""
        if kind == READ:
            data = self.peer.disk[offset:offset + length]
            return self.data(cookie, offset, data) if self.mode != "simple" else self.simple(cookie, 0, data)
        if kind == STATUS:
            return self.extents(cookie, offset, self.peer.pieces(offset, length))
        return self.simple(cookie) if self.mode == "simple" else self.chunk(NONE, cookie, offset)

    def data(self, cookie, at, data, flags=1):
        return self.chunk(DATA, cookie, at, struct.pack(">Q", at) + data, flags)

    def extents(self, cookie, offset, pieces):
        if self.mode == "extended":
            body = struct.pack(">II", 1, len(pieces)) + b"".join(struct.pack(">QQ", *piece) for piece in pieces)
            return self.chunk(EXTENTS_EXT, cookie, offset, body)
        return self.chunk(EXTENTS, cookie, offset, struct.pack(">I", 1) + b"".join(struct.pack(">II", *piece) for piece in pieces))

    def error(self, cookie, offset, number, flags=1):
        if self.mode == "simple":
            return self.simple(cookie, number)
        return self.chunk(ERROR, cookie, offset, struct.pack(">IH", number, 0), flags)

    def faulty(self, name, kind, cookie, offset, length):
        """The reply with the fault of this name."""
        hole = lambda count: self.chunk(HOLE, cookie, offset, struct.pack(">QI", offset, count), 0)
        done = lambda named: self.simple(named) if self.mode == "simple" else self.chunk(NONE, named, offset)
        data = self.peer.disk[offset:offset + length]
        if name.startswith("error"):
            return self.error(cookie, offset, int(name[5:]))
        return {
            "magic": lambda: struct.pack(">I", 0xDEADBEEF) + done(cookie)[4:],
            "extendedmagic": lambda: self.chunk(NONE, cookie, offset, magic=EXTENDED_MAGIC),
            "chunkmagic": lambda: struct.pack(">IHHQI", CHUNK_MAGIC, 1, NONE, cookie, 0),
            "simple": lambda: self.simple(cookie, 0, data),
            "cookie": lambda: done(cookie + 2**40),
            "twice": lambda: self.plain(kind, cookie, offset, length) * 2,
            "kind": lambda: self.chunk(77, cookie, offset),
            "notdone": lambda: self.chunk(NONE, cookie, offset, flags=0),
            "datatowrite": lambda: self.data(cookie, offset, b"x"),
            "oldextents": lambda: self.chunk(EXTENTS, cookie, offset, struct.pack(">III", 1, length, 0)),
            "length": lambda: self.chunk(DATA, cookie, offset, count=8),
            "outside": lambda: self.data(cookie, offset + length - 1, b"xx"),
            "before": lambda: self.data(cookie, (offset - 1) % 2**64, b"xx"),
            "zeroerror": lambda: self.error(cookie, offset, 0),
            "manyerrors": lambda: self.error(cookie, offset, 5, 0) * 1025,
            "missing": lambda: self.data(cookie, offset, data[:-1]),
            "overlap": lambda: self.data(cookie, offset, data, 0) + self.data(cookie, offset, b"x"),
            "emptyhole": lambda: hole(0) + self.data(cookie, offset, data),
            "emptyextent": lambda: self.extents(cookie, offset, [(0, 0), (length, 0)]),
            "noextents": lambda: done(cookie),
            "simplestatus": lambda: self.simple(cookie),
            "behindall": lambda: self.data(cookie, offset, data, 0) + self.error(cookie, offset, 5),
        }[name]()

    # Commands.

    def head(self):
        if self.mode == "extended":
            _, _, kind, cookie, offset, length = struct.unpack(">IHHQQQ", self.exactly(32))
        else:
            _, _, kind, cookie, offset, length = struct.unpack(">IHHQQI", self.exactly(28))
        return kind, cookie, offset, length

    def answer(self, kind, cookie, offset, length):
        # (first, so that nothing is done by a client before it stands in the log)
        self.peer.note("done", NAMES[kind], offset, length)
        self.send(self.plain(kind, cookie, offset, length))

    def command(self):
        kind, cookie, offset, length = self.head()
        if kind == DISC:
            self.peer.note("came", "DISC", 0, 0)
            raise Gone
        data = self.exactly(length) if kind == WRITE else bytes(length) if kind in (ZEROES, TRIM) else b""
        self.peer.note("came", NAMES[kind], offset, length)
        name = self.peer.fault_of(kind)
        if name == "leave":
            self.leave()
        if name == "silent":
            return
        if name and name != "slow":
            self.send(self.faulty(name, kind, cookie, offset, length))
            return
        self.peer.disk[offset:offset + len(data)] = data
        if name == "slow":
            threading.Timer(10, self.answer, (kind, cookie, offset, length)).start()
        else:
            self.answer(kind, cookie, offset, length)

    def serve(self):
        try:
            self.handshake()
            while True:
                self.command()
        except (Gone, OSError):
            self.link.close()


def main():
    place, path, *settings = sys.argv[1:]
    peer = Peer(path, dict(setting.split("=", 1) for setting in settings))
    listener = socket.socket(socket.AF_UNIX)
    listener.bind(place)
    listener.listen(64)
    number = 0
    while True:
        link, _ = listener.accept()
        peer.note("came", "LINK", number, 0)
        threading.Thread(target=Client(peer, link, number).serve, daemon=True).start()
        number += 1


main()
