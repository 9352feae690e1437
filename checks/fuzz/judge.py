"""A reading of what a server sent in transmission, made apart from the program: what each command came to, and the first breach, by its name."""

import struct

import wire


class Breach(Exception):
    """The connection is dead; the argument is the breach's name."""


class Short(Exception):
    """The bytes end here."""


class Command:
    """A command, and what its replies showed until now."""

    def __init__(self, kind, flags, offset, length):
        self.kind, self.flags, self.offset, self.length = kind, flags, offset, length
        self.error, self.faulty, self.done, self.placed = 0, 0, False, 0
        self.data = bytearray(length if kind == wire.READ else 0)
        self.told = bytearray(len(self.data))
        self.extents = None

    def fails(self, error):
        self.error = self.error or error

    def content_fault(self):
        """True, so that a caller can count the chunk."""
        self.fails(wire.EPROTO)
        return True


class Reading:
    """The commands by their cookies, and `breach`, where there is one, as soon as all bytes of `sent` are read."""

    def __init__(self, sent, commands, structured, extended, contexts):
        self.sent, self.at = sent, 0
        self.commands = {cookie: Command(*command) for cookie, command in commands.items()}
        self.structured, self.extended, self.contexts = structured, extended, contexts
        self.breach = None
        try:
            while self.at < len(sent):
                self.reply()
        except Breach as breach:
            self.breach = str(breach)
        except Short:
            pass

    def take(self, form):
        size = struct.calcsize(form)
        return struct.unpack(form, self.bytes(size))

    def bytes(self, count):
        if self.at + count > len(self.sent):
            raise Short
        self.at += count
        return bytes(self.sent[self.at - count:self.at])

    def command(self, cookie):
        found = self.commands.get(cookie)
        if found is None or found.done:
            raise Breach("UnknownCookie")
        return found

    def reply(self):
        magic, = self.take(">I")
        if self.extended and magic in (wire.SIMPLE_MAGIC, wire.CHUNK_MAGIC):
            raise Breach("MixedHeaders")
        if magic == wire.SIMPLE_MAGIC and not self.extended:
            self.simple()
        elif magic == wire.CHUNK_MAGIC and self.structured and not self.extended:
            self.chunk(*self.take(">HHQI"))
        elif magic == wire.EXTENDED_MAGIC and self.extended:
            flags, kind, cookie, _, length = self.take(">HHQQQ")
            self.chunk(flags, kind, cookie, length)
        else:
            raise Breach("BadReplyMagic")

    def simple(self):
        error, cookie = self.take(">IQ")
        command = self.command(cookie)
        if command.kind == wire.READ and self.structured:
            raise Breach("SimpleForRead")
        if error:
            command.fails(wire.error_number(error))
        elif command.kind == wire.READ:
            command.data[:] = self.bytes(command.length)
            command.told[:] = b"\1" * command.length
        elif command.kind == wire.BLOCK_STATUS:
            command.content_fault()
        command.done = True

    def length_fits(self, kind, length):
        if kind == wire.NONE:
            return length == 0
        if kind == wire.OFFSET_DATA:
            return 9 <= length <= 8 + wire.MOST_READ
        if kind == wire.OFFSET_HOLE:
            return length == 12
        if kind == wire.BLOCK_STATUS_CHUNK:
            # (where the headers are others this type is an unknown one, which has no length)
            return self.extended or (length - 4) % 8 == 0 and 1 <= (length - 4) // 8 <= 1048576
        if kind == wire.BLOCK_STATUS_EXT:
            return not self.extended or (length - 8) % 16 == 0 and 1 <= (length - 8) // 16 <= 1048576
        if kind == wire.ERROR:
            return 6 <= length <= 6 + 4096
        if kind == wire.ERROR_OFFSET:
            return 14 <= length <= 14 + 4096
        return 6 <= length <= 65536 if kind & 0x8000 else True

    def kind_fits(self, kind, done, command):
        if kind == wire.NONE:
            return done
        if kind in (wire.OFFSET_DATA, wire.OFFSET_HOLE):
            return command.kind == wire.READ
        if kind in (wire.BLOCK_STATUS_CHUNK, wire.BLOCK_STATUS_EXT):
            return command.kind == wire.BLOCK_STATUS and (kind == wire.BLOCK_STATUS_EXT) == self.extended
        return bool(kind & 0x8000)

    def chunk(self, flags, kind, cookie, length):
        command, done = self.command(cookie), bool(flags & 1)
        if not self.length_fits(kind, length):
            raise Breach("BadChunkLength")
        if not self.kind_fits(kind, done, command):
            raise Breach("BadChunkType")
        if command.faulty >= 1024 and (kind & 0x8000 or not done):
            raise Breach("TooManyErrors")
        faulty = False
        if kind & 0x8000:
            self.error(kind, length, command)
            faulty = True
        elif kind == wire.OFFSET_DATA:
            faulty = self.data(length - 8, command)
        elif kind == wire.OFFSET_HOLE:
            faulty = self.hole(command)
        elif kind != wire.NONE:
            faulty = self.status(kind, length, command)
        command.faulty += int(faulty)
        if done:
            self.end(command)

    def end(self, command):
        if not command.error and command.kind == wire.READ and not all(command.told):
            command.content_fault()
        if not command.error and command.kind == wire.BLOCK_STATUS and set(command.extents or {}) != self.contexts:
            command.content_fault()
        command.done = True

    def error(self, kind, length, command):
        error, message = self.take(">IH")
        tail = 8 if kind == wire.ERROR_OFFSET else 0
        exact = kind in (wire.ERROR, wire.ERROR_OFFSET)
        if message != length - 6 - tail if exact else message > length - 6:
            raise Breach("BadChunkLength")
        if error == 0:
            raise Breach("ZeroError")
        command.fails(wire.error_number(error))
        self.bytes(length - 6)

    def outside(self, start, length, command):
        if start < command.offset or start + length > command.offset + command.length:
            raise Breach("OutOfRange")

    def is_second_under_df(self, command):
        second = bool(command.flags & wire.DF) and command.placed > 0
        command.placed += 1
        return second

    def data(self, length, command):
        start, = self.take(">Q")
        self.outside(start, length, command)
        second = self.is_second_under_df(command)
        data, at = self.bytes(length), start - command.offset
        if second or any(command.told[at:at + length]):
            return command.content_fault()
        command.data[at:at + length] = data
        command.told[at:at + length] = b"\1" * length
        return False

    def hole(self, command):
        start, = self.take(">Q")
        self.outside(start, 0, command)
        length, = self.take(">I")
        self.outside(start, length, command)
        at = start - command.offset
        if self.is_second_under_df(command) or length == 0 or any(command.told[at:at + length]):
            return command.content_fault()
        command.data[at:at + length] = bytes(length)
        command.told[at:at + length] = b"\1" * length
        return False

    def status(self, kind, length, command):
        if kind == wire.BLOCK_STATUS_EXT:
            context, count = self.take(">II")
            if count != (length - 8) // 16:
                raise Breach("BadChunkLength")
            told = [self.take(">QQ") for _ in range(count)]
        else:
            context, = self.take(">I")
            told = [self.take(">II") for _ in range((length - 4) // 8)]
        command.extents = command.extents or {}
        if context not in self.contexts or context in command.extents:
            return command.content_fault()
        if any(length == 0 for length, _ in told) or command.flags & wire.REQ_ONE and len(told) > 1:
            return command.content_fault()
        command.extents[context] = told
        return False


def copied(readings, size):
    """What a source told: its bytes, and for each byte whether it was told. Bytes that were read count before extents."""
    held, known = bytearray(size), bytearray(size)
    for reading in readings:
        for command in reading.commands.values():
            if command.kind == wire.BLOCK_STATUS and command.done and not command.error:
                at = command.offset
                for length, flags in next(iter(command.extents.values())):
                    stop = min(at + length, command.offset + command.length, size)
                    if flags & 2 and stop > at:
                        known[at:stop] = b"\1" * (stop - at)
                    at += length
    for reading in readings:
        for command in reading.commands.values():
            if command.kind == wire.READ and command.done and not command.error:
                held[command.offset:command.offset + command.length] = command.data
                known[command.offset:command.offset + command.length] = b"\1" * command.length
    return held, known
