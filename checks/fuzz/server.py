"""A server of one export, to many clients: what it answers is right but for its mischief. It does no input or output: bytes come and go."""

import struct
from collections import deque

import wire


class Export:
    """What is served, and the traits that are drawn for a session."""

    def __init__(self, rng, size, told_size=None):
        self.rng = rng
        self.disk = bytearray(size)
        self.size = size if told_size is None else told_size
        self.most = rng.choice(("simple", "structured", "structured", "extended", "extended"))
        self.flags = wire.ALL_FLAGS
        if rng.random() < 0.3:
            self.flags &= ~(1 << rng.choice((2, 3, 5, 6, 7, 8, 10, 11)))
        self.blocks = rng.choice((None, None, (1, 4096, 33554432), (512, 4096, 65536), (1, 65536, 0xFFFFFFFF)))
        self.contexts = rng.random() < 0.8
        self.go_is_known = rng.random() < 0.9
        self.descriptors = rng.choice((1, 3, 1000))
        self.names = [rng.choice(("", "a", "blue", "\u00e9t\u00e9 2", "x" * 200)) for _ in range(rng.choice((0, 1, 3)))]
        self.pieces = rng.choice((1, 1, 2, 5))
        self.reorders = rng.random() < 0.4

    def fill(self):
        """Contents of some blocks of zeros and some of other bytes."""
        rng, at = self.rng, 0
        while at < len(self.disk):
            length = min(rng.choice((1, 511, 512, 4096, 16384, 65536)), len(self.disk) - at)
            if rng.random() < 0.6:
                self.disk[at:at + length] = rng.randbytes(length) if rng.random() < 0.5 else bytes([rng.randrange(1, 256)]) * length
            at += length

    def extents(self, offset, length):
        """The extents from here on, as (length, flags): some at most, and told as zero only where all is."""
        told, end, step = [], offset + length, max(512 * self.rng.choice((1, 8, 8, 64)), self.size // 64)
        while offset < end and len(told) < self.descriptors:
            stop = min((offset // step + 1) * step, end)
            told.append((stop - offset, self.rng.choice((0, 0, 1)) if any(self.disk[offset:stop]) or self.rng.random() < 0.1 else 3))
            offset = stop
        return told


class Connection:
    """One client's connection. `queue` has the bytes to be sent, and the words `late`, `pause`, `close` and `reset` where something else is to be done."""

    def __init__(self, export, mischief):
        self.export, self.mischief, self.rng = export, mischief, mischief.rng
        self.taken = bytearray()
        self.queue, self.held = deque(), []
        self.structured = self.extended = self.agreed = False
        self.step = self.client_flags
        # For the judge: what was sent, what was asked in the handshake, and where transmission began.
        self.sent, self.options, self.commands, self.began = bytearray(), [], {}, None
        self.unanswered, self.agreed_ids = [], []
        # (whether nothing of the handshake was mischief, so that both sides know the same)
        self.clean = True
        self.put([wire.HELLO + wire.OPTION_MAGIC + struct.pack(">H", 3)] if not mischief.chooses("magic", mischief.rate_of_options) else self.bad_hello())

    def bad_hello(self):
        first, second, flags = self.rng.choice(((b"NBDMAGIX", wire.OPTION_MAGIC, 3), (wire.HELLO, struct.pack(">Q", wire.OLD_STYLE), 3),
                                                (wire.HELLO, b"IHAVEOPX", 3), (wire.HELLO, wire.OPTION_MAGIC, 2), (wire.HELLO, wire.OPTION_MAGIC, 0xFFFF)))
        return [first + second + struct.pack(">H", flags)]

    def put(self, parts):
        """Puts these into the queue; what is late goes out behind the next, or at the next pause."""
        if parts and parts[0] == "late":
            self.held += parts[1:]
            return
        self.queue.extend(part for part in parts if part)
        if self.held and parts:
            self.queue.extend(self.held)
            self.held = []

    def feed(self, data):
        """Takes bytes of the client."""
        self.taken += data
        while self.step():
            pass

    def exactly(self, count):
        """The next bytes, where they are there."""
        if len(self.taken) < count:
            return None
        data = bytes(self.taken[:count])
        del self.taken[:count]
        return data

    # The handshake.

    def client_flags(self):
        if self.exactly(4) is None:
            return False
        self.step = self.option
        return True

    def option(self):
        if len(self.taken) < 16:
            return False
        _, option, length = struct.unpack(">QII", self.taken[:16])
        data = self.exactly(16 + length)
        if data is None:
            return False
        self.options.append(option)
        self.answer(option, data[16:])
        return True

    def reply(self, option, kind, body=b""):
        mischief = self.mischief
        if mischief.chooses("many", mischief.rate_of_options):
            one = {wire.LIST: (wire.SERVER, struct.pack(">I", 1) + b"a")}.get(option, (wire.INFO_REPLY, struct.pack(">H", 9)))
            self.put([wire.option_reply(option, *one) * self.rng.choice((2, 1024, 1025, 10001))])
        if mischief.chooses("refuse", mischief.rate_of_options):
            kind, body = 2**31 + self.rng.randrange(1, 11), self.rng.choice((b"", b"no"))
        fields = mischief.option({"option": option, "kind": kind, "body": body})
        self.put(self.bytes_of_options(wire.option_reply(**fields)))

    def bytes_of_options(self, data):
        mischief = self.mischief
        return mischief.sends(data) if mischief.rate_of_options else [data]

    def answer(self, option, body):
        export = self.export
        if option == wire.EXTENDED_HEADERS and export.most == "extended":
            self.structured = self.extended = True
            self.reply(option, wire.ACK)
        elif option == wire.STRUCTURED_REPLY and export.most != "simple":
            self.structured = True
            self.reply(option, wire.ACK)
        elif option == wire.SET_META_CONTEXT and self.structured:
            queries = self.queries(body)
            self.agreed = export.contexts and b"base:allocation" in queries
            # (of contexts of one name the first counts)
            self.agreed_ids = [number for number, query in enumerate(queries, 1) if query not in queries[:number - 1]] if export.contexts else []
            for number, query in enumerate(queries, 1):
                if export.contexts:
                    self.reply(option, wire.META_CONTEXT, struct.pack(">I", number) + query)
            self.reply(option, wire.ACK)
        elif option == wire.LIST:
            for name in export.names:
                name = name.encode()
                self.reply(option, wire.SERVER, struct.pack(">I", len(name)) + name + self.rng.choice((b"", b"a disk")))
            self.reply(option, wire.ACK)
        elif option in (wire.INFO, wire.GO) and export.go_is_known:
            self.tell(option)
        elif option == wire.EXPORT_NAME:
            self.put(self.bytes_of_options(struct.pack(">QH", export.size, export.flags & 0xFFFF)))
            self.transmit()
        elif option == wire.ABORT:
            self.reply(option, wire.ACK)
            self.queue.append("close")
        else:
            self.reply(option, wire.UNSUP)

    def queries(self, body):
        at = 4 + struct.unpack(">I", body[:4])[0]
        count, found = struct.unpack(">I", body[at:at + 4])[0], []
        at += 4
        for _ in range(count):
            length = struct.unpack(">I", body[at:at + 4])[0]
            found.append(body[at + 4:at + 4 + length])
            at += 4 + length
        return found

    def tell(self, option):
        export, mischief = self.export, self.mischief
        size, blocks = export.size, export.blocks
        if mischief.chooses("extra", mischief.rate_of_options):
            size = self.rng.choice((size, 0, 2**63 - 1, 2**63, 2**64 - 1))
            blocks = (mischief.number(32), mischief.number(32), mischief.number(32))
            self.reply(option, wire.INFO_REPLY, struct.pack(">H", self.rng.randrange(6)) + self.rng.randbytes(self.rng.randrange(20)))
        self.reply(option, wire.INFO_REPLY, struct.pack(">HQH", wire.INFO_EXPORT, size, export.flags & 0xFFFF))
        if blocks:
            self.reply(option, wire.INFO_REPLY, struct.pack(">HIII", wire.INFO_BLOCK_SIZE, *blocks))
        self.reply(option, wire.ACK)
        if option == wire.GO:
            self.transmit()

    def transmit(self):
        self.step = self.command
        self.clean = not self.mischief.done
        # (all that is still in the queue is the handshake's)
        self.queue.append("began")

    # Transmission.

    def command(self):
        size = 32 if self.extended else 28
        if len(self.taken) < size:
            return False
        fields = struct.unpack(">IHHQQQ" if self.extended else ">IHHQQI", self.taken[:size])
        _, flags, kind, cookie, offset, length = fields
        data = self.exactly(size + (length if kind == wire.WRITE else 0))
        if data is None:
            return False
        if kind == wire.DISC:
            self.queue.append("close")
            self.step = lambda: False
            return False
        self.commands[cookie] = (kind, flags, offset, length)
        self.do(kind, offset, length, data[size:])
        self.unanswered.append((kind, flags, cookie, offset, length))
        while self.unanswered:
            # (some wait for the next request where replies may change their order)
            if self.export.reorders and len(self.unanswered) < 4 and len(self.taken) >= size:
                break
            self.respond(*self.unanswered.pop(self.rng.randrange(len(self.unanswered)) if self.export.reorders else 0))
        return True

    def do(self, kind, offset, length, data):
        """What a change does to the export."""
        disk = self.export.disk
        if kind == wire.WRITE and offset + length <= len(disk):
            disk[offset:offset + length] = data
        elif kind in (wire.WRITE_ZEROES, wire.TRIM) and offset + length <= len(disk):
            disk[offset:offset + length] = bytes(length)

    def respond(self, kind, flags, cookie, offset, length):
        for fields in self.replies(kind, flags, cookie, offset, length):
            fields = self.mischief.reply(fields, list(self.commands))
            if "kind" in fields:
                data = wire.chunk(self.extended, fields["kind"], fields["cookie"], fields["offset"], fields["payload"], fields["flags"], fields["magic"], fields.get("length"))
            else:
                data = wire.simple(fields["cookie"], fields["error"], fields["payload"], fields["magic"] or wire.SIMPLE_MAGIC)
            self.put(self.mischief.sends(data))

    def simple(self, cookie, error=0, data=b""):
        return {"cookie": cookie, "error": error, "payload": data, "magic": None}

    def chunk(self, kind, cookie, offset, payload=b"", done=True):
        return {"kind": kind, "cookie": cookie, "offset": offset, "payload": payload, "flags": int(done), "magic": None, "length": len(payload)}

    def replies(self, kind, flags, cookie, offset, length):
        """The replies to a command, as dicts of their fields."""
        error = 0
        if self.mischief.chooses("error"):
            error = self.rng.choice((1, 5, 12, 22, 28, 75, 95, 108, 99))
        elif kind == wire.READ and offset + length > len(self.export.disk):
            error = 22
        if not self.structured:
            return [self.simple(cookie, error, bytes(self.export.disk[offset:offset + length]) if kind == wire.READ and not error else b"")]
        if error:
            text = self.rng.choice((b"", b"no"))
            if self.rng.random() < 0.3:
                return [self.chunk(wire.ERROR_OFFSET, cookie, offset, struct.pack(">IH", error, len(text)) + text + struct.pack(">Q", offset))]
            return [self.chunk(wire.ERROR, cookie, offset, struct.pack(">IH", error, len(text)) + text)]
        if kind == wire.READ:
            return self.content(flags, cookie, offset, length)
        if kind == wire.BLOCK_STATUS:
            return self.status(flags, cookie, offset, length)
        if not self.extended and self.rng.random() < 0.5:
            return [self.simple(cookie)]
        return [self.chunk(wire.NONE, cookie, offset)]

    def content(self, flags, cookie, offset, length):
        rng, disk, end = self.rng, self.export.disk, offset + length
        cuts = sorted({offset, end, *(rng.randrange(offset, end + 1) for _ in range(0 if flags & wire.DF else self.export.pieces - 1))})
        made = []
        for start, stop in zip(cuts, cuts[1:]):
            if not any(disk[start:stop]) and rng.random() < 0.7:
                made.append(self.chunk(wire.OFFSET_HOLE, cookie, offset, struct.pack(">QI", start, stop - start), False))
            else:
                made.append(self.chunk(wire.OFFSET_DATA, cookie, offset, struct.pack(">Q", start) + disk[start:stop], False))
        rng.shuffle(made)
        if made and rng.random() < 0.7:
            made[-1]["flags"] = 1
        else:
            made.append(self.chunk(wire.NONE, cookie, offset))
        return made

    def status(self, flags, cookie, offset, length):
        told = self.export.extents(offset, length)
        if flags & wire.REQ_ONE:
            told = told[:1]
        if self.extended:
            body = struct.pack(">II", 1, len(told)) + b"".join(struct.pack(">QQ", *one) for one in told)
            return [self.chunk(wire.BLOCK_STATUS_EXT, cookie, offset, body)]
        return [self.chunk(wire.BLOCK_STATUS_CHUNK, cookie, offset, struct.pack(">I", 1) + b"".join(struct.pack(">II", *one) for one in told))]
