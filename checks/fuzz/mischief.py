"""What a hostile server does to the replies that it would send: each kind of mischief is a method, and a session has few of them."""

import struct

import wire

# What changes a record's fields, what changes its bytes, and what changes when and whether they go out.
OF_REPLIES = ("cookie", "length", "flags", "kind", "magic", "error", "offset", "payload")
OF_OPTIONS = ("option", "length", "kind", "magic", "extra", "refuse", "many", "text")
OF_BYTES = ("flip", "junk", "twice", "late", "drop", "cut", "reset", "slow", "trickle")


class Mischief:
    """The mischief of one session: how often which kinds come. `done` counts what was really done, by name."""

    def __init__(self, rng, hostile):
        self.rng = rng
        self.done = {}
        names = OF_REPLIES + OF_OPTIONS + OF_BYTES
        self.names = set(rng.sample(names, rng.choice((1, 1, 2, 3, 6)))) if hostile else set()
        self.rate = rng.choice((0.02, 0.1, 0.1, 0.3, 0.3, 1.0)) if hostile else 0
        # (the handshake is left alone in half of the sessions, so that the others come to commands)
        self.rate_of_options = self.rate if rng.random() < 0.4 else 0

    def chooses(self, name, rate=None):
        """Whether this kind of mischief is done now."""
        if name in self.names and self.rng.random() < (self.rate if rate is None else rate):
            self.done[name] = self.done.get(name, 0) + 1
            return True
        return False

    def number(self, bits):
        """A number of so many bits, near an edge more often than not."""
        rng = self.rng
        edge = rng.choice((0, 1, 2, 3, 4, 7, 8, 9, 12, 255, 4096, 65535, 65536, 2**31, 2**31 + 1, 2**32 - 1, 2**63, 2**64 - 1, rng.getrandbits(bits)))
        return (edge + rng.choice((-1, 0, 0, 0, 1))) % 2**bits

    # Records.

    def reply(self, reply, commands):
        """A reply to a command, a dict of its fields, with some of them changed."""
        rng = self.rng
        if self.chooses("cookie"):
            reply["cookie"] = rng.choice((self.number(64), rng.choice(commands or [0]), (reply["cookie"] + rng.choice((-1, 1))) % 2**64))
        if self.chooses("length") and "length" in reply:
            reply["length"] = rng.choice((self.number(32), reply["length"] + rng.choice((-8, -1, 1, 8))))
        if self.chooses("flags") and "flags" in reply:
            reply["flags"] = rng.choice((0, 1, 2, 3, 0xFFFF, 0xFFFE))
        if self.chooses("kind") and "kind" in reply:
            reply["kind"] = rng.choice((0, 1, 2, 3, 4, 5, 6, 7, 0x7FFF, 0x8000, wire.ERROR, wire.ERROR_OFFSET, 0x8003, 0xFFFF))
        if self.chooses("magic"):
            reply["magic"] = rng.choice((wire.SIMPLE_MAGIC, wire.CHUNK_MAGIC, wire.EXTENDED_MAGIC, wire.REQUEST_MAGIC, rng.getrandbits(32)))
        if self.chooses("offset") and "offset" in reply:
            reply["offset"] = self.number(64)
        if self.chooses("payload"):
            body = bytearray(reply["payload"])
            if body and rng.random() < 0.7:
                at = rng.randrange(min(len(body), 32))
                body[at:at + 4] = struct.pack(">I", self.number(32))[:len(body) - at]
            elif rng.random() < 0.5:
                body = body[:rng.randrange(len(body) + 1)]
            else:
                body += rng.randbytes(rng.choice((1, 8, 16)))
            reply["payload"] = bytes(body)
        return reply

    def option(self, reply):
        """A reply to an option, likewise."""
        rng, rate = self.rng, self.rate_of_options
        if self.chooses("option", rate):
            reply["option"] = rng.choice((0, 1, 2, 3, 6, 7, 8, 10, 11, self.number(32)))
        if self.chooses("length", rate):
            reply["length"] = rng.choice((self.number(32), len(reply["body"]) + rng.choice((-1, 1))))
        if self.chooses("kind", rate):
            reply["kind"] = rng.choice((0, 1, 2, 3, 4, 5, 2**31, 2**31 + rng.randrange(12), 2**32 - 1))
        if self.chooses("magic", rate):
            reply["magic"] = rng.choice((wire.OPTION_REPLY_MAGIC ^ (1 << rng.randrange(64)), rng.getrandbits(64)))
        if self.chooses("text", rate):
            reply["body"] = reply["body"][:2] + rng.choice((b"\xff", b"\x00" * 9, b"x" * 4097, b"\xc3\xa9" * 2048, rng.randbytes(20)))
        return reply

    # Bytes.

    def sends(self, data):
        """The bytes of a record as a list of what is sent one by one, with the words `late`, `close` and `reset` between them."""
        rng = self.rng
        if self.chooses("drop"):
            return []
        if self.chooses("flip"):
            data = bytearray(data)
            for _ in range(rng.choice((1, 1, 2, 5))):
                data[rng.randrange(min(len(data), 40))] ^= 1 << rng.randrange(8)
            data = bytes(data)
        if self.chooses("junk"):
            at = rng.randrange(len(data) + 1)
            data = data[:at] + rng.randbytes(rng.choice((1, 4, 16, 300))) + data[at:]
        if self.chooses("twice"):
            data += data
        if self.chooses("cut"):
            return [data[:rng.randrange(len(data) + 1)], "close"]
        if self.chooses("reset"):
            return [data[:rng.randrange(len(data) + 1)], "reset"]
        if self.chooses("slow"):
            first = min(len(data), 40)
            return [data[at:at + 1] for at in range(first)] + [data[first:]]
        if self.chooses("trickle"):
            at = rng.randrange(len(data) + 1)
            return [data[:at], "pause", data[at:]]
        if self.chooses("late"):
            return ["late", data]
        return [data]
