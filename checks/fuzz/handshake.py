"""A reading of what a server sent in the handshake, made apart from the program: the first breach, by its name, or nothing."""

import struct

import wire
from judge import Breach, Short

MOST_LENGTH, MOST_TEXT, MOST_SERVERS, MOST_REPLIES = 65536, 4096, 10000, 1024
# The breaches of the handshake alone.
NAMES = ("BadHello", "OldStyle", "NotFixed", "BadOptionMagic", "WrongOption", "BadOptionLength", "UnexpectedReply", "TooManyReplies", "BadText", "NoExportInfo", "SizeTooBig")
# The replies that an option may have beside ACK and an error.
ALLOWED = {wire.LIST: wire.SERVER, wire.INFO: wire.INFO_REPLY, wire.GO: wire.INFO_REPLY, wire.SET_META_CONTEXT: wire.META_CONTEXT}


def breach(sent, options, opt_mode=False):
    """The first breach of these bytes, where these options were asked in this order."""
    try:
        Handshake(sent).read(options, opt_mode)
    except Breach as found:
        return str(found)
    except Short:
        pass
    return None


def judge_text(data):
    try:
        data.decode("utf-8")
    except UnicodeDecodeError:
        raise Breach("BadText") from None
    if len(data) > MOST_TEXT:
        raise Breach("BadText")


def judge_size(size):
    if size >= 2**63:
        raise Breach("SizeTooBig")


class Handshake:
    def __init__(self, sent):
        self.sent, self.at, self.told = sent, 0, False

    def bytes(self, count):
        if self.at + count > len(self.sent):
            raise Short
        self.at += count
        return bytes(self.sent[self.at - count:self.at])

    def number(self, form):
        return struct.unpack(form, self.bytes(struct.calcsize(form)))[0]

    def read(self, options, opt_mode):
        self.hello()
        option = kind = None
        for option in options:
            if option == wire.ABORT:
                return
            if option == wire.EXPORT_NAME:
                size = self.number(">Q")
                self.bytes(2)
                judge_size(size)
                return
            kind = self.answer(option)
            if kind == wire.ACK and option == wire.GO:
                return
        if (option, kind) == (wire.GO, wire.UNSUP) and not opt_mode:
            # (EXPORT_NAME was asked, and didn't come here; in opt mode it is not)
            return
        # (whatever comes now answers no option)
        if self.number(">Q") != wire.OPTION_REPLY_MAGIC:
            raise Breach("BadOptionMagic")
        self.bytes(12)
        raise Breach("WrongOption")

    def hello(self):
        if self.bytes(8) != wire.HELLO:
            raise Breach("BadHello")
        second = self.bytes(8)
        if second == struct.pack(">Q", wire.OLD_STYLE):
            raise Breach("OldStyle")
        if second != wire.OPTION_MAGIC:
            raise Breach("BadHello")
        if not self.number(">H") & 1:
            raise Breach("NotFixed")

    def answer(self, option):
        """The type of the reply that ends the answer to this option."""
        self.told, count = False, 0
        while True:
            if self.number(">Q") != wire.OPTION_REPLY_MAGIC:
                raise Breach("BadOptionMagic")
            named, kind, length = struct.unpack(">III", self.bytes(12))
            if named != option:
                raise Breach("WrongOption")
            if length > MOST_LENGTH:
                raise Breach("BadOptionLength")
            if kind not in (wire.ACK, ALLOWED.get(option)) and not kind & 2**31:
                raise Breach("UnexpectedReply")
            body = self.bytes(length)
            if kind & 2**31:
                return kind
            if kind == wire.ACK:
                self.judge_ack(option, body)
                return kind
            count += 1
            self.judge_reply(kind, body, count > (MOST_SERVERS if option == wire.LIST else MOST_REPLIES))

    def judge_ack(self, option, body):
        if body:
            raise Breach("BadOptionLength")
        if option in (wire.INFO, wire.GO) and not self.told:
            raise Breach("NoExportInfo")

    def judge_reply(self, kind, body, too_many):
        texts, size, named = [], 0, int.from_bytes(body[:4], "big")
        if kind == wire.INFO_REPLY:
            info = int.from_bytes(body[:2], "big")
            if len(body) < 2 or info == wire.INFO_EXPORT and len(body) != 12 or info == wire.INFO_BLOCK_SIZE and len(body) != 14:
                raise Breach("BadOptionLength")
            if info == wire.INFO_EXPORT:
                self.told, size = True, int.from_bytes(body[2:10], "big")
            elif info in (wire.INFO_NAME, wire.INFO_DESCRIPTION):
                texts = [body[2:]]
        elif len(body) < 4 or kind == wire.SERVER and len(body) < 4 + named:
            raise Breach("BadOptionLength")
        else:
            texts = [body[4:4 + named], body[4 + named:]] if kind == wire.SERVER else [body[4:]]
        if too_many:
            raise Breach("TooManyReplies")
        for text in texts:
            judge_text(text)
        judge_size(size)
