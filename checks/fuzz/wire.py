"""The numbers of the NBD protocol that the fuzzer needs, by the names of doc/proto.md, and how its records are written."""

import struct

HELLO, OPTION_MAGIC = b"NBDMAGIC", b"IHAVEOPT"
OPTION_REPLY_MAGIC = 0x0003E889045565A9
OLD_STYLE = 0x0000420281861253

EXPORT_NAME, ABORT, LIST, INFO, GO, STRUCTURED_REPLY, SET_META_CONTEXT, EXTENDED_HEADERS = 1, 2, 3, 6, 7, 8, 10, 11
ACK, SERVER, INFO_REPLY, META_CONTEXT = 1, 2, 3, 4
UNSUP, INVALID, TLS_REQD, UNKNOWN = 2**31 + 1, 2**31 + 3, 2**31 + 5, 2**31 + 6
INFO_EXPORT, INFO_NAME, INFO_DESCRIPTION, INFO_BLOCK_SIZE = 0, 1, 2, 3

READ, WRITE, DISC, FLUSH, TRIM, CACHE, WRITE_ZEROES, BLOCK_STATUS = range(8)
FUA, NO_HOLE, DF, REQ_ONE, FAST_ZERO = 1, 2, 4, 8, 16

REQUEST_MAGIC, EXTENDED_REQUEST_MAGIC = 0x25609513, 0x21E41C71
SIMPLE_MAGIC, CHUNK_MAGIC, EXTENDED_MAGIC = 0x67446698, 0x668E33EF, 0x6E8A278C
NONE, OFFSET_DATA, OFFSET_HOLE, BLOCK_STATUS_CHUNK, BLOCK_STATUS_EXT, ERROR, ERROR_OFFSET = 0, 1, 2, 5, 6, 32769, 32770

# HAS_FLAGS, SEND_FLUSH, SEND_FUA, SEND_TRIM, SEND_WRITE_ZEROES, SEND_DF, CAN_MULTI_CONN, SEND_CACHE, SEND_FAST_ZERO
ALL_FLAGS = 0x0DED
READ_ONLY, SEND_WRITE_ZEROES, CAN_MULTI_CONN = 0x002, 0x040, 0x100
MOST_READ = 33554432
EPROTO, ENOTCONN, EINVAL = 71, 107, 22
ERRORS = {1, 5, 12, 22, 28, 75, 95, 108}


def error_number(told):
    """The error of a command by the number that a reply tells."""
    return told if told in ERRORS or told == 0 else EINVAL


def option_reply(option, kind, body=b"", magic=OPTION_REPLY_MAGIC, length=None):
    return struct.pack(">QIII", magic, option, kind, len(body) if length is None else length & 0xFFFFFFFF) + body


def simple(cookie, error=0, data=b"", magic=SIMPLE_MAGIC):
    return struct.pack(">IIQ", magic, error, cookie) + data


def chunk(extended, kind, cookie, offset, payload=b"", flags=1, magic=None, length=None):
    """A structured reply chunk, or an extended one."""
    length = len(payload) if length is None else length
    if extended:
        return struct.pack(">IHHQQQ", EXTENDED_MAGIC if magic is None else magic, flags, kind, cookie, offset, length % 2**64) + payload
    return struct.pack(">IHHQI", CHUNK_MAGIC if magic is None else magic, flags, kind, cookie, length % 2**32) + payload


def request(extended, kind, cookie, offset, length, flags=0, magic=None):
    if extended:
        return struct.pack(">IHHQQQ", EXTENDED_REQUEST_MAGIC if magic is None else magic, flags, kind, cookie, offset, length)
    return struct.pack(">IHHQQI", REQUEST_MAGIC if magic is None else magic, flags, kind, cookie, offset, length % 2**32)


def option_request(option, body=b"", length=None):
    return OPTION_MAGIC + struct.pack(">II", option, len(body) if length is None else length) + body
