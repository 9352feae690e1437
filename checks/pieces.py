"""An NBD server that answers each read in pieces of one byte, in an order that is chosen, for the check of such reads.

    pieces.py SOCKET COUNT ORDER

It listens at the Unix socket SOCKET, and its export has COUNT bytes, all 0xab. ORDER is `rising`; `falling`, which sends each second byte from the end to the
start, and then those between; or `random`, always the same.
"""

import random
import socket
import struct
import sys

OPTION_REPLY = 0x0003E889045565A9
STRUCTURED, GO = 8, 7
READ, DISC = 0, 2


def places_in(order, count):
    """The places of the pieces, in this order."""
    places = list(range(count))
    if order == "falling":
        return places[::-2] + places[-2::-2]
    if order == "random":
        random.Random(41).shuffle(places)
    return places


def taken(link, count):
    """The next bytes of the client, so many."""
    data = b""
    while len(data) < count:
        part = link.recv(count - len(data))
        if not part:
            sys.exit(0)
        data += part
    return data


def handshake(link, count):
    link.sendall(b"NBDMAGIC" + b"IHAVEOPT" + struct.pack(">H", 3))
    taken(link, 4)
    while True:
        option, length = struct.unpack(">8xII", taken(link, 16))
        taken(link, length)
        if option == GO:
            link.sendall(struct.pack(">QIIIHQH", OPTION_REPLY, GO, 3, 12, 0, count, 1))
        link.sendall(struct.pack(">QIII", OPTION_REPLY, option, 1 if option in (GO, STRUCTURED) else 2**31 + 1, 0))
        if option == GO:
            return


def main():
    place, count, order = sys.argv[1], int(sys.argv[2]), sys.argv[3]
    places = places_in(order, count)
    listener = socket.socket(socket.AF_UNIX)
    listener.bind(place)
    listener.listen(1)
    link, _ = listener.accept()
    handshake(link, count)
    while True:
        _, _, kind, cookie, _, _ = struct.unpack(">IHHQQI", taken(link, 28))
        if kind == DISC:
            return
        pieces = [struct.pack(">IHHQIQB", 0x668E33EF, 0, 1, cookie, 9, at, 0xAB) for at in places]
        link.sendall(b"".join(pieces) + struct.pack(">IHHQI", 0x668E33EF, 1, 0, cookie, 0))


main()
