"""An NBD server that dies on purpose: it serves one client, takes two reads, and answers the first of them at most.

    dying-server.py HOW PLACE

HOW is `end`, where it answers the first and closes the connection, `cookie`, where it answers the first and then a
command that nobody asked for, or `reset`, where it answers neither and resets the connection, which TCP alone can do.
PLACE is a port of this machine, or the path of a Unix socket. See death.script.
"""

import socket
import struct
import sys

HELLO = b"NBDMAGICIHAVEOPT" + struct.pack(">H", 3)
GO, ACK, INFO, EXPORT = 7, 1, 3, 0
SIZE, HAS_FLAGS = 1 << 20, 1


def exactly(client, count):
    """The next `count` bytes of the client."""
    taken = b""
    while len(taken) < count:
        part = client.recv(count - len(taken))
        if not part:
            sys.exit("the client left")
        taken += part
    return taken


def answer_option(kind, body):
    return struct.pack(">QIII", 0x0003E889045565A9, GO, kind, len(body)) + body


def negotiate(client):
    """The handshake, up to GO, which is granted."""
    client.sendall(HELLO)
    exactly(client, 4)
    option, length = struct.unpack(">8xII", exactly(client, 16))
    exactly(client, length)
    if option != GO:
        sys.exit("the client asked for another option than GO")
    export = struct.pack(">HQH", EXPORT, SIZE, HAS_FLAGS)
    client.sendall(answer_option(INFO, export) + answer_option(ACK, b""))


def take_read(client):
    """The cookie and the length of a request to read."""
    return struct.unpack(">8xQ8xI", exactly(client, 28))


def reply(cookie, data):
    return struct.pack(">IIQ", 0x67446698, 0, cookie) + data


def serve(client, how):
    negotiate(client)
    cookie, length = take_read(client)
    take_read(client)
    if how == "reset":
        # A close that does not wait for what was sent is a reset.
        client.setsockopt(socket.SOL_SOCKET, socket.SO_LINGER, struct.pack("ii", 1, 0))
        return
    client.sendall(reply(cookie, b"\xab" * length))
    if how == "cookie":
        client.sendall(reply(99, b""))
        client.recv(1)


def main():
    how, place = sys.argv[1:]
    family = socket.AF_INET if place.isdigit() else socket.AF_UNIX
    listener = socket.socket(family)
    if family == socket.AF_INET:
        listener.setsockopt(socket.SOL_SOCKET, socket.SO_REUSEADDR, 1)
        listener.bind(("127.0.0.1", int(place)))
    else:
        listener.bind(place)
    listener.listen(1)
    client, _ = listener.accept()
    with client:
        serve(client, how)


main()
