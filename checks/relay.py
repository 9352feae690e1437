"""A relay to a server, whose way back to the client fails.

    relay.py PORT SOCKET reset COUNT     behind COUNT bytes of each connection's replies both its ends are reset
    relay.py PORT SOCKET drip COUNT      behind COUNT bytes each connection's replies go on by one byte a second
    relay.py PORT SOCKET never COUNT     behind COUNT bytes nothing comes any more

It listens at a TCP port of this machine, and each client gets a connection to the Unix socket SOCKET.
"""

import select
import socket
import struct
import sys
import threading
import time


def relay(client, path, how, count):
    """One client's connection: `count` bytes of the way back are still to be passed on as they come. (One thread has both ends: a close is one at once.)"""
    server = socket.socket(socket.AF_UNIX)
    try:
        server.connect(path)
        while True:
            wanted = [client] + [server] * (how != "never" or count > 0)
            for ready in select.select(wanted, [], [])[0]:
                data = ready.recv(min(count, 1 << 16) or 1) if ready is server else ready.recv(1 << 16)
                if not data:
                    return
                (client if ready is server else server).sendall(data)
                if ready is server and how == "drip" and count == 0:
                    time.sleep(1)
                if ready is server:
                    count -= min(count, len(data))
            if how == "reset" and count == 0:
                client.setsockopt(socket.SOL_SOCKET, socket.SO_LINGER, struct.pack("ii", 1, 0))
                return
    except OSError:
        pass
    finally:
        client.close()
        server.close()


def main():
    port, path, how, count = int(sys.argv[1]), sys.argv[2], sys.argv[3], int(sys.argv[4])
    listener = socket.create_server(("127.0.0.1", port))
    while True:
        client, _ = listener.accept()
        client.setsockopt(socket.IPPROTO_TCP, socket.TCP_NODELAY, 1)
        threading.Thread(target=relay, args=(client, path, how, count), daemon=True).start()


main()
