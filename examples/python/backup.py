"""Backs an export up into a sparse file: asks what it consists of, reads only what is data, 16 reads at a time, and leaves holes for the rest.

    python3 backup.py SOCKET FILE
"""

from __future__ import annotations

import os
import selectors
import sys

import lnbd

IN_FLIGHT, PIECE = 16, 1 << 20


def pieces(h: lnbd.Handle) -> list[tuple[int, int]]:
    """What is to be read: each as where it begins and how many bytes it has."""
    found = []
    for at, extent in h.allocation():
        if extent.flags & lnbd.ZERO:
            continue
        end = at + extent.length
        while at < end:
            n = min(PIECE, end - at)
            found.append((at, n))
            at += n
    return found


def backup(h: lnbd.Handle, to: int) -> int:
    """Reads the data of the export into the file, and returns how many bytes that were."""
    left = pieces(h)
    left.reverse()
    reading: dict[int, int] = {}
    copied = 0
    with selectors.DefaultSelector() as selector:
        selector.register(h, selectors.EVENT_READ)
        while left or reading:
            while left and len(reading) < IN_FLIGHT:
                at, n = left.pop()
                reading[h.aio_pread(n, at)] = at
            h.write_out()
            both = selectors.EVENT_READ | selectors.EVENT_WRITE
            selector.modify(h, both if h.direction == 3 else selectors.EVENT_READ)
            for _, events in selector.select():
                if events & selectors.EVENT_READ:
                    h.read_in()
            while (cookie := h.peek()) is not None:
                done = h.command_completed(cookie)
                if done.error:
                    raise lnbd.CommandError(done.error, os.strerror(done.error))
                os.pwrite(to, done.data, reading.pop(cookie))
                copied += len(done.data)
    return copied


def main() -> None:
    path, name = sys.argv[1:]
    with lnbd.Handle() as h:
        h.set_request_structured_replies(True)
        h.add_meta_context("base:allocation")
        h.connect_unix(path)
        to = os.open(name, os.O_WRONLY | os.O_CREAT | os.O_TRUNC, 0o666)
        os.ftruncate(to, h.size)
        copied = backup(h, to)
        os.close(to)
        print(f"{h.size} bytes, of which {copied} were read")


if __name__ == "__main__":
    main()
