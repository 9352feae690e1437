"""A fuzzer of lnbd: sessions with hostile servers and clients, each drawn from a seed and its number.

    python3 -B checks/fuzz PROGRAM [--seed N] [--first N] [--sessions N] [--seconds N] [--only KIND] [--every N]

Of every run it asks that its status is one of its tool's with its line, that no signal ended it, that it took no more than 200 MiB beside what it was asked to hold
and no more than 20 seconds, that a copy which says 0 left what the source told, and that a script's results are what was sent. KIND is script, info, copy-from,
copy-to or serve. A line is printed for each finding, with the words that play its session again, and one for each N sessions; the last line counts them. The status
is 1 where something was found.
"""

import argparse
import collections
import os
import resource
import shutil
import sys
import tempfile
import time

import runs
from sessions import Session


def places(folder):
    """Where servers listen, by family: for each side a host, and the address in a script and in a tool's words."""
    unix = [(runs.unix_host(f"{folder}/{name}"), (f"unix {folder}/{name}", f"nbd+unix:///?socket={folder}/{name}")) for name in "ab"]
    tcp = []
    for _ in "ab":
        host = runs.tcp_host()
        port = host.listener.getsockname()[1]
        tcp.append((host, (f"tcp 127.0.0.1 {port}", f"nbd://127.0.0.1:{port}")))
    return {"unix": unix, "tcp": tcp, "folder": folder}


def words():
    parser = argparse.ArgumentParser(usage=__doc__)
    parser.add_argument("program")
    for name, default in (("--seed", 0), ("--first", 0), ("--sessions", 300), ("--seconds", 0), ("--every", 0)):
        parser.add_argument(name, type=int, default=default)
    parser.add_argument("--only", default="")
    return parser.parse_args()


def main():
    asked = words()
    resource.setrlimit(resource.RLIMIT_CORE, (0, 0))
    folder = tempfile.mkdtemp()
    where, began, found, counts, done = places(folder), time.monotonic(), 0, collections.Counter(), collections.Counter()
    played, number = 0, asked.first
    try:
        while played < asked.sessions and not (asked.seconds and time.monotonic() - began > asked.seconds):
            session = Session(asked.seed, number, where)
            number += 1
            if asked.only and session.kind != asked.only:
                continue
            played += 1
            wrong = session.play(asked.program)
            counts[session.kind, session.status] += 1
            done.update(session.mischief.done if session.mischief else {})
            if wrong:
                found += 1
                print(f"found: {wrong}; --seed {asked.seed} --first {number - 1} --sessions 1", flush=True)
            if asked.every and played % asked.every == 0:
                print(f"played {played} in {time.monotonic() - began:.0f} s, found {found}", flush=True)
    finally:
        shutil.rmtree(folder)
    for (kind, status), count in sorted(counts.items()):
        print(f"{kind} status {status}: {count}")
    print("mischief: " + " ".join(f"{name} {count}" for name, count in sorted(done.items())))
    print(f"sessions {played} found {found} seconds {time.monotonic() - began:.0f}")
    return 1 if found else 0


sys.exit(main())
