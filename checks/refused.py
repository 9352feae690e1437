"""Has each allocation of some runs refused in turn, once it alone and once with all behind it.

    refused.py PROGRAM PRELOADED STEP FOLDER

PRELOADED is checks/refuse.c, compiled. Of the allocations each STEPth is refused. Each run must end with 9 and its line, where what it
printed is a front of what the run without a refusal prints; or as that run does; or, where the refusal was a connect's own, with 5 and its line. Every block is freed, as
many descriptors are open at its end as without, and a copy that says 0 is whole. One line is printed for
each run and way, `ok: ..` or `failed: ..`.
"""

import collections
import os
import re
import subprocess
import sys

program, preloaded, step, folder = sys.argv[1], sys.argv[2], int(sys.argv[3]), sys.argv[4]
LONGEST = 20

# What is played: a name, the words, and a script. Servers stand at the sockets `data` (nbdkit's data '0xab*512', 1 MiB), `seed` (lnbd serve, 64 KiB of seed 0) and
# `from` and `to` (files of 1 MiB).
DATA, SEED = f"{folder}/data", f"{folder}/seed"
READY = ["settle", "state"]
ROWS = [
    ("a read by a script", ["nbdcalls"], [f"connect unix {DATA}", *READY, "pread 512 0", "settle", "log", "done 1", "disconnect", "settle"]),
    ("reads in pieces by a script", ["nbdcalls"], ["structured on", f"connect unix {SEED}", *READY, "pread-structured 8 0", "pread-structured 8 8", "settle", "peek", "done 1",
                                                    "done 2", "log", "heard"]),
    ("block statuses by a script", ["nbdcalls"], ["structured on", "context base:allocation", "context qemu:dirty-bitmap:b", f"connect unix {SEED}", *READY, "block-status 8192 0",
                                                   "settle", "done 1", "block-status 8192 0 8", "settle", "done 2", "heard", "log", "state"]),
    ("a copy", ["nbdcopy", f"nbd+unix:///?socket={folder}/from", f"nbd+unix:///?socket={folder}/to"], None),
    ("a map", ["nbdinfo", "--map", f"nbd+unix:///x?socket={SEED}"], None),
    ("a list", ["nbdinfo", "--list", "--json", f"nbd+unix:///x?socket={SEED}"], None),
    ("the self-test", ["selftest", "0", "65536"], None),
    ("serving one client", ["serve", f"nbd+unix:///x?socket={folder}/served", "--size", "65536"], None),
]
for _, words, script in ROWS:
    if script and f"connect unix {SEED}" in script:
        # (its export has a name)
        script.insert(0, "export x")


class Ended:
    """How a run ended: its status, what it printed, and what the counter wrote."""

    def __init__(self, words, script, at, every):
        told = f"{folder}/counted"
        if os.path.exists(told):
            os.unlink(told)
        environment = {"LD_PRELOAD": preloaded, "REFUSE_TO": told, "REFUSE_AT": str(at), **({"REFUSE_ALL": "1"} if every else {})}
        play = self.serve if words[0] == "serve" else self.run
        self.status, self.out, self.err = play(words, "\n".join(script or []).encode(), environment)
        # (a run that a signal ended wrote nothing)
        counted = open(told).read().split() if os.path.exists(told) else ["0", "1", "-1", "-1"]
        self.calls, self.refused, self.held, self.open = map(int, counted)


    def run(self, words, script, environment):
        ran = subprocess.run([program, *words], input=script, capture_output=True, env=environment, timeout=LONGEST)
        return ran.returncode, ran.stdout, ran.stderr

    def serve(self, words, script, environment):
        """A server that one client after the other asks for its size, until it has ended."""
        server = subprocess.Popen([program, *words], stdout=subprocess.PIPE, stderr=subprocess.PIPE, env=environment)
        for _ in range(200):
            if server.poll() is not None:
                break
            subprocess.run([program, "nbdinfo", "--size", words[1]], capture_output=True, timeout=LONGEST)
        else:
            server.kill()
        out, err = server.communicate(timeout=LONGEST)
        return server.returncode, out, err


def ready(words):
    """Puts other bytes into the destination of a copy."""
    if words[0] == "nbdcopy":
        with open(f"{folder}/target", "r+b") as target:
            target.write(b"\x11" * os.path.getsize(f"{folder}/source"))


def equal():
    return open(f"{folder}/source", "rb").read() == open(f"{folder}/target", "rb").read()


def judged(ended, whole, words):
    """What is wrong with a run, or nothing."""
    as_whole = (ended.status, ended.out, ended.err) == (whole.status, whole.out, whole.err)
    want = ended.status == 9 and ended.err == b"lnbd: no memory\n" and whole.out.startswith(ended.out)
    # (a script goes on behind a failed connect, to its last line)
    last = re.search(rb"\nopened (\d+) freed (\d+)\n$", ended.out)
    connect = ended.status == 5 and ended.err == b"lnbd: link fault\n" and (last is not None and last[1] == last[2] if words == ["nbdcalls"] else ended.out == b"")
    if not as_whole and not want and not connect:
        return f"status {ended.status}, {ended.out[-200:]} {ended.err}"
    if ended.held != whole.held or ended.open != whole.open:
        return f"{ended.held} blocks and {ended.open} descriptors are left, in place of {whole.held} and {whole.open}"
    if ended.status == 0 and words[0] == "nbdcopy" and not equal():
        return "status 0, and the destination is not the source"
    return ""


def play(name, words, script, every):
    ready(words)
    whole, wrong, at, runs, ends = Ended(words, script, 0, False), [], 1, 0, collections.Counter()
    if whole.status != 0 or whole.held != 0:
        wrong.append(f"without a refusal: status {whole.status}, {whole.held} blocks are left, {whole.err}")
    while not wrong:
        ready(words)
        try:
            ended = Ended(words, script, at, every)
        except subprocess.TimeoutExpired:
            wrong.append(f"refusal {at}: it did not end")
            break
        runs += 1
        ends[ended.status] += 1
        found = judged(ended, whole, words)
        wrong += [f"refusal {at}: {found}"] if found else []
        if ended.refused == 0:
            break
        at += step
    how = "and all behind it " if every else ""
    print(f"failed: {name} with an allocation {how}refused: {'; '.join(wrong)}" if wrong else
          f"ok: {name} with an allocation {how}refused, {runs} runs of {whole.calls} allocations, {', '.join(f'{count} ended with {status}' for status, count in sorted(ends.items()))}", flush=True)
    return not wrong


def main():
    for name, words, script in ROWS:
        for every in (False, True):
            play(name, words, script, every)


main()
