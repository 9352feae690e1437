"""Plays each breach of the protocol by a script of the program over a real socket, whole and cut in two; each fault of content likewise; and two reads whose peer ends
the connection behind each of its bytes.

    breaches.py PROGRAM

Behind the first part the server waits until the program sleeps: where the part shows the breach the program has ended, and is sent nothing more; where it doesn't, it
waits, and the second part ends it. So a breach is told with the byte that shows it and not before. A fault of content leaves the
connection ready. A line is printed for each breach, for the faults of content and for the ends.
"""

import collections
import os
import shutil
import sys
import tempfile

sys.path.insert(0, os.path.join(os.path.dirname(os.path.abspath(__file__)), "fuzz"))
import runs

HELLO = "4e42444d41474943 49484156454f5054 0003"
STRUCTURED = "0003e889045565a9 00000008 00000001 00000000"
EXTENDED = "0003e889045565a9 0000000b 00000001 00000000"
GO = "0003e889045565a9 00000007 00000003 0000000c 0000 0000000000100000 0001 0003e889045565a9 00000007 00000001 00000000"
READ = ["pread 16 0", "settle"]
# What comes before: what is sent as soon as so many further bytes of the client have come, how many come before the breach, the script before and behind the connect,
# and what its lines tell behind the settle.
Stage = collections.namedtuple("Stage", "sends waits before behind told")
STAGES = {
    "H": Stage([], 0, [], [], []),
    "N": Stage([(0, HELLO)], 32, [], [], []),
    "S": Stage([(0, HELLO), (32, GO)], 28, [], READ, ["cookie 1", "settled"]),
    "T": Stage([(0, HELLO), (20, STRUCTURED), (28, GO)], 28, ["structured on"], READ, ["cookie 1", "settled"]),
    "E": Stage([(0, HELLO), (20, EXTENDED), (28, GO)], 32, ["extended on"], READ, ["cookie 1", "settled"]),
}
REPLY, ONE = "0003e889045565a9 00000007", "0000000000000001"
# The name, what comes before, the bytes, which of them shows it, and the first cut.
BREACHES = [
    ("BadHello", "H", "4e42444d41474944", 8, 1),
    ("OldStyle", "H", "4e42444d41474943 0000420281861253", 16, 1),
    ("NotFixed", "H", "4e42444d41474943 49484156454f5054 0000", 18, 1),
    ("BadOptionMagic", "N", "0003e889045565a8", 8, 1),
    ("WrongOption", "N", "0003e889045565a9 00000006 00000001 00000000", 20, 1),
    ("BadOptionLength", "N", f"{REPLY} 00000003 00010001", 20, 1),
    ("UnexpectedReply", "N", f"{REPLY} 00000002 00000004 00000000", 20, 1),
    ("TooManyReplies", "N", f"{REPLY} 00000003 00000002 0009" * 1025, 22550, 22450),
    ("BadText", "N", f"{REPLY} 00000003 00000003 0001 ff", 23, 1),
    ("NoExportInfo", "N", f"{REPLY} 00000001 00000000", 20, 1),
    ("SizeTooBig", "N", f"{REPLY} 00000003 0000000c 0000 8000000000000000 0001", 32, 1),
    ("BadReplyMagic", "S", "668e33ef", 4, 1),
    ("UnknownCookie", "S", "67446698 00000000 0000000000000063", 16, 1),
    ("SimpleForRead", "T", f"67446698 00000000 {ONE}", 16, 1),
    ("BadChunkLength", "T", f"668e33ef 0001 0002 {ONE} 0000000b", 20, 1),
    ("BadChunkType", "T", f"668e33ef 0001 0007 {ONE} 00000000", 20, 1),
    ("OutOfRange", "T", f"668e33ef 0001 0001 {ONE} 00000009 0000000000000010", 28, 1),
    ("ZeroError", "T", f"668e33ef 0001 8001 {ONE} 00000006 00000000 0000", 26, 1),
    ("TooManyErrors", "T", f"668e33ef 0000 8001 {ONE} 00000006 00000005 0000" * 1025, 26644, 26550),
    ("MixedHeaders", "E", "67446698", 4, 1),
]


GO_DF = GO.replace("0000000000100000 0001", "0000000000100000 0081")
AGREED = f"0003e889045565a9 0000000a 00000004 00000013 00000001 626173653a616c6c6f636174696f6e 0003e889045565a9 0000000a 00000001 00000000"
CONTEXT = ["structured on", "context base:allocation"]
DATA, HOLE, STATUS = f"0001 {ONE}", f"0002 {ONE}", f"0005 {ONE}"
# What is asked of a read and of a block status, where its content is faulty; the second of each with DF, or with REQ_ONE.
READS = Stage([(0, HELLO), (20, STRUCTURED), (28, GO)], 28, ["structured on"], READ, [])
READS_DF = Stage([(0, HELLO), (20, STRUCTURED), (28, GO_DF)], 28, ["structured on"], ["pread 16 0 4", "settle"], [])
STATUSES = Stage([(0, HELLO), (20, STRUCTURED), (43, AGREED), (28, GO)], 28, CONTEXT, ["block-status 8192 0", "settle"], [])
STATUSES_ONE = STATUSES._replace(behind=["block-status 8192 0 8", "settle"])
CONTENT_FAULTS = [
    ("content over earlier content", READS, f"668e33ef 0000 {DATA} 00000018 0000000000000000 {'11' * 16} 668e33ef 0001 {DATA} 00000009 0000000000000008 22"),
    ("a hole of no bytes", READS, f"668e33ef 0000 {DATA} 00000018 0000000000000000 {'11' * 16} 668e33ef 0001 {HOLE} 0000000c 0000000000000000 00000000"),
    ("a second chunk of content where one was asked for", READS_DF, f"668e33ef 0000 {DATA} 00000010 0000000000000000 {'11' * 8} 668e33ef 0001 {DATA} 00000010 0000000000000008 {'22' * 8}"),
    ("a byte that is not told", READS, f"668e33ef 0001 {DATA} 00000017 0000000000000000 {'11' * 15}"),
    ("extents of a context that was not agreed", STATUSES, f"668e33ef 0000 {STATUS} 0000000c 00000001 00002000 00000000 668e33ef 0001 {STATUS} 0000000c 00000002 00002000 00000000"),
    ("extents of a context twice", STATUSES, f"668e33ef 0000 {STATUS} 0000000c 00000001 00002000 00000000 668e33ef 0001 {STATUS} 0000000c 00000001 00002000 00000000"),
    ("an extent of no bytes", STATUSES, f"668e33ef 0001 {STATUS} 00000014 00000001 00002000 00000000 00000000 00000003"),
    ("a second extent where one was asked for", STATUSES_ONE, f"668e33ef 0001 {STATUS} 00000014 00000001 00001000 00000000 00001000 00000003"),
    ("a context that is not told", STATUSES, f"668e33ef 0001 0000 {ONE} 00000000"),
    ("a reply of no chunk", STATUSES, f"67446698 00000000 {ONE}"),
]
# Two reads whose replies lie within each other.
INTERLEAVED = f"668e33ef 0000 {DATA} 0000000c 0000000000000000 11111111 668e33ef 0001 0001 0000000000000002 00000010 0000000000000008 2222222222222222 " \
    f"668e33ef 0001 {DATA} 0000000c 0000000000000004 33333333"


class Peer:
    """The server of one session, for runs.Run: it sends what comes before, and then the bytes, cut in two."""

    def __init__(self, stage, data, cut, most=None):
        self.left = most
        self.queue, self.held, self.unanswered = collections.deque(), [], []
        self.sent, self.taken, self.waits = bytearray(), 0, []
        wanted = 0
        for count, text in stage.sends:
            wanted += count
            self.waits.append((wanted, [bytes.fromhex(text)]))
        self.before = sum(len(part) for _, parts in self.waits for part in parts)
        self.waits.append((wanted + stage.waits, [data[:cut], "pause", data[cut:]] if cut else [data]))
        self.feed(b"")

    def feed(self, data):
        self.taken += len(data)
        while self.waits and self.waits[0][0] <= self.taken:
            self.queue.extend(self.fronts(self.waits.pop(0)[1]))

    def fronts(self, parts):
        """What of these parts is sent: all, or as many bytes as are left before the end."""
        for part in parts:
            if self.left is None or part == "pause":
                yield part
                continue
            yield part[:self.left]
            self.left -= len(part[:self.left])
            if self.left == 0:
                yield "close"
                return


def play(program, host, path, breach, cut):
    """What is wrong with this cut, or nothing."""
    name, place, text, told, _ = breach
    stage, data, made = STAGES[place], bytes.fromhex(text), []

    def make():
        made.append(Peer(stage, data, cut))
        return made[0]
    host.make = make
    lines = stage.before + [f"connect unix {path}", "settle"] + stage.behind + ["state", "done 1"]
    ran = runs.Run(program, ["nbdcalls"], "\n".join(lines).encode(), [host], True).result()
    read = place not in "HN"
    # (the first error of a command is its error, and the end of the connection comes behind it)
    error = 5 if name == "TooManyErrors" else 107
    wanted = ["ok"] * len(stage.before) + ["connected", "settled"] + stage.told + [f"dead broke {name}", f"failed {error} 16 00*16" if read else "no-such-cookie"]
    wanted += [f"opened {int(read)} freed {int(read)}", ""]
    if ran.status != 4 or ran.err != f"lnbd: peer broke {name}\n".encode() or ran.out.decode() != "\n".join(wanted):
        return f"cut behind {cut}: status {ran.status}, {ran.err} {ran.out}"
    sent = len(made[0].sent) - made[0].before
    if cut and (sent > cut) != (cut < told):
        return f"cut behind {cut}: {sent} bytes were sent before it ended"
    return ""


def run(program, host, path, stage, data, cut, most, lines):
    """A run over such a peer: how it ended."""
    host.make = lambda: Peer(stage, data, cut, most)
    script = stage.before + [f"connect unix {path}", "settle"] + stage.behind + lines
    return runs.Run(program, ["nbdcalls"], "\n".join(script).encode(), [host], True).result()


def fault(program, host, path, name, stage, text):
    """What is wrong with the cuts of this fault of content."""
    data, wrong = bytes.fromhex(text), []
    for cut in range(len(data)):
        ran = run(program, host, path, stage, data, cut, None, ["done 1", "state"])
        told = ran.out.decode().split("\n")[-4:]
        answer = "failed 71 0 -" if stage.before == CONTEXT else "failed 71 16 00*16"
        last = f"opened {len(stage.before)} freed {len(stage.before)}"
        if (ran.status, ran.err, told) != (4, b"lnbd: peer broke Content\n", [answer, "ready", last, ""]):
            wrong.append(f"{name}, cut behind {cut}: status {ran.status}, {ran.err} {told}")
    return wrong


def end(program, host, path, most):
    """What is wrong where the peer of two reads ends behind so many bytes."""
    shaken, second, first = 90, 158, 190
    stage = Stage([(0, HELLO), (20, STRUCTURED), (28, GO)], 56, ["structured on"], ["pread-structured 8 0", "pread-structured 8 8", "settle"], [])
    ran = run(program, host, path, stage, bytes.fromhex(INTERLEAVED), 0, most, ["done 1", "done 2", "state"])
    if most < shaken:
        wanted = ["refused dead ended", "refused dead ended", "settled", "no-such-cookie", "no-such-cookie", "dead ended"]
    else:
        wanted = ["cookie 1", "cookie 2", "settled", "done 8 11*4 33*4" if most == first else "failed 107 8 00*8", "done 8 22*8" if most >= second else "failed 107 8 00*8",
                  "ready" if most == first else "dead ended"]
    status = (0, b"") if most == first else (4, b"lnbd: peer broke Ended\n")
    told = ran.out.decode().split("\n")[3:]
    return [] if (ran.status, ran.err) == status and told == [*wanted, "opened 4 freed 4", ""] else [f"an end behind {most} bytes: status {ran.status}, {ran.err} {told}"]


def play_all(program, host, path):
    for breach in BREACHES:
        name, _, text, _, first = breach
        cuts = range(first, len(bytes.fromhex(text)))
        wrong = [found for cut in [0, *cuts] if (found := play(program, host, path, breach, cut))]
        print(f"failed: {name}: {'; '.join(wrong[:3])}" if wrong else f"ok: {name} is told at its byte, whole and by {len(cuts)} cuts", flush=True)
    wrong = sum((fault(program, host, path, *row) for row in CONTENT_FAULTS), [])
    print(f"failed: faults of content: {'; '.join(wrong[:3])}" if wrong else f"ok: {len(CONTENT_FAULTS)} faults of content, whole and cut at each byte, leave the connection ready", flush=True)
    wrong = sum((end(program, host, path, most) for most in range(1, 191)), [])
    print(f"failed: ends: {'; '.join(wrong[:3])}" if wrong else "ok: an end behind each byte of two reads fails what was left", flush=True)


def main():
    folder = tempfile.mkdtemp()
    try:
        play_all(sys.argv[1], runs.unix_host(f"{folder}/s"), f"{folder}/s")
    finally:
        shutil.rmtree(folder)


main()
