"""Plays each refusal, each error of an option and of a command, each fault of an address and each line of a status by a run of the program.

    answers.py PROGRAM

The servers are those of checks/fuzz, without mischief, and with the traits of their row. A line is printed for each part of the table, `ok: ..` or `failed: ..`; each row
has the name by which docs/TESTED.md has it.
"""

import os
import random
import shutil
import struct
import subprocess
import sys
import tempfile

sys.path.insert(0, os.path.join(os.path.dirname(os.path.abspath(__file__)), "fuzz"))
import runs
import wire
from mischief import Mischief
from server import Connection, Export

FOLDER = tempfile.mkdtemp()
PATHS = [f"{FOLDER}/{name}" for name in "ab"]
HOSTS = [runs.unix_host(path) for path in PATHS]
MEBI = 1 << 20
# The codes of an option's error, by their names in the protocol.
CODES = {"ERR_UNSUP": 1, "ERR_POLICY": 2, "ERR_INVALID": 3, "ERR_PLATFORM": 4, "ERR_TLS_REQD": 5, "ERR_UNKNOWN": 6, "ERR_SHUTDOWN": 7, "ERR_BLOCK_SIZE_REQD": 8, "ERR_TOO_BIG": 9,
         "ERR_EXT_HEADER_REQD": 10}
REACH = [f"connect unix {PATHS[0]}", "settle"]


class Answering(Connection):
    """A connection that answers one option by an error, and each command by one, where the row says so."""

    option_error, command_error = None, 0

    def answer(self, option, body):
        if self.option_error and option == self.option_error[0]:
            self.reply(option, 2**31 + self.option_error[1])
        elif option == wire.LIST:
            self.reply(option, wire.SERVER, struct.pack(">I", 4) + b"bluea disk")
            self.reply(option, wire.ACK)
        else:
            super().answer(option, body)

    def replies(self, kind, flags, cookie, offset, length):
        if self.command_error:
            return [self.simple(cookie, self.command_error)] if not self.structured else [self.chunk(wire.ERROR, cookie, offset, struct.pack(">IH", self.command_error, 0))]
        return super().replies(kind, flags, cookie, offset, length)


def serve(host, traits, option_error=None, command_error=0):
    """Has this host serve an export of a mebibyte with these traits."""
    rng = random.Random(1)
    export = Export(rng, 0 if "size" in traits else MEBI, traits.get("size"))
    export.most, export.flags, export.blocks, export.contexts, export.go_is_known = "structured", wire.ALL_FLAGS, None, True, True
    export.pieces, export.reorders, export.descriptors = 1, False, 3
    for name, value in traits.items():
        setattr(export, name, value)

    def make():
        made = Answering(export, Mischief(rng, False))
        made.option_error, made.command_error = option_error, command_error
        return made
    host.make = make


def run(words, script=()):
    return runs.Run(PROGRAM, words, "\n".join(script).encode(), HOSTS, True).result()


def script(name, lines, answer, status=0, line="", traits={}, option_error=None, command_error=0):
    """A script in whose answers this one stands; what is wrong, or nothing."""
    serve(HOSTS[0], traits, option_error, command_error)
    ran = run(["nbdcalls"], lines)
    told = ran.out.decode().split("\n")
    well = answer in told and ran.status == status and ran.err.decode() == (f"lnbd: {line}\n" if line else "")
    return "" if well else f"{name}: status {ran.status}, {ran.err} {told[-8:]}"


def words(name, words, status, line, traits=({}, {}), option_error=None, command_error=0):
    """Other words, whose run ends so."""
    for host, of in zip(HOSTS, traits):
        serve(host, of, option_error, command_error)
    ran = run(words)
    return "" if ran.status == status and ran.err.decode() == (f"lnbd: {line}\n" if line else "") else f"{name}: status {ran.status}, {ran.err}"


def told(part, rows):
    wrong = [row for row in rows if row]
    print(f"failed: {part}: {'; '.join(wrong[:4])}" if wrong else f"ok: {part}, {len(rows)} rows", flush=True)


def refusals():
    """The refusals of an issue, in their order, and of settings and options."""
    def without(bit, line, lack):
        return script("Unsupported", [*REACH, line], f"refused unsupported {lack}", traits={"flags": wire.ALL_FLAGS & ~bit})
    sixteen = ["context x"] * 17
    reads = ["pread 1 0"] * 1025
    told("each refusal", [
        script("NotReady", ["pread 1 0"], "refused not-ready created"),
        script("Dead", [*REACH, "pread 1 0"], "refused dead refused 7 5", 3, "peer error option 7 code 5", option_error=(7, 5)),
        script("Closing", [*REACH, "disconnect", "pread 1 0"], "refused closing"),
        script("TooMany", [*REACH, *reads], "refused too-many 1024"),
        script("Unsupported", [*REACH, "pwrite hex:00 0"], "refused unsupported read-only", traits={"flags": wire.ALL_FLAGS | wire.READ_ONLY}),
        without(4, "flush", "flush"), without(32, "trim 512 0", "trim"), without(64, "zero 512 0", "zero"), without(1024, "cache 512 0", "cache"),
        script("Unsupported", [*REACH, "block-status 512 0"], "refused unsupported context"),
        script("BadFlags", [*REACH, "pread 1 0 1"], "refused bad-flags 1"),
        script("ZeroSize", [*REACH, "pread 0 0"], "refused zero-size"),
        script("TooBig", [*REACH, "pread 33554433 0"], "refused too-big 33554432"),
        script("Bounds", [*REACH, f"pread 2 {MEBI - 1}"], f"refused bounds {MEBI}"),
        script("Align", [*REACH, "pread 512 1"], "refused align 512", traits={"blocks": (512, 4096, 65536)}),
        script("State", [*REACH, "export x"], "refused state ready"),
        script("TooMany", sixteen, "refused too-many 16"),
        script("NotStructured", ["optmode on", *REACH, "opt-meta"], "refused not-structured"),
        script("Unknown", ["strict 32"], "refused strict 32"),
    ])


def option_replies():
    """What each option may be answered."""
    rows = []
    for name, code in CODES.items():
        # (GO that is not known is followed by EXPORT_NAME)
        if code != 1:
            rows.append(script(f"GO {name}", [*REACH, "state"], f"dead refused 7 {code}", 3, f"peer error option 7 code {code}", option_error=(7, code)))
        rows.append(script(f"INFO {name}", ["optmode on", *REACH, "opt-info", "settle", "answer"], f"refused 6 {code}", 3, f"peer error option 6 code {code}", option_error=(6, code)))
        rows.append(script(f"LIST {name}", ["optmode on", *REACH, "opt-list", "settle", "answer"], f"refused 3 {code}", 3, f"peer error option 3 code {code}", option_error=(3, code)))
        rows.append(script(f"SET_META_CONTEXT {name}", ["structured on", "context x", *REACH, "state"], "ready", option_error=(10, code)))
        rows.append(script(f"STRUCTURED_REPLY {name}", ["structured on", *REACH, "state"], "ready", option_error=(8, code)))
        rows.append(script(f"EXTENDED_HEADERS {name}", ["extended on", *REACH, "state"], "ready", option_error=(11, code)))
    rows += [
        script("EXPORT_NAME", [*REACH, "info"], f"info {MEBI} {wire.ALL_FLAGS} - - - false", option_error=(7, 1)),
        # (the end of the connection is not waited for)
        script("ABORT ACK", ["optmode on", *REACH, "opt-abort", "settle", "state"], "closing"),
        script("SERVER", ["optmode on", *REACH, "opt-list", "settle", "listing"], 'export "blue" "a disk"'),
        script("INFO BLOCK_SIZE", [*REACH, "info"], f"info {MEBI} {wire.ALL_FLAGS} 512 4096 65536 false", traits={"blocks": (512, 4096, 65536)}),
        script("META_CONTEXT", ["structured on", "context base:allocation", *REACH, "info"], "context 1 base:allocation"),
        script("STRUCTURED_REPLY ACK", ["structured on", *REACH, "info"], f"info {MEBI} {wire.ALL_FLAGS} - - - true"),
        script("EXTENDED_HEADERS ACK", ["extended on", *REACH, "info"], f"info {MEBI} {wire.ALL_FLAGS} - - - true", traits={"most": "extended"}),
    ]
    told("each option reply", rows)


def command_errors():
    """Each error of a command, and one that the protocol doesn't have."""
    rows = []
    for error, counts in [(error, error) for error in sorted(wire.ERRORS)] + [(99, 22)]:
        for lines in (REACH, ["structured on", *REACH]):
            rows.append(script(f"error {error}", [*lines, "pread 1 0", "settle", "done 1"], f"failed {counts} 1 00*1", 3, f"peer error command {counts}", command_error=error))
    told("each error of a command", rows)


def addresses():
    """Each fault of an address."""
    at = f"nbd+unix:///?socket={PATHS[0]}"
    faults = {"Scheme": "http://h/", "Tls": "nbds://h/", "Host": "nbd:///x", "Port": "nbd://h:0/", "Escape": "nbd://h/%zz", "NoSocket": "nbd+unix:///x", "NotUtf8": "nbd://h/%ff",
              "TooLong": "nbd://h/" + "x" * 4097}
    told("each fault of an address", [words(name, ["nbdinfo", "--size", uri], 1, f"uri {name}") for name, uri in faults.items()] + [words("none", ["nbdinfo", "--size", at], 0, "")])


def lines():
    """Each line of a status that the parts above don't have, but for those that no server brings about."""
    one, other = (f"nbd+unix:///?socket={path}" for path in PATHS)
    small, large = {"size": 511}, {"blocks": (512, 4096, 65536)}
    closed = subprocess.run([PROGRAM, "nbdinfo", "--size", f"nbd+unix:///?socket={FOLDER}/none"], capture_output=True)
    folder = os.open(FOLDER, os.O_RDONLY)
    unread = subprocess.run([PROGRAM, "nbdcalls"], stdin=folder, capture_output=True)
    os.close(folder)
    with open("/dev/full", "wb") as full:
        unwritten = subprocess.run([PROGRAM, "selftest", "0", "1"], stdout=full, stderr=subprocess.PIPE)
    told("each line of a status", [
        words("usage", ["nbdcopy"], 1, "usage"),
        script("script line", ["state", "preed"], "", 1, "script line 2"),
        words("2", ["nbdinfo", "--is", "read-only", one], 2, ""),
        words("rule read-only", ["nbdcopy", one, other], 6, "rule read-only", ({}, {"flags": wire.ALL_FLAGS | wire.READ_ONLY})),
        words("rule smaller", ["nbdcopy", one, other], 6, f"rule smaller {MEBI} 511", ({}, small)),
        words("rule uneven", ["nbdcopy", one, other], 6, "rule uneven 511 512", (small, large)),
        words("rule unfit", ["nbdcopy", one, other], 6, "rule unfit 65536 512", ({"blocks": (1, 1, 512)}, {"blocks": (65536, 65536, 65536)})),
        words("rule no-context", ["nbdinfo", "--map=x", one], 6, "rule no-context x", ({"contexts": False}, {})),
        words("rule selftest-size", ["selftest", "0", "16777217"], 6, "rule selftest-size 16777217 16777216"),
        "" if (closed.returncode, closed.stderr) == (5, b"lnbd: link fault\n") else f"link fault: {closed}",
        "" if (unread.returncode, unread.stderr) == (10, b"lnbd: input fault\n") else f"input fault: {unread}",
        "" if (unwritten.returncode, unwritten.stderr) == (8, b"lnbd: output fault\n") else f"output fault: {unwritten}",
    ])


PROGRAM = sys.argv[1]
try:
    for part in (refusals, option_replies, command_errors, addresses, lines):
        part()
finally:
    shutil.rmtree(FOLDER)
