"""The sessions of each tool: their words and servers, and what is asked of how they end. A session is drawn from its seed and its number alone."""

import json
import random
import re

import judge
import scripts
import wire
from clients import Serving
from mischief import Mischief
from runs import LONGEST, MOST_MEMORY, Run
from server import Connection, Export

BREACHES = ("BadHello|OldStyle|NotFixed|BadOptionMagic|WrongOption|BadOptionLength|UnexpectedReply|TooManyReplies|BadText|NoExportInfo|SizeTooBig|BadReplyMagic|UnknownCookie"
            "|SimpleForRead|BadChunkLength|BadChunkType|OutOfRange|ZeroError|TooManyErrors|MixedHeaders")
# The line of each status, by tool. A run of which it isn't told that memory is short never ends with 9.
LINES = {
    0: "", 2: "", 3: r"peer error (option (1|2|3|6|7|8|10|11) code \d+|command (1|5|12|22|28|75|95|108))", 4: rf"peer broke ({BREACHES}|Content|Ended|Differs)", 5: "link fault",
    6: r"rule (read-only|smaller \d+ \d+|uneven \d+ \d+|unfit \d+ \d+|no-context \S+)",
}
STATUSES = {"nbdcalls": (0, 3, 4, 5), "nbdinfo": (0, 2, 3, 4, 5, 6), "nbdcopy": (0, 3, 4, 5, 6)}


class Session:
    """One session; `play` tells what was wrong with it, or nothing."""

    def __init__(self, seed, number, places):
        self.rng = random.Random(f"{seed} {number}")
        self.number, self.places = number, places
        self.hostile = self.rng.random() < 0.85
        self.kind = self.rng.choice(("script", "script", "info", "copy-from", "copy-from", "copy-to", "serve"))
        self.status, self.mischief = None, None

    def server(self, place, export, mischief):
        """Serves this export there; the connections are kept in the order in which they came."""
        made = []

        def make():
            made.append(Connection(export, mischief))
            return made[-1]
        host, address = place
        host.make = make
        return made, address

    def place(self, side):
        return self.places["tcp" if self.rng.random() < 0.15 else "unix"][side]

    def run(self, program, words, script, used):
        ran = Run(program, words, script, [place[0] for place in used], not self.hostile).result()
        self.status = ran.status
        return ran

    def play(self, program):
        wrong = {"script": self.script, "info": self.info, "copy-from": self.copy, "copy-to": self.copy, "serve": self.serve}[self.kind](program)
        return f"{self.kind}: {wrong}" if wrong else ""

    def ends_well(self, tool, ran, asked=0):
        """What is asked of every run; `asked` bytes are those that it was asked to hold."""
        if ran.status < 0:
            return f"it was ended by the signal {-ran.status} after {ran.seconds:.1f} s"
        if ran.seconds > LONGEST:
            return f"it took {ran.seconds:.1f} s"
        if ran.memory > MOST_MEMORY + asked // 1024:
            return f"it took {ran.memory} KiB"
        if ran.status not in STATUSES[tool]:
            return f"it ended with {ran.status} and '{ran.err[:200]}'"
        line = LINES[ran.status]
        if not re.fullmatch(f"lnbd: {line}\n" if line else "", ran.err.decode("utf-8", "replace")):
            return f"it ended with {ran.status} and '{ran.err[:200]}'"
        return ""

    def size(self):
        return self.rng.choice((0, 1, 511, 512, 4096, 4097, 16384, 65536, 65536, 262144, 300000))

    # Each tool.

    def script(self, program):
        export, mischief = Export(self.rng, self.size()), Mischief(self.rng, self.hostile)
        self.mischief = mischief
        export.fill()
        place = self.place(0)
        made, address = self.server(place, export, mischief)
        lines = scripts.script(self.rng, export.size, [address[0]])
        ran = self.run(program, ["nbdcalls"], "\n".join(lines).encode(), [place])
        asked = sum(int(words[words.index("pread") + 1]) if "pread" in words else 0 for words in (line.replace("-structured", "").split(" ") for line in lines))
        wrong = self.ends_well("nbdcalls", ran, asked)
        if wrong:
            return wrong
        answers = scripts.answers(lines, ran.out.decode("utf-8", "replace"))
        if isinstance(answers, str):
            return answers
        readings = [self.reading(connection) for connection in made]
        return scripts.differs(lines, answers, made, readings)

    def reading(self, connection):
        if connection.began is None or not connection.clean:
            return None
        contexts = set(connection.agreed_ids)
        return judge.Reading(connection.sent[connection.began:], connection.commands, connection.structured, connection.extended, contexts)

    def info(self, program):
        size = self.size() if self.rng.random() < 0.7 else self.rng.choice((2**31, 2**40, 2**63 - 1))
        export, mischief = Export(self.rng, 0, size), Mischief(self.rng, self.hostile)
        self.mischief = mischief
        place = self.place(0)
        made, address = self.server(place, export, mischief)
        words = self.rng.choice(([], ["--json"], ["--list"], ["--list", "--json"], ["--size"], ["--map"], ["--map", "--json"], ["--map", "--totals"], ["--map", "--totals", "--json"],
                                 ["--map=qemu:dirty-bitmap:b"], ["--is", "read-only"], ["--can", "zero"]))
        if words and words[0].startswith("--map") and size > 2**31:
            # (whose map would take more questions than a session has time for)
            export.size = size = 2**31
        ran = self.run(program, ["nbdinfo", *words, address[1]], b"", [place])
        wrong = self.ends_well("nbdinfo", ran)
        if wrong or ran.status != 0 or mischief.done:
            return wrong
        return self.told(words, ran.out.decode("utf-8", "replace"), size)

    def told(self, words, out, size):
        """What an honest server's export was said to be."""
        if words == ["--size"]:
            return "" if out == f"{size}\n" else f"the size is told as {out[:100]}"
        if "--json" in words:
            told = json.loads(out)
            if "--map" in words:
                return "" if sum(one.get("length", one.get("size")) for one in told) == size else f"the map is {out[:200]}"
        elif words == ["--map"]:
            return "" if sum(int(line.split()[1]) for line in out.splitlines()) == size else f"the map is {out[:200]}"
        return ""

    def copy(self, program):
        rng, size = self.rng, self.size()
        honest = Mischief(rng, False)
        mischief = self.mischief = Mischief(rng, self.hostile)
        source, target = Export(rng, size), Export(rng, size + rng.choice((0, 0, 0, 4096, -1 if size else 0)))
        source.fill()
        before, words = self.words()
        if not before:
            target.fill()
        target.flags &= ~wire.READ_ONLY
        places = [self.place(0), self.place(1)]
        came, first = self.server(places[0], source, mischief if self.kind == "copy-from" else honest)
        went, second = self.server(places[1], target, mischief if self.kind == "copy-to" else honest)
        ran = self.run(program, ["nbdcopy", *words, first[1], second[1]], b"", places)
        wrong = self.ends_well("nbdcopy", ran, 3 * size)
        if wrong or ran.out:
            return wrong or f"it printed {ran.out[:100]}"
        if not self.hostile and ran.status not in (0, 6):
            return f"between honest servers it ended with {ran.status} and '{ran.err[:200]}'"
        return self.equal(size, came, went, target) if ran.status == 0 else ""

    def serve(self, program):
        serving = Serving(self.rng, self.places["folder"])
        wrong = serving.play(program)
        self.status = serving.status
        return wrong

    def words(self):
        """Whether the destination is told to be zero, and the options."""
        rng, words = self.rng, []
        before = rng.random() < 0.2
        words += ["--destination-is-zero"] * before + ["--allocated"] * (rng.random() < 0.2) + ["--flush"] * (rng.random() < 0.3) + ["--no-extents"] * (rng.random() < 0.3)
        words += ["-C", str(rng.choice((1, 2, 4, 16)))] * (rng.random() < 0.7) + ["-R", str(rng.choice((1, 2, 64)))] * (rng.random() < 0.5)
        words += ["--request-size", str(rng.choice((4096, 8192, 65536)))] * (rng.random() < 0.7) + ["-S", str(rng.choice((0, 512, 4096, 65536)))] * (rng.random() < 0.4)
        return before, words

    def equal(self, size, came, went, target):
        """A copy that says 0 left what the source told, and the destination answered each of its changes without an error."""
        if not all(connection.clean for connection in came + went):
            return ""
        readings = [self.reading(connection) for connection in came if connection.began is not None]
        answered = [self.reading(connection) for connection in went if connection.began is not None]
        for reading in readings + answered:
            if reading.breach:
                return f"it ended with 0, and what was sent shows {reading.breach}"
            if any(command.error for command in reading.commands.values()):
                return "it ended with 0, and a command was answered by an error"
            if not all(command.done for command in reading.commands.values()):
                return "it ended with 0, and a command was not answered"
        held, known = judge.copied(readings, size)
        if not all(known):
            return f"it ended with 0, and byte {known.index(0)} of the source was not told"
        if target.disk[:size] != held:
            at = next(at for at in range(size) if target.disk[at] != held[at])
            return f"it ended with 0, and byte {at} of the destination is {target.disk[at]} in place of {held[at]}"
        return ""
