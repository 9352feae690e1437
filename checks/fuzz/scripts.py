"""Scripts of nbdcalls for the fuzzer, and what may be said of their answers."""

import re

import handshake
import wire

STATE = r"(created|negotiating|opt-mode|ready|closing|closed|dead (broke \w+|refused \d+ \d+|ended|link-failed))"
REFUSED = (r"refused (not-ready " + STATE + r"|dead (broke \w+|refused \d+ \d+|ended|link-failed)|closing|too-many \d+|unsupported (read-only|flush|trim|zero|cache|context)"
           r"|bad-flags \d+|zero-size|too-big \d+|bounds \d+|align \d+)")
ISSUED = rf"(cookie \d+|{REFUSED})"
RUNS = r"(-|[0-9a-f]{2}\*\d+( [0-9a-f]{2}\*\d+)*)"
MOVED = r"(moved \d+|not-ready|idle|ended|failed)"
SET = rf"(ok|refused state {STATE})"
NOTE = r"(chunk \d+ \d+ \d+ [123] \d+|extents \d+ \d+ \d+ \d+ \d+|completed \d+ \d+|freed \d+)"
HEARD = rf"(chunk \d+ [123] \d+ {RUNS}|extents .* \d+ \d+( \d+:\d+)*|complete \d+ \d+ {RUNS})"
INFO = r"(info none|info \d+ \d+ (\d+|-) (\d+|-) (\d+|-) (true|false)|context \d+ .*)"
# The answers of each line by its first word; those that end with `end` have any number of lines before it.
ANSWERS = {
    "handle": "ok", "export": SET, "context": rf"({SET}|refused too-many 16)", "structured": SET, "extended": SET, "optmode": SET, "strict": r"(ok|refused strict \d+)",
    "connect": rf"(connected|connect failed|refused state {STATE})", "opt-list": SET, "opt-info": SET, "opt-go": SET, "opt-meta": rf"({SET}|refused not-structured)", "opt-abort": SET,
    "answer": r"(none|ok|refused \d+ \d+)", "disconnect": rf"(ok|{REFUSED})", "close": r"closed (\d+) \d+", "settle": "settled", "read": MOVED, "write": MOVED,
    "done": rf"(done \d+ {RUNS}|failed \d+ \d+ {RUNS}|not-yet|no-such-cookie)", "peek": r"(cookie \d+|none-done|none-left)", "in-flight": r"\d+", "direction": "[013]",
    "state": STATE, "clear-log": "ok", "pread": ISSUED, "pread-structured": ISSUED, "pwrite": ISSUED, "flush": ISSUED, "trim": ISSUED, "zero": ISSUED, "cache": ISSUED,
    "block-status": ISSUED, "auto": ISSUED, "fail": ISSUED,
}
LISTS = {"listing": r'export ".*" ".*"', "info": INFO, "log": NOTE, "heard": HEARD}


def number(rng, size):
    """A length or an offset that mostly fits an export of this size."""
    return rng.choice((0, 1, 512, 4096, size // 2, max(size - 1, 0), size, rng.randrange(size + 1), rng.randrange(size + 1), rng.choice((2**32 - 1, 2**63 - 1, 2**64 - 1, 33554433))))


def command(rng, size):
    """A line that issues a command, as (line, words that its answer is judged by)."""
    kind = rng.choice(("pread", "pread", "pread", "pread-structured", "pread-structured", "pwrite", "flush", "trim", "zero", "cache", "block-status", "block-status"))
    length, offset = number(rng, size), number(rng, size)
    if rng.random() < 0.7:
        length, offset = rng.choice((1, 16, 512, max(size // 4, 1))), rng.choice((0, size // 2))
    if kind in ("pread", "pread-structured", "pwrite"):
        length = min(length, 67108864)
    flags = f" {rng.choice((1, 2, 4, 8, 16, 31, 2**32 - 1))}" if rng.random() < 0.15 else ""
    if kind == "flush":
        return f"flush{flags}"
    if kind == "pwrite":
        data = "hex:" + rng.randbytes(rng.choice((1, 3, 16))).hex() if rng.random() < 0.5 else f"fill:{rng.randrange(256):02x}:{min(length, 1 << 18)}"
        return f"pwrite {data} {offset}{flags}"
    return f"{kind} {length} {offset}{flags}"


def script(rng, size, addresses):
    """The lines of a script with up to three handles."""
    lines, handles = [], rng.choice((1, 1, 1, 2, 3))
    for handle in range(handles):
        lines += [f"handle {handle}"]
        lines += rng.choice((["structured on"], ["structured on"], ["extended on"], []))
        if rng.random() < 0.5:
            lines += ["context base:allocation"] + ["context qemu:dirty-bitmap:b"] * rng.choice((0, 0, 1, 17))
        if rng.random() < 0.3:
            lines += [f"strict {rng.choice((0, 27, 31, 32, 7))}"]
        options = rng.random() < 0.25
        lines += ["optmode on"] * options + [f"connect {rng.choice(addresses)}"]
        lines += ["settle"] if rng.random() < 0.8 else [rng.choice(("read", "write"))] * rng.choice((1, 20))
        if options:
            for _ in range(rng.choice((1, 3))):
                lines += [rng.choice(("opt-list", "opt-info", "opt-meta", "context base:allocation", "export a")), rng.choice(("settle", "settle", "read")), "answer"]
            lines += [rng.choice(("opt-go", "opt-go", "opt-go", "opt-abort")), "settle", "info", "listing"]
    cookies = 0
    for _ in range(rng.choice((1, 1, 2, 4, 12))):
        lines += [f"handle {rng.randrange(handles)}"] if handles > 1 else []
        for _ in range(rng.choice((1, 1, 3, 8))):
            line = command(rng, size)
            before = rng.random()
            lines.append(("auto " if before < 0.15 else f"fail {rng.choice((5, 0, 71, 107))} " if before < 0.25 else "") + line)
            cookies += 1
        lines += rng.choice((["settle"], ["settle"], ["settle"], ["write", "read"], ["read"], []))
        lines += rng.choice(([], [f"done {rng.randrange(1, cookies + 2)}"], ["peek"], ["state"], ["log"], ["heard"], ["in-flight"], ["direction"], ["clear-log"], ["info"]))
    for handle in range(handles):
        lines += [f"handle {handle}", "settle"] + [f"done {cookie}" for cookie in range(1, cookies + 1)] + ["log", "heard", "state", rng.choice(("disconnect", "close", "info"))]
    return lines + ["settle"] * rng.choice((0, 1))


def answers(lines, out):
    """The answers to each line, or what is wrong with them as a text."""
    told, at, closed = out.split("\n"), 0, set()
    current, made = "0", []
    for line in lines:
        word = line.split(" ")[0]
        if at >= len(told) - 1:
            return f"the answers end before line {len(made) + 1}, '{line}'"
        if word != "handle" and current in closed:
            wanted = [told[at]] if told[at] == "gone" else None
        elif word in LISTS:
            end = at
            while end < len(told) and told[end] != "end" and re.fullmatch(LISTS[word], told[end]):
                end += 1
            wanted = told[at:end + 1] if end < len(told) and told[end] == "end" else None
            if told[at] == "info none":
                wanted = [told[at]]
        else:
            wanted = [told[at]] if re.fullmatch(ANSWERS[word], told[at]) else None
        if wanted is None:
            return f"line {len(made) + 1}, '{line}', is answered by '{told[at][:200]}'"
        if word == "handle":
            current = line.split(" ")[1]
        if word == "close":
            closed.add(current)
        made.append(wanted)
        at += len(wanted)
    last = re.fullmatch(r"opened (\d+) freed (\d+)", told[at]) if at < len(told) else None
    if last is None or last[1] != last[2] or told[at + 1:] != [""]:
        return f"the last line is '{told[at:][:3]}'"
    return made


def runs(data):
    """Bytes in the form of an answer."""
    return " ".join(f"{data[one.start()]:02x}*{one.end() - one.start()}" for one in re.finditer(rb"(?s)(.)\1*", data)) or "-"


def ended(lines, made):
    """The handles whose last `state` is a dead one: a command that was left then keeps the first error that it was told, as libnbd's do."""
    current, last = "0", {}
    for line, answer in zip(lines, made):
        words = line.split(" ")
        if words[0] == "handle":
            current = words[1]
        if words[0] == "state":
            last[current] = answer[0]
    return {handle for handle, state in last.items() if state.startswith("dead")}


def differs(lines, made, connections, readings):
    """What `done` and `state` say otherwise than the readings of what was sent, where each handle has at most one of these; else nothing."""
    current, links, connects, failing, over, modes = "0", {}, 0, {}, ended(lines, made), set()
    for line, answer in zip(lines, made):
        words = line.split(" ")
        if words[0] == "handle":
            current = words[1]
        if words[0] == "optmode" and answer == ["ok"]:
            (modes.add if words[1] == "on" else modes.discard)(current)
        if words[0] == "connect" and answer == ["connected"]:
            links[current] = connects
            connects += 1
        if words[0] in ("fail", "auto") and answer[0].startswith("cookie"):
            failing.setdefault(current, set()).add(answer[0].split(" ")[1])
        link = links.get(current, len(connections))
        connection = connections[link] if link < len(connections) else None
        if connection and connection.began is None and words[0] == "state" and answer[0].startswith("dead broke"):
            shown = handshake.breach(connection.sent, connection.options, current in modes)
            # (GO's ACK may have gone out, and a reply behind it)
            if answer[0] != f"dead broke {shown}" and (shown or answer[0].split(" ")[2] in handshake.NAMES):
                return f"'{line}' is answered by '{answer[0]}', and what was sent in the handshake shows {shown}"
        reading = readings[link] if connection else None
        if reading is None:
            continue
        if words[0] == "done" and answer[0].split(" ")[0] in ("done", "failed") and words[1] not in failing.get(current, ()):
            found, told = reading.commands.get(int(words[1])), answer[0].split(" ", 3)
            if told[0] == "done":
                if found is None or not found.done or found.error or (found.kind == wire.READ and answer[0] != f"done {found.length} {runs(found.data)}"):
                    return f"'{line}' is answered by '{answer[0][:200]}', and what was sent says otherwise"
            elif told[1] != str(wire.ENOTCONN) and (found is None or str(found.error) != told[1] or not (found.done or current in over)):
                return f"'{line}' is answered by '{answer[0][:200]}', and what was sent says {found and (found.done, found.error)}"
        if words[0] == "state" and answer[0].startswith("dead broke") and answer[0] != f"dead broke {reading.breach}":
            return f"'{line}' is answered by '{answer[0]}', and what was sent shows {reading.breach}"
    return ""
