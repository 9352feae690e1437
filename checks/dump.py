"""The judge of dumps: it has nothing of the program, and goes by the page of nbddump alone.

    dump.py text FILE OFFSET LENGTH          the dump of this range of a file, made group by group of the whole list of its bytes
    dump.py asked FILE LOG BLOCK MOST        what a log of checks/peer.py tells of a dump over the file: one connection; READ and BLOCK_STATUS alone, and then DISC;
                                             each READ within block statuses that were answered, of whole blocks, at most so long, no position twice, and
                                             no block of zeros
    dump.py nbddump                          the text of libnbd's nbddump that comes in, in the form of here
    dump.py under-way LOG                    how many reads were under way at most by a log of nbdkit's filter
"""

import re
import sys


def group_line(position, group):
    """The line of one group."""
    numbers = " ".join("%02x" % byte for byte in group)
    letters = "".join(chr(byte) if 0x20 <= byte <= 0x7E else "." for byte in group)
    return "%010x: %-47s  |%s|\n" % (position, numbers, letters)


def dump(data, first):
    """The lines of these bytes, the first of which stands at this position; a list."""
    groups = [data[at : at + 16] for at in range(0, len(data), 16)]
    squeezed = [0 < n < len(groups) - 1 and groups[n] == groups[n - 1] for n in range(len(groups))]
    lines = []
    for n, group in enumerate(groups):
        if not squeezed[n]:
            lines.append(group_line(first + 16 * n, group))
        elif not squeezed[n - 1]:
            lines.append("*\n")
    return lines


def read(path, offset, length):
    with open(path, "rb") as file:
        file.seek(offset)
        return file.read(length)


def text(path, offset, length):
    sys.stdout.write("".join(dump(read(path, int(offset), int(length)), int(offset))))


def asked(path, log, block, most):
    data, block, most = read(path, 0, -1), int(block), int(most)
    answered, was_read, faults, last = bytearray(len(data)), bytearray(len(data)), [], ""
    for line in open(log):
        word, kind, offset, length = line.split()
        begin, end = int(offset), int(offset) + int(length)
        last = kind
        if (word, kind) == ("done", "STATUS"):
            answered[begin:end] = b"\1" * (end - begin)
        elif (word, kind) == ("came", "READ"):
            zeros = [at for at in range(begin, end, block) if not any(data[at : at + block])]
            faults += [f"{line.strip()}: {what}" for what, is_so in (
                ("it was not asked what stands there", not all(answered[begin:end])),
                ("it was read before", any(was_read[begin:end])),
                ("it is too long", end - begin > most),
                ("it is no whole block", begin % block or end % block),
                (f"zeros are read from {zeros[:1]}", zeros)) if is_so]
            was_read[begin:end] = b"\1" * (end - begin)
        elif kind not in ("READ", "STATUS", "DISC") and (kind, offset) != ("LINK", "0"):
            faults.append(line.strip())
    if last != "DISC":
        faults.append("the end was not asked for")
    if faults:
        sys.exit("; ".join(faults[:3]))


def nbddump():
    """Its lines have two blanks behind the eighth byte, one before the letters, and blanks for the letters that are lacking."""
    for line in sys.stdin.read().split("\n")[:-1]:
        if line == "*":
            print(line)
            continue
        position, cells = line.split(": ", 1)
        cells, letters = cells[:49], cells[50:66]
        numbers = cells.split()
        print(f"{position}: {' '.join(numbers):47}  |{letters[:len(numbers)]}|")


def under_way(log):
    now = most = 0
    for line in open(log):
        now += bool(re.search(r" Read id=\d+ offset", line)) - bool(re.search(r" \.\.\.Read id=\d+ return", line))
        most = max(most, now)
    print(most)


{"text": text, "asked": asked, "nbddump": nbddump, "under-way": under_way}[sys.argv[1]](*sys.argv[2:])
