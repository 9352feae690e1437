"""Must-fail edits, tried many at once: each by a check of the function in whose body it stands, and of nothing else. The prover's words decide, by
the kit's own `rattle check --only`; what isn't seen refused so is left to whoever asks, and says nothing yet."""

import collections
import contextlib
import difflib
import os
import re
import shutil
import tempfile

# A type's name where it is declared, and the types of an impl: the trait, or None, and what it is for.
TYPE = re.compile(r"(?:pub(?:\([\w ]+\))? )?(?:struct|enum|union) (\w+)", re.M)
IMPL = re.compile(r"impl\b(?:.*?(\w+)(?:<.*>)? for )?.*?(\w+)(?:<.*>)? \{$")
HEAD = re.compile(r"( *)(?:pub(?:\([\w ]+\))? )?(?:const )?fn (\w+)")
# A place that the prover refuses, or at which it says that something isn't proved; other lines that begin with `note:` change no verdict.
REFUSAL = re.compile(r"(?:(?:\./)?([^\s:]+):(\d+):\d+: error\b|note: (?:\./)?([^\s:]+):(\d+):\d+: it is not proved\b)")
# A proof file names what the edit took away, which says little of a contract.
RENAMED = re.compile(r"(?:\./)?proofs/.*(has no field|is not in scope|has no `|was not admitted)")
# What the prover says of a function of which a goal is left.
LEFT = re.compile(r": no proof: .*`search` did not prove `")
# The function that an edit of several says has to be refused.
NAMED = re.compile(r"^in: (\S+)$", re.M)


def module_of(path):
    """The names of the module that a file below src/ holds, from the crate's root on."""
    names = path[len("src/") : -len(".rt")].split("/")
    return [] if names in (["lib"], ["main"]) else names[:-1] if names[-1] == "mod" else names


class Function:
    """Where a function stands in a file that rt fmt laid out: its lines from 0, and where its body begins; and its path below the crate as the
    prover prints it, or None where that isn't plain."""

    def __init__(self, path, lines, at, head, above):
        self.file, self.first, indent = path, at, head[1]
        ends = range(at, len(lines))
        begins = lambda line: line == f"{indent}{{" or line.endswith(" {") and (line.startswith(f"{indent})") or line is lines[at])
        self.body = next((it for it in ends if begins(lines[it]) or lines[it].startswith(f"{indent}}}")), at)
        self.last = next((it for it in ends if lines[it].startswith(f"{indent}}}") or lines[it].endswith((";", "{}")) and it <= self.body), at)
        self.path = None if above is None else "::".join([*module_of(path), *above, head[2]])

    def is_told(self, line):
        """Whether the prover refuses something on this line that is the function's: it names a place in it, or in the files of its proof."""
        at = REFUSAL.match(line)
        if not at or RENAMED.match(line):
            return False
        file, number = (at[1], at[2]) if at[1] else (at[3], at[4])
        in_it = file == self.file and self.first < int(number) <= self.last + 1
        return in_it or file.startswith(f"proofs/{self.path.replace('::', '/')}/")

    def refusal(self, crate, said):
        """What the prover says of the function itself where it refuses it, or None: a goal of its own that is left, or a place in it or in the files
        of its proof. What it says of a function that only waits for another is none of this."""
        told = [it for it in said if it.startswith(f"fn {crate.name}::{self.path}: ")]
        if any("could not tell" in it for it in told):
            return None
        left = next((it for it in told if LEFT.search(it)), None)
        unproved = any("not proved" in it or "no proof" in it for it in told)
        return left or (next(filter(self.is_told, said), None) if unproved else None)


def functions(path, text):
    """The functions of a file. A method's path is plain where its type is declared in the same file."""
    lines, found, of = text.split("\n"), [], None
    types = set(TYPE.findall(text))
    for at, line in enumerate(lines):
        of = IMPL.match(line) or (None if line == "}" else of)
        head = HEAD.match(line)
        if head:
            above = [] if not head[1] else [f"{of[2]}{of[1] or ''}"] if of and of[2] in types else None
            found.append(Function(path, lines, at, head, above))
    return found


class Edit:
    """An edit: the lines that it changes, and the path of the function in whose body they all stand, or None. An edit of several functions may name
    the one that has to be refused, by a line `in: PATH`, and is tried by itself."""

    def __init__(self, rt, crate, file):
        self.file, self.name, self.changes, self.home = file, f"{crate.name}/{os.path.basename(file)}", [], None
        named = NAMED.search(rt.rtlib.text_of(file) or "")
        self.is_wide = bool(named)
        self.texts, self.why = rt.read_edit(file, crate.folder)
        homes = set()
        for path, text in (self.texts or {}).items():
            old = rt.rtlib.text_of(f"{crate.folder}/{path}")
            one, other, inside = old.split("\n"), text.split("\n"), functions(path, old)
            paths = collections.Counter(it.path for it in inside)
            for kind, i, j, k, m in difflib.SequenceMatcher(None, one, other, autojunk=False).get_opcodes():
                if kind != "equal":
                    self.changes.append((path, i, j, other[k:m]))
                    within = next((it for it in inside if it.body <= i and j <= it.last + 1), None)
                    # (two impls may give two methods one path)
                    homes.add(within.path if within and paths[within.path] == 1 else None)
        if named or len(homes) == 1:
            self.home = named[1] if named else homes.pop()


def together(crate, edits):
    """The texts of the files with all these edits made, which change lines of their own each."""
    texts = {}
    for path, i, j, lines in sorted((it for edit in edits for it in edit.changes), key=lambda it: -it[1]):
        if path not in texts:
            with open(f"{crate.folder}/{path}", encoding="utf-8") as it:
                texts[path] = it.read().split("\n")
        texts[path][i:j] = lines
    return {path: "\n".join(lines) for path, lines in texts.items()}


def groups(edits):
    """Edits that can be tried at once: each in one function's body, no two in the same. Those that change anything else are left to the kit's own way."""
    found = []
    for edit in edits:
        if edit.home and not edit.is_wide:
            room = next((it for it in found if edit.home not in {other.home for other in it}), None)
            if room is None:
                found.append([edit])
            else:
                room.append(edit)
    return found + [[it] for it in edits if it.is_wide]


def only(homes, jobs):
    """The words by which a check is one of these functions alone."""
    return ["--jobs", str(jobs), *(it for home in sorted(homes) for it in ("--only", home))]


def try_group(rt, crate, group, kept, jobs, proved):
    """Tries edits at once, and gives those that are seen refused, each with the prover's first word of it. The functions are proved as they
    stand by the same check, over the same folder; so nothing but the edit is new to them. `proved` has those that were, over this folder."""
    homes = {edit.home for edit in group}
    flags = only(homes, jobs)
    if not homes <= proved and rt.checked(crate, {}, flags, kept).returncode:
        return {}
    proved |= homes
    texts = together(crate, group)
    ran = rt.checked(crate, texts, flags, kept)
    said = ran.stdout.rstrip("\n").split("\n")
    if ran.returncode != 1 or not said[-1].startswith("only=") or any(rt.unread(it, texts) for it in said):
        return {}
    # (what was kept of a library and could not be used refuses nothing)
    if rt.rtlib.STALE.search(ran.stdout):
        return {}
    inside = {it.path: it for path, text in texts.items() for it in functions(path, text)}
    found = {}
    for edit in group:
        home = inside.get(edit.home)
        word = home and home.refusal(crate, said)
        if word:
            found[edit] = word
    return found


class Alone:
    """The edits of a crate that a gate tries, by checks of the functions in whose bodies they stand: those functions, proved as they stand in a
    folder, and the edits that were seen refused over it, each with the prover's first word of it."""

    def __init__(self, rt, crate, room):
        self.rt, self.crate, self.room = rt, crate, room
        self.edits = {it: Edit(rt, crate, it) for it in rt.edits_of(crate)[0]}
        self.homes, self.refused = {it.home for it in self.edits.values()}, {}

    def begin(self, jobs):
        """Proves the functions as they stand, and tries the first edit of each at once. Whether that can be had."""
        folder, beside = f"{self.room}/seed", f"{self.room}/together"
        if None in self.homes or self.rt.checked(self.crate, {}, only(self.homes, jobs), folder).returncode:
            return False
        group = groups([*self.edits.values()])[0]
        if len(group) > 1:
            shutil.copytree(folder, beside)
            seen = try_group(self.rt, self.crate, group, beside, jobs, set(self.homes))
            self.refused = {edit.file: word for edit, word in seen.items()}
            shutil.rmtree(beside, ignore_errors=True)
        return True

    def is_sound(self, folder):
        """The check of the functions as they stand, over this folder."""
        return self.rt.checked(self.crate, {}, only(self.homes, 1), folder)

    def word(self, file, folder):
        """The prover's first word of an edit that is seen refused, or None. Nothing but the edit is new to this folder."""
        if file not in self.refused:
            edit = self.edits[file]
            self.refused.update({it.file: word for it, word in try_group(self.rt, self.crate, [edit], folder, 1, {edit.home}).items()})
        return self.refused.get(file)


def by_function(rt):
    """Has the gate try a crate's edits so, over one check of their functions in place of one of the whole crate. What isn't seen refused so, and the
    edits of a crate that has one alone or one that stands in no function's body, are tried in the kit's own way, as are all where the functions aren't
    proved over the same folder at the end. A kit that lacks what is wrapped here does nothing new."""
    if not all(hasattr(rt, it) for it in ("seeded", "checked", "must_fail", "edits_of", "read_edit", "SEEDS", "REFUSED", "UNSURE", "BAD")):
        return
    alone, seeded, checked, must_fail = {}, rt.seeded, rt.checked, rt.must_fail

    def begun(crate, flags, start=None):
        room = tempfile.mkdtemp(prefix=f"rt-edits-{os.getpid()}-")
        rt.SEEDS.append(room)
        with contextlib.suppress(OSError, shutil.Error):
            os.mkdir(f"{room}/seed")
            tried = Alone(rt, crate, room)
            if tried.begin(flags[flags.index("--jobs") + 1] if "--jobs" in flags else 1):
                alone[crate.name] = tried
                return room
        shutil.rmtree(room, ignore_errors=True)
        return seeded(crate, flags, start)

    def is_checked(crate, texts, flags, kept):
        tried = alone.get(crate.name)
        if tried and kept == f"{tried.room}/seed" and not texts and "--only" not in flags:
            return tried.is_sound(kept)
        return checked(crate, texts, flags, kept)

    def is_refused(crate, edit, flags, kept=None):
        label = f"must-fail {crate.name}/{os.path.basename(edit)}"
        tried = alone.get(crate.name) if kept else None
        if tried:
            word = tried.word(edit, kept)
            return (rt.REFUSED, f"{label}: refused, as it must be: {word[:160]}") if word else (rt.UNSURE, "")
        kind, said = must_fail(crate, edit, flags, kept)
        # (an edit that can't be compiled any more shows nothing, and the kit passes over it: here it fails)
        return (rt.UNSURE if kind == rt.BAD else kind), said

    rt.seeded, rt.checked, rt.must_fail = begun, is_checked, is_refused
