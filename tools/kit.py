"""The kit's rt as the tools of this repository use it: as a module, each crate's sum taken once a call, and its tasks in an order and on
processors by what they took the last time. What is proved, tried and run is the kit's own; where a kit lacks a part that is wrapped here, that
part stays the kit's. No verdict is made here."""

import collections
import contextlib
import contextvars
import importlib.machinery
import importlib.util
import os
import shutil
import sys
import tempfile
import threading
import time
from concurrent.futures import FIRST_COMPLETED, ThreadPoolExecutor, wait

TOP = os.path.dirname(os.path.dirname(os.path.realpath(__file__)))
# What each task took: the start, which is committed, and the last run's own.
START, LAST = f"{TOP}/tools/proving-times", f"{TOP}/bin/proving-times"
HEAD = "# What each task of the gate took: the crate, the task, its seconds of one processor, and the megabytes of its largest process.\n"
# What the last run tells of its times.
TOLD = f"{TOP}/bin/times"
# The seconds of a line of code, with its proofs, where nothing was measured.
SECONDS_A_LINE = 0.15
# The kit's tasks that prove a crate or its tests; its others try a crate's edits, and are one row.
PROOFS = ("proof", "tests")
# Tasks of fewer seconds than this gain nothing from a second process.
SHORT = 40
# Of the free memory, the part to plan on; of a task's memory, what each further process of it takes; and of the kit's own figure for it, which is
# a bound, what most take.
ROOM, FURTHER, MOST = 0.85, 0.6, 0.4
# How much later than the longest chain all others come, and how much of it a chain has to be that counts as long.
BESIDE, NEARLY = 5, 0.9
# Runs a command at this niceness, and adds to a file its seconds, its kilobytes, and what it is: rattle's verb, or the compiler that it builds by.
MEASURE = """
import os, signal, sys
os.nice(int(sys.argv[2]))
child = os.fork()
if not child:
    os.execvp(sys.argv[3], sys.argv[3:])
_, status, use = os.wait4(child, 0)
words = [*sys.argv[4:], "", ""]
what = words[words.index("--backend") + 1] if "--backend" in words else words[0]
with open(sys.argv[1], "a") as file:
    file.write(f"{use.ru_utime + use.ru_stime} {use.ru_maxrss} {what}\\n")
if os.WIFSIGNALED(status):
    signal.signal(os.WTERMSIG(status), signal.SIG_DFL)
    os.kill(os.getpid(), os.WTERMSIG(status))
sys.exit(os.waitstatus_to_exitcode(status))
"""

HELD = threading.local()
# The file of what the task takes, and its niceness, in the threads that work for it.
TASK = contextvars.ContextVar("task", default=None)


class Passing(ThreadPoolExecutor):
    """Threads that work for the task of the one that starts them."""

    def submit(self, work, *given, **named):
        return super().submit(contextvars.copy_context().run, work, *given, **named)


def once(kind, name):
    """Has a method without parameters taken once for each crate while one call of it lasts: the kit takes it for each way through crates.txt."""
    of_kit = getattr(kind, name, None)
    if not callable(of_kit):
        return

    def taken(self):
        held = getattr(HELD, name, None)
        if held is not None:
            if self.folder not in held:
                held[self.folder] = of_kit(self)
            value = held[self.folder]
            return list(value) if isinstance(value, list) else value
        setattr(HELD, name, {})
        try:
            return taken(self)
        finally:
            setattr(HELD, name, None)

    setattr(kind, name, taken)


def found():
    """The path of the kit's rt, or None."""
    path = shutil.which("rt")
    return path and os.path.realpath(path)


def load():
    """The kit's rt as a module, or None where it is no program that can be wrapped."""
    path = found()
    if not path or not os.path.isfile(f"{os.path.dirname(path)}/rtlib.py"):
        return None
    sys.dont_write_bytecode = True
    loader = importlib.machinery.SourceFileLoader("rt", path)
    rt = importlib.util.module_from_spec(importlib.util.spec_from_loader("rt", loader))
    loader.exec_module(rt)
    for name in ("stamp", "below"):
        once(rt.rtlib.Crate, name)
    if hasattr(rt.rtlib.Crate, "build_static") and hasattr(rt, "Kept"):
        # (what the check of a static library proved stays there, and is kept for later runs as a program is)
        ci, made = rt.Crate.ci, rt.Kept.made

        def checks(self, flags, tests):
            if self.is_static and not tests:
                shutil.rmtree(f"{self.folder}/{checked(self.name)}", ignore_errors=True)
                flags = [*flags, "-o", checked(self.name)]
            return ci(self, flags, tests)

        rt.Crate.ci = checks
        rt.Kept.made = lambda self, crate, tests: files_checked(crate) if crate.is_static and not tests else made(self, crate, tests)
    if all(hasattr(rt, it) for it in ("in_lanes", "processors", "free")) and hasattr(rt.rtlib, "guarded"):
        guarded = rt.rtlib.guarded
        rt.rtlib.guarded = lambda: [*guarded(), *measuring()]
        rt.rtlib.ThreadPoolExecutor = Passing
        # (what the kit's own calls left among the temporary files goes, however the run ends)
        ending = getattr(rt, "ending", contextlib.nullcontext)

        def in_lanes(tasks):
            with ending():
                return Lanes(rt, tasks).run()

        rt.in_lanes = in_lanes
    return rt


def checked(name):
    """What the check of a static library proved, in its folder: tools/archive compiles it."""
    return f"out/{name}_checked"


def files_checked(crate):
    """Its files, by their paths in out/."""
    found = [f"{at}/{it}" for at, _, names in os.walk(f"{crate.folder}/{checked(crate.name)}") for it in names]
    return sorted(os.path.relpath(it, f"{crate.folder}/out") for it in found)


def measuring():
    """The words before a command of a task, so that it is measured."""
    task = TASK.get()
    return [sys.executable, "-ISc", MEASURE, *task] if task else []


def times():
    """What each task took the last time, by crate and task: seconds and megabytes."""
    taken = {}
    for file in (START, LAST):
        with contextlib.suppress(OSError), open(file, encoding="utf-8") as lines:
            for line in lines:
                words = line.partition("#")[0].split()
                if len(words) == 4:
                    taken[words[0], words[1]] = float(words[2]), float(words[3])
    return taken


def row_of(key):
    """The row in which a task's seconds are kept."""
    return key[0], key[1] if key[1] in PROOFS else "edits"


def keep(taken):
    """Writes what tasks took, for the next run."""
    with contextlib.suppress(OSError):
        os.makedirs(os.path.dirname(LAST), exist_ok=True)
        with open(f"{LAST}.new", "w", encoding="utf-8") as file:
            file.write(HEAD)
            file.writelines(f"{name} {kind} {round(seconds)} {round(size)}\n" for (name, kind), (seconds, size) in taken.items())
        os.replace(f"{LAST}.new", LAST)


class Lanes:
    """Tasks side by side, as the kit's own `in_lanes` runs them: a task is what it waits for, its lines, its memory, and a call that gets what was
    given and how many jobs it may use. First comes the longest chain: it has all processors, and what runs beside it one each, at a lower
    priority; a chain that is nearly as long counts as it does. `Lanes` keeps what each task took."""

    def __init__(self, rt, tasks):
        self.tasks, self.count, self.memory = tasks, rt.processors(), ROOM * rt.free()
        self.past, self.taken, self.parts, self.clock = times(), {}, {}, 0
        self.shares = collections.Counter(row_of(it) for it in tasks if tasks[it][1])
        self.behind = dict.fromkeys(tasks, 0)
        # (a task comes after those that it waits for)
        for key in reversed([*tasks]):
            self.behind[key] += self.seconds(key)
            for it in tasks[key][0]:
                self.behind[it] = max(self.behind[it], self.behind[key])
        self.given, self.running, self.turn = {}, {}, threading.Lock()

    def seconds(self, key):
        """What the task takes of one processor, as it did the last time, or as its lines tell."""
        lines, row = self.tasks[key][1], row_of(key)
        return self.past[row][0] / self.shares[row] if lines and row in self.past else SECONDS_A_LINE * lines

    def needs(self, key, jobs):
        """The memory of a task, in bytes."""
        past = self.past.get(row_of(key), (0, 0))[1]
        return (1_000_000 * past or MOST * self.tasks[key][2]) * (1 + FURTHER * (jobs - 1))

    def leads(self, key):
        """Whether no chain that runs is much longer than this one: what begins beside a longer one is the next to be waited for."""
        return all(self.behind[key] >= NEARLY * self.behind[it] for it, _, _ in self.running.values())

    def jobs(self, key, others):
        """How many processors a task may use beside so many that wait to begin."""
        if key[1] not in PROOFS or self.seconds(key) < SHORT:
            return 1
        if self.leads(key):
            return max(min(2, self.count), self.count - sum(it for _, _, it in self.running.values()))
        return max(1, self.count - len(self.running) - others)

    def work(self, key, jobs, nice, folder):
        """Does a task, and keeps what it took."""
        file = "-".join([f"{folder}/{key[0]}", *map(str, key[1:])])
        TASK.set((file, str(nice)))
        gave = self.tasks[key][3](self.given, jobs)
        # (a line that a killed command left half written counts for nothing)
        with contextlib.suppress(OSError, ValueError, IndexError), open(file, encoding="utf-8") as lines:
            rows = [line.split(" ") for line in lines]
            if gave or key[1] not in PROOFS:
                self.add(row_of(key), sum(float(it[0]) for it in rows), max(float(it[1]) for it in rows) / 1000)
            if key[1] in PROOFS and len(rows) > 1:
                self.parts[row_of(key)] = [(it[2].strip(), float(it[0])) for it in rows]
        return gave

    def add(self, row, seconds, size):
        """Adds what a task took to its row, and keeps it for the next run."""
        with self.turn:
            before, most = self.taken.get(row, (0, 0))
            self.taken[row] = before + seconds, max(most, size)
            keep({**self.past, **self.taken})

    def begin(self, pool, left, folder):
        """Begins what there is room for, and tells what is left."""
        ready = [it for it in left if all(below in self.given for below in self.tasks[it][0])]
        for at, key in enumerate(ready):
            if len(self.running) >= self.count:
                break
            jobs = self.jobs(key, sum(self.tasks[it][1] > 0 for it in ready[at + 1 :]))
            room = self.memory - sum(it for _, it, _ in self.running.values())
            while jobs > 1 and self.needs(key, jobs) > room:
                jobs -= 1
            needs = self.needs(key, jobs)
            if not self.running or needs <= room:
                left.remove(key)
                nice = 0 if self.leads(key) else BESIDE
                self.running[pool.submit(contextvars.copy_context().run, self.work, key, jobs, nice, folder)] = key, needs, jobs

    def run(self):
        """Does all tasks and returns what each gave, by its key."""
        began, left = time.monotonic(), sorted(self.tasks, key=lambda it: -self.behind[it])
        with tempfile.TemporaryDirectory(prefix="lanes-") as folder, ThreadPoolExecutor(self.count) as pool:
            while left or self.running:
                self.begin(pool, left, folder)
                for it in wait(self.running, return_when=FIRST_COMPLETED).done:
                    self.given[self.running.pop(it)[0]] = it.result()
        self.clock = time.monotonic() - began
        self.say()
        return self.given

    def say(self):
        """Prints how long each part took, and the ten slowest tasks."""
        parts = {}
        for (_, kind), (seconds, _) in self.taken.items():
            parts[kind] = parts.get(kind, 0) + seconds
        each = ", ".join(f"{kind} {seconds / 60:.1f}" for kind, seconds in sorted(parts.items()))
        slowest = sorted(self.taken.items(), key=lambda it: -it[1][0])[:10]
        told = f"times: processor minutes: {each}; {self.clock / 60:.1f} minutes by the clock on {self.count} processors\n"
        told += f"times: the slowest: {', '.join(f'{name} {kind} {seconds / 60:.1f}' for (name, kind), (seconds, _) in slowest)}\n"
        for (name, kind), rows in self.parts.items():
            told += f"times: {name} {kind}: {', '.join(f'{what} {seconds / 60:.1f}' for what, seconds in rows)}\n"
        print(told, end="", flush=True)
        with contextlib.suppress(OSError), open(TOLD, "w", encoding="utf-8") as file:
            file.write(told)
