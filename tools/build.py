#!/usr/bin/env python3
"""build.py [--jobs N] [--dry-run] [CRATE..]: proves and builds the program, crates side by side.

`./aeneas build` runs it. With CRATE.. it builds these crates and those below them instead. Each
crate is proved by `rt lib` in a folder of its own, which holds the sources as they stood at the start
and the libraries below that are built, since rt lets only one run work over the same libraries. What
is done goes into the checkout's crates/*/out at once, so a build that was cut off goes on there.
"""
import argparse
import fcntl
import os
import shutil
import signal
import subprocess
import sys
import tempfile
import time

from crates import PROGRAM, files, listed, needed, rows_of
from sources import kept_sum, sum_of

ROOT = os.path.dirname(os.path.dirname(os.path.abspath(__file__)))
PARTS = ("src", "specs", "proofs")
# What one process of a check may take at most, in bytes.
MEMORY = 3_000_000_000
# A crate of so many lines gains from more than one process, and hardly from more than MOST.
LARGE, MOST = 1_000, 4
# Seconds of one processor for a line of code, definitions or proofs: 0.05 over the crates that the gate was timed on,
# and more since builds wait for each other. No whole build was timed since.
SECONDS_A_LINE = 0.08
# How often a line tells what is at work where there is no terminal, in seconds.
TELL = 60


def lines_of(root, name):
    """Returns how many lines of code, definitions and proofs a crate has."""
    found = 0
    for file in files(root, name, PARTS):
        with open(file, "rb") as it:
            found += it.read().count(b"\n")
    return found


def processors():
    """Returns how many processors this process may use."""
    return len(os.sched_getaffinity(0))


def slots():
    """Returns how many processes may check at one time, by free memory."""
    with open("/proc/meminfo", encoding="utf-8") as rows:
        free = [int(it.split()[1]) * 1024 for it in rows if it.startswith("MemAvailable:")]
    return max(free[0] // MEMORY, 1) if free else processors()


def paths(order, lines):
    """Returns for each crate the lines on the longest way from it up to the program."""
    above = {name: 0 for name in order}
    for name in reversed(list(order)):
        above[name] += lines[name]
        for it in order[name]:
            above[it] = max(above[it], above[name])
    return above


def estimate(root, at_once=None):
    """Returns in words about how long a build from nothing takes on this machine."""
    order, at_once = needed(root, [PROGRAM]), at_once or processors()
    lines = {name: lines_of(root, name) for name in order}
    longest = max(paths(order, lines).values()) / min(at_once, MOST) * 1.3
    seconds = max(sum(lines.values()) / at_once, longest) * SECONDS_A_LINE
    minutes = max(round(seconds / 300) * 5, 5)
    return f"{minutes} minutes on {at_once} processor{'s' * (at_once > 1)}"


def clock(seconds):
    return f"{int(seconds) // 60}:{int(seconds) % 60:02}"


class Run:
    """One crate at work."""

    def __init__(self, process, jobs, log):
        self.process, self.jobs, self.log, self.start = process, jobs, log, time.monotonic()


class Build:
    """A build of some crates: what is ready, what runs, and what it tells."""

    def __init__(self, root, order, jobs, room):
        self.root, self.order, self.jobs, self.room = root, order, jobs, room
        self.lines = {name: lines_of(root, name) for name in order}
        self.path = paths(order, self.lines)
        self.slots, self.rows = max(slots(), 1), rows_of(root)
        self.sum = sum_of(root) if PROGRAM in order else None
        self.done, self.running, self.start, self.told = [], {}, time.monotonic(), 0.0

    def say(self, text, is_event=True):
        now = time.monotonic() - self.start
        if sys.stdout.isatty():
            end = "\n" if is_event else ""
            print(f"\r\033[K{clock(now):>6}  {text}"[:200], end=end, flush=True)
        elif is_event or now - self.told >= TELL:
            self.told = now
            print(f"{clock(now):>6}  {text}", flush=True)

    def tell(self):
        """Tells what is at work and how much is left."""
        now = time.monotonic()
        work = ", ".join(f"{it} {clock(now - run.start)}" for it, run in self.running.items())
        self.say(f"{len(self.order) - len(self.done)} left, at work: {work}", is_event=False)

    def ready(self):
        """Returns the crates that can start, those with the longest way up first."""
        found = [
            it
            for it, below in self.order.items()
            if it not in self.done and it not in self.running and set(below) <= set(self.done)
        ]
        return sorted(found, key=lambda it: -self.path[it])

    def jobs_for(self, name, others):
        """Returns with how many processes a crate is checked if it starts now, 0 where it has to wait."""
        used = sum(it.jobs for it in self.running.values())
        free = self.jobs - used
        left = [it for it in self.order if it not in self.done and it not in self.running]
        is_longest = self.path[name] == max(self.path[it] for it in left)
        if free <= 0 and not (is_longest and self.lines[name] >= LARGE):
            return 0
        wanted = 1
        if self.lines[name] >= LARGE:
            # One processor is left for the crates beside it, but what all wait for comes first.
            wanted = max(free - (others > 0), (self.jobs - 1) * is_longest, 1)
        return max(min(wanted, MOST, self.slots - used), 0 if self.running else 1)

    def folder(self, name):
        """Makes the folder in which a crate is proved, and returns the crate's place there."""
        top, whole = os.path.join(self.room, name), os.path.join(self.room, "all")
        os.makedirs(top)
        with open(os.path.join(top, "crates.txt"), "w", encoding="utf-8") as to:
            to.writelines(row for it, row in self.rows.items() if it in {*self.order[name], name})
        for it in [*self.order[name], name]:
            for file in files(whole, it, PARTS):
                link(file, os.path.join(top, os.path.relpath(file, whole)))
        for it in self.order[name]:
            built = os.path.join(self.root, "crates", it)
            for file in files(self.root, it, ("out/rlib",)):
                link(file, os.path.join(top, "crates", it, os.path.relpath(file, built)))
        return os.path.join(top, "crates", name)

    def begin(self, name, jobs):
        """Starts a crate's check, over what an earlier one left."""
        place = self.folder(name)
        kept = os.path.join(self.root, "crates", name, "out")
        if os.path.isdir(kept):
            shutil.move(kept, os.path.join(place, "out"))
        if name == PROGRAM:
            for it in (PROGRAM, f"{PROGRAM}.stamp"):
                if os.path.exists(os.path.join(place, "out", it)):
                    os.remove(os.path.join(place, "out", it))
        log = os.path.join(self.room, f"{name}.log")
        words = ["rt", "run" if name == PROGRAM else "lib", "--jobs", str(jobs)]
        with open(log, "wb") as to:
            process = subprocess.Popen(
                words,
                cwd=place,
                stdin=subprocess.DEVNULL,
                stdout=to,
                stderr=subprocess.STDOUT,
                start_new_session=True,
            )
        self.running[name] = Run(process, jobs, log)

    def put_back(self, name):
        """Moves what a crate's check made into the checkout."""
        place = os.path.join(self.room, name, "crates", name, "out")
        to = os.path.join(self.root, "crates", name, "out")
        if os.path.isdir(place):
            shutil.rmtree(to, ignore_errors=True)
            shutil.move(place, to)
        shutil.rmtree(os.path.join(self.room, name), ignore_errors=True)

    def end(self, name):
        """Takes in a crate whose check has ended, and returns whether it is proved."""
        run = self.running.pop(name)
        made = os.path.join(self.room, name, "crates", name, "out")
        if name == PROGRAM:
            # rt runs what it built, and the program has its own status where it has no words.
            passed = os.path.isfile(os.path.join(made, PROGRAM))
        else:
            passed = run.process.returncode == 0
        self.put_back(name)
        if passed:
            self.done.append(name)
            left = len(self.order) - len(self.done)
            self.say(f"proved {name} in {clock(time.monotonic() - run.start)}, {left} left")
        else:
            log = os.path.join(tempfile.gettempdir(), f"aeneas-build-{os.getpid()}-{name}.log")
            shutil.copy2(run.log, log)
            self.say(f"{name} was not proved or not built: see {log}")
        return passed

    def stop(self):
        """Ends what still runs, and keeps what it has proved so far."""
        for run in self.running.values():
            if run.process.poll() is None:
                os.killpg(run.process.pid, signal.SIGTERM)
        for name, run in self.running.items():
            run.process.wait()
            self.put_back(name)
        self.running = {}

    def run(self):
        """Proves all, and returns whether all was proved."""
        while len(self.done) < len(self.order):
            ready = self.ready()
            for place, name in enumerate(ready):
                jobs = self.jobs_for(name, len(ready) - place - 1)
                if jobs:
                    self.begin(name, jobs)
            time.sleep(1)
            for name in [it for it, run in self.running.items() if run.process.poll() is not None]:
                if not self.end(name):
                    return False
            if self.running:
                self.tell()
        return True


def link(file, to):
    """Makes the file appear at another place, without a copy where the disk allows."""
    os.makedirs(os.path.dirname(to), exist_ok=True)
    try:
        os.link(file, to)
    except OSError:
        shutil.copy2(file, to)


def copy_sources(root, order, to):
    """Copies the sources of these crates as they stand now."""
    for name in order:
        for file in files(root, name, PARTS):
            place = os.path.join(to, os.path.relpath(file, root))
            os.makedirs(os.path.dirname(place), exist_ok=True)
            shutil.copy2(file, place)


def planned(order, path, lines):
    """Returns the dry run's lines: the crates in the order in which they may start."""
    rows = sorted(order, key=lambda it: (len(order[it]), -path[it]))
    return [f"{it}: {lines[it]} lines, after {', '.join(order[it]) or 'nothing'}" for it in rows]


def main():
    parser = argparse.ArgumentParser(prog="./aeneas build", description="proves and builds the program")
    parser.add_argument("--jobs", type=int, default=processors(), help="how many processors it may use")
    parser.add_argument("--dry-run", action="store_true", help="tells what it would do")
    parser.add_argument("crates", nargs="*", metavar="CRATE", help="these crates alone, and those below them")
    said = parser.parse_args()
    for it in said.crates:
        if it not in listed(ROOT):
            parser.error(f"crates.txt names no crate {it}")
    said.jobs = max(said.jobs, 1)
    order = needed(ROOT, said.crates or [PROGRAM])
    if said.dry_run:
        lines = {name: lines_of(ROOT, name) for name in order}
        print(*planned(order, paths(order, lines), lines), sep="\n")
        print(f"{len(order)} crates, {said.jobs} processors, memory for {slots()} checks at once")
        return 0
    if not shutil.which("rt"):
        print("aeneas: there is no command rt here, which proves and builds", file=sys.stderr)
        return 2
    signal.signal(signal.SIGTERM, lambda *_: sys.exit(143))
    lock = os.open(os.path.join(ROOT, "crates"), os.O_RDONLY)
    try:
        fcntl.flock(lock, fcntl.LOCK_EX | fcntl.LOCK_NB)
    except OSError:
        print("aeneas: another build is at work in this checkout", file=sys.stderr)
        return 2
    began = time.time()
    with tempfile.TemporaryDirectory(prefix="aeneas-build-") as room:
        copy_sources(ROOT, order, os.path.join(room, "all"))
        build = Build(ROOT, order, said.jobs, room)
        takes = f", about {estimate(ROOT, said.jobs)} from nothing" * (not said.crates)
        build.say(f"{len(order)} crates{takes}")
        try:
            passed = build.run()
        finally:
            build.stop()
        if passed and PROGRAM in order:
            with open(kept_sum(ROOT), "w", encoding="utf-8") as it:
                it.write(build.sum)
            # What is edited from here on was not built, even if that was before the build's end.
            os.utime(os.path.join(ROOT, "crates", PROGRAM, "out", PROGRAM), (began, began))
            build.say("the proved program is built")
    return 0 if passed else 1


if __name__ == "__main__":
    try:
        sys.exit(main())
    except KeyboardInterrupt:
        sys.exit(130)
