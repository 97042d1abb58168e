#!/usr/bin/env python3
"""Tells what each crate costs in a run of `rt ci`.

    rt ci 2>&1 | tools/gate_times.py --stamp > ci.log     adds a clock to each line while rt ci runs, and lines on processor time
    tools/gate_times.py ci.log [crates.txt]               prints a Markdown table of ci.log

rt ci tells no times and prints a proof's lines when it has ended. So with --stamp the processor time of the provers is
looked up once a second, by crate and by what is proved: the crate, its tests, or the crate with an edit (the check that
edits begin with among them). Provers of other checkouts are left out. Each sum is written as it grows, in lines that
begin with `times:`.
"""
import os
import re
import sys
import threading
import time

KINDS = ("check", "tests", "edits")
TICK = os.sysconf("SC_CLK_TCK")


def provers():
    """Yields, for each prover that runs, its process, its crate, what it proves, and the seconds of processor time it took."""
    for pid in filter(str.isdigit, os.listdir("/proc")):
        try:
            with open(f"/proc/{pid}/cmdline", "rb") as it:
                words = it.read().decode(errors="replace").split("\0")
            if os.path.basename(words[0]) != "rattle" or "--crate-name" not in words:
                continue
            name = words[words.index("--crate-name") + 1]
            place = os.readlink(f"/proc/{pid}/cwd")
            is_edit = os.path.basename(place).startswith("rt-edit")
            if not is_edit and not place.startswith(os.getcwd() + os.sep):
                continue
            with open(f"/proc/{pid}/stat") as it:
                spent = it.read().rsplit(")", 1)[1].split()[11:13]
        except (OSError, ValueError, IndexError):
            # (it ended meanwhile)
            continue
        kind = "edits" if is_edit else "tests" if "--test" in words else "check"
        yield pid, name, kind, sum(map(int, spent)) / TICK


def sample(ended, say):
    """Adds up the provers' processor time until the run has ended."""
    last, sums = {}, {}
    while not ended.wait(1):
        grown = set()
        for pid, name, kind, spent in provers():
            before = last.get((pid, name, kind), 0)
            # (a number of a process that ended may come again)
            key, more = (name, kind), spent - before if spent >= before else spent
            last[pid, name, kind] = spent
            sums[key] = sums.get(key, 0) + more
            if int(sums[key] / 5) != int((sums[key] - more) / 5):
                grown.add(key)
        for name, kind in sorted(grown):
            say(f"times: {name} {kind} {sums[name, kind]:.0f}")
    for (name, kind), spent in sorted(sums.items()):
        say(f"times: {name} {kind} {spent:.0f}")


def stamp():
    """Copies standard input with a clock before each line."""
    alone, ended, begun = threading.Lock(), threading.Event(), time.monotonic()

    def say(text):
        with alone:
            print(f"{time.monotonic() - begun:8.1f} {text}", flush=True)

    sampler = threading.Thread(target=sample, args=(ended, say))
    sampler.start()
    for line in sys.stdin:
        say(line.rstrip("\n"))
    ended.set()
    sampler.join()


def read(log):
    """Returns the seconds of each crate's check, tests and edits, and when the run ended."""
    spent, last = {}, 0.0
    for line in log:
        found = re.match(r" *(\d+\.\d) (.*)", line)
        if not found:
            continue
        last = float(found[1])
        told = re.fullmatch(r"times: (\w+) (\w+) (\d+)", found[2])
        if told and told[2] in KINDS:
            spent.setdefault(told[1], dict.fromkeys(KINDS, 0.0))[told[2]] = float(told[3])
    return spent, last


def below(crates):
    """Returns the crates that each crate stands on."""
    rows = (line.split("#")[0].partition(":") for line in crates)
    return {row[0].split()[0]: row[2].split() for row in rows if row[1]}


def longest(spent, stands_on):
    """Returns the longest chain of checks, ended by one crate's tests or edits, and its seconds."""
    chains = {}

    def chain(name):
        if name not in chains:
            under = max((chain(it) for it in stands_on.get(name, ()) if it in spent), default=(0, []))
            chains[name] = under[0] + spent[name]["check"], under[1] + [name]
        return chains[name]

    ends = []
    for name in spent:
        for kind in KINDS[1:]:
            ends.append((chain(name)[0] + spent[name][kind], chain(name)[1] + [f"its {kind}"] * (spent[name][kind] > 0)))
    return max(ends, default=(0, []))


def table(spent, last, stands_on):
    """Yields the lines of the table."""
    yield "| crate | check | tests | edits | minutes in all |"
    yield "|---|---|---|---|---|"
    minutes = lambda seconds: f"{seconds / 60:.1f}" if seconds else ""
    for name in sorted(spent, key=lambda it: -sum(spent[it].values())):
        parts = [spent[name][kind] for kind in KINDS]
        yield f"| `{name}` | {' | '.join(map(minutes, [*parts, sum(parts)]))} |"
    sums = [sum(it[kind] for it in spent.values()) for kind in KINDS]
    yield f"| all | {' | '.join(map(minutes, [*sums, sum(sums)]))} |"
    length, names = longest(spent, stands_on)
    yield ""
    yield f"Minutes of processor time; the run took {last / 60:.0f} minutes. Longest chain, {length / 60:.1f} minutes: {', '.join(names)}."


def main():
    if sys.argv[1:] == ["--stamp"]:
        return stamp()
    if len(sys.argv) not in (2, 3):
        sys.exit(__doc__)
    beside = os.path.join(os.path.dirname(os.path.abspath(__file__)), "..", "crates.txt")
    with open(sys.argv[1], errors="replace") as log, open(sys.argv[2] if len(sys.argv) == 3 else beside) as crates:
        print("\n".join(table(*read(log), below(crates))))


if __name__ == "__main__":
    main()
