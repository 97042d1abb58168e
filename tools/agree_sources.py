#!/usr/bin/env python3
"""agree_sources.py PROGRAM --generator GEN --reference REF [--count K] [--seed N]

Random sources, cut after a byte or with tokens deleted, doubled or replaced, outside the gate. Where
the program's `translate` or another implementation's `check` refuses one before its types (statuses
4 to 7, and 10 of the limits of reading and names), both must give the same line. It needs a generator
and a reference that the repository doesn't hold: GEN writes NAME.rs into the folder after --out.
"""
import argparse
import collections
import glob
import os
import random
import re
import subprocess
import tempfile

SETS = ["all", "pure", "loops"]
LIMITS = ["source", "nesting", "depth", "else", "functions", "variables"]
TOKENS = """fn { } ( ) > >> >>= < && if match let else struct impl é " /* 0x 1u33 ' .. => :: mut return #
340282366920938463463374607431768211456""".split()
WORDS = """fn let mut if else match while loop return struct enum true false use std mem pub as break
continue u8 u32 i32 u64 i64 bool""".split()


def changed(source):
    """The source cut, with a name in another's place, or with one or two tokens deleted, doubled or replaced."""
    if random.random() < 0.2:
        return source[: random.randrange(len(source) + 1)]
    parts = re.findall(r"\w+|\s+|[^\w\s]", source)
    names = [at for at, part in enumerate(parts) if re.fullmatch(r"[a-z_]\w*", part) and part not in WORDS]
    if len(names) > 1 and random.random() < 0.5:
        parts[random.choice(names)] = parts[random.choice(names)]
        return "".join(parts)
    for _ in range(random.randint(1, 2)):
        place = random.randrange(len(parts))
        parts[place] = random.choice(["", parts[place] * 2, f" {random.choice(TOKENS)} "])
    return "".join(parts)


def answer(words):
    done = subprocess.run(words, stdout=subprocess.PIPE, stderr=subprocess.DEVNULL)
    return done.returncode, done.stdout.decode()


def is_early(status, line):
    """Whether a source is refused before its types are looked at."""
    return status in (4, 5, 6, 7) or (status == 10 and line.split()[3] in LIMITS)


def main():
    parser = argparse.ArgumentParser(description=__doc__.split("\n\n")[1])
    parser.add_argument("program")
    parser.add_argument("--generator", required=True)
    parser.add_argument("--reference", required=True)
    parser.add_argument("--count", type=int, default=1000)
    parser.add_argument("--seed", type=int, default=0)
    given = parser.parse_args()
    random.seed(given.seed)
    statuses, different = collections.Counter(), 0
    with tempfile.TemporaryDirectory() as folder:
        for kind in SETS:
            out = os.path.join(folder, kind)
            os.mkdir(out)
            words = [given.generator, "--set", kind, "--seed", str(given.seed), "--count", "60", "--any", "--out", out]
            subprocess.run(words, check=True, stdout=subprocess.DEVNULL, stderr=subprocess.DEVNULL)
        sources = [open(name).read() for name in sorted(glob.glob(os.path.join(folder, "*", "*.rs")))]
        name = os.path.join(folder, "x.rs")
        for _ in range(given.count):
            text = changed(random.choice(sources))
            with open(name, "w") as file:
                file.write(text)
            ours = answer([os.path.abspath(given.program), "translate", name])
            theirs = answer([given.reference, "check", name])
            statuses[theirs[0]] += 1
            if (is_early(*ours) or is_early(*theirs)) and ours != theirs:
                different += 1
                print(f"different: {ours} and {theirs}\n{text}\n")
    told = ", ".join(f"{count} with status {status}" for status, count in sorted(statuses.items()))
    print(f"{given.count} sources ({told}), {different} different")
    return int(different > 0)


if __name__ == "__main__":
    raise SystemExit(main())
