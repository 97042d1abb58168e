#!/usr/bin/env python3
"""agree_texts.py PROGRAM --generator GENTEXT --reference REF [--count K] [--changes C] [--seed N]

Printed texts, outside the gate: the program's `eval` is compared with another implementation's, on
generated texts with their calls, on each of the texts cut after a byte, and with a byte changed.
GENTEXT writes NAME.lean, NAME.calls (tab-separated DEF FUEL VALUE..) and NAME.want into the folder
after --out. The repository holds neither GENTEXT nor REF, which is another implementation of the
commands, run with the same words.
"""
import argparse
import glob
import os
import random
import subprocess
import sys
import tempfile
from concurrent.futures import ThreadPoolExecutor

STAGE = "8"


def run(words, folder):
    env = dict(os.environ, REFERENCE_STAGE="r" + STAGE)
    done = subprocess.run(words, cwd=folder, stdout=subprocess.PIPE, stderr=subprocess.PIPE, env=env)
    return done.returncode, done.stdout


def changed(text, chance):
    """The text with one byte in another's place, taken out or put in."""
    place = chance.randrange(len(text))
    byte = bytes([chance.choice(list(text) + list(b"()v0#:|n \xc2\xff"))])
    return text[:place] + chance.choice([byte, b"", byte + text[place : place + 1]]) + text[place + 1 :]


def variants(text, given, chance):
    """The text's cuts and changes, as many of each as are wanted; none of an empty text."""
    if not text:
        return []
    cuts = sorted(chance.sample(range(len(text)), min(given.changes, len(text))))
    return [text[:cut] for cut in cuts] + [changed(text, chance) for _ in range(given.changes)]


def cases(given, folder):
    """Pairs of a file and a call's words."""
    run([given.generator, "--seed", str(given.seed), "--count", str(given.count), "--out", folder, "--stage", STAGE], folder)
    chance = random.Random(given.seed)
    for path in sorted(glob.glob(os.path.join(folder, "*.lean"))):
        with open(path[:-5] + ".calls", encoding="utf-8") as file:
            calls = [line.rstrip("\n").split("\t") for line in file if line.strip()]
        for call in calls:
            yield path, call
        with open(path, "rb") as file:
            text = file.read()
        for k, content in enumerate(variants(text, given, chance)):
            other = f"{path}.{k}"
            with open(other, "wb") as file:
                file.write(content)
            yield other, chance.choice(calls) if calls else ["fn.f", "3"]


def main():
    words = argparse.ArgumentParser()
    words.add_argument("program")
    words.add_argument("--generator", required=True)
    words.add_argument("--reference", required=True)
    words.add_argument("--count", type=int, default=100)
    words.add_argument("--changes", type=int, default=20)
    words.add_argument("--seed", type=int, default=1)
    given = words.parse_args()
    program = os.path.abspath(given.program)
    statuses, bad = {}, 0

    def compare(case):
        path, call = case
        form = ["eval", path] + call
        return form, run([program] + form, folder), run([given.reference] + form, folder)

    with tempfile.TemporaryDirectory() as folder, ThreadPoolExecutor(4) as pool:
        for form, ours, theirs in pool.map(compare, list(cases(given, folder))):
            statuses[ours[0]] = statuses.get(ours[0], 0) + 1
            if ours != theirs:
                bad += 1
                print("DIFFERENT", form, ours, theirs)
                if bad <= 5:
                    with open(form[1], "rb") as file:
                        print(file.read())
    told = ", ".join(f"{count} with status {status}" for status, count in sorted(statuses.items()))
    print(f"{sum(statuses.values())} calls ({told}), {bad} different")
    sys.exit(bool(bad))


if __name__ == "__main__":
    main()
