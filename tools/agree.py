#!/usr/bin/env python3
"""agree.py PROGRAM --generator GEN --reference REF [--judge JUDGE] [--count K] [--seed N]

Random programs of the present language, outside the gate. On each generated call the program's
`run`, its `eval` of its own `translate`, and another implementation's `run`, and `eval` of the same
text, are compared; and the translation is judged on random arguments. GEN writes NAME.rs and
NAME.calls (tab-separated FN FUEL VALUE.. left) into the folder after --out. The repository
holds neither GEN nor REF nor JUDGE: REF is another implementation of the commands, run with the same
words, and JUDGE tells whether a text is a program's translation.
"""
import argparse
import glob
import os
import re
import subprocess
import sys
import tempfile


def run(words, folder, stage=None):
    env = dict(os.environ)
    if stage:
        env["REFERENCE_STAGE"] = stage
    done = subprocess.run(words, cwd=folder, stdout=subprocess.PIPE, stderr=subprocess.PIPE, env=env)
    return done.returncode, done.stdout


def evaluation(text, call):
    """The words of `eval` for a call of `run`: the definition's printed name, and the values."""
    named = re.search(rf"^def (fn\.«?{call[0]}»?) ", text.decode(), re.M)
    return ["eval", "t.lean", named.group(1), call[1]] + [value + "#U32" for value in call[2:]]


def same_outcome(machine, text):
    """Whether a line of `run` and one of `eval` tell the same outcome."""
    value = re.fullmatch(rb"value (\d+)\n", machine[1])
    if value:
        return text == (0, b"ok %s#U32\n" % value.group(1))
    return (machine, text) in [
        ((20, b"panic\n"), (20, b"fail\n")),
        ((21, b"more\n"), (21, b"outOfFuel\n")),
    ] or (machine[0] == text[0] != 22 and machine[1] == text[1])


def main():
    words = argparse.ArgumentParser()
    words.add_argument("program")
    words.add_argument("--generator", required=True)
    words.add_argument("--reference", required=True)
    words.add_argument("--judge")
    words.add_argument("--count", type=int, default=200)
    words.add_argument("--seed", type=int, default=1)
    given = words.parse_args()
    program = os.path.abspath(given.program)
    calls = texts = bad = 0
    outcomes = {}
    with tempfile.TemporaryDirectory() as folder:
        run([given.generator, "--set", "r1", "--seed", str(given.seed), "--count", str(given.count), "--out", folder], folder)
        for source in sorted(glob.glob(os.path.join(folder, "*.rs"))):
            with open(source[:-3] + ".calls") as file:
                lines = [line.rstrip("\n").split("\t") for line in file if line.strip()]
            status, text = run([program, "translate", source], folder)
            with open(os.path.join(folder, "t.lean"), "wb") as file:
                file.write(text)
            for line in lines:
                call = line[: len(line) - 1 - line[::-1].index("left")] if "left" in line else line
                form, printed = ["run", source] + call, evaluation(text, call)
                machine, meaning = run([program] + form, folder), run([program] + printed, folder)
                others = [run([given.reference] + words, folder, "r2") for words in (form, printed)]
                calls += 1
                outcomes[machine[0]] = outcomes.get(machine[0], 0) + 1
                if [machine, meaning] != others or not same_outcome(machine, meaning):
                    bad += 1
                    print("DIFFERENT", " ".join(form), machine, meaning, others)
            if given.judge:
                texts += 1
                judged = run([given.judge, source, "t.lean", "--plain", "--stage", "2"], folder)
                if status or judged[0]:
                    bad += 1
                    print("JUDGED", source, status, judged[1][:200])
    told = ", ".join(f"{count} with status {status}" for status, count in sorted(outcomes.items()))
    print(f"{calls} calls ({told}) and {texts} texts judged, {bad} different")
    sys.exit(bool(bad))


if __name__ == "__main__":
    main()
