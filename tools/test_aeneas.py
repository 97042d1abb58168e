#!/usr/bin/env python3
"""Runs ./aeneas on worked words: python3 tools/test_aeneas.py [WORD]

Standard output and status must be those of the table, whether the proved program is built or, a
minute a row, the unproved one answers. With WORD only rows that have it in their words.
"""
import os
import subprocess
import sys
import tempfile
import time

ROOT = os.path.dirname(os.path.dirname(os.path.abspath(__file__)))
STUCK = """import AenPrelude
open AenPrelude

def fn.f (n : Nat) (v0 : U32) : Result U32 :=
  match n with
  | 0 => outOfFuel
  | n + 1 => do
    let v1 ← U32.add v0 v5;
    ok v1
"""
ADD1 = """import AenPrelude
open AenPrelude

def fn.add1 (n : Nat) (v0 : U32) : Result U32 :=
  match n with
  | 0 => outOfFuel
  | n + 1 => do
    let v1 ← U32.add v0 1#U32;
    ok v1
"""
SUMS, LIST = os.path.join(ROOT, "examples", "sums.rs"), os.path.join(ROOT, "examples", "list.lean")
# Words, the status, and what is written.
ROWS = [
    (["check", "add 1.rs"], 0, "accepted\n"),
    (["translate", "add 1.rs"], 0, ADD1),
    (["eval", LIST, "fn.sum", "4", "(List.cons 1#U32 (List.cons 2#U32 List.nil))"], 0, "ok 3#U32\n"),
    (["translate"], 1, "refused 1 usage\n"),
    (["check", "add 1.rs", "add 1.rs"], 1, "refused 1 usage\n"),
    (["-x", "--data", "a=b"], 1, "refused 1 usage\n"),
    (["run", "none.rs", "f", "1"], 2, "refused 2 read\n"),
    (["translate", "./broken.rs"], 5, None),
    (["run", SUMS, "weigh", "257"], 10, "refused 10 limit fuel 257\n"),
    (["run", "/dev/stdin", "add1", "1", "-5"], 11, "refused 11 argument 0\n"),
    (["eval", "broken.lean", "fn.f", "1"], 12, None),
    (["run", SUMS, "a b", "1"], 13, "refused 13 name\n"),
    (["run", SUMS, "weigh", "2", "4294967295", "1"], 20, "panic\n"),
    (["run", SUMS, "weigh", "1", "3", "4"], 21, "more\n"),
    (["eval", "stuck.lean", "fn.f", "1", "1#U32"], 22, "stuck\n"),
]


def main():
    only = sys.argv[1] if len(sys.argv) > 1 else None
    wrong = 0
    with open(os.path.join(ROOT, "examples", "add1.rs"), encoding="utf-8") as it:
        add1 = it.read()
    with tempfile.TemporaryDirectory() as folder:
        for name, text in [
            ("add 1.rs", add1),
            ("broken.rs", add1 + "fn"),
            ("broken.lean", STUCK + "def"),
            ("stuck.lean", STUCK),
        ]:
            with open(os.path.join(folder, name), "w", encoding="utf-8") as it:
                it.write(text)
        for words, status, text in ROWS:
            if only and only not in words:
                continue
            start = time.monotonic()
            ran = subprocess.run(
                [os.path.join(ROOT, "aeneas"), *words],
                cwd=folder,
                input=add1.encode(),
                stdout=subprocess.PIPE,
                stderr=subprocess.PIPE,
            )
            said = ran.stdout.decode()
            agrees = ran.returncode == status and (text is None or said == text)
            agrees = agrees and (text is not None or said.startswith(f"refused {status} "))
            wrong += not agrees
            took = time.monotonic() - start
            print(f"{'ok' if agrees else 'WRONG'} {took:.0f} s, status {ran.returncode}: {' '.join(words)}: {said.splitlines()[:1]}", flush=True)
            if not agrees:
                print(ran.stderr.decode(), flush=True)
    return 1 if wrong else 0


if __name__ == "__main__":
    sys.exit(main())
