#!/usr/bin/env python3
"""sources.py: says on one line where the built program isn't made of the sources that are here.

`./aeneas` calls it where a source is younger than the program. `./aeneas build` leaves a sum of what
the program was made of; a program that was built by hand has none, and then the times count.
"""
import hashlib
import os
import sys

from crates import PROGRAM, files, needed

ROOT = os.path.dirname(os.path.dirname(os.path.abspath(__file__)))


def kept_sum(root):
    """Returns the path of the sum that a build leaves beside the program."""
    return os.path.join(root, "crates", PROGRAM, "out", "sources.sum")


def sum_of(root):
    """Returns a sum of all that the program's code is made of."""
    found, order = hashlib.sha256(), needed(root, [PROGRAM])
    for name, below in order.items():
        found.update(repr((name, below)).encode())
        for file in files(root, name):
            with open(file, "rb") as it:
                found.update(repr((os.path.relpath(file, root), it.read())).encode())
    return found.hexdigest()


def changed(root):
    """Returns a source that isn't what the program was built of, or None."""
    program = os.path.join(root, "crates", PROGRAM, "out", PROGRAM)
    built = os.path.getmtime(program)
    order = needed(root, [PROGRAM])
    younger = [it for name in order for it in files(root, name) if os.path.getmtime(it) > built]
    if os.path.isfile(kept_sum(root)) and os.path.getmtime(kept_sum(root)) >= built:
        with open(kept_sum(root), encoding="utf-8") as it:
            if it.read() == sum_of(root):
                return None
        younger = younger or [os.path.join(root, "crates.txt")]
    return os.path.relpath(younger[0], root) if younger else None


if __name__ == "__main__":
    source = changed(ROOT)
    if source:
        print(
            f"aeneas: {source} changed after the program was built, and this answer is the built program's: "
            "./aeneas build builds it anew",
            file=sys.stderr,
        )
