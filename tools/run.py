#!/usr/bin/env python3
"""run.py SHOW WORD..: runs the program with these words, and shows the places of a refusal.

Where the proved program isn't built, `rt try` runs the unproved one. Standard output and the status
are the program's. SHOW is yes or no: whether places are shown on standard error.
"""
import os
import re
import shutil
import stat
import subprocess
import sys
import tempfile

from build import estimate
from commands import ON_FILES
from crates import PROGRAM
from show_spans import show

ROOT = os.path.dirname(os.path.dirname(os.path.abspath(__file__)))
CRATE = os.path.join(ROOT, "crates", PROGRAM)
BUILT = os.path.join(CRATE, "out", PROGRAM)
# The statuses of refusals whose line names places.
WITH_PLACES = {4, 5, 6, 7, 8, 9, 12}
# More than any command reads: of a longer file this many bytes have the same answer.
MOST_READ = 67_108_866
# The status where there is no answer of the program, as in sysexits.h.
NO_ANSWER = 70
ENDED = re.compile(rb"^run=ended status=(\d+) .*proved=no\n\Z", re.M)


def say(text):
    print(f"aeneas: {text}", file=sys.stderr, flush=True)


def file_word(words):
    """Returns the word that names the file to read, or None."""
    return words[1] if len(words) > 1 and words[0] in ON_FILES else None


def copied(path, to):
    """Copies what a command would read of the file, and returns whether it could be read."""
    try:
        with open(path, "rb") as source, open(to, "wb") as copy:
            left = MOST_READ
            while left and (some := source.read(min(left, 1 << 20))):
                copy.write(some)
                left -= len(some)
    except (OSError, ValueError):
        return False
    return True


def show_places(name, path, said):
    """Shows on standard error the places that a refusal's line names."""
    with open(path, "rb") as it:
        text = show(name, it.read(), said)
    sys.stderr.buffer.write(text.encode("utf-8", "surrogateescape"))
    sys.stderr.flush()


def run_built(words, shows, folder):
    """Runs the proved program, and returns its status."""
    name = path = file_word(words)
    if path and shows and os.path.exists(path) and not stat.S_ISREG(os.stat(path).st_mode):
        # A pipe can be read once, and showing places reads it again.
        path = os.path.join(folder, "file")
        if copied(name, path):
            words = [words[0], path, *words[2:]]
        else:
            path = name
    status = subprocess.run([BUILT, *words]).returncode
    if shows and status in WITH_PLACES and path and os.path.isfile(path):
        # The answer went where it belongs. The same words give the same line once more.
        said = subprocess.run([BUILT, *words], stdout=subprocess.PIPE, stderr=subprocess.DEVNULL)
        show_places(name, path, said.stdout)
    return status if status >= 0 else 128 - status


def run_unproved(words, shows, folder):
    """Runs the program by `rt try`, which proves nothing, and returns its status."""
    say(
        "the proved program isn't built yet. This answer comes by the unproved one, in about two minutes; "
        f"./aeneas build makes the proved one, in about {estimate(ROOT)}"
    )
    try:
        os.fsencode("".join(words)).decode()
    except UnicodeDecodeError:
        # The program takes words that are no text as no words.
        words = []
    name, data = file_word(words), []
    if name is not None:
        # rt try runs elsewhere, and gives the program a copy under a plain name.
        path = os.path.join(folder, "file")
        is_read = copied(name, path)
        data = ["--data", f"file={path}"] if is_read else []
        words = [words[0], "file" if is_read else "no-such-file", *words[2:]]
    try:
        ran = subprocess.run(
            ["rt", "try", *data, "--", *words],
            cwd=CRATE,
            stdin=subprocess.DEVNULL,
            stdout=subprocess.PIPE,
            stderr=subprocess.PIPE,
        )
    except FileNotFoundError:
        say("there is no command rt here: the program is run and built by the toolchain's")
        return NO_ANSWER
    ended = ENDED.search(ran.stderr)
    if not ended:
        sys.stderr.buffer.write(ran.stderr)
        say("no answer: rt try stops the unproved program after 60 seconds, and shows 1 MiB at most")
        return NO_ANSWER
    status = int(ended[1])
    try:
        sys.stdout.buffer.write(ran.stdout)
        sys.stdout.buffer.flush()
    except OSError:
        # As the program's own answer where writing failed.
        os.dup2(os.open(os.devnull, os.O_WRONLY), 1)
        return 3
    if shows and status in WITH_PLACES and data:
        show_places(name, path, ran.stdout)
    return status


def main():
    shows, words = sys.argv[1] == "yes", sys.argv[2:]
    is_built = os.access(BUILT, os.X_OK)
    if not is_built and not words:
        # The one answer that needs no program.
        print("refused 1 usage")
        return 1
    folder = tempfile.mkdtemp(prefix="aeneas-")
    try:
        status = (run_built if is_built else run_unproved)(words, shows, folder)
    finally:
        shutil.rmtree(folder, ignore_errors=True)
    if shows and words and status == 1:
        say("./aeneas help lists the commands")
    return status


if __name__ == "__main__":
    try:
        sys.exit(main())
    except KeyboardInterrupt:
        sys.exit(130)
