#!/usr/bin/env python3
"""commands.py: prints the commands of `./aeneas`, one line and one example each.

A new command is one more row here.
"""
# Words, what the command does, an example.
COMMANDS = [
    (
        "check FILE",
        "tells whether a source is a program that is translated",
        "./aeneas check examples/add1.rs",
    ),
    (
        "translate FILE",
        "writes the definitions of a source",
        "./aeneas translate examples/add1.rs",
    ),
    (
        "run FILE FN FUEL VALUE..",
        "runs a function of a source on the machine with memory",
        "./aeneas run examples/sums.rs weigh 2 3 4",
    ),
    (
        "eval FILE DEF FUEL VALUE..",
        "evaluates a definition of a printed text",
        "./aeneas eval examples/list.lean fn.sum 4 '(List.cons 1#U32 List.nil)'",
    ),
    (
        "build",
        "proves and builds the program",
        "./aeneas build",
    ),
    (
        "help",
        "this list",
        "./aeneas help",
    ),
]
# The commands whose second word names a file to read.
ON_FILES = {words.split()[0] for words, _, _ in COMMANDS if " FILE" in words}


def listing():
    """Returns the text that `./aeneas help` prints."""
    wide = max(len(words) for words, _, _ in COMMANDS)
    rows = [f"  {words:{wide}}  {does}\n  {'':{wide}}  {example}" for words, does, example in COMMANDS]
    return "\n".join(["usage: ./aeneas COMMAND", *rows, "README.md tells what each answers.", ""])


if __name__ == "__main__":
    print(listing(), end="")
