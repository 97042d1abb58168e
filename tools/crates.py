"""What crates.txt says: which crates a crate stands on, and which files they are made of."""
import os

PROGRAM = "aeneas_program"


def rows_of(root):
    """Returns the row of each crate in crates.txt, without comments."""
    named = {}
    with open(os.path.join(root, "crates.txt"), encoding="utf-8") as rows:
        for row in rows:
            row = row.partition("#")[0].strip()
            if ":" in row:
                named[row.partition(":")[0].split()[0]] = row + "\n"
    return named


def listed(root):
    """Returns for each crate of crates.txt the crates of the repository that it names."""
    named = rows_of(root)
    below = {name: row.partition(":")[2].split() for name, row in named.items()}
    return {name: [it for it in words if it in named] for name, words in below.items()}


def needed(root, wanted):
    """Returns these crates and those below them, lowest first, each with all crates below it."""
    named, order = listed(root), {}

    def visit(name):
        if name not in order:
            below = {}
            for it in named[name]:
                visit(it)
                below.update(dict.fromkeys([*order[it], it]))
            order[name] = list(below)

    for name in wanted:
        visit(name)
    return order


def files(root, name, parts=("src",)):
    """Returns the files of a crate in these folders of it, in order."""
    found = []
    for part in parts:
        for folder, _, names in os.walk(os.path.join(root, "crates", name, part)):
            found += [os.path.join(folder, it) for it in names]
    return sorted(found)
