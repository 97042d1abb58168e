"""The words of a grammar's description."""


def arguments(word):
    """`Name(a, b)` as its name and arguments."""
    name, _, rest = word.partition("(")
    return name.strip(), tuple(a.strip() for a in rest.rstrip(") ").split(",")) if rest else ()


def holds(guard, bound):
    if guard is None:
        return True
    variable, test, value = guard
    return (bound[variable] == value) == (test == "=")
