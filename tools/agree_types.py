#!/usr/bin/env python3
"""agree_types.py DUMP [--crates FOLDER]

Compares the definitions of typing (crates/type_rules), run as a program, with another implementation, outside the gate.
DUMP has for each source three lines: `file PATH`; the program with names resolved, as a term of the definitions, or
`skip`; and what the other implementation answers: `fault LO HI KIND`, `large`, or `ok` and the spelled program as a term,
with the signature, the types of the variables and the body of each function, in which `update` has no type. The repository doesn't hold what writes it.

Where a program is typed, the whole spelled program must be equal, and its types must fit (specs/Fits.antt). A program
with an endless type is passed over: whether there is one is a relation, which doesn't run."""
import argparse
import collections
import re
import sys
import threading

from definitions import NONE, Definitions, Made, listed, some, values_of

TOKEN = re.compile(r"[(){};,]|[^\s(){};,]+")
SHORT = {"sp": ("lo", "hi"), "ty": ("0",), "rg": ("0",), "nu": ("ty", "value")}


def term(text):
    """A term as a value."""
    tokens = TOKEN.findall(text)

    def atom(token):
        if token.isdigit():
            return int(token)
        return token == "true" if token in ("true", "false") else Made(token.split(".")[-1])

    def value(at):
        if tokens[at] != "(":
            return atom(tokens[at]), at + 1
        if tokens[at + 1] == "record":
            fields, at = {}, at + 3
            while tokens[at] != "}":
                fields[tokens[at]], at = value(at + 2)
                at += tokens[at] == ";"
            return fields, at + 2
        head, at = value(at + 1) if tokens[at + 1] == "(" else (tokens[at + 1], at + 2)
        if tokens[at] in ("∷", ","):
            first, (second, after) = (atom(head) if isinstance(head, str) else head), value(at + 1)
            return (Made("∷", first, second) if tokens[at] == "∷" else (first, second)), after + 1
        parts = []
        while tokens[at] != ")":
            part, at = value(at)
            parts.append(part)
        if head in SHORT:
            return dict(zip(SHORT[head], parts)), at + 1
        return Made(head.split(".")[-1], *parts), at + 1

    return value(0)[0]


def program(text):
    """The program of a dump, with an option where a function has a result."""
    read = term(text)
    for function in values_of(read["functions"]):
        result = function["result"]
        function["result"] = NONE if result.form == "no_maybewritten" else some(result.parts[0])
    return read


def without_types(value):
    """The value without the types that `update` has, which the dump doesn't tell. That they fit is said by the definitions."""
    if isinstance(value, dict):
        return {name: without_types(part) for name, part in value.items()}
    if isinstance(value, tuple):
        return tuple(without_types(part) for part in value)
    if not isinstance(value, Made) or not value.parts:
        return value
    parts = value.parts[1:] if value.form == "update" and len(value.parts) == 4 else value.parts
    return Made(value.form, *(without_types(part) for part in parts))


def wanted(answer, read):
    """The answer that the definitions have to give."""
    if answer == "large":
        return Made("Err", Made("too_large"))
    if answer.startswith("fault "):
        _, low, high, kind = answer.split()
        return Made("Err", Made("at", {"lo": int(low), "hi": int(high)}, Made(kind)))
    typed = term(answer[len("ok ") :])
    for function, source in zip(values_of(typed["functions"]), values_of(read["functions"])):
        names = [variable["name"] for variable in values_of(source["variables"])]
        function.update({key: source[key] for key in ("name", "span", "lifetimes", "type_params")}, variables=listed(names))
    return Made("Ok", typed)


def judge(definitions, dump):
    typed_program = definitions.function("type_rules", "Programs", "typed_program")
    program_fits = definitions.function("type_rules", "Fits", "ProgramFits")
    counts, different = collections.Counter(), []
    path = read = None
    for line in open(dump, encoding="utf-8"):
        line = line.rstrip("\n")
        if line.startswith("file "):
            path, read = line[len("file ") :], None
        elif line == "skip":
            counts["skipped"] += 1
        elif read is None:
            read = program(line)
        elif "EndlessType" in line:
            counts["EndlessType, passed over"] += 1
        else:
            answer, found = wanted(line, read), typed_program(read)
            fits = found.form != "Ok" or program_fits(found.parts[0])
            found = without_types(found)
            counts[line.split()[-1] if line.startswith("fault") else line.split()[0]] += 1
            counts["judged"] += 1
            counts["functions that fit"] += len(values_of(read["functions"])) if answer.form == "Ok" and fits else 0
            if answer != found or not fits:
                different.append(path)
                print("DIFFERENT" if answer != found else "DOES NOT FIT", path, line[:100], repr(found)[:200])
    for name, count in counts.most_common():
        print(f"{count:8} {name}")
    print(f"{len(different):8} different")
    return len(different)


def main():
    parser = argparse.ArgumentParser(description=__doc__.split("\n\n")[1])
    parser.add_argument("dump")
    parser.add_argument("--crates", default="crates")
    given = parser.parse_args()
    status = []
    sys.setrecursionlimit(1_000_000)
    threading.stack_size(512 * 1024 * 1024)
    run = threading.Thread(target=lambda: status.append(judge(Definitions(given.crates), given.dump)))
    run.start()
    run.join()
    sys.exit(1 if status != [0] else 0)


if __name__ == "__main__":
    main()
