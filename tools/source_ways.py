#!/usr/bin/env python3
"""Writes what each production of the grammar of sources is read as: source_ways.py, and then `rt fmt`

Reads source_ways.desc.py and the grammar that it names, and writes `makes`, a clause for each part, with its productions
above it."""
import os
import re
import sys

HERE = os.path.dirname(os.path.abspath(__file__))
sys.path.insert(0, HERE)
from grammar import Description, TOKEN, arguments  # noqa: E402

HEAD = '''-- For each production of the grammar, in order, what is made of it (docs/LANGUAGE.md, "Grammar", "Read as", "Spans").
-- Written by tools/source_ways.py.
use Rattle.std.specs.Prelude.{true, false, [], ◌∷◌, Some, None}
use Rattle.source_grammar.specs.declared.part.Part.{Part}
use Rattle.source_grammar.specs.declared.part.Part.TheVariants as N
use Rattle.source_grammar.specs.declared.part.Context.TheVariants as At
use Rattle.source_grammar.specs.declared.part.Level.TheVariants as L
use Rattle.source_grammar.specs.declared.part.Listed.{Listed}
use Rattle.source_grammar.specs.declared.part.Listed.TheVariants as Of
use Rattle.source_grammar.specs.Productions.{item, productions}
use Rattle.rust_ast.specs.Source as s
use Rattle.rust_ast.specs.SourceTypes as t
use Rattle.rust_ast.specs.SourcePatterns as p
use Rattle.source_ways.specs.declared.paths.InMem.TheVariants as in_mem
use Rattle.source_ways.specs.declared.constructors.Given.TheVariants as given
use Rattle.source_ways.specs.declared.constructors.AfterName.TheVariants as name
use Rattle.source_ways.specs.declared.constructors.AfterMem.TheVariants as after_mem
use Rattle.source_ways.specs.Carriers.{Value, Listing, Makes}
use Rattle.source_ways.specs.Says.{ident, lifetime}
'''

LISTED = '''
-- an item of a list: an identifier, or what a part is read as
abbrev pub listed : (x : Listed) → Value (item x) → Listing x
'''


def read_ways(text):
    ways = {}
    for block in re.split(r"\n(?=\w)", text.strip("\n")):
        head, body = block.split(" = ", 1)
        ways[head.strip()] = [re.sub(r"\s+", " ", w).strip() for w in re.split(r"(?:^|\s)\|\s", body)]
    return ways


def symbols_of(grammar, head):
    """The productions of a part as their words, and which of them are parts."""
    name, given = arguments(head)
    variables, _, _, alternatives = grammar.parts[name]
    bound = {v: g for v, g in zip(variables, given) if v not in grammar.variables or g != v}
    found = []
    for guard, words in alternatives:
        if guard:
            value = bound.get(guard[0], guard[0])
            if (value == guard[2]) != (guard[1] == "="):
                continue
        found.append([re.sub(r"\b(\w)\b", lambda m: bound.get(m.group(1), m.group(1)), w) if w[0] != "'" else w
                      for w in words])
    return found


def is_part(grammar, word):
    name = arguments(word)[0]
    if name in grammar.functions:
        return grammar.functions[name][2] != "terminal"
    return word[0] != "'" and name in grammar.parts


def term(grammar, way, words):
    """A way as a term: a function of the span of the whole, and of the values of the symbols."""
    given = re.match(r"((?:[\w]+\*? ?)+)\. (.*)$", way)
    if not given:
        return way if words else f"λ whole. {way}"
    names, body = given.group(1).split(), given.group(2)
    assert len(names) == len(words), (way, words)
    shown = []
    for name, word in zip(names, words):
        if name == "_":
            shown.append("_")
            continue
        plain = name.rstrip("*")
        shown.append(plain)
        if is_part(grammar, word) and not name.endswith("*"):
            body = re.sub(rf"(?<![\w.]){plain}(?![\w.])", f"{plain}.value", body)
    return f"λ whole {' '.join(shown)}. {body}"


def pattern(grammar, head):
    name, given = arguments(head)
    variables = grammar.parts[name][0]
    if not given:
        return f"N.{name}"
    shown = [g if g == v else f"{grammar.parameters[grammar.variables[v]][0]}.{g}" for v, g in zip(variables, given)]
    return f"(N.{name} {' '.join(shown)})"


def listed(grammar):
    lines = []
    for (x,), right in grammar.functions["item"][3]:
        lines.append(f"listed Of.{x} v = " + ("v.value" if is_part(grammar, right) else "ident v"))
    return "\n".join(lines) + "\n"


def makes(grammar, ways):
    out = ["\n-- in the order of `productions`",
           "abbrev pub makes : (n : Part) → Makes n (productions n)"]
    seen = set()
    for head, given in ways.items():
        productions = symbols_of(grammar, head)
        seen.add(arguments(head)[0])
        assert len(productions) == len(given), (head, productions, given)
        out += [f"-- {' '.join(words) or 'nothing'}" for words in productions]
        terms = [term(grammar, way, words) for way, words in zip(given, productions)]
        out.append(f"makes {pattern(grammar, head)} =")
        out.append("    (" + ", (".join(terms) + ", tt" + ")" * len(terms))
    assert seen == set(grammar.parts), set(grammar.parts) ^ seen
    return "\n".join(out) + "\n"


def main():
    values = {}
    exec(open(os.path.join(HERE, "source_ways.desc.py"), encoding="utf-8").read(), values)
    grammar = Description(os.path.join(HERE, values["GRAMMAR"]))
    uses = "".join(f"use Rattle.source_ways.specs.{m} as {a}\n" for m, a in values["MODULES"].items())
    text = HEAD + uses + LISTED + listed(grammar) + makes(grammar, read_ways(values["WAYS"]))
    path = os.path.join(HERE, "..", values["OUT"])
    open(path, "w", encoding="utf-8").write(text)


if __name__ == "__main__":
    main()
