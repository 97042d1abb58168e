#!/usr/bin/env python3
"""Writes a grammar's table from one description: grammar.py DESCRIPTION.py [--check | --show]

The description names classes of lexemes, tokens of the grammar (a class each, or a set of classes), what parts range over,
and the productions. Written into the crate that it names (CRATE) are

    src/class.rt, src/terminal.rt, src/part.rt    the symbols as enums
    src/spellings.rt                              the spelling of each class
    specs/Classes.antt, specs/Productions.antt    all this and the productions as definitions

and into the crate of the table (TABLE_CRATE, where that is another one)

    src/table.rt, src/table/*.rt                  the productions as code
    src/classes.rt                                the classes of each token
    specs/Follow.antt, specs/Shortest.antt        what may follow a part; tokens that a part derives
    specs/PartsFit.antt, specs/Ends.antt          that the table fits, a line for each part

Before that the table is checked, and each conflict is told: a part that begins itself, two productions of a part that begin
alike, a part that may be empty and begins like what follows it, one that derives nothing, one that is never reached.
`--check` writes nothing; `--show` prints the productions. Run `rt fmt` in the crate afterwards.
"""
import itertools
import os
import re
import sys

import grammar_files
from grammar_words import arguments, holds

TOKEN = re.compile(r"'[^']+'|\[[^\]]*\]|\||[A-Za-z]+(?:\([^()]*\))?|\.|-")


class Description:
    """A description, read; `table` gives the symbols of each production of each part."""

    def __init__(self, path):
        values = {}
        exec(open(path, encoding="utf-8").read(), values)
        self.crate, self.title, self.start = values["CRATE"], values["TITLE"], values["START"]
        self.table_crate = values.get("TABLE_CRATE", self.crate)
        self.parameters, self.variables = values.get("PARAMETERS", {}), values.get("VARIABLES", {})
        self.spells_marks = values.get("SPELLS_MARKS", True)
        self.read_classes(values["CLASSES"])
        self.read_sets(values["SETS"])
        self.read_functions(values.get("FUNCTIONS", ""))
        self.read_parts(values["GRAMMAR"])
        self.expand()

    def read_classes(self, text):
        self.classes, self.spelled, self.class_docs = [], {}, {}
        for line in filter(None, text.split("\n")):
            words, _, doc = line.partition(" -- ")
            name, *spelling = words.split()
            self.classes.append(name)
            if spelling:
                self.spelled[spelling[0][1:-1]] = name
            self.class_docs[name] = doc.strip() or f"`{spelling[0][1:-1]}`"

    def words(self):
        return [w for w in self.spelled if w[0].isalpha()]

    def marks(self):
        return [w for w in self.spelled if not w[0].isalpha()] if self.spells_marks else []

    def written(self):
        """The spellings that are told, with their classes."""
        return {w: self.spelled[w] for w in self.spelled if w[0].isalpha() or self.spells_marks}

    def read_sets(self, text):
        self.sets, self.set_docs = {}, {}
        for line in filter(None, text.split("\n")):
            head, _, body = line.partition(" = ")
            words, _, doc = body.partition(" -- ")
            found, without = [], False
            for word in TOKEN.findall(words):
                if word == "-":
                    without = True
                    continue
                given = self.sets.get(word, [self.spelled[word[1:-1]] if word[0] == "'" else word])
                found = [c for c in found if c not in given] if without else found + given
            self.sets[head.strip()] = [c for c in self.classes if c in found]
            self.set_docs[head.strip()] = doc.strip()

    def read_functions(self, text):
        self.functions = {}
        for block in filter(None, text.strip().split("\n\n")):
            doc, head, *lines = block.split("\n")
            name, kinds, result = re.match(r"(\w+) : (.*) -> (\w+)", head).groups()
            equations = []
            for line in lines:
                left, right = line.split(" = ", 1)
                equations.append((arguments(left)[1], right.strip()))
            self.functions[name] = (doc[3:], kinds.split(), result, equations)

    def read_parts(self, text):
        """Parts in order: name, variables, doc, section, and alternatives as (guard or None, words)."""
        self.parts, self.sections, section, doc = {}, [], None, ""
        for line in filter(None, text.split("\n")):
            if line.startswith("# "):
                section = line[2:]
                self.sections.append(section)
            elif line.startswith("-- "):
                doc = line[3:]
            else:
                if " = " in line and not line.startswith(" "):
                    head, line = line.split(" = ", 1)
                    name, variables = arguments(head.strip())
                    alternatives = [[]]
                    self.parts[name] = (variables, doc, section, alternatives)
                for word in TOKEN.findall(line):
                    if word == "|":
                        alternatives.append([])
                    else:
                        alternatives[-1].append(word)
        for name, (variables, doc, section, alternatives) in self.parts.items():
            split = [(a[0][1:-1].split() if a[0][0] == "[" else None, [w for w in a if w[0] != "[" and w != "."])
                     for a in alternatives if a]
            self.parts[name] = (variables, doc, section, split)
        self.kinds = {}
        for _, (_, _, _, alternatives) in self.parts.items():
            for _, words in alternatives:
                for word in words:
                    self.note_kinds(word)
        for name, (variables, _, _, _) in self.parts.items():
            self.kinds[name] = [self.variables[v] for v in variables]

    def note_kinds(self, word):
        name, given = arguments(word)
        if word[0] != "'" and name not in self.parts and name not in self.functions and name not in self.sets \
                and name not in self.classes:
            sys.exit(f"no such symbol: {word}")

    # ---- what the table comes to

    def values_of(self, kinds):
        return itertools.product(*(list(self.parameters[k][2]) for k in kinds))

    def symbol(self, word, bound):
        """A symbol under values of the variables: ("token", NAME) or ("part", NAME, values)."""
        if word[0] == "'":
            return ("token", self.spelled[word[1:-1]])
        name, given = arguments(word)
        given = tuple(bound.get(g, g) for g in given)
        if name in self.functions:
            for pattern, right in self.functions[name][3]:
                if all(p == g or p in self.variables for p, g in zip(pattern, given)):
                    fits = {p: g for p, g in zip(pattern, given) if p in self.variables}
                    return self.symbol(right, fits)
            sys.exit(f"no equation for {word}")
        if name in self.parts:
            return ("part", name, given)
        return ("token", name)

    def expand(self):
        self.table = {}
        for name, (variables, _, _, alternatives) in self.parts.items():
            for values in self.values_of(self.kinds[name]):
                bound = dict(zip(variables, values))
                self.table[("part", name, values)] = [
                    [self.symbol(w, bound) for w in words] for guard, words in alternatives if holds(guard, bound)]
        used = {s for ps in self.table.values() for p in ps for s in p if s[0] == "token"}
        self.terminals = [t for t in self.classes + list(self.sets) if ("token", t) in used]
        self.of_token = {t: self.sets.get(t, [t]) for t in self.terminals}


# ------------------------------------------------------------------------------------------------------ what is computed

class Computed:
    """FIRST and FOLLOW by tokens as least fixed points, ranks, and shortest derivations."""

    def __init__(self, d):
        self.d, table = d, d.table
        self.empty = set()
        self.repeat(self.add_empty)
        self.first = {n: [] for n in table}
        self.repeat(self.add_first)
        self.follow = {n: set() for n in table}
        self.repeat(self.add_follow)
        self.rank = {n: 0 for n in table}
        self.repeat(self.add_rank)
        self.shortest = {n: None for n in table}
        self.repeat(self.add_shortest)

    def repeat(self, turn):
        while any([turn(n, p) for n, ps in self.d.table.items() for p in ps]):
            pass

    def add_empty(self, n, p):
        if n in self.empty or not all(s in self.empty for s in p):
            return False
        self.empty.add(n)
        return True

    def begins(self, p):
        out = []
        for s in p:
            if s[0] == "token":
                return out + [s[1]]
            out += self.first[s]
            if s not in self.empty:
                break
        return out

    def add_first(self, n, p):
        new = [t for t in dict.fromkeys(self.begins(p)) if t not in self.first[n]]
        self.first[n] += new
        return bool(new)

    def add_follow(self, n, p):
        after, grown = set(self.follow[n]), False
        for s in reversed(p):
            if s[0] == "token":
                after = {s[1]}
                continue
            grown |= not after <= self.follow[s]
            self.follow[s] |= after
            after = (after if s in self.empty else set()) | set(self.first[s])
        return grown

    def add_rank(self, n, p):
        if not p or p[0][0] == "token" or self.rank[p[0]] < self.rank[n]:
            return False
        self.rank[n] = self.rank[p[0]] + 1
        if self.rank[n] > len(self.d.table):
            sys.exit(f"a part begins itself: {show(n)}")
        return True

    def add_shortest(self, n, p):
        parts = [[s[1]] if s[0] == "token" else self.shortest[s] for s in p]
        if None in parts:
            return False
        new = sum(parts, [])
        if self.shortest[n] is not None and len(self.shortest[n]) <= len(new):
            return False
        self.shortest[n] = new
        return True

    def classes(self, tokens):
        return {c for t in tokens for c in self.d.of_token[t]}

    def conflicts(self):
        """What is asked of a table and isn't so, a line each."""
        for n, ps in self.d.table.items():
            nothing = [p for p in ps if all(s in self.empty for s in p)]
            if len(nothing) > 1 or any(nothing):
                yield f"{show(n)} may be empty in two ways, or in one that has symbols"
            for p in ps:
                if p and p[0] in self.empty:
                    yield f"{show(n)}: a production begins with a part that may be empty: {row(p)}"
            for p, q in itertools.combinations(ps, 2):
                both = self.classes(self.begins(p)) & self.classes(self.begins(q))
                if both:
                    yield f"{show(n)}: {row(p)}  and  {row(q)}  begin alike: {' '.join(sorted(both))}"
            both = self.classes(self.first[n]) & self.classes(self.follow[n])
            if n in self.empty and both:
                yield f"{show(n)} may be empty, and begins like what follows it: {' '.join(sorted(both))}"
            if self.shortest[n] is None:
                yield f"{show(n)} derives nothing"
        reached, todo = set(), [("part", self.d.start, ())]
        while todo:
            n = todo.pop()
            if n not in reached:
                reached.add(n)
                todo += [s for p in self.d.table[n] for s in p if s[0] == "part"]
        yield from (f"{show(n)} is never reached" for n in self.d.table if n not in reached)


def show(symbol):
    name = symbol[1]
    return name if symbol[0] == "token" or not symbol[2] else f"{name}({', '.join(symbol[2])})"


def row(p):
    return " ".join(map(show, p)) or "."


def main():
    d = Description(sys.argv[1])
    c = Computed(d)
    if "--show" in sys.argv:
        for n, ps in d.table.items():
            print(f"{show(n)} = {' | '.join(map(row, ps))}")
    bad = list(c.conflicts())
    for line in bad:
        print("conflict:", line)
    print(f"{len(d.table)} parts, {sum(map(len, d.table.values()))} productions, {len(d.terminals)} tokens, "
          f"{len(d.classes)} classes, rank {max(c.rank.values())}, {len(bad)} conflicts")
    if bad:
        sys.exit(1)
    if "--check" in sys.argv:
        return
    root = os.path.join(os.path.dirname(os.path.dirname(os.path.abspath(__file__))), "crates")
    for writer in grammar_files.writers(d, c):
        for name, text in writer():
            crate, text = grammar_files.placed(d, name, text)
            path = os.path.join(root, crate, name)
            os.makedirs(os.path.dirname(path), exist_ok=True)
            with open(path, "w", encoding="utf-8") as file:
                file.write(text)


if __name__ == "__main__":
    main()
