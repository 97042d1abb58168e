#!/usr/bin/env python3
"""Writes the two tables of crates/raw_soundness that go through the productions of printed texts: text_sound.py, then `rt check`

Reads text_sound.desc.py, and text_ways.desc.py for the names of the values of each production's symbols. `Kept.antt`: each
production makes values of its part's shape. `Spelled.antt`: what it makes wants what its symbols want.
"""
import os
import re
import sys

HERE = os.path.dirname(os.path.abspath(__file__))
sys.path.insert(0, HERE)
from grammar import Description  # noqa: E402
from source_build import load  # noqa: E402

D, READ = load("text_sound.desc.py"), load("text_ways.desc.py")
GRAMMAR = Description(os.path.join(HERE, READ["GRAMMAR"]))
ROOT = os.path.join(HERE, "..", "crates", "raw_soundness", "specs")
NOTE = "Written by tools/text_sound.py."
LEMMAS = {"Kept": "Shaping", "Spelled": "Spelling"}


def rows(text):
    return dict(line.split(" = ", 1) for line in filter(None, text.split("\n")))


WAYS = {part: ways.split(" | ") for part, ways in rows(READ["WAYS"]).items()}


def productions(part):
    """Of each production of a part its symbols, and which name stands for the value of which."""
    for way, symbols in zip(WAYS[part], GRAMMAR.table[("part", part, ())]):
        names = way.strip().rpartition(". ")[0].split()
        assert len(names) == len(symbols), (part, way)
        yield symbols, {n: i for i, n in enumerate(names) if n != "_"}


def put_in(proof, symbols, names):
    """A proof with projections in place of names."""

    def projected(match):
        name, field = match[1], match[2] or ""
        if name not in names:
            return match[0]
        at = ".1" * names[name] + ".0"
        if field == ".value":
            return "v" + at
        known = "f" + at
        if symbols[names[name]][0] == "part":
            return known + field
        return known + (".0" if field == ".class" else ".1" + field)

    pieces = re.split(r"(\b\w+ = )", proof)
    return "".join(p if i % 2 else re.sub(r"\b([a-z_]+)\b(\.\w+)?", projected, p) for i, p in enumerate(pieces))


def used(lemmas, module):
    return f"use Rattle.raw_soundness.specs.{module}.{{{', '.join(lemmas)}}}\n"


def lemmas_in(proofs, module):
    declared = re.findall(r"^pub (\w+) :", open(os.path.join(ROOT, module + ".antt"), encoding="utf-8").read(), re.M)
    words = set(re.findall(r"\w+", " ".join(proofs)))
    return [lemma for lemma in declared if lemma in words]


def table(name, holds, title, binder, proof_of, extra):
    lines, proofs = [], []
    for part in WAYS:
        body = []
        for k, (symbols, names) in enumerate(productions(part)):
            proofs.append(put_in(proof_of(part, k), symbols, names))
            body.append(f"(λ {binder}. {proofs[-1]})")
        lines.append(f"{name.lower()} N.{part} = " + "".join(f"({b}, " for b in body) + "tt" + ")" * len(body))
    module = LEMMAS[name]
    text = f"""-- {title} {NOTE}
use Rattle.std.specs.Prelude.{{refl}}
{extra}use Rattle.text_table.specs.declared.part.Part.{{Part}}
use Rattle.text_table.specs.declared.part.Part.TheVariants as N
use Rattle.raw_ways.specs.Makes.{{made}}
"""
    if any("ways." in p for p in proofs):
        text += "use Rattle.raw_ways.specs.Ways as ways\n"
    text += used([holds, "OfEach"], "Readings") + used(lemmas_in(proofs, module), module)
    text += f"\npub {name.lower()} : (n : Part) → OfEach n ({holds} n) (made n)\n" + "\n".join(lines) + "\n"
    with open(os.path.join(ROOT, name + ".antt"), "w", encoding="utf-8") as out:
        out.write(text)


def main():
    shapes, spellings = rows(D["SHAPES"]), rows(D["SPELLINGS"])
    for part in WAYS:
        assert len(shapes[part].split(" | ")) == len(WAYS[part]), part
    table("Kept", "IsKept", "Each production makes values of its part's shape.", "v f", lambda part, k: shapes[part].split(" | ")[k],
          "use Rattle.std.proofs.Common.{inl, inr}\n")
    table("Spelled", "IsSpelled", "What a production makes wants what its symbols want.", "v f rest",
          lambda part, k: spellings.get(f"{part} {k + 1}", "refl"), "")


if __name__ == "__main__":
    main()
