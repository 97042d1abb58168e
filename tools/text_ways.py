#!/usr/bin/env python3
"""Writes the machine that builds what printed texts are read as: text_ways.py, and then `rt fmt` in each of its crates

Reads text_ways.desc.py (what each production is read as), the grammar that it names, and the signatures of the ways in code.
Written into raw_values are

    specs/Carriers.antt                    what each part is read as
    src/value.rt                           how it is held
    src/taking.rt, src/taking/*.rt         how it is taken off the stack

into raw_ways

    specs/Makes.antt                       what each production makes

into raw_productions

    src/*.rt                               the same in code, one function for those that do the same

and into raw_reader

    src/building.rt, src/building/*.rt     which of them builds a part by its production
    proofs/building/*                      that these build the same

It is source_build.py's machine, without extents: a variant holds a part's value itself, and an unused lexeme is dropped.
"""
import os
import re
import sys

HERE = os.path.dirname(os.path.abspath(__file__))
sys.path.insert(0, HERE)
import source_build  # noqa: E402
from grammar import Description  # noqa: E402
from source_build import CRATES, TOKEN, snake  # noqa: E402

NOTE = "Written by tools/text_ways.py."
VALUES, WAYS, PRODUCTIONS, READER = "raw_values", "raw_ways", "raw_productions", "raw_reader"

# What source_build.py says in files of each crate, as these crates have it.
BUILT = [("source_values.specs.Stacked.{CanBuild, IsBuilt}", f"{WAYS}.specs.Built.{{CanBuild, IsBuilt}}"),
         ("source_values.specs.Stacked.{Stack, CanBuild", f"{WAYS}.specs.Built.{{Stack, CanBuild")]
RENAMED = {
    "source_values": (VALUES, [("raw_values::", "crate::")]),
    "source_ways": (WAYS, []),
    PRODUCTIONS: (PRODUCTIONS, BUILT),
    "source_builder": (READER, BUILT),
}
EVERYWHERE = [("source_grammar", "text_table"), ("source_values", VALUES), ("source_ways", WAYS), ("source_builder", READER),
              ("source_build.py", "text_ways.py"), (", with its extent: a variant", ": a variant")]


def parse(text):
    """A way as a tree: a name, or ("∷", x, xs), or (f, arguments..)."""
    words = re.findall(r"\[\]|\w+|∷|[()]", text)

    def whole():
        left = application()
        if words and words[0] == "∷":
            words.pop(0)
            return ("∷", left, whole())
        return left

    def application():
        items = [item()]
        while words and words[0] not in ("∷", ")"):
            items.append(item())
        return items[0] if len(items) == 1 else tuple(items)

    def item():
        word = words.pop(0)
        if word == "(":
            inner = whole()
            assert words.pop(0) == ")"
            return inner
        return word

    return whole()


class Way:
    """How a production is read: the names of the values of its symbols, and the value in code."""

    def __init__(self, machine, text, kinds):
        names, _, body = text.rpartition(". ")
        self.names, self.tree, self.fallible = names.split(), parse(body), False
        assert len(self.names) == len(kinds), (text, kinds)
        self.code = self.term(machine, self.tree)

    def term(self, machine, tree):
        if tree == "[]":
            return "FrontList::new(alloc)"
        if tree == "nothing":
            return "()"
        if tree in self.names:
            return tree
        if tree[0] == "∷":
            self.fallible = True
            return f"{self.term(machine, tree[2])}.push({self.term(machine, tree[1])})?"
        way, *given = (tree,) if isinstance(tree, str) else tree
        if way == "spelled":
            return f"spelled({self.term(machine, given[0])})"
        module, alloc, fallible = machine.signatures[way]
        self.fallible = self.fallible or fallible
        shown = (["alloc"] if alloc else []) + [self.term(machine, g) for g in given]
        return f"{module}::{way}({', '.join(shown)})" + ("?" if fallible else "")


class TextMachine(source_build.Machine):
    def __init__(self):
        given = source_build.load("text_ways.desc.py")
        self.grammar = Description(os.path.join(HERE, given["GRAMMAR"]))
        self.imports, self.HELD, self.beside, self.listing = given["IMPORTS"], given["HELD"], {}, {}
        self.modules = {m: m for m in given["WAYS_IN"].split()}
        self.crate_of = {m: WAYS for m in self.modules}
        self.stands_in = {section: PRODUCTIONS for section in given["KINDS"]}
        kinds = {subject: [tuple(x.strip() for x in line.split(" = ")) for line in lines.strip().split("\n")]
                 for subject, lines in given["KINDS"].items()}
        self.taking = {subject: [(name, carried, code) for name, code, carried, _ in rows] for subject, rows in kinds.items()}
        self.variants = [v for variants in self.taking.values() for v in variants]
        self.subject_of = {f"take_{snake(name)}": subject for subject, rows in kinds.items() for name, *_ in rows}
        self.variant_of = {carried: name for name, carried, _ in self.variants}
        self.read_boxes()
        carried = {part: carried for rows in kinds.values() for _, _, carried, parts in rows for part in parts.split()}
        self.carried = {part: carried[part] for part in self.grammar.parts}
        self.ways = {}
        for line in given["WAYS"].strip().split("\n"):
            part, ways = line.split(" = ", 1)
            self.ways[part] = [w.strip() for w in ways.split(" | ")]
        self.read_signatures()
        self.share()

    def read_signatures(self):
        self.signatures = {}
        for module in self.modules:
            text = open(os.path.join(CRATES, WAYS, "src", module + ".rt"), encoding="utf-8").read()
            for name, params, result in re.findall(r"^pub fn (\w+)\((.*?)\) -> (.*?)\n", text, re.M | re.S):
                self.signatures[name] = (module, "alloc:" in params, result.startswith("Result"))

    def way(self, text, kinds, values):
        return Way(self, text, kinds)

    def holds(self, code):
        return code

    def body(self, way, kinds, result):
        lines = []
        for name, kind in reversed(list(zip(way.names, kinds))):
            call = f"{'drop_token' if (name, kind) == ('_', TOKEN) else 'take_' + snake(kind)}(values)"
            lines.append(f"    {call};" if name == "_" else f"    let {name} = {call};")
        if way.code in way.names or way.code == "()":
            return lines, self.put(result, way.code)
        return lines + [f"    let value = {way.code};"], self.put(result, "value")

    def write(self, crate, path, text):
        crate, renamed = RENAMED[crate]
        for old, new in EVERYWHERE + renamed if crate == VALUES else renamed + EVERYWHERE:
            text = text.replace(old, new)
        super().write(crate, path, text)


# ---- definitions

CARRIERS = f"""-- What each part of the grammar is read as. {NOTE}
use Rattle.std.specs.Prelude.{{List, Option}}
use Rattle.text_table.specs.declared.part.Part.{{Part}}
use Rattle.text_table.specs.declared.part.Part.TheVariants as N
use Rattle.raw_ast.specs.declared.spelling.Spelling.{{Spelling}}
use Rattle.raw_ast.specs.declared.names.DefinitionName.{{DefinitionName}}
use Rattle.raw_ast.specs.declared.names.Constructor.{{Constructor}}
use Rattle.raw_ast.specs.declared.pattern.Pattern.{{Pattern}}
use Rattle.raw_ast.specs.declared.computation.Operation.{{Operation}}
use Rattle.raw_ast.specs.declared.computation.Computation.{{Computation}}
use Rattle.raw_ast.specs.declared.declarations.Variant.{{Variant}}
use Rattle.raw_ast.specs.declared.declarations.Declaration.{{Declaration}}
use Rattle.raw_ast.specs.declared.declarations.Definition.{{Definition}}
use Rattle.raw_ast.specs.declared.declarations.RawText.{{RawText}}
use Rattle.raw_ast.specs.Types.{{RawType}}
use Rattle.raw_ast.specs.Atoms.{{RawAtom}}
use Rattle.raw_ast.specs.Code.{{RawCode}}
""" + "".join(f"use Rattle.{VALUES}.specs.declared.rests.{n}.{{{n}}}\n" for n in
              ("AfterTypeName", "VariantRest", "AfterName", "NameEnd", "AfterConstructor", "Bound")) + f"""\
use Rattle.{VALUES}.specs.declared.value.Value.{{Value}}
use Rattle.{VALUES}.specs.declared.value.Value.TheVariants as V

abbrev pub carrier : Part → Type 0
"""


def write_carriers(machine):
    text = CARRIERS + "".join(f"carrier N.{part} = {carried}\n" for part, carried in machine.carried.items())
    text += "\n-- how code holds it\nabbrev pub held : (n : Part) → carrier n → Value\n"
    text += "".join(f"held N.{part} v = V.{machine.variant_of[carried]} v\n" for part, carried in machine.carried.items())
    machine.write("source_values", "specs/Carriers.antt", text)


MAKES = f"""-- For each production of the grammar, in order, what is made of the values of its symbols. {NOTE}
use Rattle.std.specs.Prelude.{{List, [], ◌∷◌}}
use Rattle.text_table.specs.declared.part.Part.{{Part}}
use Rattle.text_table.specs.declared.part.Part.TheVariants as N
use Rattle.table_reader.specs.Making.{{Makes, made_by}}
use Rattle.table_reader.specs.Reading.{{Made}}
use Rattle.text_table.specs.declared.terminal.Terminal.{{Terminal}}
use Rattle.text_table.specs.declared.lexeme.Lexeme.{{Lexeme}}
use Rattle.text_table.specs.Productions.{{productions}}
use Rattle.{VALUES}.specs.Carriers.{{carrier}}
use Rattle.{WAYS}.specs.Ways as ways

abbrev pub makes : (n : Part) → Makes Terminal Part Lexeme carrier n (productions n)
"""

MADE = """
-- the productions with what they make
abbrev pub made : (n : Part) → List (Made Terminal Part Lexeme carrier n)
made n = made_by Terminal Part Lexeme carrier productions makes n
"""


def spec(tree, bound):
    """A way as a term over the values `v` of the symbols."""
    if isinstance(tree, str):
        return tree if tree == "[]" else bound.get(tree) or "ways." + tree
    inner = [f"({t})" if " " in t else t for t in (spec(x, bound) for x in tree[1:])]
    return f"{inner[0]} ∷ {inner[1]}" if tree[0] == "∷" else " ".join(["ways." + tree[0]] + inner)


def write_makes(machine):
    text = MAKES
    for part in machine.grammar.parts:
        body = "tt"
        for place in reversed(range(len(machine.ways[part]))):
            symbols = machine.grammar.table["part", part, ()][place]
            way = Way(machine, machine.ways[part][place], [machine.variant(s) for s in symbols])
            bound = {name: "v" + ".1" * i + ".0" for i, name in enumerate(way.names)}
            body = f"((λ v. {spec(way.tree, bound)}), {body})"
        text += f"makes N.{part} = {body}\n"
    machine.write("source_ways", "specs/Makes.antt", text + MADE)


def main():
    # a lexeme that isn't needed is dropped where sources keep its place
    start, end = (source_build.TAKERS.index(x) for x in ("\n/// Takes a lexeme off of which", "\n/// Drops a value"))
    source_build.TAKERS = source_build.TAKERS[:start] + DROP_TOKEN + source_build.TAKERS[end:]
    machine = TextMachine()
    write_carriers(machine)
    write_makes(machine)
    source_build.write_value(machine)
    source_build.write_taking(machine)
    source_build.write_made(machine)
    source_build.write_building(machine)


DROP_TOKEN = '''
/// Drops a lexeme that isn't needed.
pub fn drop_token(values: &mut Stack)
    requires { HasToken (reverse values.old) }
    ensures { HasMark (reverse values.old) (reverse values.new) }
{
    let _lexeme = take_token(values);
}
'''


if __name__ == "__main__":
    main()
