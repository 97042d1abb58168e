#!/usr/bin/env python3
"""type_rows.py DUMP

Writes crates/type_rows: small sources and what typing answers for them, each a law by computing. DUMP is what
tools/agree_types.py reads, of sources that have one line each (tools/type_rows.txt)."""
import os
import re
import sys

ROWS_A_FILE = 10
ROOT = os.path.join(os.path.dirname(os.path.abspath(__file__)), "..", "crates")
HEAD = """-- Small sources and what typing answers for them, by computing.
-- Made by tools/type_rows.py from the sources in tools/type_rows.txt.
use Rattle.std.specs.Prelude.{◌≡◌, refl, ℕ, true, false, List, [], ◌∷◌, Some, None, Ok, Err, pos, negsuc}
use Rattle.aen_base.specs.declared.int_ty.IntTy.TheVariants.{U8, U16, U32, U64, U128, Usize, I8, I16, I32, I64, I128, Isize}
use Rattle.aen_base.specs.declared.operators.BinOp.TheVariants as B
use Rattle.aen_base.specs.declared.operators.CmpOp.TheVariants as C
use Rattle.aen_base.specs.declared.operators.Builtin.TheVariants.{BoxNew, Replace, Swap}
use Rattle.aen_base.specs.Numbers.{limit, depth}
use Rattle.core_ty.specs.Types as t
use Rattle.rust_ast.specs.Written as w
use Rattle.rust_ast.specs.Patterns as p
use Rattle.rust_ast.specs.Resolved as e
use Rattle.rust_ast.specs.SpelledPatterns as q
use Rattle.rust_ast.specs.Spelled as s
use Rattle.type_rules.specs.Faults.{at}
use Rattle.type_rules.specs.declared.fault.KindOfFault.TheVariants.{KINDS}
RULES
use Rattle.type_rows.proofs.Terms.{sp, ty, rg, nu}
"""
KINDS = """EndlessType NestedBorrow NoRegion Mismatch NoType Arity Field NotPlace NotMutable MoveOut Uncovered LiteralRange
NotInteger Outside""".split()
FUNCTION = re.compile(r"record \{ (name = [^;]*; span = [^;]*; lifetimes = [^;]*; type_params = [^;]*; )params = .*?; variables = (.*?); body = ")


def rules():
    """The definitions that rows unfold, by module."""
    found = {}
    folder = os.path.join(ROOT, "type_rules", "specs")
    for name in sorted(os.listdir(folder)):
        names = re.findall(r"^unfoldable pub (\w+)", open(os.path.join(folder, name), encoding="utf-8").read(), re.M)
        if names:
            found[name.removesuffix(".antt")] = names
    return found


def program_of(text):
    """The program's term: in it a result is an option."""
    return text.replace("result = w.no_maybewritten", "result = None").replace("result = (w.some_maybewritten ", "result = (Some ")


def spelled_of(text, program):
    """The spelled program's term, with what it takes over from the program."""
    for taken, variables in FUNCTION.findall(program):
        names = re.findall(r"record \{ name = (.*?); span", variables)
        text = text.replace("record { sig = ", f"record {{ {taken}sig\0= ", 1)
        text = text.replace("; types = ", f"; variables = {''.join(f'({name} ∷ ' for name in names)}[]{')' * len(names)}; types\0= ", 1)
    return text.replace("\0", " ")


def after_term(text, at):
    """The place behind the term at this place."""
    level = 0
    while True:
        level += (text[at] == "(") - (text[at] == ")")
        at += 1
        if level == 0 and (text[at - 1] == ")" or text[at] in " )"):
            return at


def with_types(text):
    """The term with the types that `update` has: for all but shifts those of its values."""
    begin = "(s.update "
    made, at = "", text.find(begin)
    while at >= 0:
        place = after_term(text, at + len(begin)) + 1
        value = after_term(text, place) + len(" (s.value ")
        assert "B.Sh" not in text[at:place], "the type of a shift's place isn't told"
        made += text[:at] + begin + text[value : after_term(text, value)] + " "
        text = text[at + len(begin) :]
        at = text.find(begin)
    return made + text


def answer_of(text, program):
    if text.startswith("ok "):
        return "Ok " + with_types(spelled_of(text[len("ok ") :], program))
    _, low, high, kind = text.split()
    return f"Err (at (sp {low} {high}) {kind})"


def main():
    unfolded = rules()
    names = " ".join(name for names in unfolded.values() for name in names) + " limit depth"
    uses = "\n".join(f"use Rattle.type_rules.specs.{module}.{{{', '.join(names)}}}" for module, names in unfolded.items())
    head = HEAD.replace("RULES", uses).replace("KINDS", ", ".join(KINDS))
    lines = open(sys.argv[1], encoding="utf-8").read().split("\n")
    rows = []
    for path, program, answer in zip(lines[0::3], lines[1::3], lines[2::3]):
        source = open(path.removeprefix("file "), encoding="utf-8").read().strip()
        name = f"row_{len(rows)}"
        goal = f"typed_program {program_of(program)} ≡ {answer_of(answer, program)}"
        rows.append(f"\n-- {source}\n{name} : {goal}\nunfolding {names}\n{name} = refl\n")
    folder = os.path.join(ROOT, "type_rows", "proofs")
    files = range(0, len(rows), ROWS_A_FILE)
    for k in files:
        open(os.path.join(folder, f"Rows{k // ROWS_A_FILE}.antt"), "w", encoding="utf-8").write(head + "".join(rows[k : k + ROWS_A_FILE]))
    open(os.path.join(folder, "Lib.antt"), "w", encoding="utf-8").write("mod Terms\n" + "".join(f"mod Rows{k // ROWS_A_FILE}\n" for k in files))


if __name__ == "__main__":
    main()
