# The trees of a printed text as it is spelled: crates/raw_ast (tools/raw_ast.sh).
STD = '''use Rattle.std.specs.Prelude.{◌≡◌, ℕ, zero, suc, ◌+◌, Bool, List, [], ◌∷◌, refl}
use Rattle.std.specs.Coded.{Coded, coded_ℕ, coded_bool}
use Rattle.std.proofs.Common.{ap, sym, ◌∙◌, subst}
use base.Stored.{Gv, gnil, gnum, gcons, num}
'''


def declared(crate, module, name):
    return (f"use Rattle.{crate}.specs.declared.{module}.{name}.{{{name}}}\n"
            f"use Rattle.{crate}.specs.contracts.{module}.{name} as {name.lower()}_row\n")


def tree(about, sorts, lists, uses, atoms):
    return {"ABOUT": about, "HEAD": STD + uses, "SORTS": sorts, "LISTS": lists, "OPTIONS": {}, "ATOMS": atoms}


SPELLING, INT = declared("raw_ast", "spelling", "Spelling"), declared("aen_base", "int_ty", "IntTy")
CONSTRUCTOR = declared("raw_ast", "names", "Constructor")
CODES = {n: f"{n.lower()}_row.the_row.coded" for n in ("Spelling", "IntTy", "Constructor", "Computation", "Pattern")}

TREES = {
    "Types": tree(
        "The types of a printed text as they are spelled (TEXT.md, \"Grammar\").",
        {"RawType": [("integer", ["IntTy"]), ("boolean", []), ("unit", []), ("product", ["RawTypes"]),
                     ("named", ["Spelling", "RawTypes"]), ("exit", ["RawType", "RawType"])]},
        {"RawTypes": ["RawType"]}, SPELLING + INT, CODES),
    "Atoms": tree(
        "The atoms of a printed text as they are spelled (TEXT.md, \"Grammar\").",
        {"RawAtom": [("var", ["Spelling"]), ("literal", ["Spelling", "IntTy"]), ("truth", ["Bool"]), ("tuple", ["RawAtoms"]),
                     ("built", ["Constructor", "RawAtoms"])]},
        {"RawAtoms": ["RawAtom"]}, SPELLING + INT + CONSTRUCTOR, {**CODES, "Bool": "coded_bool"}),
    "Code": tree(
        "The code of a printed text as it is spelled (TEXT.md, \"Grammar\").",
        {"RawCode": [("bind", ["Spelling", "Computation", "RawCode"]), ("put", ["Spelling", "RawAtom", "RawCode"]),
                     ("select", ["RawAtom", "RawArms"]), ("last", ["Computation"])]},
        {"RawArms": ["Pattern", "RawCode"]},
        SPELLING + "use Rattle.raw_ast.specs.Atoms.{RawAtom, coded_rawatom}\n" + declared("raw_ast", "computation", "Computation")
        + declared("raw_ast", "pattern", "Pattern"), {**CODES, "RawAtom": "coded_rawatom"}),
}
