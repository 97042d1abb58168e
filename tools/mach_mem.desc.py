# The trees of a memory: crates/mach_mem. A form may not be called `num`, which each module of trees takes from
# `base.Stored`.
HEAD = '''use Rattle.std.specs.Prelude.{◌≡◌, ℕ, zero, suc, ◌+◌, Bool, List, [], ◌∷◌, refl}
use Rattle.std.specs.Coded.{Coded, coded_ℕ, coded_bool}
use Rattle.std.proofs.Common.{ap, sym, ◌∙◌, subst}
use base.Stored.{Gv, gnil, gnum, gcons, num}
use Rattle.aen_base.specs.Numbers.{Number, coded_number}
use Rattle.aen_base.specs.declared.ids.TypeId.{TypeId}
use Rattle.aen_base.specs.contracts.ids.TypeId as type_id
use Rattle.mach_mem.specs.Addresses.{CellNumber, Address, coded_address}
'''
ATOMS = {
    "ℕ": "coded_ℕ",
    "Bool": "coded_bool",
    "Number": "coded_number",
    "TypeId": "type_id.the_row.coded",
    "CellNumber": "coded_ℕ",
    "Address": "coded_address",
}
SORTS = {
    "MTree": [
        ("whole", ["Number"]),
        ("truth", ["Bool"]),
        ("tuple", ["MTrees"]),
        ("ctor", ["TypeId", "ℕ", "MTrees"]),
        ("box_at", ["CellNumber"]),
        ("ptr", ["Address"]),
    ]
}
USE = '''use crate::address::{Addr, Cell};
use aen_base::{List, Num, TypeId};'''
DOCS = {
    "MTree": "What stands in a cell.",
    "whole": "An integer.",
    "truth": "A boolean.",
    "tuple": "A tuple of these parts.",
    "ctor": "A value of a declared type: its variant by place, and its fields.",
    "box_at": "A box, whose content stands in this cell.",
    "ptr": "A reference to what stands at this address.",
}
OWN_DROPS = True
TREES = {
    "Trees": {
        "ABOUT": 'The trees that stand in cells (LANGUAGE.md, "Memory").',
        "HEAD": HEAD,
        "ATOMS": ATOMS,
        "SORTS": SORTS,
        "LISTS": {"MTrees": ["MTree"]},
        "OPTIONS": {},
        "USE": USE,
        "DOCS": DOCS,
        "CODE": {"CellNumber": ("Cell", "cell_number"), "Address": ("Addr", None)},
        "VARIANTS": {"whole": "Num", "truth": "Bool"},
        "VIEWS": ["use Rattle.mach_mem.specs.Cells.{cell_number}"],
        "FALLS": [],
    }
}
