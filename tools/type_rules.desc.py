# What typing goes by: crates/type_rules.
HEAD = '''use Rattle.std.specs.Prelude.{◌≡◌, ℕ, zero, suc, ◌+◌, Bool, List, [], ◌∷◌, Option, Some, None, refl}
use Rattle.std.specs.Coded.{Coded, coded_ℕ, coded_bool, coded_list}
use Rattle.std.proofs.Common.{ap, sym, ◌∙◌, subst}
use base.Stored.{Gv, gnil, gnum, gcons, num}
use Rattle.core_ty.specs.Types.{Ty, coded_ty}
use Rattle.rust_ast.specs.Spelled.{Place, coded_place, Val, coded_val}
'''
TREES = {"Forms": dict(
    ABOUT='What is expected of an expression, and what it is (LANGUAGE.md, "Expected types", "Places").', HEAD=HEAD,
    ATOMS={"Bool": "coded_bool", "Ty": "coded_ty", "Place": "coded_place", "Val": "coded_val"},
    SORTS={"Expected": [("none", []), ("hint", ["Ty"]), ("want", ["Ty"])],
           "Raw": [("stands", ["Place", "Ty", "Bool"]), ("held", ["Val"])]},
    LISTS={}, OPTIONS={}, CODE={"Ty": ("Ty", None), "Place": ("Place", None), "Val": ("Val", None)},
    USE="use core_ty::Ty;\nuse rust_ast::spelled::{Place, Val};",
    DOCS={
        "Expected": "What is expected of an expression.", "none": "Nothing.", "hint": "A type that its own is compared with.",
        "want": "A type where a reference may be expected, so that reborrows are written out.",
        "Raw": "What an expression is.", "stands": "A place, with its type and whether it may be written.", "held": "A value.",
    },
)}
OWN_DROPS = True
