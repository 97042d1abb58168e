HEAD = '''-- Made by tools/trees.py from tools/types.desc.py: the types of the printed language as data
-- (TEXT.md, "Types").
use Rattle.std.specs.Prelude.{◌≡◌, ℕ, zero, suc, ◌+◌, Bool, List, [], ◌∷◌, refl}
use Rattle.std.specs.Coded.{Coded, coded_ℕ}
use Rattle.std.proofs.Common.{ap, sym, ◌∙◌, subst}
use base.Stored.{Gv, gnil, gnum, gcons, num}
use Rattle.aen_base.specs.declared.int_ty.IntTy.{IntTy}
use Rattle.aen_base.specs.contracts.int_ty.IntTy as int_ty
'''
ATOMS = {"ℕ": "coded_ℕ", "IntTy": "int_ty.the_row.coded"}
SORTS = {"PTy": [("integer", ["IntTy"]), ("boolean", []), ("unit", []), ("product", ["PTys"]), ("named", ["ℕ", "PTys"]),
  ("parameter", ["ℕ"]), ("exit", ["PTy", "PTy"])]}
LISTS = {"PTys": ["PTy"]}
OPTIONS = {}
