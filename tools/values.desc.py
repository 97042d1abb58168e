HEAD = '''-- Made by tools/trees.py from tools/values.desc.py: the values of the printed language as data
-- (TEXT.md, "Values").
use Rattle.std.specs.Prelude.{◌≡◌, ℕ, zero, suc, ◌+◌, Bool, List, [], ◌∷◌, refl}
use Rattle.std.specs.Coded.{Coded, coded_ℕ, coded_bool}
use Rattle.std.proofs.Common.{ap, sym, ◌∙◌, subst}
use base.Stored.{Gv, gnil, gnum, gcons, num}
use Rattle.aen_base.specs.Numbers.{Number, coded_number}
use Rattle.pure_ast.specs.declared.ctor.CtorId.{CtorId}
use Rattle.pure_ast.specs.contracts.ctor.CtorId as ctor_id
'''
ATOMS = {"Bool": "coded_bool", "Number": "coded_number", "CtorId": "ctor_id.the_row.coded"}
SORTS = {"PValue": [("number", ["Number"]), ("truth", ["Bool"]), ("tuple", ["PValues"]), ("built", ["CtorId", "PValues"])]}
LISTS = {"PValues": ["PValue"]}
OPTIONS = {}
