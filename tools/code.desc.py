HEAD = '''-- Made by tools/trees.py from tools/code.desc.py: the code of the printed language as data
-- (TEXT.md, "Code").
use Rattle.std.specs.Prelude.{◌≡◌, ℕ, zero, suc, ◌+◌, Bool, List, [], ◌∷◌, refl}
use Rattle.std.specs.Coded.{Coded, coded_ℕ}
use Rattle.std.proofs.Common.{ap, sym, ◌∙◌, subst}
use base.Stored.{Gv, gnil, gnum, gcons, num}
use Rattle.pure_ast.specs.Terms.{Term, coded_term}
use Rattle.pure_ast.specs.declared.comp.Comp.{Comp}
use Rattle.pure_ast.specs.contracts.comp.Comp as comp_row
use Rattle.pure_ast.specs.declared.pat.Pat.{Pat}
use Rattle.pure_ast.specs.contracts.pat.Pat as pat_row
'''
ATOMS = {"ℕ": "coded_ℕ", "Term": "coded_term", "Comp": "comp_row.the_row.coded", "Pat": "pat_row.the_row.coded"}
SORTS = {"Code": [("bind", ["ℕ", "Comp", "Code"]), ("put", ["ℕ", "Term", "Code"]), ("select", ["Term", "Arms"]), ("last", ["Comp"]),
  ("bind_select", ["ℕ", "Term", "Arms", "Code"])]}
LISTS = {"Arms": ["Pat", "Code"]}
OPTIONS = {}
