HEAD = '''-- Made by tools/trees.py from tools/sums_ast.desc.py: expressions, statements and blocks of a source.
use Rattle.std.specs.Prelude.{◌≡◌, ℕ, zero, suc, ◌+◌, List, [], ◌∷◌, Option, Some, None, refl}
use Rattle.std.specs.Coded.{Coded, coded_ℕ}
use Rattle.std.proofs.Common.{ap, sym, ◌∙◌, subst}
use base.Stored.{Gv, gnil, gnum, gcons, num}
use Rattle.aen_base.specs.Numbers.{Number, coded_number}
use Rattle.aen_base.specs.declared.span.Span.{Span}
use Rattle.aen_base.specs.contracts.span.Span as span
use Rattle.aen_base.specs.declared.operators.BinOp.{BinOp}
use Rattle.aen_base.specs.contracts.operators.BinOp as op
'''
ATOMS = {"ℕ": "coded_ℕ", "Number": "coded_number", "Span": "span.the_row.coded", "BinOp": "op.the_row.coded"}
SORTS = {
    "Expr": [
        ("number", ["Span", "Number"]),
        ("variable", ["Span", "ℕ"]),
        ("binary", ["Span", "BinOp", "Expr", "Expr"]),
        ("call", ["Span", "ℕ", "Exprs"]),
    ],
    "Stmt": [("bind", ["Span", "ℕ", "Expr"])],
    "Block": [("block", ["Span", "Stmts", "MaybeExpr"])],
}
LISTS = {"Exprs": ["Expr"], "Stmts": ["Stmt"]}
OPTIONS = {"MaybeExpr": ["Expr"]}
