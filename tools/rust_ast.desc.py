# The trees of a source: crates/rust_ast. Names as they are written (Source..) and names resolved
# (Written, Patterns, Resolved) have one description; they differ in what stands for a use. What typing
# writes out (Spelled..) is a tree of its own: places are a sort, and each value has its type.
STD = '''use Rattle.std.specs.Prelude.{◌≡◌, ℕ, zero, suc, ◌+◌, Bool, List, [], ◌∷◌, Option, Some, None, refl}
use Rattle.std.specs.Coded.{Coded, coded_ℕ, coded_bool, coded_list}
use Rattle.std.proofs.Common.{ap, sym, ◌∙◌, subst}
use base.Stored.{Gv, gnil, gnum, gcons, num}
'''
DECLARED = {
    "Span": "Rattle.aen_base.specs.{}.span.Span", "TypeId": "Rattle.aen_base.specs.{}.ids.TypeId",
    "IntTy": "Rattle.aen_base.specs.{}.int_ty.IntTy", "BinOp": "Rattle.aen_base.specs.{}.operators.BinOp",
    "CmpOp": "Rattle.aen_base.specs.{}.operators.CmpOp", "Builtin": "Rattle.aen_base.specs.{}.operators.Builtin",
    "Ident": "Rattle.rust_ast.specs.{}.ident.Ident",
}
NAME = '''
-- the bytes of a name
abbrev pub Name : Type 0
Name = List ℕ
'''
MAGNITUDE = '''
-- a number as it is written, below 2^128
abbrev pub Magnitude : Type 0
Magnitude = ℕ
'''
NAMED = ["Name", "Magnitude"]


def uses(names):
    lines = ""
    for n in names:
        lines += f"use {DECLARED[n].format('declared')}.{{{n}}}\nuse {DECLARED[n].format('contracts')} as {n.lower()}_row\n"
    return lines


def atoms(names, trees=()):
    """The codes of the types that are no sorts: numbers, what aen_base declares, sorts of other trees."""
    a = {"ℕ": "coded_ℕ", "Bool": "coded_bool", "Name": "(coded_list coded_ℕ)", "Magnitude": "coded_ℕ"}
    a.update({n: f"{n.lower()}_row.the_row.coded" for n in names})
    a.update({t: f"coded_{t.lower()}" for t in trees})
    return a


def imports(module, trees):
    return f"use Rattle.rust_ast.specs.{module}.{{{', '.join(x for t in trees for x in (t, 'coded_' + t.lower()))}}}\n"


def falls(module, name_of):
    return [f"use Rattle.rust_ast.specs.{module}.{{{name_of}}}", "use Rattle.aen_base.specs.declared.span.Span.{Span}"]


# ---------------------------------------------------------------------------------------- types
def types(resolved):
    if resolved:
        lifetimes = [("elided", []), ("declared", ["ℕ"]), ("undeclared", [])]
        paths = {"Turbos": [("no_turbo", []), ("one_turbo", ["Writtens"]), ("two_turbos", ["Writtens", "Writtens"])]}
        named = [("named", ["Span", "TypeId", "Writtens"]), ("param", ["Span", "ℕ", "Writtens"])]
    else:
        lifetimes = [("elided", []), ("lifetime", ["Ident"])]
        paths = {
            "Turbo": [("no_turbo", []), ("turbo", ["Writtens"])],
            "Path": [("one", ["Ident"]), ("two", ["Ident", "Turbo", "Ident"]), ("box_new", ["Span"]),
                     ("mem_replace", ["Span", "Span", "Bool"]), ("mem_swap", ["Span", "Span", "Bool"])],
        }
        named = [("named", ["Span", "Ident", "Writtens"])]
    return {
        "Lifetime": lifetimes, **paths,
        "Written": [("int", ["Span", "IntTy"]), ("bool", ["Span"]), ("unit", ["Span"]), ("tuple", ["Span", "Writtens"]),
                    ("ref", ["Span", "Lifetime", "Bool", "Written"]), ("boxed", ["Span", "Written"])] + named,
    }


TYPE_DOCS = {
    "Lifetime": "The lifetime of a reference type.", "elided": "None, or `'_`.",
    "lifetime": "A lifetime; its name begins with `'`.", "declared": "A lifetime of the function, by its place.",
    "undeclared": "A lifetime that the function doesn't declare.",
    "Turbos": "The lists of type arguments that stand in one path.", "no_turbo": "None.",
    "one_turbo": "One list, wherever it stands.", "two_turbos": "One after each name.",
    "Turbo": "Perhaps a list of type arguments, after `::`.", "turbo": "The arguments.",
    "Path": "A path.", "one": "One name.", "two": "Two names, with the first's type arguments.",
    "box_new": "`Box::new`, with its span.",
    "mem_replace": "`mem::replace`, with its span, that of the word `mem`, and whether it stands after `std::`.",
    "mem_swap": "`mem::swap`, with its span, that of the word `mem`, and whether it stands after `std::`.",
    "Written": "A type as it is written. Each form begins with its span.",
    "int": "An integer type.", "bool": "`bool`.", "unit": "`()`.", "tuple": "A tuple of these parts.",
    "ref": "A reference; true for `&mut`.", "boxed": "`Box` of a type.", "param": "A type parameter of what the type stands in, by its place.",
}

# ------------------------------------------------------------------------------------- patterns
def patterns(resolved):
    fields = ["Span", "TypeId", "ℕ", "Turbos"] if resolved else ["Span", "Path"]
    names = [("bind", ["Span", "Span", "Bool", "ℕ"])] if resolved else [("lone", ["Ident"]), ("mut_bind", ["Span", "Ident"])]
    more = {} if resolved else {"FieldPat": [("short", ["Ident"]), ("given", ["Span", "Name", "Pat"])]}
    return {
        "Pat": [("wild", ["Span"])] + names + [("number", ["Span", "Bool", "Magnitude", "Suffix"]), ("truth", ["Span", "Bool"]),
                ("tuple", ["Span", "Pats"]), ("construct", fields + ["Pats"]), ("literal", fields + ["FieldPats"])],
        **more,
    }


PAT_DOCS = {
    "Pat": "A pattern. Each form begins with its span.", "wild": "`_`.",
    "bind": "A variable, which takes the value: the span of its name, whether `mut` is written, its number.",
    "lone": "A name alone: a binding, or a struct without fields.", "mut_bind": "A name with `mut`, which binds.",
    "number": "An integer: whether `-` stands before it, its magnitude, its suffix.", "truth": "`true` or `false`.",
    "tuple": "A tuple of these parts, or `()`.",
    "FieldPat": "A field in braces.", "short": "A field's name alone, which binds.", "given": "A field's name and its pattern.",
}

# ---------------------------------------------------------------------------------- expressions
def expressions(resolved):
    callee = {"Callee": [("function", ["ℕ"]), ("builtin_of", ["Builtin"]), ("constructor", ["TypeId", "ℕ"])]} if resolved else {}
    value = ("variable", ["Span", "ℕ"]) if resolved else ("path", ["Span", "Path"])
    called = ["Callee", "Turbos"] if resolved else ["Path", "Turbo"]
    built = ["TypeId", "ℕ", "Turbos"] if resolved else ["Ident", "Turbo"]
    numbered = ["ℕ"] if resolved else []
    let = [] if resolved else [("let_branch", ["Span", "Pat", "Expr", "Expr", "Expr"])]
    return {
        **callee,
        "Expr": [("number", ["Span", "Bool", "Magnitude", "Suffix"]), ("truth", ["Span", "Bool"]), ("tuple", ["Span", "Exprs"]),
                 ("inner", ["Block"]), ("branch", ["Span", "Expr", "Block", "Expr"]), ("select", ["Span", "Expr", "Arms"])] + let + [
                 ("forever", ["Span"] + numbered + ["Bool", "Block"]), ("panic", ["Span"]), value,
                 ("call", ["Span"] + called + ["Exprs"]), ("literal", ["Span"] + built + ["Inits"]),
                 ("field", ["Span", "Expr", "Span", "Name"]), ("minus", ["Span", "Expr"]), ("negation", ["Span", "Expr"]),
                 ("deref", ["Span", "Expr"]), ("borrow", ["Span", "Bool", "Expr"]), ("binary", ["Span", "BinOp", "Expr", "Expr"]),
                 ("compare", ["Span", "CmpOp", "Expr", "Expr"]), ("both", ["Span", "Expr", "Expr"]), ("either", ["Span", "Expr", "Expr"]),
                 ("cast", ["Span", "Expr", "IntTy"]), ("assign", ["Span", "Expr", "Expr"]), ("update", ["Span", "BinOp", "Expr", "Expr"]),
                 ("give", ["Span", "MaybeExpr"]), ("leave", ["Span", "MaybeExpr"]), ("go_on", ["Span"])],
        "Stmt": [("run", ["Expr", "Bool"]), ("bind", ["Span", "Pat", "MaybeWritten", "MaybeExpr"])],
        "Block": [("block", ["Span", "Stmts", "MaybeExpr"])],
    }


EXPR_DOCS = {
    "Callee": "What is called.", "function": "A function, by its number.", "builtin_of": "A built-in function.",
    "constructor": "The constructor of a declared type's variant; of a struct the variant 0.",
    "Expr": "An expression. Each form begins with its span; that of a block is the block's.",
    "number": "An integer: whether it is negative, its magnitude, its suffix.", "truth": "`true` or `false`.",
    "tuple": "A tuple of these parts, or `()`.", "inner": "A block.",
    "branch": "`if`: the condition, what is done where it holds, and where not.",
    "select": "`match`: the scrutinee, and the arms in order.",
    "let_branch": "`if let`: the pattern, the scrutinee, what is done where it matches, and where not.",
    "panic": "`panic!`.", "variable": "A variable, by its number.", "path": "A path that isn't called.",
    "call": "A call of a function, or of a constructor whose parts stand by place.",
    "literal": "A constructor whose parts stand by name in braces: each name with its span, and its value.",
    "field": "A field: its span, and its name or place.", "minus": "`-`.", "negation": "`!`.", "deref": "`*`.",
    "borrow": "`&`, or `&mut` where true.", "binary": "An operator on two numbers.", "compare": "A comparison.",
    "both": "`&&`.", "either": "`||`.", "cast": "`as`.", "assign": "`=`.", "update": "An operator with `=`.",
    "give": "`return`.", "leave": "`break`.", "go_on": "`continue`.",
    "Stmt": "A statement.", "run": "An expression, and whether `;` ends it.",
    "bind": "`let`, with its span: the pattern, the type if one is written, the value if there is one.",
    "Block": "A block.", "block": "The span, the statements, and the last expression, which gives the value.",
}
LISTS = {
    "types": {"Writtens": ["Written"]},
    "patterns": {True: {"Pats": ["Pat"], "FieldPats": ["Span", "Name", "Pat"]}, False: {"Pats": ["Pat"], "FieldPats": ["FieldPat"]}},
    "expressions": {"Exprs": ["Expr"], "Arms": ["Pat", "Expr"], "Inits": ["Span", "Name", "Expr"], "Stmts": ["Stmt"]},
}


SUFFIX = {"Suffix": ("Option<IntTy>", "suffixes.suffix")}


def type_tree(resolved):
    atom = ["Span", "IntTy"] + (["TypeId"] if resolved else ["Ident"])
    return dict(
        ABOUT="Types as they are written, " + ("names resolved" if resolved else "and paths") + ' (LANGUAGE.md, "Grammar").',
        HEAD=STD + uses(atom), ATOMS=atoms(atom), SORTS=types(resolved), LISTS=LISTS["types"], OPTIONS={"MaybeWritten": ["Written"]},
        USE=("" if resolved else "use crate::Ident;\n") + "use aen_base::{Boxed, IntTy, List, Span" + (", TypeId" if resolved else "") + "};",
        DOCS={**TYPE_DOCS, "named": "A declared type with its arguments." if resolved else "A declared type or a type parameter, with arguments."},
    )


def pattern_tree(resolved):
    module, path = ("Written", "Turbos") if resolved else ("SourceTypes", "Path")
    atom = ["Span", "IntTy"] + (["TypeId"] if resolved else ["Ident"])
    built = ("A declared type's variant, with the parts by place." if resolved else "A path with parts by place; without brackets there are none.",
             "A declared type's variant, with the parts by name in braces." if resolved else "A path with parts by name in braces.")
    return dict(
        ABOUT="Patterns of a source" + (", names resolved" if resolved else "") + ' (LANGUAGE.md, "Grammar").',
        HEAD=STD + uses(atom) + imports(module, [path])
            + (NAME + MAGNITUDE if resolved else "use Rattle.rust_ast.specs.Patterns.{Suffix, coded_suffix, Name, Magnitude}\n"),
        ATOMS=atoms(atom, [path] + ([] if resolved else ["Suffix"])), SORTS=patterns(resolved), LISTS=LISTS["patterns"][resolved],
        OPTIONS={"Suffix": ["IntTy"]} if resolved else {}, CODE={path: (path, None), **({} if resolved else SUFFIX)},
        VIEWS=[] if resolved else ["use Rattle.rust_ast.specs.Patterns as suffixes"],
        USE=("" if resolved else "use crate::Ident;\n") + f"use crate::{'written' if resolved else 'source_types'}::{path};\n"
            + ("use aen_base::{IntTy, List, Name, Span, TypeId};" if resolved else "use aen_base::{Boxed, IntTy, List, Name, Span};"),
        FALLS=falls("Patterns", "Name") if resolved else [],
        DOCS={**PAT_DOCS, "construct": built[0], "literal": built[1]},
    )


def expression_tree(resolved):
    types_module, patterns_module = ("Written", "Patterns") if resolved else ("SourceTypes", "SourcePatterns")
    paths = ["Turbos"] if resolved else ["Turbo", "Path"]
    atom = ["Span", "IntTy", "BinOp", "CmpOp"] + (["TypeId", "Builtin"] if resolved else ["Ident"])
    code = {"MaybeWritten": ("Option<Written>", "types.maybewritten"), "Pat": ("Pat", None), **SUFFIX, **{p: (p, None) for p in paths}}
    ids = "BinOp, Boxed, Builtin, CmpOp, IntTy, List, Name, Span, TypeId" if resolved else "BinOp, Boxed, CmpOp, IntTy, List, Name, Span"
    modules = ("patterns", "written") if resolved else ("source_patterns", "source_types")
    return dict(
        ABOUT="Expressions, statements and blocks of a source" + (", names resolved" if resolved else "") + ' (LANGUAGE.md, "Grammar").',
        HEAD=STD + uses(atom) + imports(types_module, ["MaybeWritten"] + paths)
            + f"use Rattle.rust_ast.specs.{patterns_module}.{{Pat, coded_pat}}\n"
            + "use Rattle.rust_ast.specs.Patterns.{Suffix, coded_suffix, Name, Magnitude}\n",
        ATOMS=atoms(atom, ["MaybeWritten", "Pat", "Suffix"] + paths), SORTS=expressions(resolved), LISTS=LISTS["expressions"],
        OPTIONS={"MaybeExpr": ["Expr"]}, CODE=code,
        VIEWS=[f"use Rattle.rust_ast.specs.{types_module} as types", "use Rattle.rust_ast.specs.Patterns as suffixes"],
        USE=("" if resolved else "use crate::Ident;\n") + f"use crate::{modules[0]}::Pat;\n"
            + f"use crate::{modules[1]}::{{{', '.join(sorted(paths + ['Written']))}}};\nuse aen_base::{{{ids}}};",
        FALLS=[f"use Rattle.rust_ast.specs.{patterns_module}.{{Pat}}"] + falls("Patterns", "Name"),
        DOCS={**EXPR_DOCS, "forever": "A loop: " + ("its number in the function, " if resolved else "") + "whether it is written with `while`, and its body."},
    )


# ------------------------------------------------------------------------- types and reborrows written out
NUMBER = "use Rattle.aen_base.specs.Numbers.{Number, coded_number}\n"
SPELLED_PATTERN_SORTS = {
    "Mode": [("copy", []), ("move", []), ("refer", ["Bool"])],
    "Pat": [("wild", []), ("bind", ["Span", "ℕ", "Mode"]), ("number", ["Number"]), ("truth", ["Bool"]), ("tuple", ["Pats"]),
            ("construct", ["TypeId", "ℕ", "FieldPats"]), ("through", ["Bool", "Pat"])],
}
SPELLED_PATTERN_DOCS = {
    "Mode": "How a name takes what it meets.", "copy": "It copies the value.", "move": "It moves the value.",
    "refer": "It is a reference to the part; true for `&mut`.",
    "Pat": "A pattern, with what it looks through and how its names bind.", "wild": "`_`.",
    "bind": "A variable: the span of the pattern, its number, how it takes what it meets.",
    "number": "An integer with its type.", "truth": "`true` or `false`.", "tuple": "A tuple of these parts, or `()`.",
    "construct": "A variant of a declared type, of a struct the variant 0: the parts with the numbers of their fields.",
    "through": "The pattern of what a reference leads to; true for `&mut`.",
}
SPELLED_SORTS = {
    "Val": [("value", ["Ty", "Bool", "Span", "Form"])],
    "Callee": [("function", ["ℕ"]), ("builtin_of", ["Builtin"])],
    "Form": [("number", ["Number"]), ("truth", ["Bool"]), ("tuple", ["Values"]), ("construct", ["TypeId", "ℕ", "Parts"]),
             ("use_of", ["Place", "Bool"]), ("field_of", ["Val", "ℕ", "Bool"]), ("unbox_of", ["Val", "Bool"]),
             ("borrow", ["Bool", "Place"]), ("minus", ["Val"]), ("negation", ["Val"]), ("binary", ["BinOp", "Val", "Val"]),
             ("compare", ["CmpOp", "Val", "Val"]), ("cast", ["Val", "IntTy"]), ("both", ["Val", "Val"]), ("either", ["Val", "Val"]),
             ("call", ["Callee", "Tys", "Values"]), ("assign", ["Place", "Val"]), ("update", ["Ty", "BinOp", "Place", "Val"]),
             ("inner", ["Block"]), ("select", ["Scrutinee", "Arms"]), ("forever", ["ℕ", "Bool", "Bool", "Block"]),
             ("leave", ["ℕ", "MaybeValue"]), ("go_on", ["ℕ"]), ("give", ["MaybeValue"]), ("panic", [])],
    "Place": [("variable", ["ℕ"]), ("field", ["Place", "ℕ"]), ("unbox", ["Place"]), ("through", ["Place"]), ("through_value", ["Val"])],
    "Scrutinee": [("stands", ["Ty", "Span", "Place"]), ("held", ["Val"])],
    "Stmt": [("run", ["Val"]), ("put", ["Span", "ℕ", "Val"]), ("pass", ["Span", "Val"]), ("open_up", ["Span", "Scrutinee", "Pat"]),
             ("later", ["Span", "Variables"])],
    "Block": [("block", ["Ty", "Bool", "Span", "Stmts", "MaybeValue"])],
}
SPELLED_DOCS = {
    "Val": "An expression that gives a value.",
    "value": "Its type, whether it has every type since it never gives one, its span, and what it is.",
    "Callee": "What is called.", "function": "A function, by its number.", "builtin_of": "A built-in function.",
    "Form": "What a value is.", "number": "An integer with its type.", "truth": "`true` or `false`.",
    "tuple": "A tuple of these parts, or `()`.",
    "construct": "A variant of a declared type, of a struct the variant 0: the parts in written order with the numbers of their fields.",
    "use_of": "What stands at a place, copied where true, else moved.",
    "field_of": "A field of a value that stands at no place, copied where true, else moved.",
    "unbox_of": "What is in a box that stands at no place, copied where true, else moved.",
    "borrow": "`&` of a place, or `&mut` where true.", "minus": "`-`.", "negation": "`!`.", "binary": "An operator on two numbers or bools.",
    "compare": "A comparison.", "cast": "`as`.", "both": "`&&`.", "either": "`||`.",
    "call": "A call with its type arguments.", "assign": "`=`.", "update": "An operator with `=`: the type of the place, which a shift's value needn't have.", "inner": "A block.",
    "select": "`match`, and `if` as a `match` on a bool: the scrutinee, and the arms in order.",
    "forever": "A loop: its number in the function, whether it is written with `while`, whether it has a `break`, and its body.",
    "leave": "`break` of the loop with this number.", "go_on": "`continue` of the loop with this number.", "give": "`return`.", "panic": "`panic!`.",
    "Place": "A place. What uses it has its type and its span.", "variable": "A variable, by its number.", "field": "A field of a place, by its number.",
    "unbox": "What is in the box at a place.", "through": "What the reference at a place leads to.",
    "through_value": "What a reference that stands at no place leads to.",
    "Scrutinee": "What a `match` looks at.", "stands": "A place, with its type and span.", "held": "A value.",
    "Stmt": "A statement.", "run": "A value that is passed over.", "put": "`let` of one name: its span, the variable, the value.",
    "pass": "`let _`: its span, the value.", "open_up": "`let` of any other pattern: its span, what it looks at, the pattern.",
    "later": "`let` without a value: its span, the variables in order.",
    "Block": "A block.", "block": "Its type, whether it has every type, its span, the statements, and the last value, which it gives.",
}


def spelled_patterns():
    atom = ["Span", "TypeId"]
    return dict(
        ABOUT='Patterns with what they look through and how their names bind (LANGUAGE.md, "Types").',
        HEAD=STD + uses(atom) + NUMBER, ATOMS={**atoms(atom), "Number": "coded_number"}, SORTS=SPELLED_PATTERN_SORTS,
        LISTS={"Pats": ["Pat"], "FieldPats": ["ℕ", "Pat"]}, OPTIONS={},
        USE="use aen_base::{Boxed, List, Num, Span, TypeId};", DOCS=SPELLED_PATTERN_DOCS,
    )


def spelled():
    atom = ["Span", "TypeId", "IntTy", "BinOp", "CmpOp", "Builtin"]
    return dict(
        ABOUT='Expressions with types, reborrows and dereferences written out (LANGUAGE.md, "Types").',
        HEAD=STD + uses(atom) + NUMBER + "use Rattle.core_ty.specs.Types.{Ty, coded_ty, Tys, coded_tys}\n"
            + "use Rattle.rust_ast.specs.SpelledPatterns.{Pat, coded_pat}\n",
        ATOMS={**atoms(atom, ["Ty", "Tys", "Pat"]), "Number": "coded_number"}, SORTS=SPELLED_SORTS,
        LISTS={"Values": ["Val"], "Parts": ["ℕ", "Val"], "Arms": ["Pat", "Val"], "Stmts": ["Stmt"], "Variables": ["ℕ"]},
        OPTIONS={"MaybeValue": ["Val"]}, CODE={"Ty": ("Ty", None), "Tys": ("List<Ty>", "ty.tys"), "Pat": ("Pat", None)},
        VIEWS=["use Rattle.core_ty.specs.Types as ty"],
        USE="use crate::spelled_patterns::Pat;\nuse aen_base::{BinOp, Boxed, Builtin, CmpOp, IntTy, List, Num, Span, TypeId};\nuse core_ty::Ty;",
        FALLS=["use Rattle.rust_ast.specs.SpelledPatterns.{Pat}"], DOCS=SPELLED_DOCS,
    )


OWN_DROPS = True
TREES = {
    "SourceTypes": type_tree(False), "SourcePatterns": pattern_tree(False), "Source": expression_tree(False),
    "Written": type_tree(True), "Patterns": pattern_tree(True), "Resolved": expression_tree(True),
    "SpelledPatterns": spelled_patterns(), "Spelled": spelled(),
}
