#!/usr/bin/env python3
"""Writes crates/rust_printer/specs/Bare.antt: the trees of a source with every span empty, from tools/rust_ast.desc.py."""
import os
HERE = os.path.dirname(os.path.abspath(__file__))
D = {}
exec(open(HERE + "/rust_ast.desc.py").read(), D)
MODULES = {"SourceTypes": "t", "SourcePatterns": "p", "Source": "s"}
HEAD = '''-- Programs without their spans: every span is empty.
-- Written by tools/bare.py from tools/rust_ast.desc.py.
use Rattle.std.specs.Prelude.{◌≡◌, ℕ, List, Option, Some, None, map}
use Rattle.aen_base.specs.declared.span.Span.{Span}
use Rattle.rust_ast.specs.declared.ident.Ident.{Ident}
use Rattle.rust_ast.specs.SourceTypes as t
use Rattle.rust_ast.specs.SourcePatterns as p
use Rattle.rust_ast.specs.Source as s
use Rattle.rust_ast.specs.declared.program.Program.{Program}
use Rattle.rust_ast.specs.declared.program.Item.{Item}
use Rattle.rust_ast.specs.declared.program.Item.TheVariants as items
use Rattle.rust_ast.specs.declared.program.Param.{Param}
use Rattle.rust_ast.specs.declared.program.Fields.{Fields}
use Rattle.rust_ast.specs.declared.program.Fields.TheVariants as has_fields
use Rattle.rust_ast.specs.declared.program.Variant.{Variant}

abbrev pub nowhere : Span
nowhere = record { lo = 0; hi = 0 }

abbrev pub bare_ident : Ident → Ident
bare_ident name = record { name = name.name; span = nowhere }
'''
TAIL = '''
-- ---- items

abbrev pub bare_result : Option t.Written → Option t.Written
bare_result None = None
bare_result (Some ty) = Some (bare_written ty)

abbrev pub bare_types : List t.Written → List t.Written
bare_types tys = map bare_written tys

abbrev pub bare_param : Param → Param
bare_param x = record { mutable = x.mutable; name = bare_ident x.name; ty = bare_written x.ty }

abbrev pub bare_field : Span × List ℕ × t.Written → Span × List ℕ × t.Written
bare_field x = (nowhere, x.1, bare_written x.2)

abbrev pub bare_fields : Fields → Fields
bare_fields (has_fields.Named fields) = has_fields.Named (map bare_field fields)
bare_fields (has_fields.Placed tys) = has_fields.Placed (bare_types tys)

abbrev pub bare_variant : Variant → Variant
bare_variant x = record { name = bare_ident x.name; fields = bare_types x.fields }

abbrev pub bare_item : Item → Item
bare_item (items.Function f) =
    items.Function (record {
      name = bare_ident f.name;
      lifetimes = map bare_ident f.lifetimes;
      type_params = map bare_ident f.type_params;
      params = map bare_param f.params;
      result = bare_result f.result;
      body = bare_block f.body;
    })
bare_item (items.Struct x) = items.Struct (record { name = bare_ident x.name; params = map bare_ident x.params; fields = bare_fields x.fields })
bare_item (items.Enum x) = items.Enum (record { name = bare_ident x.name; params = map bare_ident x.params; variants = map bare_variant x.variants })
bare_item items.UseMem = items.UseMem

abbrev pub bare_program : Program → Program
bare_program x = record { items = map bare_item x.items }

-- the same program but for spans
abbrev pub Same : Program → Program → Type 0
Same a b = bare_program a ≡ bare_program b
'''


def low(name):
    return name.lower()


def tree(module, names):
    """The functions of a tree; `names`: the sorts of all trees so far and the module of each."""
    d = D["TREES"][module]
    sorts = dict(d["SORTS"])
    for sort, item in d["LISTS"].items():
        sorts[sort] = [("no_" + low(sort), []), ("more_" + low(sort), item + [sort])]
    for sort, item in d["OPTIONS"].items():
        sorts[sort] = [("no_" + low(sort), []), ("some_" + low(sort), item)]
    short = MODULES[module]
    names.update({sort: short for sort in sorts})
    lines = ["abbrev mutual"]
    for sort, forms in sorts.items():
        lines.append(f"  pub bare_{low(sort)} : {short}.{sort} → {short}.{sort}")
        for form, parts in forms:
            left, right = [], []
            for place, part in enumerate(parts):
                variable = "span" if part == "Span" and "Span" not in parts[:place] else f"a{place}"
                left.append(variable)
                bare = {"Span": "nowhere", "Ident": f"(bare_ident {variable})"}
                right.append(bare.get(part, f"(bare_{low(part)} {variable})" if part in names else variable))
            pattern = " ".join([f"{short}.{form}"] + left)
            lines.append(f"  bare_{low(sort)} {'(' + pattern + ')' if left else pattern} = {' '.join([f'{short}.{form}'] + right)}")
        lines.append("")
    return "\n".join(lines)


if __name__ == "__main__":
    known = {}
    text = HEAD + "".join("\n" + tree(module, known) for module in MODULES) + TAIL
    open(HERE + "/../crates/rust_printer/specs/Bare.antt", "w").write(text)
