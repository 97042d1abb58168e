#!/usr/bin/env python3
"""Writes the Rust types of a tree with their Model, what contracts see of them, and that a node's parts are smaller
than it; trees.py writes the data itself. `code.py DESCRIPTION TREE CRATE FOLDER` writes FOLDER/src/tree.rt,
FOLDER/specs/TREEView.antt and, where the tree leads back to itself, FOLDER/specs/TREEFalls.antt and the answers of
its drops in FOLDER/proofs/tree. A drop is a function of its own, so that crates above call it: a derived one would be
written out, and proved, wherever a tree is dropped.

A description says besides what trees.py wants: USE (the file's imports), DOCS (a sentence for each sort and form), CODE
(of a sort of another tree: its Rust type and the function that gives what is seen of it), VIEWS and FALLS (imports).
OWN_DROPS = True says that each tree has a drop of its own, and so an `into_node`. VARIANTS names the variants of
forms whose name in code is another one."""
import os
import re
import sys

description, tree, crate, folder = sys.argv[1:5]
found = {}
exec(open(description).read(), found)
D = found["TREES"][tree]
SORTS, LISTS, OPTIONS = D["SORTS"], D["LISTS"], D["OPTIONS"]
OTHER, DOCS = D.get("CODE", {}), D["DOCS"]
OWN_DROPS = found.get("OWN_DROPS", False)
VARIANTS = D.get("VARIANTS", {})
RUST = {"ℕ": "u32", "Bool": "bool", "Magnitude": "u128", "Number": "Num"}
module = re.sub(r"(?<!^)(?=[A-Z])", "_", tree).lower()
made = f"tools/code.py from tools/{description.split('/')[-1]}"


def camel(form):
    return VARIANTS.get(form) or "".join(word.capitalize() for word in form.split("_"))


# ---------------------------------------------------------------------- which sorts lead back to themselves
def kinds(field):
    return LISTS.get(field) or OPTIONS.get(field) or [field]


def reached(sort):
    seen, todo = set(), [sort]
    while todo:
        for _, fields in SORTS[todo.pop()]:
            new = {k for f in fields for k in kinds(f) if k in SORTS} - seen
            seen |= new
            todo += new
    return seen


CYCLE = sorted(s for s in SORTS if s in reached(s))


def in_cycle(field):
    return any(k in CYCLE for k in kinds(field))


# ------------------------------------------------------------------------------------------------ Rust types
def item(kind):
    return kind if kind in SORTS else OTHER.get(kind, (RUST.get(kind, kind),))[0]


def rust(field):
    if field in SORTS:
        return f"Boxed<{field}>" if field in CYCLE else field
    if field in LISTS:
        items = [item(k) for k in LISTS[field]]
        return f"List<{items[0]}>" if len(items) == 1 else f"List<({', '.join(items)})>"
    if field in OPTIONS:
        kind = OPTIONS[field][0]
        return f"Option<Boxed<{kind}>>" if kind in CYCLE else f"Option<{item(kind)}>"
    return item(field)


def long_fields(sort):
    """The forms with lists of this tree: what is dropped there has no measure of its own, and so needs an answer."""
    for form, fields in SORTS[sort]:
        lists = [i for i, f in enumerate(fields) if f in LISTS and in_cycle(f)]
        if lists and sort in CYCLE:
            yield form, fields, {i: form + (f"_{i}" if len(lists) > 1 else "") for i in lists}


def drop_of(sort):
    """A list that is dropped has a name, so that its goal has one."""
    names = {form: lists for form, _, lists in long_fields(sort)}
    cycle = f"    #[cycle(dropping_{module})]\n" if sort in CYCLE and len(CYCLE) > 1 else ""
    body = f"        let {sort} {{ node: _ }} = self;\n"
    if names:
        body = f"        let {sort} {{ node }} = self;\n        match node {{\n"
        for form, fields in SORTS[sort]:
            parts = ", ".join("_" + names.get(form, {}).get(i, "") for i in range(len(fields)))
            body += f"            {sort}Node::{camel(form)}{f'({parts})' if fields else ''} => {{}}\n"
        body += "        }\n"
    return f"impl Drop for {sort} {{\n{cycle}    fn drop(self) {{\n{body}    }}\n}}\n"


def types_of(sort):
    cycle = f"#[cycle({module})]\n" if sort in CYCLE else ""
    forms = ""
    for form, fields in SORTS[sort]:
        parts = f"({', '.join(rust(f) for f in fields)})" if fields else ""
        forms += f"    /// {DOCS[form]}\n    {camel(form)}{parts},\n"
    derived, own = ("", f"{drop_of(sort)}\n") if OWN_DROPS else ("#[derive(Drop)]\n", "")
    return (f"/// {DOCS[sort]}\n{cycle}{derived}pub struct {sort} {{\n    pub node: {sort}Node,\n}}\n\n{own}"
            f"/// The forms of `{sort}`.\n{cycle}#[derive(Drop)]\npub enum {sort}Node {{\n{forms}}}\n")


def model_of(sort):
    low = sort.lower()
    size = f"""
    ghost size = {{ nodes_{low} }};

    ghost use Rattle.std.proofs.Common.{{arith}};
    ghost use Rattle.{crate}.specs.{tree}Falls.{{{low}_falls}};

    ghost size_decreases = {{ λ a h. Prim.omega (arith, {low}_falls a.node) }};
"""
    nodes = f", nodes_{low}" if sort in CYCLE else ""
    return f"""impl Model for {sort} {{
    ghost use Rattle.{crate}.specs.{tree}.{{{sort}, coded_{low}{nodes}}};

    ghost Value = {{ {sort} }};

    ghost coded = {{ coded_{low} }};

    ghost use Rattle.{crate}.specs.{tree}View.{{{low}_of}};

    ghost view = {{ λ e. {low}_of e.node }};
{size if sort in CYCLE else ""}}}
"""


def into_node_of(sort):
    low = sort.lower()
    return f"""impl {sort} {{
    ghost use Rattle.std.specs.Prelude.{{◌≡◌}};
    ghost use Rattle.{crate}.specs.{tree}View.{{{low}_of}};

    /// The form, taken out.
    pub fn into_node(self) -> {sort}Node
        ensures {{ {low}_of result ≡ self }}
    {{
        let {sort} {{ node }} = self;
        node
    }}
}}
"""


def code():
    parts = [f"// Made by {made}.\n{D['USE']}\nuse std::marker::Model;\n"]
    bodies = [model_of(s) + (f"\n{into_node_of(s)}" if OWN_DROPS else "") for s in SORTS]
    return "\n".join(parts + [types_of(s) for s in SORTS] + bodies)


# ------------------------------------------------------------------------------------------ what contracts see
def seen(field, part):
    if field in LISTS or field in OPTIONS:
        return f"(t.{field.lower()} {part})"
    view = OTHER.get(field, (None, None))[1]
    return f"({view} {part})" if view else part


def parts_of(fields):
    return [f"a{i}" for i in range(len(fields))]


def applied(sort, form, parts):
    return f"({sort}_.{camel(form)} {' '.join(parts)})" if parts else f"{sort}_.{camel(form)}"


def declared(sort):
    path = f"Rattle.{crate}.specs.declared.{module}.{sort}Node"
    return [f"use {path}.{{{sort}Node}}", f"use {path}.TheVariants as {sort}_"]


def view():
    lines = [f"-- What contracts see of a node: the tree with what its lists and boxes hold.", f"-- Made by {made}.",
             f"use Rattle.{crate}.specs.{tree} as t", *D.get("VIEWS", [])]
    lines += [line for s in SORTS for line in declared(s)]
    for sort, forms in SORTS.items():
        name = f"{sort.lower()}_of"
        lines += ["", f"abbrev pub {name} : {sort}Node → t.{sort}"]
        for form, fields in forms:
            parts = parts_of(fields)
            value = " ".join([f"t.{form}"] + [seen(f, p) for f, p in zip(fields, parts)])
            lines.append(f"{name} {applied(sort, form, parts)} = {value}")
    return "\n".join(lines) + "\n"


# ------------------------------------------------------------------------------ parts are smaller than the whole
def weights():
    """Of a list of tuples: the name of the weight of its items, which the compiler gives the first field of this type."""
    names = {}
    for sort in CYCLE:
        for form, fields in SORTS[sort]:
            for i, f in enumerate(fields):
                if f in LISTS and in_cycle(f) and len(LISTS[f]) > 1:
                    names[f] = f"shapes.weighed-{sort}Node-{camel(form)}-{i}-at-{len(LISTS[f])}.weight"
    return names


def most(field, weight):
    low, kinds_ = field.lower(), LISTS[field]
    ty = " × ".join("t." + k if k in SORTS else k for k in kinds_)
    lines = []
    if len(kinds_) == 1:
        weigh, ty = f"(λ x. t.nodes_{kinds_[0].lower()} x + 1)", f"List {ty}"
    else:
        kind = next(k for k in kinds_ if k in CYCLE)
        lines = ["", f"abbrev weight_{low} : {ty} → ℕ", f"weight_{low} = {weight} t.{kind} (λ y. t.nodes_{kind.lower()} y + 1)"]
        weigh, ty = f"weight_{low}", f"List ({ty})"
    return lines + ["", f"most_{low} : (xs : {ty}) → most {weigh} xs ≤ t.nodes_{low} (t.{low} xs) + 1",
                    f"most_{low} [] = omega arith", f"most_{low} (x ∷ xs) = omega (arith, most_{low} xs)"]


def dropped(field, weight):
    """What drops the items of a list is smaller than twice the list's tree: the size of a struct is twice its node's."""
    low, kinds_ = field.lower(), LISTS[field]
    kind = next(k for k in kinds_ if k in CYCLE)
    ty = " × ".join("t." + k if k in SORTS else k for k in kinds_)
    weight, ty = (weight, f"({ty})") if len(kinds_) > 1 else ("w_this.weight", ty)
    return ["", f"abbrev size_{low} : {ty} → ℕ", f"size_{low} = {weight} t.{kind} size-{kind}", "",
            f"pub drop_{low} : (xs : List {ty}) → most size_{low} xs ≤ 2 * t.nodes_{low} (t.{low} xs)",
            f"drop_{low} [] = omega arith", f"drop_{low} (x ∷ xs) = omega (arith, drop_{low} xs)"]


def answers(folder_of, sorts):
    """The answers of a folder of drops: one goal for each list that is dropped."""
    lines, lemmas = [], set()
    for sort in sorts:
        low, own = sort.lower(), f"{sort}::drop-" if len(CYCLE) > 1 else ""
        for form, fields, names in long_fields(sort):
            for i, name in names.items():
                goal = f"{own}drop-{name}-requires"
                lemmas.add(f"drop_{fields[i].lower()}")
                known, part = f"c.in-{camel(form)}.is", f"c.in-{camel(form)}._{name}"
                if len(SORTS[sort]) == 1:  # no case: the step has no name of the source's
                    known, part = "c.node-1.given.1", f"c.node-1.given.0{'.1' * i}.0"
                lines += ["", f"pub {goal} : goal.{goal}", f"{goal} t c κs =",
                          f"    let same = ap nodes_{low} c.self.view_is in",
                          f"    let node = ap (λ n. nodes_{low} ({low}_of n)) {known} in",
                          f"    let whole : size-{sort} c.args.self ≡ t = c.decreases in",
                          f"    let parts = drop_{fields[i].lower()} {part} in",
                          "    ((omega (arith, same, node, whole, parts), tt), search rules)"]
    listed = [s for s in sorts if any(True for _ in long_fields(s))]
    head = ["-- A list that is dropped is smaller than the whole.", f"-- Made by {made}.",
            "use Rattle.std.proofs.Common.{◌≡◌, ap, arith, rules}",
            f"use Rattle.{crate}.specs.{tree}.{{{', '.join('nodes_' + s.lower() for s in listed)}}}",
            f"use Rattle.{crate}.specs.{tree}View.{{{', '.join(s.lower() + '_of' for s in listed)}}}",
            f"use Rattle.{crate}.specs.{tree}Falls.{{{', '.join(sorted(lemmas))}}}",
            f"use Rattle.{crate}.specs.declared.{module}.{CYCLE[0]}.TheDeep.{{{', '.join('size-' + s for s in listed)}}}",
            f"use Rattle.{crate}.proofs.{folder_of.replace('/', '.')}.Goals as goal"]
    return "\n".join(head + lines) + "\n" if lines else ""


def clauses(sort):
    """One clause for each form with a list or an option of this tree: a list needs its lemma, an option two clauses.
    A catch-all serves the others, but is split only below a clause with a form."""
    name, lines, rest, special = f"{sort.lower()}_falls", [], False, False
    for form, fields in SORTS[sort]:
        lemmas = [f"most_{f.lower()} a{i}" for i, f in enumerate(fields) if f in LISTS and in_cycle(f)]
        options = [i for i, f in enumerate(fields) if f in OPTIONS and in_cycle(f)]
        if not lemmas and not options:
            rest = True
            continue
        special = True
        for chosen in range(2 ** len(options)):
            parts = parts_of(fields)
            for j, i in enumerate(options):
                parts[i] = "None" if chosen >> j & 1 else "(Some x)"
            proof = f"omega (arith, {', '.join(lemmas)})" if lemmas else "omega arith"
            lines.append(f"{name} {applied(sort, form, parts)} = {proof}")
    if not special:
        form, fields = SORTS[sort][0]
        lines.append(f"{name} {applied(sort, form, parts_of(fields))} = omega arith")
        rest = len(SORTS[sort]) > 1
    return lines + ([f"{name} _ = omega arith"] if rest else [])


def falls():
    first = CYCLE[0]
    lines = ["-- A node's parts are smaller than the node.", f"-- Made by {made}.",
             "use Rattle.std.specs.Prelude.{ℕ, ◌+◌, ◌*◌, ◌≤◌, List, [], ◌∷◌, Option, Some, None}",
             "use Rattle.std.proofs.Common.{arith}", "use denote.Param.Weighed.{most, w_this}", f"use Rattle.{crate}.specs.{tree} as t",
             f"use Rattle.{crate}.specs.{tree}View.{{{', '.join(s.lower() + '_of' for s in CYCLE)}}}", *D.get("FALLS", [])]
    path = f"Rattle.{crate}.specs.declared.{module}.{first}"
    lines += [f"use {path}.TheDeep.{{{', '.join([f'deep-{s}Node' for s in CYCLE] + [f'size-{s}' for s in CYCLE])}}}", f"use {path}.TheShapes as shapes"]
    lines += [line for s in CYCLE for line in declared(s)]
    names = weights()
    for f in LISTS:
        if in_cycle(f):
            lines += most(f, names.get(f)) + (dropped(f, names.get(f)) if OWN_DROPS else [])
    for sort in CYCLE:
        lines += ["", f"pub {sort.lower()}_falls : (e : {sort}Node) → deep-{sort}Node e ≤ t.nodes_{sort.lower()} ({sort.lower()}_of e)"]
        lines += clauses(sort)
    return "\n".join(lines) + "\n"


open(f"{folder}/src/{module}.rt", "w").write(code())
open(f"{folder}/specs/{tree}View.antt", "w").write(view())
if CYCLE:
    open(f"{folder}/specs/{tree}Falls.antt", "w").write(falls())
    place = f"{module}/+dropping_{module}" if len(CYCLE) > 1 else f"{module}/{CYCLE[0]}/+drop"
    if OWN_DROPS and answers(place, CYCLE):
        os.makedirs(f"{folder}/proofs/{place}", exist_ok=True)
        open(f"{folder}/proofs/{place}/Answers.antt", "w").write(answers(place, CYCLE))
