#!/usr/bin/env python3
"""Writes the machine that builds the tree of a source: source_build.py, and then `rt fmt` in each of its crates

Reads source_build.desc.py, source_ways.desc.py and the grammar that this one names, and the signatures of the ways in code.
Written into source_values are

    src/value.rt, specs/Held.antt      what is held of each part
    src/taking.rt, src/taking/*.rt     how it is taken off the stack

into source_items and source_expressions

    src/*.rt                           what productions build, one function for those that do the same

and into source_builder

    src/building.rt, src/building/*.rt     which of them builds a part by its production
    proofs/building/*, proofs/Levels.antt  that these build the same
"""
import os
import re
import sys

HERE = os.path.dirname(os.path.abspath(__file__))
sys.path.insert(0, HERE)
import source_ways  # noqa: E402
from grammar import Description, arguments  # noqa: E402

CRATES = os.path.join(HERE, "..", "crates")
VALUES, BUILDER = "source_values", "source_builder"
WAYS = os.path.join(CRATES, "source_ways")
TOKEN = "Token"
ORDINALS = "second third fourth fifth sixth".split()


def snake(name):
    return re.sub(r"(?<=[a-z])([A-Z])", r"_\1", name).lower()


def unboxed(code):
    """The type of what a variant holds, and whether it holds that in a box."""
    boxed = re.match(r"Boxed<(.*)>$", code)
    return (boxed.group(1), True) if boxed else (code, False)


def load(path):
    values = {}
    exec(open(os.path.join(HERE, path), encoding="utf-8").read(), values)
    return values


class Way:
    """How a production is read: the names of the values of its symbols, and the value in code."""

    def __init__(self, machine, text, kinds, listed):
        given = re.match(r"((?:[\w]+\*? ?)+)\. (.*)$", text)
        self.names, self.fallible, self.direct = [], False, False
        if given:
            names, body = given.group(1).split(), given.group(2)
            whole = {n[:-1] for n in names if n.endswith("*")}
            self.names = [n.rstrip("*") for n in names]
            self.code = self.term(machine, body, whole, dict(zip(self.names, kinds)), listed)
        elif not kinds:
            self.code = self.term(machine, text, set(), {}, listed)
        else:
            alloc, params, self.fallible = machine.signature(text)
            assert params[0] == "whole", (text, params)
            self.names = params[1:]
            assert len(self.names) == len(kinds), (text, params, kinds)
            self.code = self.call(machine, text, ["span_of(extent)"] + self.names)
        for i, name in enumerate(self.names):
            if name == "_":
                plain = "mark" if kinds[i] == TOKEN else snake(kinds[i])
                self.names[i] = next(n for n in [plain] + [f"{o}_{plain}" for o in ORDINALS] if n not in self.names)

    def call(self, machine, text, given):
        alloc, params, fallible = machine.signature(text)
        self.fallible = self.fallible or fallible
        return (f"{machine.path(text)}({', '.join((['alloc'] if alloc else []) + given)})" + ("?" if fallible else ""))

    def term(self, machine, body, whole, kinds, listed):
        body = re.sub(r"operators\.(operand_of l m|leading_of l) ", "", body).replace("(first)", "first")
        if body in machine.plain:
            return machine.plain[body]
        def value(name):
            return name if name in whole or kinds[name] == TOKEN else f"{name}.value"
        if body in kinds:
            return value(body)
        match = re.match(r"Some (\w+)$", body)
        if match:
            return f"Some({value(match.group(1))})"
        match = re.match(r"(?:listed x )?(\w+) ∷ (\w+)$", body)
        if match:
            self.fallible = True
            one, more = match.groups()
            first = f"ident(alloc, {one})?" if kinds[one] == TOKEN else f"{one}.value"
            return f"{more}.value.push({first})?"
        match = re.match(r"(ident|lifetime) (\w+)$", body)
        if match:
            self.fallible = True
            return f"{match.group(1)}(alloc, {match.group(2)})?"
        match = re.match(r"(given|name|after_mem|in_mem)\.(\w+) (.*)$", body)
        if match:
            types = {"given": "Given", "name": "AfterName", "after_mem": "AfterMem", "in_mem": "InMem"}
            inner = match.group(3)
            inner = self.term(machine, inner[1:-1] if inner[0] == "(" else inner, whole, kinds, listed)
            return f"{types[match.group(1)]}::{match.group(2)}({inner})"
        name, *given = body.split()
        shown = [g if g in ("true", "false", "None") else "span_of(extent)" if g == "whole" else value(g) for g in given]
        return self.call(machine, name, shown)


class Machine:
    """What is known of a grammar's parts and ways. Another grammar's machine (text_ways.py) says where it differs."""

    HELD = (("Items", "The items of a program"), ("Writtens", "The types of a list"))

    def __init__(self):
        given = load("source_build.desc.py")
        described = load("source_ways.desc.py")
        self.grammar = Description(os.path.join(HERE, described["GRAMMAR"]))
        self.ways = source_ways.read_ways(described["WAYS"])
        self.plain, self.modules, self.imports = given["PLAIN"], given["WAYS_IN"], given["IMPORTS"]
        self.crate_of = {module: crate for crate, modules in given["WAYS_STAND_IN"].items() for module in modules.split()}
        self.taking = {subject: [tuple(x.strip() for x in line.split(" = ")) for line in lines.strip().split("\n")]
                       for subject, lines in given["VARIANTS"].items()}
        self.variants = [v for variants in self.taking.values() for v in variants]
        self.subject_of = {f"take_{snake(name)}": subject for subject, variants in self.taking.items() for name, _, _ in variants}
        self.beside = {part: place for place, parts in given["BESIDE"].items() for part in parts.split()}
        self.stands_in = {place: crate for crate, places in given["STANDS_IN"].items() for place in places.split()}
        self.variant_of = {carried: name for name, carried, _ in self.variants}
        self.read_boxes()
        self.read_carriers()
        self.read_signatures()
        self.share()

    def read_boxes(self):
        """A variant whose type in code is `Boxed<T>` holds a box; it is taken off, and given, as a `T`."""
        self.boxed = {name for name, _, code in self.variants if unboxed(code)[1]}
        self.code_of = {name: unboxed(code)[0] for name, _, code in self.variants}

    def read_carriers(self):
        text = open(os.path.join(WAYS, "specs", "Carriers.antt"), encoding="utf-8").read()
        self.carried = {h.strip("()").split()[0][2:]: t
                        for h, t in re.findall(r"^Carried (N\.\w+|\(N\.\w+(?: \w+)*\)) = (.*)$", text, re.M)}
        self.listing = dict(re.findall(r"^Listing Of\.(\w+) = (.*)$", text, re.M))

    def read_signatures(self):
        self.signatures = {}
        for module in self.modules.values():
            text = open(os.path.join(CRATES, self.crate_of[module], "src", module + ".rt"), encoding="utf-8").read()
            for name, params, result in re.findall(r"^pub(?:\(crate\))? fn (\w+)\((.*?)\)(?: -> (.*?))?\n(?: |\{)", text, re.M | re.S):
                names = re.findall(r"(\w+):(?!:)", params)
                self.signatures[module, name] = (names[:1] == ["alloc"], [n for n in names if n != "alloc"],
                                                 result.startswith("Result"))

    def path(self, way):
        module, name = way.split(".")
        return f"{self.modules[module]}::{name}"

    def signature(self, way):
        module, name = way.split(".")
        return self.signatures[self.modules[module], name]

    def variant(self, symbol):
        if symbol[0] == "token":
            return TOKEN
        carried = self.carried[symbol[1]]
        if carried == "List (Listing x)":
            carried = "List " + self.listing[symbol[2][0]]
        return self.variant_of[carried]

    def ways_of(self, name, values):
        heads = [h for h in self.ways if arguments(h)[0] == name]
        variables = self.grammar.parts[name][0]
        for head in heads:
            if all(g in (v, x) for g, v, x in zip(arguments(head)[1], variables, values)):
                return self.ways[head]
        raise KeyError((name, values))

    def share(self):
        """One function for all productions that build alike, named by the first of them."""
        self.made, self.function_of = {}, {}
        order = sorted(self.grammar.table.items(), key=lambda x: bool(x[0][2]))
        for (_, name, values), productions in order:
            for place, (symbols, text) in enumerate(zip(productions, self.ways_of(name, values))):
                kinds = [self.variant(s) for s in symbols]
                way = self.way(text, kinds, values)
                result = self.variant(("part", name, values))
                way.boxes = result in self.boxed
                way.fallible = way.fallible or way.boxes
                code = way.code
                for i, n in enumerate(way.names):
                    code = re.sub(rf"(?<![\w.:]){n}(?![\w(:])", f"#{i}", code)
                key = (tuple(kinds), code, result)
                if key not in self.made:
                    at = "_".join([snake(name)] + [snake(v) for v in values] + [str(place)])
                    self.made[key] = (at, name, values, place, symbols, way, kinds, result)
                self.function_of[name, values, place] = self.made[key]

    def way(self, text, kinds, values):
        return Way(self, text, kinds, values)

    # ---- code

    def write(self, crate, path, text):
        path = os.path.join(CRATES, crate, path)
        os.makedirs(os.path.dirname(path), exist_ok=True)
        open(path, "w", encoding="utf-8").write(text)

    def holds(self, code):
        """A value in code, as it is taken off."""
        return f"Spanned<{code}>"

    def put(self, result, value):
        """A value in its variant."""
        return f"Value::{result}(Boxed::new(alloc, {value})?)" if result in self.boxed else f"Value::{result}({value})"

    def body(self, way, kinds, result):
        """The statements before a value is there that a production builds, and that value."""
        takes, extent = [], "None"
        for n, k in reversed(list(zip(way.names, kinds))):
            used = k != TOKEN or re.search(rf"(?<![\w.:]){n}(?![\w(:])", way.code)
            takes.append(f"    let {n} = take_{snake(k) if used else 'mark'}(values);")
            where = f"{n}.extent" if k != TOKEN else f"Some({n}.span)" if used else f"Some({n})"
            extent = f"join({where}, {extent})"
        body = takes + [f"    let extent = {extent};"] if kinds else ["    let extent = None;"]
        if way.code in way.names or way.code.endswith(".value"):
            return body, self.put(result, f"Spanned {{ value: {way.code}, extent }}")
        return body + [f"    let value = {way.code};"], self.put(result, "Spanned { value, extent }")

    def uses(self, text, more=()):
        lines = list(more)
        text = "\n".join(line for line in text.split("\n") if not re.match(r"\s*(///|requires|ensures)", line))
        for module, names in self.imports.items():
            found = [n for n in names.split() if re.search(rf"(?<![\w:.]){n}(?![\w])", text)]
            if found:
                lines.append(f"use {module}::{{{', '.join(found)}}};" if len(found) > 1 else f"use {module}::{found[0]};")
        return "\n".join(sorted(lines)) + "\n"

    def part(self, name, values):
        """A part as the definitions name it."""
        if not values:
            return f"N.{name}"
        kinds = self.grammar.kinds[name]
        return "(N." + " ".join([name] + [f"{self.grammar.parameters[k][0]}.{v}" for k, v in zip(kinds, values)]) + ")"

    def section(self, name):
        return snake(self.grammar.parts[name][2].split()[0])

    def taken_in(self, taker):
        return f"::{self.subject_of[taker]}" if taker in self.subject_of else ""

    def place(self, name):
        """Where the functions of a part's productions stand."""
        return self.beside.get(name, self.section(name))


def production(machine, name, values, place):
    shown = []
    for symbol in machine.grammar.table["part", name, values][place]:
        shown.append(symbol[1] + (f"({', '.join(symbol[2])})" if len(symbol) > 2 and symbol[2] else ""))
    return " ".join(shown) or "nothing"


def made_function(machine, entry):
    at, name, values, place, symbols, way, kinds, result = entry
    part = machine.part(name, values)
    body, value = machine.body(way, kinds, result)
    body.append(f"    Ok({value})" if way.fallible else f"    {value}")
    alloc = "alloc: Global, " if way_uses_alloc(way) else ""
    built = f"IsBuilt {part} {place} (reverse values.old)"
    doc = f"/// `{snake_doc(name, values)}` of: {production(machine, name, values, place)}."
    if way.fallible:
        sign, ensures = "Result<Value, NoMem>", f"IfOk result (λ it. {built} it (reverse values.new))"
        doc += " The only error is want of memory."
    else:
        sign, ensures = "Value", f"{built} result (reverse values.new)"
    return "\n".join([
        doc, f"pub fn {at}({alloc}values: &mut Stack) -> {sign}",
        f"    requires {{ CanBuild {part} {place} (reverse values.old) }}",
        f"    ensures {{ {ensures} }}", "{"] + body + ["}"]) + "\n"


def snake_doc(name, values):
    return name + (f"({', '.join(values)})" if values else "")


def made_files(machine):
    files = {}
    for entry in machine.made.values():
        files.setdefault(machine.place(entry[1]), []).append(entry)
    return files


def write_value(machine):
    lines = [f"    {name}({f'Boxed<{held}>' if name in machine.boxed else held}),"
             for name, held in ((name, machine.holds(machine.code_of[name])) for name, _, _ in machine.variants)]
    text = ("/// The value of a part, with its extent: a variant for each type that parts carry.\n#[derive(Drop)]\npub enum Value {\n"
            + "\n".join(lines) + "\n}\n\n/// The values of symbols, the newest last.\npub type Stack = List<table_reader::Item<Lexeme, Value>>;\n")
    machine.write(VALUES, "src/value.rt", "//! What is held of each part. Written by tools/source_build.py.\n\n"
          + machine.uses(text) + "\n" + text)


TAKING = '''//! Values of symbols, taken off the stack. Written by tools/source_build.py.

ghost use Rattle.std.specs.Prelude.{◌≡◌, ◌∷◌, reverse};
ghost use Rattle.table_reader.specs.declared.item.Item.TheVariants as I;
ghost use Rattle.source_values.specs.declared.value.Value.TheVariants as V;
ghost use Rattle.source_values.specs.Stacked.{HasToken, HasMark, HasPart, Is};

'''

TAKERS = '''
/// Takes a lexeme off.
#[tactic(auto, using(crate::proofs::Newest::popped))]
pub fn take_token(values: &mut Stack) -> Lexeme
    requires { HasToken (reverse values.old) }
    ensures { reverse values.old ≡ I.Token result ∷ reverse values.new }
{
    let Some(item) = values.pop() else {
        unreachable!()
    };
    match item {
        table_reader::Item::Token(lexeme) => lexeme,
        table_reader::Item::Part(value) => {
            discard(value);
            unreachable!()
        }
    }
}

/// Takes a lexeme off of which only its place counts.
pub fn take_mark(values: &mut Stack) -> Span
    requires { HasToken (reverse values.old) }
    ensures { HasMark (reverse values.old) result (reverse values.new) }
{
    let lexeme = take_token(values);
    lexeme.span
}

/// Drops a value: in one place, since what drops each variant is long.
pub(crate) fn discard(_value: Value) {}

/// Takes the value of a part off.
#[tactic(auto, using(crate::proofs::Newest::popped))]
pub(crate) fn take_part(values: &mut Stack) -> Value
    requires { HasPart (reverse values.old) }
    ensures { reverse values.old ≡ I.Part result ∷ reverse values.new }
{
    let Some(item) = values.pop() else {
        unreachable!()
    };
    match item {
        table_reader::Item::Token(_) => unreachable!(),
        table_reader::Item::Part(value) => value,
    }
}
'''

TAKING_PARTS = '''ghost use Rattle.std.specs.Prelude.{◌≡◌, ◌∷◌, reverse};
ghost use Rattle.table_reader.specs.declared.item.Item.TheVariants as I;
ghost use Rattle.source_values.specs.declared.value.Value.TheVariants as V;
ghost use Rattle.source_values.specs.Stacked.{Has};

'''


def only(machine, name, taken):
    """The value of this variant, where no other can be."""
    value = "value.into_inner()" if name in machine.boxed else "value"
    return f'''{{
    match {taken} {{
        Value::{name}(value) => {value},
        other => {{
            discard(other);
            unreachable!()
        }}
    }}
}}
'''


def write_taking(machine):
    text = TAKERS
    for name, doc in machine.HELD:
        text += f'''
/// {doc} that a value holds.
pub fn held_{snake(name)}(value: Value) -> {machine.holds(machine.code_of[name])}
    requires {{ Is V.{name} value }}
    ensures {{ value ≡ V.{name} result }}
''' + only(machine, name, "value")
    subjects = "".join(f"pub mod {s};\n" for s in sorted(machine.taking))
    head, uses = TAKING.split("\n\n", 1)
    machine.write(VALUES, "src/taking.rt", head + "\n\n" + subjects + "\n" + uses
          + machine.uses(text, ["use crate::value::{Stack, Value};"]) + text)
    for subject, variants in machine.taking.items():
        text = ""
        for name, _, _ in variants:
            text += f'''
/// Takes the value of a part off that is held as `{name}`.
pub fn take_{snake(name)}(values: &mut Stack) -> {machine.holds(machine.code_of[name])}
    requires {{ Has V.{name} (reverse values.old) }}
    ensures {{ reverse values.old ≡ I.Part (V.{name} result) ∷ reverse values.new }}
''' + only(machine, name, "take_part(values)")
        machine.write(VALUES, f"src/taking/{subject}.rt",
              f"//! Values of parts of {subject}, taken off the stack. Written by tools/source_build.py.\n\n" + TAKING_PARTS
              + machine.uses(text, ["use crate::taking::{discard, take_part};", "use crate::value::{Stack, Value};"]) + text)


HELD = '''-- How the values of parts are held. Written by tools/source_build.py.
use Rattle.std.specs.Prelude.{List}
use Rattle.source_grammar.specs.declared.part.Part.{Part}
use Rattle.source_grammar.specs.declared.part.Part.TheVariants as N
use Rattle.source_grammar.specs.declared.part.Listed.{Listed}
use Rattle.source_grammar.specs.declared.part.Listed.TheVariants as Of
use Rattle.source_ways.specs.declared.spanned.Spanned.{Spanned}
use Rattle.source_ways.specs.Carriers.{Carrier, Listing}
use Rattle.source_values.specs.declared.value.Value.{Value}
use Rattle.source_values.specs.declared.value.Value.TheVariants as V

abbrev pub held_list : (x : Listed) → Spanned (List (Listing x)) → Value
'''


def write_held(machine):
    text = HELD
    for x, carried in machine.listing.items():
        text += f"held_list Of.{x} v = V.{machine.variant_of['List ' + carried]} v\n"
    text += "\n-- the value of a part\nabbrev pub held : (n : Part) → Carrier n → Value\n"
    for name, (variables, _, _, _) in machine.grammar.parts.items():
        pattern = f"(N.{name} {' '.join(variables)})" if variables else f"N.{name}"
        carried = machine.carried[name]
        held = "held_list x v" if carried == "List (Listing x)" else f"V.{machine.variant_of[carried]} v"
        text += f"held {pattern} v = {held}\n"
    machine.write(VALUES, "specs/Held.antt", text)


MADE = '''ghost use Rattle.std.specs.Prelude.{◌≡◌, reverse, IfOk};
ghost use Rattle.source_grammar.specs.declared.part.Part.TheVariants as N;
ghost use Rattle.source_values.specs.Stacked.{CanBuild, IsBuilt};
'''


def write_made(machine):
    files = made_files(machine)
    for section, entries in files.items():
        text = "\n".join(made_function(machine, e) for e in entries)
        more = ["use source_values::{Stack, Value};"]
        takes = sorted(set(re.findall(r"\b(?:take|drop)_\w+", text)))
        for place in sorted(set(machine.taken_in(t) for t in takes)):
            more.append(f"use source_values::taking{place}::{{{', '.join(t for t in takes if machine.taken_in(t) == place)}}};")
        for module in sorted(set(machine.modules.values())):
            if f"{module}::" in text:
                more.append(f"use {machine.crate_of[module]}::{module};")
        head = f"//! What productions of {section} build. Written by tools/source_build.py.\n\n" + MADE
        for kind, (short, _, _) in ((k, v) for k, v in machine.grammar.parameters.items()):
            if re.search(rf"(?<![\w.]){short}\.", "\n".join(l for l in text.split("\n") if "IsBuilt" in l or "CanBuild" in l)):
                head += f"ghost use Rattle.source_grammar.specs.declared.part.{kind}.TheVariants as {short};\n"
        machine.write(machine.stands_in[section], f"src/{section}.rt", head + "\n" + machine.uses(text, more) + "\n" + text)


# ---- which function builds a part by its production

VARIABLE = {"m": "context", "l": "level", "x": "listed"}


class Function:
    """A function that chooses: its name, what its contract speaks of, what it matches on, and its arms, each with
    what is known there, and what it calls."""

    def __init__(self, name, part, place, subject, params, arms, last=False, fallible=True):
        self.name, self.part, self.place, self.subject = name, part, place, subject
        self.params, self.arms, self.last, self.fallible = params, arms, last, fallible


class Arm:
    """A case, and the call there: of whom, with what, whether it can fail, whether its contract speaks of this part, or
    of this part only once the level is known."""

    def __init__(self, case, name, call, fallible, own, levels=False):
        self.case, self.name, self.call, self.fallible, self.own, self.levels = case, name, call, fallible, own, levels


def way_uses_alloc(way):
    return way.boxes or re.search(r"\balloc\b", way.code)


def calls(entry):
    at, _, _, _, _, way, _, _ = entry
    alloc = "alloc, " if way_uses_alloc(way) else ""
    return at, f"{at}({alloc}values)", way.fallible


def shown_part(name, variables):
    return f"(N.{name} {' '.join(variables)})" if variables else f"N.{name}"


def place_arms(machine, name, values, part):
    arms = []
    for place in range(len(machine.grammar.table["part", name, values])):
        entry = machine.function_of[name, values, place]
        at, call, fallible = calls(entry)
        own = entry[1:4] == (name, (), place)
        arms.append(Arm(str(place), at, call, fallible, own))
    return arms


def part_functions(machine):
    """By section."""
    found = {}
    for name, (variables, _, section, _) in machine.grammar.parts.items():
        at, kinds = snake(name), machine.grammar.kinds[name]
        params = [(VARIABLE[v], k) for v, k in zip(variables, kinds)]
        part = shown_part(name, [VARIABLE[v] for v in variables])
        out = found.setdefault(machine.section(name), [])
        every = list(machine.grammar.values_of(kinds))
        alike = [[machine.function_of[name, v, i][0] for i in range(len(machine.grammar.table["part", name, v]))] for v in every]
        index = ("index", "usize")
        if kinds in ([], ["Context"]) and all(a == alike[0] for a in alike):
            out.append(Function(f"build_{at}", part, "index", "index", params + [index], place_arms(machine, name, every[0], part), True))
        elif kinds == ["Context"]:
            arms = []
            for v in every:
                each = f"build_{at}_{snake(v[0])}"
                out.append(Function(each, machine.part(name, v), "index", "index", [index],
                                    place_arms(machine, name, v, machine.part(name, v)), True))
                alloc = "alloc, " if uses_alloc(out[-1]) else ""
                arms.append(Arm(f"Context::{v[0]}", each, f"{each}({alloc}index, values)", True, True))
            out.append(Function(f"build_{at}", part, "index", "context", params + [index], arms))
        elif "Listed" in kinds:
            if name == "List":
                out.append(list_function(machine, name, 0, "list_end", every))
                out.append(list_function(machine, name, 1, "list_item", every))
                names = ["list_end", "list_item"]
            else:
                out.append(list_function(machine, name, 1, "list_more", every))
                names = ["list_end", "list_more"]
            arms = []
            for i, each in enumerate(names):
                function = next(f for f in out if f.name == each)
                alloc = "alloc, " if uses_alloc(function) else ""
                arms.append(Arm(str(i), each, f"{each}({alloc}listed, values)", function.fallible, (name, i) != ("ListRest", 0)))
            out.append(Function(f"build_{at}", part, "index", "index", params + [index], arms, True))
        elif name == "More":
            entry = machine.function_of["More", ("Or", "Free"), 0]
            a, call, fallible = calls(entry)
            arms = [Arm("0", a, call, fallible, False, True),
                    Arm("1", "build_operation", "build_operation(alloc, level, context, values)", True, True)]
            inner = [Arm(f"Level::{l}", *calls(machine.function_of["More", (l, "Free"), 1]), False)
                     for l in machine.grammar.parameters["Level"][2]]
            out.append(Function("build_operation", part, "1", "level", params, inner))
            out.append(Function(f"build_{at}", part, "index", "index", params + [index], arms, True))
        else:
            entry = machine.function_of[name, every[0], 0]
            arms = [Arm("0", *calls(entry), False, True)]
            out.append(Function(f"build_{at}", part, "index", "index", params + [index], arms, True))
    return found


def list_function(machine, name, place, at, every):
    arms = []
    for v in every:
        entry = machine.function_of[name, v, place]
        arms.append(Arm(f"Listed::{v[0]}", *calls(entry), False))
    return Function(at, f"(N.{name} listed)", str(place), "listed", [("listed", "Listed")], arms, False, arms[0].fallible)


def uses_alloc(function):
    return any("alloc" in arm.call for arm in function.arms)


def function_code(machine, function):
    alloc = "alloc: Global, " if uses_alloc(function) else ""
    params = "".join(f"{n}: {k}, " for n, k in function.params)
    lines = []
    for arm in function.arms:
        call = arm.call if arm.fallible or not function.fallible else f"Ok({arm.call})"
        lines.append(f"        {arm.case} => {call},")
    if function.last:
        lines.append("        _ => unreachable!(),")
    built = f"IsBuilt {function.part} {function.place} (reverse values.old)"
    sign, ensures = ("Result<Value, NoMem>", f"IfOk result (λ it. {built} it (reverse values.new))") if function.fallible else (
        "Value", f"{built} result (reverse values.new)")
    return "\n".join([
        f"pub(crate) fn {function.name}({alloc}{params}values: &mut Stack) -> {sign}",
        f"    requires {{ CanBuild {function.part} {function.place} (reverse values.old) }}",
        f"    ensures {{ {ensures} }}", "{", f"    match {function.subject} {{"] + lines + ["    }", "}"]) + "\n"


def write_building(machine):
    found = part_functions(machine)
    of = {}
    for section, functions in found.items():
        text = "\n".join(function_code(machine, f) for f in functions)
        more = ["use source_values::{Stack, Value};"]
        for made in sorted(set(machine.place(e[1]) for e in machine.made.values())):
            names = sorted(set(e[0] for e in machine.made.values() if machine.place(e[1]) == made and re.search(rf"\b{e[0]}\(", text)))
            if names:
                more.append(f"use {machine.stands_in[made]}::{made}::{{{', '.join(names)}}};")
        head = f"//! What builds {section} by their productions. Written by tools/source_build.py.\n\n" + MADE
        contracts = "\n".join(l for l in text.split("\n") if "IsBuilt" in l or "CanBuild" in l)
        for kind, (short, _, _) in machine.grammar.parameters.items():
            if re.search(rf"(?<![\w.]){short}\.", contracts):
                head += f"ghost use Rattle.source_grammar.specs.declared.part.{kind}.TheVariants as {short};\n"
        machine.write(BUILDER, f"src/building/{section}.rt", head + "\n" + machine.uses(text, more) + "\n" + text)
        for f in functions:
            of[f.name] = section
            write_answers(machine, f"building.{section}", f)
    write_build(machine, found)


PREAMBLE = {
    "N.": "use Rattle.source_grammar.specs.declared.part.Part.TheVariants as N",
    "At.": "use Rattle.source_grammar.specs.declared.part.Context.TheVariants as At",
    "L.": "use Rattle.source_grammar.specs.declared.part.Level.TheVariants as L",
    "Of.": "use Rattle.source_grammar.specs.declared.part.Listed.TheVariants as Of",
    "levels.": "use Rattle.source_builder.proofs.Levels as levels",
}
LEVELS = {"build_more": "no_more", "build_level": "level", "build_leading_level": "leading_level"}


def uses_of(text, module, section, name):
    common = [w for w in ("ap", "reverse", "arith") if re.search(rf"\b{w}\b", text)] + (["Ok"] if "(Ok " in text else [])
    common += ["◌≡◌"] if "≡" in text else []
    places = [w for w in ("at_place", "built_at_place", "of_part", "built_of_part", "is_of_part") if re.search(rf"(?<![\w])({w})\b", text)]
    lines = [f"use Rattle.std.proofs.Common.{{{', '.join(common)}}}"]
    lines += [line for short, line in PREAMBLE.items() if re.search(rf"(?<![\w.]){re.escape(short)}\w", text)]
    if places:
        lines.append(f"use Rattle.source_builder.proofs.Places.{{{', '.join(places)}}}")
    lines.append(f"use Rattle.source_builder.proofs.{module}.{name}.Goals as goal")
    return "\n".join(lines) + "\n"


def answers(machine, function):
    """The answers to the goals of a function that chooses."""
    part = re.sub(r"\b(context|level|listed)\b", r"c.args.\1", function.part)
    variables = " ".join(re.findall(r"c\.args\.\w+", part))
    old, out, seen = "(reverse c.args.values.now)", [], set()
    for arm in function.arms:
        case = arm.case.split("::")[-1]
        first = arm.name not in seen
        seen.add(arm.name)
        step = arm.name if first else f"{arm.name}-in-{case}"
        goal = f"{arm.name}-requires" + ("" if first else f"-in-{case}")
        new, result, ensured = f"(reverse c.{step}.new.values)", f"c.{step}.result", f"c.{step}.ensures"
        if not arm.fallible and function.fallible:
            result = f"(Ok {result})"
        if function.subject == "index":
            fits, known = f"at_place {part} c.args.index {case} {old} c.in-{case}.is c.requires", f"c.in-{case}.is"
            built = f"built_at_place {part} c.args.index {case} {old} {new} {result} {known} "
        else:
            kind = {"context": ("Context", "At"), "level": ("Level", "L"), "listed": ("Listed", "Of")}[function.subject]
            here = re.sub(rf"c\.args\.{function.subject}", f"{kind[1]}.{case}", part)
            whole = re.sub(rf"c\.args\.{function.subject}", "x", part)
            known = f"(ap (λ (x : {kind[0]}). {whole}) c.in-{case}.is)"
            place = "c.args.index" if function.place == "index" else function.place
            fits = f"of_part {part} {here} {place} {old} {known} c.requires"
            word = "built" if function.fallible else "is"
            built = f"{word}_of_part {part} {here} {place} {old} {new} {result} {known} "
        if not arm.own:
            if arm.levels:
                out.append((goal, f"levels.{LEVELS[function.name]} {variables} {old} ({fits})"))
                ensured = f"(levels.{LEVELS[function.name]}_built {variables} {old} {new} {result} {ensured})"
            else:
                out.append((goal, f"let h = {fits} in\n    record {{ value = h.value; below = h.below; makes = h.makes }}"))
        elif function.subject == "context":
            out.append((goal, fits))
        out.append((f"returns-in-{case}" if len(function.arms) > 1 else "returns", built + ensured))
    if function.name == "build_more":
        out.append(("unreachable-requires", f"levels.no_third {variables} c.args.index {old} (λ (e : c.args.index ≡ 0). omega arith) (λ (e : c.args.index ≡ 1). omega arith) c.requires"))
    return "".join(f"\npub {g} : goal.{g}\n{g} c =\n    {t}\n" for g, t in out)


def write_answers(machine, module, function):
    text = answers(machine, function)
    kinds = [k for k in ("Context", "Level", "Listed") if re.search(rf"\(x : {k}\)", text)]
    head = uses_of(text, module, None, function.name)
    head = "".join(f"use Rattle.source_grammar.specs.declared.part.{k}.{{{k}}}\n" for k in kinds) + head
    machine.write(BUILDER, f"proofs/{module.replace('.', '/')}/{function.name}/Answers.antt",
          f"-- What `{function.name}` calls builds the part. Written by tools/source_build.py.\n" + head + text)


def write_build(machine, found):
    arms, proofs = [], []
    for section, functions in found.items():
        for name, (variables, _, _, _) in machine.grammar.parts.items():
            if machine.section(name) != section:
                continue
            function = next(f for f in functions if f.name == f"build_{snake(name)}")
            given = ", ".join(VARIABLE[v] for v in variables)
            alloc = "alloc, " if uses_alloc(function) else ""
            call = f"{section}::{function.name}({alloc}{given + ', ' if given else ''}index, values)"
            arms.append(f"        Part::{name}{f'({given})' if given else ''} => {call},")
            part = shown_part(name, [f"c.in-{name}.{VARIABLE[v]}" for v in variables])
            proofs.append((f"{function.name}-requires", f"of_part c.args.part {part} c.args.index (reverse c.args.values.now) c.in-{name}.is c.requires"))
            proofs.append((f"returns-in-{name}", f"built_of_part c.args.part {part} c.args.index (reverse c.args.values.now) "
                           f"(reverse c.{function.name}.new.values) c.{function.name}.result c.in-{name}.is c.{function.name}.ensures"))
    built = "IsBuilt part index (reverse values.old)"
    text = ("/// Builds the value of a part by its production in place `index`, from 0: takes the values of its symbols off, the\n"
            "/// newest first. The only error is want of memory.\n"
            "pub(crate) fn build_part(alloc: Global, part: Part, index: usize, values: &mut Stack) -> Result<Value, NoMem>\n"
            "    requires { CanBuild part index (reverse values.old) }\n"
            f"    ensures {{ IfOk result (λ it. {built} it (reverse values.new)) }}\n{{\n    match part {{\n"
            + "\n".join(arms) + "\n    }\n}\n")
    head = "//! What builds a part by its production. Written by tools/source_build.py.\n\n" + "".join(f"mod {s};\n" for s in sorted(found))
    made = MADE.replace("ghost use Rattle.source_grammar.specs.declared.part.Part.TheVariants as N;\n", "")
    machine.write(BUILDER, "src/building.rt", head + "\n" + made + "\n"
          + machine.uses(text, ["use source_values::{Stack, Value};"]) + "\n" + text)
    body = "".join(f"\npub {g} : goal.{g}\n{g} c = {t}\n" for g, t in proofs)
    machine.write(BUILDER, "proofs/building/build_part/Answers.antt",
          "-- Each part is built by a function of its own. Written by tools/source_build.py.\n"
          + uses_of(body, "building", None, "build_part") + body)


LEVELS_HEAD = """-- Levels of operators build alike. Written by tools/source_build.py.
use Rattle.std.proofs.Common.{◌≡◌, refl, ℕ, zero, suc, List, [], ◌∷◌, IfOk}
use Rattle.std.specs.declared.result.Result.{Result}
use Rattle.table_reader.specs.Reading.{Made}
use Rattle.table_reader.specs.Building as table
use Rattle.aen_base.specs.declared.memory.NoMem.{NoMem}
use Rattle.source_grammar.specs.declared.lexeme.Lexeme.{Lexeme}
use Rattle.source_grammar.specs.declared.terminal.Terminal.{Terminal}
use Rattle.source_grammar.specs.declared.part.Part.{Part}
use Rattle.source_grammar.specs.declared.part.Part.TheVariants as N
use Rattle.source_grammar.specs.declared.part.Context.{Context}
use Rattle.source_grammar.specs.declared.part.Context.TheVariants as At
use Rattle.source_grammar.specs.declared.part.Level.{Level}
use Rattle.source_grammar.specs.declared.part.Level.TheVariants as L
use Rattle.source_ways.specs.Carriers.{Carrier}
use Rattle.source_values.specs.declared.value.Value.{Value}
use Rattle.source_values.specs.Held.{held}
use Rattle.source_values.specs.Stacked.{Stack, CanBuild, IsBuilt}
"""


def write_levels(machine):
    levels = list(machine.grammar.parameters["Level"][2])
    text = LEVELS_HEAD
    for name, lemma, m in (("Level", "level", "m"), ("LeadingLevel", "leading_level", ""), ("More", "no_more", "m")):
        entry = machine.function_of[name, ("Or", "Free")[:2 if m else 1], 0]
        there = f"{machine.part(entry[1], entry[2])} {entry[3]}"
        params, here = f"(l : Level){' (m : Context)' if m else ''}", f"(N.{name} l{' m' if m else ''}) 0"
        text += f"\npub {lemma} : {params} (stack : Stack) → CanBuild {here} stack → CanBuild {there} stack\n"
        text += "".join(f"{lemma} L.{l} {m} stack h = record {{ value = h.value; below = h.below; makes = h.makes }}\n".replace("  ", " ") for l in levels)
        text += (f"\npub {lemma}_built : {params} (stack new : Stack) (result : Result Value NoMem) →\n"
                 f"    IfOk result (λ it. IsBuilt {there} stack it new) → IfOk result (λ it. IsBuilt {here} stack it new)\n")
        text += "".join(f"{lemma}_built L.{l} {m} stack new result h = h\n".replace("  ", " ") for l in levels)
    text += """
-- of two productions none stands in a third place
third : (n : Part) (a b : Made Terminal Part Lexeme Carrier n) (i : ℕ) (stack : Stack) → (i ≡ 0 → ⊥) → (i ≡ 1 → ⊥) →
    table.CanBuild Carrier held n (a ∷ b ∷ []) i stack → ⊥
third n a b zero stack first second h = first refl
third n a b (suc zero) stack first second h = second refl
third n a b (suc (suc i)) stack first second h = h.makes

pub no_third : (l : Level) (m : Context) (i : ℕ) (stack : Stack) → (i ≡ 0 → ⊥) → (i ≡ 1 → ⊥) → CanBuild (N.More l m) i stack → ⊥
"""
    text += "".join(f"no_third L.{l} m i stack first second h = third (N.More L.{l} m) _ _ i stack first second h\n" for l in levels)
    machine.write(BUILDER, "proofs/Levels.antt", text)


def main():
    machine = Machine()
    write_value(machine)
    write_taking(machine)
    write_held(machine)
    write_made(machine)
    write_building(machine)
    write_levels(machine)


if __name__ == "__main__":
    main()
