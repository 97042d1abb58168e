"""Definitions of specs/ as a program. Each clause of a definition becomes a clause of a Python function, in order, with
nothing else changed; so a definition can be tried on many inputs before any code is proved against it.

    definitions = Definitions("crates")
    typed_program = definitions.function("type_rules", "Programs", "typed_program")

What follows from the modules' `use` lines is loaded where it is needed. Records are dicts, tuples tuples, numbers and
bools themselves, all else `Made(constructor, parts)`. Definitions that end in a type are conditions: `×` is and, `≡` is
equality. What the standard library and numbers give is in BUILT_IN."""
import os
import re


class Made:
    """A value of a data type: the name of its constructor, and its parts."""

    __slots__ = ("form", "parts")

    def __init__(self, form, *parts):
        self.form = form
        self.parts = parts

    def __eq__(self, other):
        this = self
        while True:  # long lists are deep in their last part
            if not (isinstance(other, Made) and this.form == other.form and len(this.parts) == len(other.parts)):
                return False
            if not this.parts:
                return True
            if any(not (a == b) for a, b in zip(this.parts[:-1], other.parts[:-1])):
                return False
            this, other = this.parts[-1], other.parts[-1]
            if not isinstance(this, Made):
                return this == other

    def __repr__(self):
        return self.form if not self.parts else "(" + " ".join([self.form] + [repr(x) for x in self.parts]) + ")"


EMPTY = Made("[]")
NONE = Made("None")


def some(value):
    return Made("Some", value)


def listed(values):
    """These values as a list of the definitions."""
    made = EMPTY
    for value in reversed(values):
        made = Made("∷", value, made)
    return made


def values_of(made):
    """The values of a list of the definitions."""
    values = []
    while made.form == "∷":
        values.append(made.parts[0])
        made = made.parts[1]
    return values


def part_of(value, name):
    return value[int(name)] if isinstance(value, tuple) else value[name]


def slice_get(xs, k):
    values = values_of(xs)
    return some(values[k]) if k < len(values) else NONE


def slice_set(xs, k, value):
    values = values_of(xs)
    if k < len(values):
        values[k] = value
    return listed(values)


def whole(z):
    return z.parts[0] if z.form == "pos" else -z.parts[0] - 1


def signed(is_negative, magnitude):
    return Made("negsuc", magnitude - 1) if is_negative and magnitude > 0 else Made("pos", magnitude)


WIDTHS = dict(U8=8, U16=16, U32=32, U64=64, U128=128, Usize=64, I8=8, I16=16, I32=32, I64=64, I128=128, Isize=64)


def in_range(ty, z):
    half = 1 << (WIDTHS[ty.form] - 1)
    return -half <= whole(z) < half if ty.form[0] == "I" else 0 <= whole(z) < 2 * half


# name: number of arguments, and what it gives
BUILT_IN = {
    "length": (1, lambda xs: len(values_of(xs))), "map": (2, lambda f, xs: listed([f(x) for x in values_of(xs)])),
    "slice_get": (2, slice_get), "slice_set": (3, slice_set), "list_any": (2, lambda f, xs: any(f(x) for x in values_of(xs))),
    "list_all": (2, lambda f, xs: all(f(x) for x in values_of(xs))), "All": (2, lambda f, xs: all(f(x) for x in values_of(xs))),
    "nat_lt": (2, lambda a, b: a < b), "not": (1, lambda b: not b), "max": (2, max), "suc": (1, lambda n: n + 1),
    "bytes_eq": (2, lambda a, b: values_of(a) == values_of(b)), "sameb": (3, lambda ty, a, b: a == b), "the_type": (0, lambda: None),
    "int_eq": (2, lambda a, b: whole(a) == whole(b)), "signed": (2, signed), "in_range": (2, in_range),
    "is_signed": (1, lambda ty: ty.form[0] == "I"), "unwrap_or": (2, lambda o, d: o.parts[0] if o.form == "Some" else d),
    "option_map": (2, lambda f, o: some(f(o.parts[0])) if o.form == "Some" else o),
    "option_and_then": (2, lambda f, o: f(o.parts[0]) if o.form == "Some" else o),
    "is_some": (1, lambda o: o.form == "Some"), "is_none": (1, lambda o: o.form == "None"),
}
CONSTRUCTORS = {"Some": 1, "None": 0, "Ok": 1, "Err": 1, "pos": 1, "negsuc": 1, "[]": 0}
CONSTANTS = {"true": "True", "false": "False", "⊤": "True", "⊥": "False", "zero": "0"}
LEVELS = {"×": 1, "≡": 2, "||": 3, "&&": 4, "==": 5, "∷": 6, "++": 6, "+": 7, "-": 7, "*": 8}
TO_THE_RIGHT = ("∷", "++", "||", "&&", "×")
OPERATORS = {
    "∷": "Made('∷', {a}, {b})", "++": "listed(values_of({a}) + values_of({b}))", "||": "({a} or {b})", "&&": "({a} and {b})",
    "==": "({a} == {b})", "≡": "({a} == {b})", "×": "({a} and {b})", "+": "({a} + {b})", "-": "max(0, {a} - {b})", "*": "({a} * {b})",
}
TOKEN = re.compile(r"\s+|--[^\n]*|[(){};,]|\.|[^\s(){};,.]+")


def tokens_of(text):
    tokens = []
    for found in TOKEN.finditer(text):
        token = found.group()
        if token[0].isspace() or token.startswith("--"):
            continue
        # the full stop after what `λ` binds has a space behind it, that before a field has none
        tokens.append("λ." if token == "." and text[found.end() : found.end() + 1].isspace() else token)
    return tokens


def arrows(ty):
    """How many arguments something of this type takes."""
    level = count = 0
    for char in ty:
        level += (char in "({") - (char in ")}")
        count += char == "→" and level == 0
    return count


class Module:
    """The clauses and constructors of a module, and where the names that it uses stand."""

    def __init__(self, name, path):
        self.name, self.clauses, self.constructors, self.imports, self.aliases = name, {}, {}, {}, {}
        mutual, declared = False, []
        for line in open(path, encoding="utf-8").read().split("\n"):
            text = line.split("--")[0].rstrip()
            if not text.strip():
                continue
            indent = len(text) - len(text.lstrip())
            if text in ("mutual", "abbrev mutual"):
                mutual = True
            elif text.strip() != "}" and (indent == 0 or (mutual and indent == 2)):
                mutual = mutual and indent == 2
                declared.append([text.strip()])
            else:
                declared[-1].append(text.strip())
        for lines in declared:
            self.enter(lines)

    def enter(self, lines):
        found = re.match(r"(?:pub )?use (\S+)\.\{(.*)\}$", lines[0])
        if found:
            self.imports.update({name.strip(): found.group(1) for name in found.group(2).split(",")})
            return
        found = re.match(r"use (\S+) as (\w+)$", lines[0])
        if found:
            self.aliases[found.group(2)] = found.group(1)
            return
        if re.match(r"(pub )?data ", lines[0]):
            for line in lines[1:]:
                found = re.match(r"(\S+) : (.*)$", line)
                if found:
                    self.constructors[found.group(1)] = arrows(found.group(2))
            return
        tokens = tokens_of(re.sub(r"^((abbrev|pub|unfoldable) )*", "", " ".join(lines)))
        if tokens[0] not in ("record", "unfolding", "use") and "=" in tokens and tokens[1] != ":":
            self.clauses.setdefault(tokens[0], []).append(tokens)


class Definitions:
    """The definitions of the crates in a folder."""

    def __init__(self, folder):
        self.folder, self.modules, self.arities, self.wanted, self.made = folder, {}, {}, [], {}
        self.names = {"Made": Made, "listed": listed, "values_of": values_of, "part_of": part_of, "BUILT_IN": BUILT_IN}

    def module(self, crate, name):
        key = f"{crate}.{name}"
        if key not in self.modules:
            path = os.path.join(self.folder, crate, "specs", f"{name}.antt")
            self.modules[key] = Module(key, path) if os.path.exists(path) else None
        return self.modules[key]

    def imported(self, path):
        """The module of a path of `use`, if it is one of the crates'."""
        found = re.match(r"Rattle\.(\w+)\.specs\.(\w+)$", path)
        return self.module(*found.groups()) if found else None

    def function(self, crate, module, name):
        """A definition as a function of Python."""
        self.module(crate, module)
        wanted = python_name(f"{crate}.{module}", name)
        self.want(f"{crate}.{module}", name)
        while self.wanted:
            self.compile(*self.wanted.pop())
        return self.names[wanted]

    def want(self, module, name):
        if (module, name) not in self.made:
            self.made[module, name] = True
            self.wanted.append((module, name))

    def arity(self, module, name):
        if (module, name) not in self.arities:
            clause = self.modules[module].clauses[name][0]
            self.arities[module, name] = len(Clause(self, self.modules[module], clause).patterns()[0])
        return self.arities[module, name]

    def compile(self, module, name):
        arguments = [f"a{i}" for i in range(self.arity(module, name))]
        lines = [f"def {python_name(module, name)}({', '.join(arguments)}):"]
        for tokens in self.modules[module].clauses[name]:
            lines += Clause(self, self.modules[module], tokens).lines(arguments)
        lines.append(f"  raise ValueError('no clause of {name}')")
        exec("\n".join(lines), self.names)


def python_name(module, name):
    return f"f_{module}_{name}".replace(".", "_")


def variable(name):
    return "v_" + re.sub(r"\W", "_", name)


class Clause:
    """One clause, read from its tokens."""

    def __init__(self, definitions, module, tokens):
        self.definitions, self.module, self.tokens = definitions, module, tokens

    # ---- what names stand for: (constructor, arity), (function, module), or (built in,)
    def within(self, module, name, hops=5):
        if module is None or hops == 0:
            return None
        if name in module.constructors:
            return ("constructor", name, module.constructors[name])
        if name in module.clauses:
            return ("function", module.name, name)
        if name in module.imports:
            return self.from_path(module.imports[name], name, hops - 1)
        return None

    def from_path(self, path, name, hops=5):
        if name in BUILT_IN:
            return ("built in", name)
        if path.endswith("TheVariants"):
            return ("constructor", name, CONSTRUCTORS.get(name, 0))
        return self.within(self.definitions.imported(path), name, hops)

    def meaning(self, name):
        if name in BUILT_IN and name not in self.module.clauses:
            return ("built in", name)
        if name in CONSTRUCTORS and (name in self.module.imports or name == "[]"):
            return ("constructor", name, CONSTRUCTORS[name])
        return self.within(self.module, name)

    def qualified(self, alias, name):
        return self.from_path(self.module.aliases[alias], name) if alias in self.module.aliases else None

    # ---- patterns: ("variable", name), ("number", k), ("next", pattern), ("made", form, patterns)
    def patterns(self):
        at, found = 1, []
        while self.tokens[at] != "=":
            pattern, at = self.pattern(at)
            found.append(self.applied([pattern]))
        return found, at + 1

    def pattern(self, at):
        token = self.tokens[at]
        if token == "(":
            parts, at = [], at + 1
            while self.tokens[at] != ")":
                if self.tokens[at] == "∷":
                    rest, at = self.cons(at + 1)
                    parts = [("made", "∷", [self.applied(parts), rest])]
                else:
                    part, at = self.pattern(at)
                    parts.append(part)
            return self.applied(parts), at + 1
        at += 1
        if self.tokens[at] == ".":
            return ("head", self.qualified(token, self.tokens[at + 1])), at + 2
        if token in ("zero", "suc") or token.isdigit():
            return ("successor",) if token == "suc" else ("number", 0 if token == "zero" else int(token)), at
        if token in ("true", "false"):
            return ("truth", token), at
        found = self.meaning(token)
        return (("head", found) if found and found[0] == "constructor" else ("variable", token)), at

    def cons(self, at):
        first, at = self.pattern(at)
        if self.tokens[at] != "∷":
            return self.applied([first]), at
        rest, at = self.cons(at + 1)
        return ("made", "∷", [self.applied([first]), rest]), at

    def applied(self, parts):
        if parts[0][0] == "head":
            return ("made", parts[0][1][1], [self.applied([part]) for part in parts[1:]])
        if parts[0][0] == "successor":
            return ("next", parts[1])
        assert len(parts) == 1, parts
        return parts[0]

    def test(self, pattern, value, conditions, bound):
        kind = pattern[0]
        if kind == "variable":
            if pattern[1] != "_":
                bound.append((pattern[1], value))
        elif kind == "number":
            conditions.append(f"{value} == {pattern[1]}")
        elif kind == "truth":
            conditions.append(f"{value} is {CONSTANTS[pattern[1]]}")
        elif kind == "next":
            conditions.append(f"{value} > 0")
            self.test(pattern[1], f"({value} - 1)", conditions, bound)
        else:
            conditions.append(f"{value}.form == {pattern[1]!r}")
            for k, part in enumerate(pattern[2]):
                self.test(part, f"{value}.parts[{k}]", conditions, bound)

    def lines(self, arguments):
        patterns, at = self.patterns()
        conditions, bound = [], []
        for pattern, argument in zip(patterns, arguments):
            self.test(pattern, argument, conditions, bound)
        body, at = self.expression(at, {name: variable(name) for name, _ in bound})
        assert at == len(self.tokens), (self.module.name, self.tokens[:3], self.tokens[at - 5 :])
        binds = [f"    {variable(name)} = {value}" for name, value in bound]
        return [f"  if {' and '.join(conditions) or 'True'}:", *binds, f"    return {body}"]

    # ---- expressions: their Python text, and the place after them
    def expression(self, at, scope):
        if self.tokens[at] == "λ":
            return self.abstraction(at + 1, scope)
        if self.tokens[at] == "if":
            condition, at = self.expression(at + 1, scope)
            yes, at = self.expression(at + 1, scope)
            no, at = self.expression(at + 1, scope)
            return f"({yes} if {condition} else {no})", at
        return self.operation(at, scope, 0)

    def abstraction(self, at, scope):
        names = []
        while self.tokens[at] != "λ.":
            if self.tokens[at] == "(":  # a name with its type
                names.append(self.tokens[at + 1])
                level = 1
                while level:
                    at += 1
                    level += (self.tokens[at] == "(") - (self.tokens[at] == ")")
            else:
                names.append(self.tokens[at])
            at += 1
        body, at = self.expression(at + 1, {**scope, **{name: variable(name) for name in names}})
        return "(" + "".join(f"lambda {variable(name)}: " for name in names) + body + ")", at

    def operation(self, at, scope, level):
        left, at = self.application(at, scope)
        while at < len(self.tokens) and LEVELS.get(self.tokens[at], -1) >= level:
            operator = self.tokens[at]
            if operator not in TO_THE_RIGHT:
                right, at = self.operation(at + 1, scope, LEVELS[operator] + 1)
            elif self.tokens[at + 1] in ("λ", "if"):
                right, at = self.expression(at + 1, scope)
            else:
                right, at = self.operation(at + 1, scope, LEVELS[operator])
            left = OPERATORS[operator].format(a=left, b=right)
        return left, at

    def begins(self, at):
        ends = (")", ",", ";", "}", "then", "else", "=")
        return at < len(self.tokens) and self.tokens[at] not in ends and self.tokens[at] not in LEVELS

    def application(self, at, scope):
        head, at = self.atom(at, scope)
        arguments = []
        while self.begins(at):
            if self.tokens[at] in ("λ", "if"):
                argument, at = self.expression(at, scope)
                arguments.append(argument)
                break
            argument, at = self.atom(at, scope)
            arguments.append(self.called(argument, []))
        return self.called(head, arguments), at

    def called(self, head, arguments):
        if isinstance(head, str):
            return head + "".join(f"({x})" for x in arguments)
        if head[0] == "constructor":
            count, begin = head[2], f"Made({head[1]!r}, "
        elif head[0] == "built in":
            count, begin = BUILT_IN[head[1]][0], f"BUILT_IN[{head[1]!r}][1]("
        else:
            self.definitions.want(head[1], head[2])
            count, begin = self.definitions.arity(head[1], head[2]), python_name(head[1], head[2]) + "("
        if len(arguments) >= count:
            return begin + ", ".join(arguments[:count]) + ")" + "".join(f"({x})" for x in arguments[count:])
        # arguments that are given are computed once
        given = [f"y{i}_" for i in range(len(arguments))]
        missing = [f"x{i}_" for i in range(count - len(arguments))]
        body = "".join(f"lambda {x}: " for x in missing) + begin + ", ".join(given + missing) + ")"
        return "".join(f"(lambda {y}: " for y in given) + f"({body})" + "".join(f")({x})" for x in reversed(arguments))

    def atom(self, at, scope):
        token = self.tokens[at]
        if token == "(":
            parts, at = [], at
            while self.tokens[at] != ")":
                part, at = self.expression(at + 1, scope)
                parts.append(part)
            return self.fields(f"({', '.join(parts)})", at + 1)
        if token == "record":
            return self.record(at + 2, scope)
        at += 1
        if token.isdigit() or token in CONSTANTS:
            return CONSTANTS.get(token, token), at
        if token in scope:
            return self.fields(scope[token], at)
        if at < len(self.tokens) and self.tokens[at] == ".":
            found = self.qualified(token, self.tokens[at + 1])
            if found:
                return found, at + 2
        found = self.meaning(token)
        assert found, f"{self.module.name}: {token} means nothing in {' '.join(self.tokens[:8])}"
        if at < len(self.tokens) and self.tokens[at] == ".":
            return self.fields(self.called(found, []), at)
        return found, at

    def record(self, at, scope):
        fields = []
        while self.tokens[at] != "}":
            name = self.tokens[at]
            value, at = self.expression(at + 2, scope)
            fields.append(f"{name!r}: {value}")
            at += self.tokens[at] == ";"
        return "{" + ", ".join(fields) + "}", at + 1

    def fields(self, text, at):
        while at < len(self.tokens) and self.tokens[at] == ".":
            text = f"part_of({text}, {self.tokens[at + 1]!r})"
            at += 2
        return text, at
