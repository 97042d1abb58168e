"""The files that grammar.py writes: a grammar's table as code, and as definitions."""
import re

from grammar_words import arguments, holds

# ---------------------------------------------------------------------------------------------------------------- code

def snake(name):
    return re.sub(r"(?<=[a-z])(?=[A-Z])", "_", name).lower()


def constant(n):
    return "_".join(snake(w).upper() for w in (n[1],) + n[2])


NOTE = "Written by tools/grammar.py."


def enum(name, doc, variants, derives="Clone, Copy, Debug"):
    lines = "".join(f"    /// {d}\n    {v},\n" for v, d in variants)
    return f"/// {doc}\n#[derive({derives})]\npub enum {name} {{\n{lines}}}\n"


class Code:
    def __init__(self, d, c):
        self.d, self.c = d, c

    def symbols(self):
        d = self.d
        yield "src/class.rt", f"//! Classes of lexemes. {NOTE}\n\n" + enum(
            "Class", "A class of lexemes. Each lexeme has one.", [(c, d.class_docs[c]) for c in d.classes], "Clone, Copy, Debug, PartialEq, Eq")
        yield "src/terminal.rt", f"//! Tokens of the grammar. {NOTE}\n\n" + enum(
            "Terminal", "A token of the grammar, which is a set of classes.",
            [(t, d.set_docs.get(t) or d.class_docs[t]) for t in d.terminals], "Clone, Copy, Debug, PartialEq, Eq")
        text = f"//! Parts of the grammar (nonterminals). {NOTE}\n\n"
        for k, (_, doc, values) in d.parameters.items():
            text += enum(k, doc, values.items()) + "\n"
        variants = [(n + (f"({', '.join(d.kinds[n])})" if d.kinds[n] else ""), doc) for n, (_, doc, _, _) in d.parts.items()]
        yield "src/part.rt", text + enum("Part", "A part of the grammar, which consists of tokens.", variants)

    def path(self, n):
        """A part as an expression."""
        values = ", ".join(f"{k}::{v}" for k, v in zip(self.d.kinds[n[1]], n[2]))
        return n[1] + (f"({values})" if values else "")

    def way(self, p):
        return "{ " + " ".join(s[1] if s[0] == "token" else f"[{self.path(s)}]" for s in p) + " }" if p else "{}"

    def table(self):
        d = self.d
        sections = {}
        for n in d.table:
            sections.setdefault(d.parts[n[1]][2], []).append(n)
        files = {s: snake(s.split()[0]) for s in sections}
        for section, parts in sections.items():
            used = sorted({k for n in parts for p in d.table[n] for s in p if s[0] == "part" for k in d.kinds[s[1]]} | {"Part"})
            tokens = any(s[0] == "token" for n in parts for p in d.table[n] for s in p)
            text = f"//! {section}. {NOTE}\n\nuse crate::part::{{{', '.join(used)}}};\n" if len(used) > 1 else \
                f"//! {section}. {NOTE}\n\nuse crate::part::Part;\n"
            text += "use crate::table::{Productions, productions};\n"
            if tokens:
                text += "use crate::terminal::Terminal;\n"
            text += "use table_reader::{Production, Symbol};\n"
            for n in parts:
                rows = "".join(f"    {self.way(p)}\n" for p in d.table[n])
                text += f"\npub(crate) const {constant(n)}: Productions = productions! {{\n{rows}}};\n"
            yield f"src/table/{files[section]}.rt", text
        yield "src/table.rt", self.choice(files)

    def choice(self, files):
        d = self.d
        mods = "".join(f"mod {f};\n" for f in sorted(files.values()))
        imports = ", ".join(sorted([*d.parameters, "Part"]))
        arms = "".join(f"        Part::{self.path(n)} => {files[d.parts[n[1]][2]]}::{constant(n)},\n" for n in d.table)
        return f"""//! The productions ({d.title}). {NOTE}

{mods}
ghost use Rattle.std.specs.Prelude.{{◌≡◌}};
ghost use Rattle.table_reader.specs.Derivations.{{rows}};
ghost use Rattle.{d.crate}.specs.Productions as grammar;

use crate::part::{{{imports}}};
use crate::terminal::Terminal;
use table_reader::Production;

/// The productions of a part.
pub(crate) type Productions = &'static [Production<Terminal, Part>];

/// Productions, each in braces: tokens, and parts in square brackets.
macro_rules! productions {{
    ($({{ $($symbol:tt)* }})*) => {{
        &[$(Production {{ symbols: &[$(crate::table::symbol!($symbol)),*] }}),*]
    }};
}}

/// A part in square brackets, or a token.
macro_rules! symbol {{
    ([$($part:tt)*]) => {{
        Symbol::Part(Part::$($part)*)
    }};
    ($token:ident) => {{
        Symbol::Token(Terminal::$token)
    }};
}}

pub(crate) use {{productions, symbol}};

/// The productions of a part.
pub(crate) fn productions_of(part: Part) -> Productions
    ensures {{ rows result.now ≡ grammar.productions part }}
{{
    match part {{
{arms}    }}
}}
"""

    def classes(self):
        d = self.d
        test = lambda of: f"class == Class::{of[0]}" if len(of) == 1 else f"is_among(&[{', '.join('Class::' + c for c in of)}], class)"
        arms = "".join(f"        Terminal::{t} => {test(d.of_token[t])},\n" for t in d.terminals)
        yield "src/classes.rt", f"""//! Which classes a token has. {NOTE}

ghost use Rattle.std.specs.Prelude.{{◌≡◌}};
ghost use Rattle.std.specs.List.{{list_any}};
ghost use denote.Enum.Bare.{{sameb}};
ghost use Rattle.{d.crate}.specs.Classes as grammar;
ghost use Rattle.{d.crate}.specs.contracts.class.Class.{{the_type}};

use crate::class::Class;
use crate::terminal::Terminal;

/// Whether a token has a class.
pub(crate) fn has_class(terminal: Terminal, class: Class) -> bool
    ensures {{ result ≡ list_any (sameb the_type class) (grammar.classes terminal) }}
{{
    match terminal {{
{arms}    }}
}}

/// Whether a class is one of these.
fn is_among(classes: &[Class], class: Class) -> bool
    ensures {{ result ≡ list_any (sameb the_type class) classes.now }}
{{
    for one in classes {{
        if class == *one {{
            return true;
        }}
    }}
    false
}}
"""
        arms = "".join(f'        Class::{c} => "{w}",\n' for w, c in d.written().items())
        listed = lambda name, words: f"pub(crate) const {name}: &[Class] = &[{', '.join('Class::' + d.spelled[w] for w in words)}];\n"
        marks = f"/// The classes of marks.\n{listed('MARKS', d.marks())}\n" if d.spells_marks else ""
        yield "src/spellings.rt", f"""//! How words {'and marks ' if d.spells_marks else ''}are spelled. {NOTE}

ghost use Rattle.std.specs.Prelude.{{◌≡◌}};
ghost use Rattle.{d.crate}.specs.Classes as grammar;

use crate::class::Class;

/// The classes of words, and of identifiers with a class of their own.
{listed("NAMES", d.words())}
{marks}/// How the lexemes of a class are spelled, where it has one spelling; else nothing.
pub fn spelling(class: Class) -> &'static str
    ensures {{ result.now ≡ grammar.spelling class }}
{{
    match class {{
{arms}        _ => "",
    }}
}}
"""


# --------------------------------------------------------------------------------------------------------- definitions

class Definitions:
    def __init__(self, d, c):
        self.d, self.c = d, c
        self.use = {
            "Part": f"use Rattle.{d.crate}.specs.declared.part.Part.{{Part}}\nuse Rattle.{d.crate}.specs.declared.part.Part.TheVariants as N\n",
            "Terminal": f"use Rattle.{d.crate}.specs.declared.terminal.Terminal.{{Terminal}}\n"
                        f"use Rattle.{d.crate}.specs.declared.terminal.Terminal.TheVariants as T\n",
            "Class": f"use Rattle.{d.crate}.specs.declared.class.Class.{{Class}}\nuse Rattle.{d.crate}.specs.declared.class.Class.TheVariants as C\n",
            "of Symbol": "use Rattle.table_reader.specs.declared.symbol.Symbol.{Symbol}\n",
            "Symbol": "use Rattle.table_reader.specs.declared.symbol.Symbol.TheVariants as S\n",
        }
        for k, (alias, _, _) in d.parameters.items():
            self.use[k] = f"use Rattle.{d.crate}.specs.declared.part.{k}.TheVariants as {alias}\n"
            self.use["of " + k] = f"use Rattle.{d.crate}.specs.declared.part.{k}.{{{k}}}\n"

    def imports(self, *names, prelude="◌≡◌, refl, Bool, true, List, [], ◌∷◌"):
        return f"use Rattle.std.specs.Prelude.{{{prelude}}}\n" + "".join(self.use[n] for n in names)

    def value(self, kind, word):
        return word if word in self.d.variables else f"{self.d.parameters[kind][0]}.{word}"

    def applied(self, head, kinds, given):
        return " ".join([head] + [self.value(k, g) for k, g in zip(kinds, given)])

    def ground(self, n):
        text = self.applied("N." + n[1], self.d.kinds[n[1]], n[2])
        return f"({text})" if n[2] else text

    def word(self, word, bound):
        """A symbol of a production and the sign after it."""
        if word[0] == "'":
            return f"T.{self.d.spelled[word[1:-1]]} ▸ "
        name, given = arguments(word)
        given = tuple(bound.get(g, g) for g in given)
        if name in self.d.functions:
            _, kinds, result, _ = self.d.functions[name]
            return self.applied(name, kinds, given) + {"terminal": " ▸ ", "part": " ▹ ", "symbol": " ∷ "}[result]
        if name in self.d.parts:
            return self.applied("N." + name, self.d.kinds[name], given) + " ▹ "
        return f"T.{name} ▸ "

    def production(self, words, bound):
        text = "[]"
        for word in map(lambda w: self.word(w, bound), reversed(words)):
            text = word + (f"({text})" if word.endswith("∷ ") and text != "[]" else text)
        return f"({text})" if words else text

    def equations(self, name):
        """A part's equations: one, or one for each case that a guard tells apart."""
        variables, doc, _, alternatives = self.d.parts[name]
        guards = [g for g, _ in alternatives if g]
        cases = [{}]
        if guards:
            variable, value = guards[0][0], guards[0][2]
            others = [v for v in self.d.parameters[self.d.variables[variable]][2] if v != value]
            cases = [{variable: value}, {variable: others[0]} if len(others) == 1 else {}]
        yield f"-- {doc}"
        for case in cases:
            told = {v: next(iter(x for x in self.d.parameters[self.d.variables[v]][2] if x != guards[0][2])) for v in (guards and [guards[0][0]] or [])}
            told.update(case)
            rows = [self.production(ws, case) for g, ws in alternatives if holds(g, told)]
            head = self.applied("N." + name, self.d.kinds[name], tuple(case.get(v, v) for v in variables))
            head = f"({head})" if variables else head
            if len(rows) > 1 and sum(map(len, rows)) > 90:
                body = "\n    " + "\n    ∷ ".join(rows) + " ∷ []"
            else:
                body = " " + " ∷ ".join(rows + ["[]"])
            yield f"productions {head} ={body}"

    def productions(self):
        d = self.d
        text = f"""-- The grammar: what each part may be replaced by ({d.title}). Where two ways begin alike, a part of its own
-- stands for what comes after that beginning. {NOTE}
{self.imports("of Symbol", "Symbol", "Terminal", "Part", *[w + k for k in d.parameters for w in ("of ", "")], prelude="ℕ, List, [], ◌∷◌")}
-- a token, and what comes after it
infixr 5 ◌▸◌
abbrev pub ◌▸◌ : Terminal → List (Symbol Terminal Part) → List (Symbol Terminal Part)
t ▸ rest = S.Token t ∷ rest

-- a part, and what comes after it
infixr 5 ◌▹◌
abbrev pub ◌▹◌ : Part → List (Symbol Terminal Part) → List (Symbol Terminal Part)
n ▹ rest = S.Part n ∷ rest

"""
        for name, (doc, kinds, result, equations) in d.functions.items():
            gives = {"terminal": "Terminal", "part": "Part", "symbol": "Symbol Terminal Part"}[result]
            text += f"-- {doc}\nabbrev pub {name} : {' → '.join(kinds)} → {gives}\n"
            for pattern, right in equations:
                word = self.word(right, {}).rsplit(" ", 2)[0]
                if result == "symbol":
                    word = ("S.Token " if word.startswith("T.") else "S.Part ") + (f"({word})" if " " in word else word)
                text += f"{self.applied(name, kinds, pattern)} = {word}\n"
            text += "\n"
        text += "abbrev pub productions : Part → List (List (Symbol Terminal Part))\n"
        for name in d.parts:
            text += "\n".join(self.equations(name)) + "\n"
        text += f"\n-- how many parts can begin one another\nabbrev pub rank : ℕ\nrank = {max(self.c.rank.values())}\n"
        yield "specs/Productions.antt", text

    def list_of(self, tokens):
        return "".join(f"T.{t} ∷ " for t in tokens) + "[]"

    def classes(self):
        d = self.d
        text = f"""-- The classes of each token, and how they are spelled. {NOTE}
{self.imports("Class", "Terminal", prelude="ℕ, List, [], ◌∷◌, codes")}
abbrev pub classes : Terminal → List Class
"""
        for t in d.terminals:
            text += f"classes T.{t} = " + "".join(f"C.{c} ∷ " for c in d.of_token[t]) + "[]\n"
        text += "\n-- one of them that is taken whole\nabbrev pub sample_class : Terminal → Class\n"
        for t in d.terminals:
            first = d.of_token[t][-1 if t == "TypesEnd" else 0]
            text += f"sample_class T.{t} = C.{first}\n"
        text += "\n-- how lexemes of a class are spelled, where it has one spelling\nabbrev pub spelling : Class → List ℕ\n"
        text += "".join(f'spelling C.{c} = codes "{w}"\n' for w, c in d.written().items()) + "spelling c = []\n"
        listed = lambda words: "".join(f"C.{d.spelled[w]} ∷ " for w in words) + "[]\n"
        text += "\n-- the classes of words, and of identifiers with a class of their own\nabbrev pub names : List Class\nnames = " + listed(d.words())
        if d.spells_marks:
            text += "\n-- the classes of marks\nabbrev pub marks : List Class\nmarks = " + listed(d.marks())
        yield "specs/Classes.antt", text

    def follow(self):
        d, names = self.d, {}
        text = f"-- The tokens that may come after a part. {NOTE}\n"
        text += self.imports("Terminal", "Part", *d.parameters, prelude="List, [], ◌∷◌") + "\n"
        lines = ""
        for n in d.table:
            tokens = tuple(t for t in d.terminals if t in self.c.follow[n])
            if tokens not in names:
                names[tokens] = "after_" + "_".join(snake(w) for w in (n[1],) + n[2])
                text += f"abbrev {names[tokens]} : List Terminal\n{names[tokens]} = {self.list_of(tokens)}\n\n"
            lines += f"follow {self.ground(n)} = {names[tokens]}\n"
        yield "specs/Follow.antt", text + "abbrev pub follow : Part → List Terminal\n" + lines
        text = f"-- Tokens that a part derives. {NOTE}\n"
        text += self.imports("Terminal", "Part", *d.parameters, prelude="List, [], ◌∷◌")
        text += "\nabbrev pub shortest : Part → List Terminal\n"
        for n in d.table:
            text += f"shortest {self.ground(n)} = {self.list_of(self.c.shortest[n])}\n"
        yield "specs/Shortest.antt", text

    def fit(self):
        d = self.d
        refl = lambda f: "".join(f"{f} {self.ground(n)} = refl\n" for n in d.table)
        crate = f"Rattle.{d.crate}"
        yield "specs/PartsFit.antt", f"""-- What is asked of each part holds. {NOTE}
{self.imports("Part", *d.parameters, prelude="◌≡◌, refl, true")}use Rattle.table_reader.specs.Conditions.{{fits_part}}
use {crate}.specs.Productions.{{productions, rank}}
use {crate}.specs.Follow.{{follow}}
use {crate}.specs.Apart.{{apart, same}}

pub table : (n : Part) → fits_part productions rank follow apart same n ≡ true
{refl("table")}"""
        yield "specs/Ends.antt", f"""-- Each part derives something. {NOTE}
{self.imports("Part", "Symbol", *d.parameters, prelude="◌≡◌, refl, [], ◌∷◌, map, None")}use Rattle.table_reader.specs.Steps.{{fault_from}}
use {crate}.specs.Productions.{{productions, rank}}
use {crate}.specs.Lexemes.{{takes, weight, sample}}
use {crate}.specs.Shortest.{{shortest}}

pub ends : (n : Part) → fault_from takes productions rank weight (S.Part n ∷ []) (map sample (shortest n)) ≡ None
{refl("ends")}"""


# Modules of the table's crate.
OF_TABLE = re.compile(r"(src/(table|classes)|specs/(Follow|Shortest|PartsFit|Ends))\b")
FITTING = re.compile(r"(?<=Rattle\.)\w+(?=\.specs\.(?:Follow|Shortest|Apart|PartsFit|Ends)\b)")
SYMBOLS = re.compile(r"^use crate::(?:class|part|terminal)::(?:(\w+)|\{(.*)\});\n", re.M)


def placed(d, name, text):
    """The crate that a file stands in, and its text there: in a crate of its own the table imports the symbols."""
    if d.table_crate == d.crate or not OF_TABLE.match(name):
        return d.crate, text
    imported = sorted({n for one, more in SYMBOLS.findall(text) for n in (one or more).split(", ")})
    if imported:
        names = imported[0] if len(imported) == 1 else "{" + ", ".join(imported) + "}"
        text = SYMBOLS.sub("", text)
        first = re.search(r"^use (?!crate::)|^\n///|^\npub", text, re.M).start()
        line = f"use {d.crate}::{names};\n"
        text = text[:first] + line + text[first:]
    return d.table_crate, FITTING.sub(d.table_crate, text)


def writers(d, c):
    """What writes the files: each gives names and texts."""
    code, definitions = Code(d, c), Definitions(d, c)
    return (code.symbols, code.table, code.classes, definitions.productions, definitions.classes, definitions.follow, definitions.fit)
