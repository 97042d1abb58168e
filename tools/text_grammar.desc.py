"""The grammar of printed texts as a table (docs/TEXT.md, "Grammar"): what `grammar.py` reads."""

CRATE = "text_table"
TITLE = 'docs/TEXT.md, "Grammar"'
START = "Text"

# Marks are told by what they are and not by how they are spelled.
SPELLS_MARKS = False

# The kinds of lexemes: of each its name, how it is spelled where it has one spelling, and what it is.
CLASSES = """
Other                       -- An id that has no class of its own
Variable                    -- `v` and a number
LoopNumber                  -- `loop` and a number
BackNumber                  -- `back` and a number that is none of `0` and `1`
Digits                      -- A number that is none of `0` and `1`
Excluded                    -- A word that no token of the grammar takes
Import      'import'
AenPrelude  'AenPrelude'
Open        'open'
Inductive   'inductive'
Structure   'structure'
Type        'Type'
Where       'where'
Def         'def'
Fuel        'n'
Nat         'Nat'
Result      'Result'
Match       'match'
With        'with'
OutOfFuel   'outOfFuel'
Do          'do'
Let         'let'
True        'true'
False       'false'
Ok          'ok'
Fail        'fail'
Brk         'brk'
Ret         'ret'
Bool        'Bool'
Unit        'Unit'
Exit        'Exit'
Fn          'fn'
U8          'U8'
U16         'U16'
U32         'U32'
U64         'U64'
U128        'U128'
Usize       'Usize'
I8          'I8'
I16         'I16'
I32         'I32'
I64         'I64'
I128        'I128'
Isize       'Isize'
Cast        'cast'
Box         'Box'
New         'new'
Mem         'mem'
Replace     'replace'
Swap        'swap'
BackZero    'back0'
BackOne     'back1'
Add         'add'
Sub         'sub'
Mul         'mul'
Div         'div'
Rem         'rem'
Shl         'shl'
Shr         'shr'
And         'and'
Or          'or'
Xor         'xor'
Neg         'neg'
Not         'not'
Eq          'eq'
Ne          'ne'
Lt          'lt'
Le          'le'
Gt          'gt'
Ge          'ge'
Zero            '0'
One             '1'
OpenBracket     '('
CloseBracket    ')'
UnitValue       '()'
OpenBrace       '{'
CloseBrace      '}'
Colon           ':'
Becomes         ':='
Comma           ','
Semicolon       ';'
Dot             '.'
Hash            '#'
Bar             '|'
Gives           '=>'
Plus            '+'
To              '→'
From            '←'
Times           '×'
"""

# Tokens of the grammar that are sets of classes. A set may begin with another, and be without classes.
SETS = """
Int          = 'U8' 'U16' 'U32' 'U64' 'U128' 'Usize' 'I8' 'I16' 'I32' 'I64' 'I128' 'Isize' -- The word of an integer type
BoolOperator = 'and' 'or' 'xor' 'not' 'eq' 'ne'                                            -- An operator of bools
IntOperator  = BoolOperator 'add' 'sub' 'mul' 'div' 'rem' 'shl' 'shr' 'neg' 'lt' 'le' 'gt' 'ge' -- An operator of an integer type
Back         = BackNumber 'back0' 'back1'                                                  -- `back` and a number
Name         = Other LoopNumber Back IntOperator 'cast' 'Box' 'new' 'mem' 'replace' 'swap' -- An id
Number       = Digits '0' '1'                                                              -- A number
Truth        = 'true' 'false'                                                              -- `true` or `false`
"""

# A part, what it is, and its productions; `.` is the empty one.
GRAMMAR = r"""
# Declarations

-- `text`
Text = 'import' 'AenPrelude' 'open' 'AenPrelude' Types Definitions
-- `type*`
Types = . | Declaration Types
-- `type`
Declaration = 'inductive' Name TypeParameters 'where' Variants | 'structure' Name TypeParameters 'where' Fields
-- `("(" id ":" "Type" ")")*`
TypeParameters = . | '(' Name ':' 'Type' ')' TypeParameters
-- `("|" id ":" (aty "→")* id id*)*`
Variants = . | '|' Name ':' VariantType Variants
-- `(aty "→")* id id*`: whether an id is a type or the end shows after it
VariantType = OtherType '→' VariantType | Name VariantEnd
-- The same after that id.
VariantEnd = . | '→' VariantType | Name Names
-- `id*`
Names = . | Name Names
-- `("(" id ":" aty ")")*`
Fields = . | '(' Name ':' Type ')' Fields

# Types

-- `aty`
Type = OtherType | Name
-- An `aty` that is no id.
OtherType = Int | 'Bool' | 'Unit' | '(' TypeInBrackets
-- An `aty` after its `(`.
TypeInBrackets = OtherType '×' Type Factors | 'Exit' Type Type ')' | Name AfterTypeName
-- An `aty` after its `(` and an id, which may be the first part of a product.
AfterTypeName = Type TypeArguments | '×' Type Factors
-- `aty* ")"`
TypeArguments = ')' | Type TypeArguments
-- `("×" aty)* ")"`
Factors = ')' | '×' Type Factors

# Definitions

-- `def*`
Definitions = . | Definition Definitions
-- `def`
Definition = 'def' DefinitionName ImplicitParameters FuelParameter Parameters ':' 'Result' Type ':=' FuelMatch Code
-- `"(" "n" ":" "Nat" ")"`
FuelParameter = '(' 'n' ':' 'Nat' ')'
-- `"match" "n" "with" "|" "0" "=>" "outOfFuel" "|" "n" "+" "1" "=>" "do"`
FuelMatch = 'match' 'n' 'with' '|' '0' '=>' 'outOfFuel' '|' 'n' '+' '1' '=>' 'do'
-- `dname`
DefinitionName = 'fn' '.' Name NameEnd
-- `("." "loop"k)? ("." "back"k)?`
NameEnd = . | '.' NamePart
-- The same after its first dot.
NamePart = LoopNumber BackEnd | Back
-- `("." "back"k)?`
BackEnd = . | '.' Back
-- `("{" id ":" "Type" "}")*`
ImplicitParameters = . | '{' Name ':' 'Type' '}' ImplicitParameters
-- `("(" var ":" aty ")")*`
Parameters = . | '(' Variable ':' Type ')' Parameters

# Code

-- `code`
Code = 'let' Variable Bound | '(' 'match' Atom 'with' Arms | Computation
-- Code after `let` and its variable.
Bound = '←' Computation ';' Code | ':=' Atom ';' Code
-- `arm* ")"`
Arms = ')' | '|' Pattern '=>' 'do' Code Arms
-- `pat`
Pattern = Truth | '(' Variable ',' Variable PatternParts | Constructor Variables
-- `("," var)* ")"`
PatternParts = ')' | ',' Variable PatternParts
-- `var*`
Variables = . | Variable Variables
-- `comp`
Computation = 'ok' Atom | 'fail' | DefinitionName 'n' Atoms | Primitive Atoms

# Primitives

-- `prim`
Primitive = Int '.' IntOperator | 'Bool' '.' BoolOperator | 'cast' '.' CastFrom | 'Box' '.' 'new' | 'mem' '.' InMemory
-- A cast after its first dot.
CastFrom = Int '.' Int | 'Bool' '.' Int
-- A primitive after `mem` and its dot.
InMemory = 'replace' ReplaceEnd | 'swap' SwapEnd
-- What follows `mem.replace`.
ReplaceEnd = . | '.' 'back0'
-- What follows `mem.swap`.
SwapEnd = . | '.' SwapRegion
-- The same after its dot.
SwapRegion = 'back0' | 'back1'

# Atoms

-- `atom`
Atom = PlainAtom | Constructor
-- An `atom` that is no `cname`.
PlainAtom = Variable | Number '#' Int | Truth | '()' | '(' AtomInBrackets
-- `cname`
Constructor = Name '.' Name | 'Exit' '.' ExitVariant
-- A constructor after `Exit` and its dot.
ExitVariant = 'brk' | 'ret'
-- An `atom` after its `(`: a tuple, or a constructor with parts.
AtomInBrackets = PlainAtom ',' Atom TupleParts | Constructor AfterConstructor
-- The same after a constructor, which may be the first part of a tuple.
AfterConstructor = Atom Arguments | ',' Atom TupleParts
-- `("," atom)* ")"`
TupleParts = ')' | ',' Atom TupleParts
-- `atom* ")"`
Arguments = ')' | Atom Arguments
-- `atom*`
Atoms = . | Atom Atoms
"""
