"""The grammar of sources as a table (docs/LANGUAGE.md, "Grammar"): what `grammar.py` reads."""

CRATE = "source_grammar"
# Checked beside the crates that build trees, which need the symbols and the definitions alone.
TABLE_CRATE = "source_table"
TITLE = 'docs/LANGUAGE.md, "Grammar"'
START = "Program"

# The kinds of lexemes: of each its name, how it is spelled where it has one spelling, and what it is.
CLASSES = """
IntWord                     -- The word of an integer type
Other                       -- An identifier that has no class of its own
Lifetime                    -- A lifetime with a name
Elided                      -- `'_`
Integer                     -- An integer
Digits                      -- Decimal digits directly after a dot
Text                        -- A string
Excluded                    -- An excluded word, which no token of the grammar takes
As          'as'
Break       'break'
Continue    'continue'
Else        'else'
Enum        'enum'
False       'false'
Fn          'fn'
If          'if'
Let         'let'
Loop        'loop'
Match       'match'
Mut         'mut'
Pub         'pub'
Return      'return'
Struct      'struct'
True        'true'
Use         'use'
While       'while'
Bool        'bool'
Box         'Box'
Allow       'allow'
Derive      'derive'
Std         'std'
Mem         'mem'
New         'new'
Replace     'replace'
Swap        'swap'
Panic       'panic'
Unreachable 'unreachable'
Assert      'assert'
ShlEquals       '<<='
ShrEquals       '>>='
Colons          '::'
Arrow           '->'
Gives           '=>'
EqualsEquals    '=='
NotEquals       '!='
LessEquals      '<='
GreaterEquals   '>='
AndAnd          '&&'
BarBar          '||'
Shl             '<<'
Shr             '>>'
PlusEquals      '+='
MinusEquals     '-='
StarEquals      '*='
SlashEquals     '/='
PercentEquals   '%='
AndEquals       '&='
BarEquals       '|='
CaretEquals     '^='
Plus            '+'
Minus           '-'
Star            '*'
Slash           '/'
Percent         '%'
And             '&'
Bar             '|'
Caret           '^'
Not             '!'
Equals          '='
Less            '<'
Greater         '>'
OpenBracket     '('
CloseBracket    ')'
OpenBrace       '{'
CloseBrace      '}'
OpenSquare      '['
CloseSquare     ']'
Comma           ','
Semicolon       ';'
Colon           ':'
Dot             '.'
Hash            '#'
Wild            '_'
"""

# Tokens of the grammar that are sets of classes. A set may begin with another, and be without classes.
SETS = """
Identifier  = Other 'allow' 'derive' 'std' 'mem' 'new' 'replace' 'swap' 'panic' 'unreachable' 'assert' -- Any identifier
PathName    = Identifier - 'mem' 'std' 'panic' 'unreachable' 'assert'   -- An identifier that begins a path like any other, in an expression
PatternName = Identifier - 'mem' 'std'                                  -- The same in a pattern
NotMem      = Identifier - 'mem'                                        -- An identifier other than `mem`
NotSwap     = Identifier - 'replace' 'swap'                             -- An identifier other than `replace` and `swap`
SwapName    = 'replace' 'swap'                                          -- `replace` or `swap`
AttributeName = 'allow' 'derive'                                        -- `derive` or `allow`
PanicName   = 'panic' 'unreachable'                                     -- `panic` or `unreachable`
BoolLiteral = 'true' 'false'                                            -- `true` or `false`
AnyLifetime = Lifetime Elided                                           -- A lifetime in a type
AssignOp    = '=' '+=' '-=' '*=' '/=' '%=' '&=' '|=' '^=' '<<=' '>>='   -- An assignment's operator
CompareOp   = '==' '!=' '<' '>' '<=' '>='                               -- A comparison's operator
ShiftOp     = '<<' '>>'                                                 -- A shift's operator
SumOp       = '+' '-'                                                   -- The operator of a sum or difference
ProductOp   = '*' '/' '%'                                               -- The operator of a product, quotient or remainder
TypesEnd    = '>' '>>' '>=' '>>='                                       -- The end of a list of types: `>`, also as the front of a longer mark
"""

# What parts range over: the short name that definitions use, what it is, and its values.
PARAMETERS = {
    "Context": ("At", "Where an expression stands.", {
        "Free": "Where struct braces may follow a name.",
        "Condition": "In a condition outside all brackets, where they may not.",
    }),
    "Level": ("L", "A level of binary operators that stand between operands.", {
        "Or": "`||`", "And": "`&&`", "Compare": "Comparisons, of which one alone may stand.", "BitOr": "`|`", "Xor": "`^`",
        "BitAnd": "`&`", "Shift": "Shifts.", "Sum": "Sums and differences.", "Product": "Products, quotients and remainders.",
    }),
    "Listed": ("Of", "What stands in a list with commas up to a closing mark.", {
        "Names": "Identifiers up to `)`.", "TypeNames": "Identifiers up to `>`.", "Parameters": "Parameters of a function up to `)`.",
        "Fields": "Fields with names up to `}`.", "TupleFields": "Fields without names up to `)`.", "Variants": "Variants up to `}`.",
        "TypesInAngles": "Types up to `>`.", "Types": "Types up to `)`.", "Arguments": "Expressions up to `)`.",
        "Initials": "Fields with their values up to `}`.", "Patterns": "Patterns up to `)`.",
        "FieldPatterns": "Fields with their patterns up to `}`.",
    }),
}

# The variables of parts.
VARIABLES = {"m": "Context", "l": "Level", "x": "Listed"}

# Symbols that depend on what a part ranges over.
FUNCTIONS = """
-- what a list is of
item : Listed -> symbol
item(Names) = Identifier
item(TypeNames) = Identifier
item(Parameters) = Parameter
item(Fields) = Field
item(TupleFields) = TupleField
item(Variants) = Variant
item(TypesInAngles) = Type
item(Types) = Type
item(Arguments) = Expression(Free)
item(Initials) = Initial
item(Patterns) = Pattern
item(FieldPatterns) = FieldPattern

-- the mark that closes a list
closing : Listed -> terminal
closing(Names) = ')'
closing(TypeNames) = '>'
closing(Parameters) = ')'
closing(Fields) = '}'
closing(TupleFields) = ')'
closing(Variants) = '}'
closing(TypesInAngles) = TypesEnd
closing(Types) = ')'
closing(Arguments) = ')'
closing(Initials) = '}'
closing(Patterns) = ')'
closing(FieldPatterns) = '}'

-- what stands between a level's operators: the next level
operand : Level Context -> part
operand(Or, m) = Level(And, m)
operand(And, m) = Level(Compare, m)
operand(Compare, m) = Level(BitOr, m)
operand(BitOr, m) = Level(Xor, m)
operand(Xor, m) = Level(BitAnd, m)
operand(BitAnd, m) = Level(Shift, m)
operand(Shift, m) = Level(Sum, m)
operand(Sum, m) = Level(Product, m)
operand(Product, m) = Cast(m)

-- the same of an operand that begins a statement or an arm's body
leading : Level -> part
leading(Or) = LeadingLevel(And)
leading(And) = LeadingLevel(Compare)
leading(Compare) = LeadingLevel(BitOr)
leading(BitOr) = LeadingLevel(Xor)
leading(Xor) = LeadingLevel(BitAnd)
leading(BitAnd) = LeadingLevel(Shift)
leading(Shift) = LeadingLevel(Sum)
leading(Sum) = LeadingLevel(Product)
leading(Product) = LeadingCast

-- the operators of a level
operator : Level -> terminal
operator(Or) = '||'
operator(And) = '&&'
operator(Compare) = CompareOp
operator(BitOr) = '|'
operator(Xor) = '^'
operator(BitAnd) = '&'
operator(Shift) = ShiftOp
operator(Sum) = SumOp
operator(Product) = ProductOp
"""

# A part, what it is, and its productions; `.` is the empty one, and `[m = Free]` says where one stands.
GRAMMAR = r"""
# Items

-- A whole program: `Inner* Item*`.
Program = . | '#' AfterHash | Item Items
-- After its first `#`: an inner attribute, or one of the first item.
AfterHash = '!' '[' 'allow' '(' List(Names) ']' Program | Attribute Attributed Items
-- `Item*`
Items = . | '#' Attribute Attributed Items | Item Items
-- An attribute after its `#`.
Attribute = '[' AttributeName '(' List(Names) ']'
-- What an attribute is of.
Attributed = '#' Attribute Attributed | 'pub' Declaration | Declaration
-- An item without attributes.
Item = 'pub' Declaration | Declaration | 'use' 'std' '::' 'mem' ';'
-- `Fn | Struct | Enum`
Declaration = 'fn' Identifier Generics '(' List(Parameters) Result Block
            | 'struct' Identifier TypeParameters StructBody
            | 'enum' Identifier TypeParameters '{' List(Variants)
-- `("<" List(Lifetime | Identifier) ">")?`
Generics = . | '<' Lifetimes
-- Lifetimes, and then type parameters, up to `>`.
Lifetimes = '>' | Lifetime MoreLifetimes | Identifier ListRest(TypeNames)
-- What follows a lifetime there.
MoreLifetimes = '>' | ',' Lifetimes
-- `TypeParameters?`
TypeParameters = . | '<' List(TypeNames)
-- A parameter of a function.
Parameter = 'mut' Identifier ':' Type | Identifier ':' Type
-- `("->" Type)?`
Result = . | '->' Type
-- The fields of a struct.
StructBody = '{' List(Fields) | '(' List(TupleFields) ';' | ';'
-- `"pub"? Identifier ":" Type`
Field = 'pub' Identifier ':' Type | Identifier ':' Type
-- `"pub"? Type`
TupleField = 'pub' Type | Type
-- A variant of an enum.
Variant = Identifier VariantBody
-- `("(" List(Type) ")")?`
VariantBody = . | '(' List(Types)

# Lists

-- `List(X)` and its closing mark.
List(x) = closing(x) | item(x) ListRest(x)
-- What follows an item of it.
ListRest(x) = closing(x) | ',' List(x)

# Types

-- A type.
Type = IntWord | 'bool' | '(' AfterTypeOpen | '&' BorrowLifetime BorrowMut Type | 'Box' '<' Type TypesEnd | Identifier TypeArguments
-- `Lifetime?`
BorrowLifetime = . | AnyLifetime
-- `"mut"?`
BorrowMut = . | 'mut'
-- `("<" List(Type) ">")?`
TypeArguments = . | '<' List(TypesInAngles)
-- A type after its `(`.
AfterTypeOpen = ')' | Type AfterType
-- The same after its first type.
AfterType = ')' | ',' Type ListRest(Types)

# Blocks and statements

-- A block.
Block = '{' Statements
-- What is left of a block.
Statements = '}' | MoreStatements
-- The same, where it isn't over.
MoreStatements = ';' Statements
               | 'let' Pattern LetType LetValue ';' Statements
               | BlockLike AfterBlockLike
               | LeadingExpression AfterExpression
-- What is left of a block after a statement that ends at its last brace.
AfterBlockLike = '}' | MoreStatements
-- What is left of a block after an expression.
AfterExpression = '}' | ';' Statements
-- `(":" Type)?`
LetType = . | ':' Type
-- `("=" Expression)?`
LetValue = . | '=' Expression(Free)
-- An expression that ends at its last brace.
BlockLike = Block | If | 'match' Expression(Condition) '{' Arms | 'loop' Block | 'while' AfterWhile
-- A `while` after this word.
AfterWhile = Expression(Condition) Block | 'let' Pattern '=' Expression(Condition) Block
-- An `if`.
If = 'if' AfterIf
-- The same after this word.
AfterIf = Expression(Condition) Block Else | 'let' Pattern '=' Expression(Condition) Block Else
-- `("else" (If | Block))?`
Else = . | 'else' AfterElse
-- The same after this word.
AfterElse = If | Block
-- Arms up to `}`.
Arms = '}' | Pattern '=>' ArmBody
-- The body of an arm, and what is left of the arms.
ArmBody = BlockLike AfterBlockArm | LeadingExpression AfterArm
-- What is left of the arms after a body that ends at its last brace.
AfterBlockArm = ',' Arms | '}' | Pattern '=>' ArmBody
-- What is left of the arms after another body.
AfterArm = ',' Arms | '}'

# Expressions

-- An expression. In a condition a block follows, so `return` and `break` have an operand there.
Expression(m) = [m = Condition] 'return' Expression(Condition)
              | [m = Condition] 'break' Expression(Condition)
              | [m = Free] 'return' Operand
              | [m = Free] 'break' Operand
              | 'continue'
              | Level(Or, m) MoreAssign(m)
-- An expression that begins a statement or the body of an arm, and with no part that ends at its last brace.
LeadingExpression = 'return' Operand | 'break' Operand | 'continue' | LeadingLevel(Or) MoreAssign(Free)
-- `Expression?`
Operand = . | Expression(Free)
-- What makes an assignment.
MoreAssign(m) = . | AssignOp Level(Or, m)
-- Operands of a level and its operators between them.
Level(l, m) = operand(l, m) More(l, m)
-- The same at the beginning of a statement or of an arm's body.
LeadingLevel(l) = leading(l) More(l, Free)
-- What follows the first operand.
More(l, m) = .
           | [l = Compare] operator(Compare) operand(Compare, m)
           | [l != Compare] operator(l) operand(l, m) More(l, m)
-- An operand with casts.
Cast(m) = Unary(m) MoreCasts
-- The same at the beginning of a statement or of an arm's body.
LeadingCast = LeadingUnary MoreCasts
-- `("as" Int)*`
MoreCasts = . | 'as' IntWord MoreCasts
-- An operand with unary operators and fields.
Unary(m) = '-' Unary(m) | '!' Unary(m) | '*' Unary(m) | '&' Borrowed(m) | Core(m) Postfix | BlockLike Postfix
-- The same at the beginning of a statement or of an arm's body.
LeadingUnary = '-' Unary(Free) | '!' Unary(Free) | '*' Unary(Free) | '&' Borrowed(Free) | Core(Free) Postfix
-- A borrow after its `&`.
Borrowed(m) = 'mut' Unary(m) | Unary(m)
-- `("." (Identifier | Digits))*`
Postfix = . | '.' FieldName Postfix
-- A field by its name or number.
FieldName = Identifier | Digits
-- An operand without unary operators, fields, and braces at its end.
Core(m) = Integer
        | BoolLiteral
        | '(' AfterOpen
        | PathName AfterName(m)
        | 'mem' AfterMem(m)
        | 'std' AfterStd(m)
        | 'Box' '::' 'new' AfterPath
        | PanicName AfterPanic(m)
        | 'assert' AfterAssert(m)
-- An expression in brackets, after `(`.
AfterOpen = ')' | Expression(Free) AfterFirst
-- The same after its first expression.
AfterFirst = ')' | ',' Expression(Free) ListRest(Arguments)
-- `Identifier (":" Expression)?`
Initial = Identifier InitialValue
-- `(":" Expression)?`
InitialValue = . | ':' Expression(Free)

# Paths in expressions

-- What follows the first identifier of a path.
AfterName(m) = . | NameMore(m)
-- The same after `panic` or `unreachable`.
AfterPanic(m) = . | NameMore(m) | '!' '(' Message
-- The same after `assert`.
AfterAssert(m) = . | NameMore(m) | '!' '(' Expression(Free) AssertEnd
-- The same after `mem`.
AfterMem(m) = . | Applied(m) | '::' AfterMemColons(m)
-- The same after `std`.
AfterStd(m) = . | Applied(m) | '::' AfterStdColons(m)
-- What follows an identifier that does not stand alone.
NameMore(m) = Applied(m) | '::' AfterColons(m)
-- What a path is applied to.
Applied(m) = '(' List(Arguments) | [m = Free] '{' List(Initials)
-- What follows an identifier and `::`.
AfterColons(m) = '<' List(TypesInAngles) AfterTurbo(m) | Identifier AfterPath
-- The same after `mem` and `::`.
AfterMemColons(m) = '<' List(TypesInAngles) AfterTurbo(m) | SwapName AfterPath | NotSwap AfterPath
-- The same after `std` and `::`.
AfterStdColons(m) = '<' List(TypesInAngles) AfterTurbo(m) | 'mem' AfterStdMem | NotMem AfterPath
-- What follows `std::mem`.
AfterStdMem = . | '(' List(Arguments) | '::' AfterStdMemColons
-- What follows `std::mem::`.
AfterStdMemColons = '<' List(TypesInAngles) '(' List(Arguments) | SwapName AfterPath
-- What follows an identifier and types after it.
AfterTurbo(m) = Applied(m) | '::' Identifier AfterPath
-- What follows a path's last identifier.
AfterPath = . | '(' List(Arguments) | '::' '<' List(TypesInAngles) '(' List(Arguments)
-- `String? ")"`
Message = ')' | Text ')'
-- `("," String)? ","? ")"`
AssertEnd = ')' | ',' AfterAssertComma
-- The same after a comma.
AfterAssertComma = ')' | Text AfterMessage
-- The same after the string.
AfterMessage = ')' | ',' ')'

# Patterns

-- A pattern.
Pattern = '_'
        | 'mut' Identifier
        | '-' Integer
        | Integer
        | BoolLiteral
        | '(' AfterPatternOpen
        | PatternName AfterPatternName
        | 'mem' AfterPatternMem
        | 'std' AfterPatternStd
        | 'Box' '::' 'new' PatternParts
-- A pattern in brackets, after `(`.
AfterPatternOpen = ')' | Pattern AfterPattern
-- The same after its first pattern.
AfterPattern = ')' | ',' Pattern ListRest(Patterns)
-- `Identifier (":" Pattern)?`
FieldPattern = Identifier FieldPatternValue
-- `(":" Pattern)?`
FieldPatternValue = . | ':' Pattern
-- The parts of a constructor, or none.
PatternParts = . | GivenParts
-- The parts of a constructor.
GivenParts = '(' List(Patterns) | '{' List(FieldPatterns)
-- What follows the first identifier of a pattern.
AfterPatternName = . | GivenParts | '::' AfterPatternColons
-- The same after `mem`.
AfterPatternMem = . | GivenParts | '::' AfterPatternMemColons
-- The same after `std`.
AfterPatternStd = . | GivenParts | '::' AfterPatternStdColons
-- What follows an identifier and `::`.
AfterPatternColons = '<' List(TypesInAngles) '::' Identifier PatternParts | Identifier PatternParts
-- The same after `mem` and `::`.
AfterPatternMemColons = '<' List(TypesInAngles) '::' Identifier PatternParts | SwapName PatternParts | NotSwap PatternParts
-- The same after `std` and `::`.
AfterPatternStdColons = '<' List(TypesInAngles) '::' Identifier PatternParts | 'mem' AfterPatternStdMem | NotMem PatternParts
-- What follows `std::mem`.
AfterPatternStdMem = . | GivenParts | '::' SwapName PatternParts
"""
