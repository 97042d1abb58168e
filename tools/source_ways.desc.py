"""What each production of the grammar of sources is read as: what `source_ways.py` reads. A part as in the grammar's
description, and one way for each of its productions, in order: a function of the span of the whole and of the values of the
production's symbols, by its name or as `names. value`. `w` is the whole, `_` what isn't needed; in `names. value` the whole
is left out, and each name stands for a part's value, or for a lexeme."""

GRAMMAR = "source_grammar.desc.py"
OUT = "crates/source_ways/specs/Makes.antt"

# The modules of specs/ that ways come from; where two have the same name, the module's short name stands before it.
MODULES = {"Types": "types", "Patterns": "patterns", "Paths": "paths", "Blocks": "blocks", "Operators": "operators",
           "Expressions": "exprs", "Items": "items"}

WAYS = r"""
Program = []
        | _ items. items
        | items.first_item
AfterHash = _ _ _ _ _ _ items. items
          | _ item items. item ∷ items
Items = []
      | _ _ item items. item ∷ items
      | items.first_item
Attribute = _ _ _ _ _. tt
Attributed = _ _ item. item | _ item. item | item. item
Item = _ item. item | item. item | _ _ _ _ _. items.use_mem
Declaration = items.function | items.structure | items.enumeration
Generics = items.no_generics | _ generics. generics
Lifetimes = _. items.no_generics | items.first_lifetime | items.first_type_parameter
MoreLifetimes = _. items.no_generics | _ generics. generics
TypeParameters = [] | _ names. names
Parameter = _ name _ ty*. items.parameter true name ty | name _ ty*. items.parameter false name ty
Result = None | _ ty. Some ty
StructBody = items.braces | items.brackets | _. items.no_fields
Field = _ name _ ty*. items.field name ty | name _ ty*. items.field name ty
TupleField = _ ty. ty | ty. ty
Variant = items.variant
VariantBody = [] | _ tys. tys
List(x) = _. [] | one* more. listed x one ∷ more
ListRest(x) = _. [] | _ more. more
Type = types.int_type | word. t.bool whole | types.bracketed_type | types.reference_type | types.boxed_type | types.named_type
BorrowLifetime = t.elided | life. lifetime life
BorrowMut = false | _. true
TypeArguments = [] | _ tys. tys
AfterTypeOpen = _. [] | ty more. ty ∷ more
AfterType = _. [] | _ ty more. ty ∷ more
Block = blocks.block
Statements = blocks.ended | body. body
MoreStatements = _ body. body | blocks.let_statement | blocks.block_like_first | blocks.expression_first
AfterBlockLike = _. None | body. Some body
AfterExpression = _. None | _ body. Some body
LetType = None | _ ty. Some ty
LetValue = None | _ value. Some value
BlockLike = blocks.inner_block | e. e | blocks.match_expression | blocks.loop_expression | blocks.while_expression
AfterWhile = e* body*. blocks.holds e body None | _ pat* _ e* body*. blocks.matches pat e body None
If = blocks.if_expression
AfterIf = e* body* other. blocks.holds e body other | _ pat* _ e* body* other. blocks.matches pat e body other
Else = None | _ e. Some e
AfterElse = e. e | blocks.inner_block
Arms = _. [] | blocks.arm
ArmBody = blocks.arm_body | blocks.arm_body
AfterBlockArm = _ arms. arms | _. [] | blocks.arm
AfterArm = _ arms. arms | _. []
Expression(Condition) = exprs.returned_value | exprs.broken_value | _. s.go_on whole | operators.grouped
Expression(Free) = exprs.returned | exprs.broken | _. s.go_on whole | operators.grouped
LeadingExpression = exprs.returned | exprs.broken | _. s.go_on whole | operators.grouped
Operand = None | e. Some e
MoreAssign(m) = [] | operators.one_operation
Level(l, m) = first* more*. operators.grouped whole (operators.operand_of l m first) more
LeadingLevel(l) = first* more*. operators.grouped whole (operators.leading_of l first) more
More(Or, m) = [] | operators.next_operation
More(And, m) = [] | operators.next_operation
More(Compare, m) = [] | operators.one_operation
More(BitOr, m) = [] | operators.next_operation
More(Xor, m) = [] | operators.next_operation
More(BitAnd, m) = [] | operators.next_operation
More(Shift, m) = [] | operators.next_operation
More(Sum, m) = [] | operators.next_operation
More(Product, m) = [] | operators.next_operation
Cast(m) = operators.casts
LeadingCast = operators.casts
MoreCasts = [] | operators.one_cast
Unary(m) = operators.minus | operators.negation | operators.dereference | operators.borrow | operators.with_fields | operators.with_fields
LeadingUnary = operators.minus | operators.negation | operators.dereference | operators.borrow | operators.with_fields
Borrowed(m) = _ e*. operators.borrowed true e | e*. operators.borrowed false e
Postfix = [] | _ name more. name ∷ more
FieldName = name. ident name | digits. ident digits
Core(m) = exprs.number_expression
        | exprs.truth_expression
        | exprs.bracketed
        | paths.named
        | paths.named
        | paths.named
        | paths.box_new
        | paths.named
        | paths.named
AfterOpen = _. [] | e more. e ∷ more
AfterFirst = _. [] | _ e more. e ∷ more
Initial = exprs.initial
InitialValue = None | _ e. Some e
AfterName(m) = paths.alone | rest. rest
AfterPanic(m) = paths.alone | rest. rest | _ _ _. paths.panics
AfterAssert(m) = paths.alone | rest. rest | paths.asserts
AfterMem(m) = paths.alone | paths.applied | _ rest. rest
AfterStd(m) = paths.alone | paths.applied | _ rest. rest
NameMore(m) = paths.applied | _ rest. rest
Applied(Free) = paths.arguments | paths.fields
Applied(Condition) = paths.arguments
AfterColons(m) = paths.with_types | paths.second_name
AfterMemColons(m) = paths.with_types | paths.built_in_name | paths.second_name
AfterStdColons(m) = paths.with_types | paths.std_mem | paths.second_name
AfterStdMem = in_mem.Second paths.not_called | bracket exprs*. in_mem.Second (paths.plain_call bracket exprs) | _ rest. rest
AfterStdMemColons = _ tys* _ exprs*. in_mem.Second (paths.call_with_types tys exprs) | paths.std_built_in
AfterTurbo(m) = more. more | paths.later_name
AfterPath = paths.not_called | bracket exprs*. paths.plain_call bracket exprs | _ _ tys* _ exprs*. paths.call_with_types tys exprs
Message = _. tt | _ _. tt
AssertEnd = _. tt | _ _. tt
AfterAssertComma = _. tt | _ _. tt
AfterMessage = _. tt | _ _. tt
Pattern = _. p.wild whole
        | patterns.binding
        | patterns.negative_pattern
        | patterns.number_pattern
        | patterns.truth_pattern
        | patterns.bracketed_pattern
        | patterns.named_pattern
        | patterns.named_pattern
        | patterns.named_pattern
        | patterns.box_new_pattern
AfterPatternOpen = _. [] | pat more. pat ∷ more
AfterPattern = _. [] | _ pat more. pat ∷ more
FieldPattern = patterns.field_pattern
FieldPatternValue = None | _ pat. Some pat
PatternParts = given.Placed [] | parts. parts
GivenParts = _ pats. given.Placed pats | _ fields. given.Named fields
AfterPatternName = name.Nothing | parts. name.Parts parts | _ rest. rest
AfterPatternMem = name.Nothing | parts. name.Parts parts | _ rest. rest
AfterPatternStd = name.Nothing | parts. name.Parts parts | _ rest. rest
AfterPatternColons = patterns.second_after_types | patterns.second_name
AfterPatternMemColons = patterns.second_after_types | patterns.built_in_name | patterns.second_name
AfterPatternStdColons = patterns.second_after_types | patterns.std_mem_name | patterns.second_name
AfterPatternStdMem = after_mem.Second (given.Placed []) | parts. after_mem.Second parts | patterns.std_built_in_name
"""
