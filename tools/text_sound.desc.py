"""Why each production keeps shapes and spellings: what `text_sound.py` reads.

Names are those of text_ways.desc.py. A name stands for what is known of the shape of a part, or for the fact that an id is a
name; `name.value` for the value itself, `name.class` for the fact that a lexeme has a class of its token.
"""

# A proof for each production of a part, in order, that the value which it makes has the part's shape.
SHAPES = """
Text = ((types.0, definitions.0), (types.1, definitions.1))
Types = (tt, tt) | ((one.0, more.0), (one.1, more.1))
Declaration = (variants.0, record { name = name; parameters = parameters; members = variants.1 }) | (fields.0, record { name = name; parameters = parameters; members = fields.1 })
TypeParameters = tt | (name, more)
Variants = (tt, tt) | ((rest, more.0), (name, more.1))
VariantType = (ty, rest) | name_first_shaped name.value after.value after
VariantEnd = tt | rest | tt
Names = tt | tt
Fields = (tt, tt) | ((ty, more.0), (name, more.1))
Type = ty | tt
OtherType = tt | tt | tt | ty.1
TypeInBrackets = (tt, product_shaped ty.value second.value more.value ty second more) | (tt, (broken, returned)) | after_type_shaped name.value after.value after
AfterTypeName = (tt, (ty, more)) | (tt, (ty, more))
TypeArguments = tt | (ty, more)
Factors = tt | (ty, more)
Definitions = (tt, tt) | ((one.0, more.0), (one.1, more.1))
Definition = (record { parameters = parameters; result = output; code = code }, record { function = name; type_parameters = type_parameters })
FuelParameter = tt
FuelMatch = tt
DefinitionName = name
NameEnd = tt | tt
NamePart = tt | tt
BackEnd = tt | tt
ImplicitParameters = tt | (name, more)
Parameters = tt | (ty, more)
Code = let_shaped variable.value bound.value bound | (atom, arms) | computation
Bound = (computation, code) | (atom, code)
Arms = tt | (pattern, code, more)
Pattern = tt | two_or_more (ways.spelled first.value) (ways.spelled second.value) more.value | tt
PatternParts = tt | tt
Variables = tt | tt
Computation = atom | tt | atoms | (operation, atoms)
Primitive = int_operation_shaped ty.value operator.value operator.class | tt | cast_shaped operation.value.primitive operation | tt | memory_shaped operation.value.primitive operation
CastFrom = tt | tt
InMemory = replace_shaped word.value end.value end | swap_shaped word.value end.value end
ReplaceEnd = tt | refl
SwapEnd = tt | operation
SwapRegion = inl refl | inr refl
Atom = atom | tt
PlainAtom = tt | tt | tt | unit_shaped | atom.1
Constructor = tt | tt
ExitVariant = tt | tt
AtomInBrackets = (tt, tuple_shaped first.value second.value more.value first second more) | bracketed_shaped name.value after.value after
AfterConstructor = (tt, (atom, more)) | (tt, (atom, more))
TupleParts = tt | (atom, more)
Arguments = tt | (atom, more)
Atoms = tt | (atom, more)
"""

# The productions of which it doesn't hold by computing that what they make wants what their symbols want, before `rest`.
SPELLINGS = """
VariantType 2 = name_first_spelled name.value after.value rest
OtherType 4 = type_in_brackets ty.value rest ty.0
TypeInBrackets 3 = after_type_spelled name.value after.value rest after
NameEnd 2 = name_part_spelled part.value rest part
Code 1 = let_spelled variable.value bound.value rest
Primitive 1 = int_operation_spelled ty.value operator.value rest operator.class
Primitive 2 = bool_operation_spelled operator.value rest operator.class
Primitive 3 = cast_spelled operation.value rest operation
Primitive 5 = memory_spelled operation.value rest operation
InMemory 1 = replace_spelled word.value end.value rest end
InMemory 2 = swap_spelled word.value end.value rest end
ReplaceEnd 2 = replace_back_spelled word.value rest
SwapEnd 2 = swap_end_spelled operation.value rest operation
SwapRegion 1 = swap_zero_spelled word.value rest
SwapRegion 2 = swap_one_spelled word.value rest
PlainAtom 5 = atom_in_brackets atom.value rest atom.0
Constructor 2 = exit_spelled name.value rest name
AtomInBrackets 2 = bracketed_spelled name.value after.value rest after
"""
