"""What the reader of sources holds of each part: what `source_build.py` reads."""

# A variant for each type that parts carry (specs/Carriers.antt), and that type in code, by subject. What is larger than an
# expression with what stands beside it is in a box, since each push and pop of the stack moves the size of the largest.
VARIANTS = {
    "items": """
        Items = List Item = FrontList<Item>
        Nothing = Unit {0} = ()
        Item = Item = Boxed<Item>
        Generics = Generics = Generics
        Idents = List Ident = FrontList<Ident>
        Param = Param = Param
        Params = List Param = FrontList<Param>
        Fields = Fields = Fields
        Field = Field = (Span, Name, Written)
        NamedFields = List Field = FrontList<(Span, Name, Written)>
        Variant = Variant = Variant
        Variants = List Variant = FrontList<Variant>
        """,
    "types": """
        Written = t.Written = Written
        Writtens = List t.Written = FrontList<Written>
        MaybeWritten = Option t.Written = Option<Written>
        Lifetime = t.Lifetime = Lifetime
        Truth = Bool = bool
        """,
    "blocks": """
        Block = s.Block = Block
        Body = Body = Body
        MaybeBody = Option Body = Boxed<Option<Body>>
        Conditional = Conditional = Boxed<Conditional>
        Arms = List (p.Pat × s.Expr) = FrontList<(Pat, Expr)>
        ArmBody = ArmBody = ArmBody
        """,
    "expressions": """
        Expr = s.Expr = Expr
        Exprs = List s.Expr = FrontList<Expr>
        MaybeExpr = Option s.Expr = Option<Expr>
        Operations = List Operation = FrontList<Operation>
        Casts = List (Span × IntTy) = FrontList<(Span, IntTy)>
        Borrowed = Borrowed = Borrowed
        Ident = Ident = Ident
        Initial = Initial = (Span, Name, Expr)
        Initials = List Initial = FrontList<(Span, Name, Expr)>
        """,
    "paths": """
        After = After = After
        Further = Further = Further
        InMem = InMem = InMem
        Calling = Calling = Calling
        """,
    "patterns": """
        Pat = p.Pat = Pat
        Pats = List p.Pat = FrontList<Pat>
        MaybePat = Option p.Pat = Option<Pat>
        FieldPat = p.FieldPat = FieldPat
        FieldPats = List p.FieldPat = FrontList<FieldPat>
        Given = Given = Given
        AfterName = AfterName = AfterName
        AfterMem = AfterMem = AfterMem
        """,
}

# Parts whose productions stand beside those of their section.
BESIDE = {
    "generics": "Generics Lifetimes MoreLifetimes TypeParameters",
    "fields": "StructBody Field TupleField Variant VariantBody",
}

# The crate that what productions build stands in, by section: two of about the same length, checked side by side.
STANDS_IN = {
    "source_items": "items generics fields types patterns",
    "source_expressions": "blocks expressions paths lists",
}

# Where the types of code come from.
IMPORTS = {
    "source_ways::clauses": "ArmBody Body Conditional",
    "source_ways::constructors": "AfterMem AfterName Given",
    "source_ways::front_list": "FrontList",
    "source_ways::generics": "Generics",
    "source_ways::operations": "Borrowed Operation",
    "source_ways::paths": "After Calling Further InMem",
    "source_ways::spanned": "Spanned",
    "source_ways::spans": "join span_of",
    "source_ways::says": "ident lifetime",
    "aen_base": "Boxed IntTy List Name NoMem Span",
    "rust_ast": "Ident",
    "rust_ast::program": "Fields Item Param Variant",
    "rust_ast::source": "Block Expr ExprNode",
    "rust_ast::source_patterns": "FieldPat Pat PatNode",
    "rust_ast::source_types": "Lifetime LifetimeNode Written WrittenNode",
    "source_grammar": "Context Lexeme Level Listed Part",
    "std::alloc": "Global",
}

# The modules of code that ways stand in.
WAYS_IN = {"types": "types", "patterns": "patterns", "paths": "path_ways", "blocks": "blocks", "operators": "operators",
           "exprs": "expressions", "items": "items"}

# The crate of these modules: two that are checked side by side.
WAYS_STAND_IN = {"item_ways": "types patterns items", "expression_ways": "path_ways blocks operators expressions"}

# Ways that are no function of code: the values of parts stand for names of one letter.
PLAIN = {
    "t.bool whole": "Written { node: WrittenNode::Bool(span_of(extent)) }",
    "t.elided": "Lifetime { node: LifetimeNode::Elided }",
    "s.go_on whole": "Expr { node: ExprNode::GoOn(span_of(extent)) }",
    "p.wild whole": "Pat { node: PatNode::Wild(span_of(extent)) }",
    "given.Placed []": "Given::Placed(FrontList::new(alloc))",
    "after_mem.Second (given.Placed [])": "AfterMem::Second(Given::Placed(FrontList::new(alloc)))",
    "name.Nothing": "AfterName::Nothing",
    "[]": "FrontList::new(alloc)",
    "None": "None",
    "false": "false",
    "true": "true",
    "tt": "()",
}
