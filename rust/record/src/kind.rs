//! The kinds of tokens.

macro_rules! kinds {
    ($($kind:ident $word:literal)*) => {
        /// The kind of a token: other, block comment, and the nineteen keywords in
        /// `comment_above`'s order.
        #[derive(Debug, Clone, Copy, PartialEq, Eq, Hash)]
        #[repr(u8)]
        #[expect(missing_docs, reason = "named as in 001")]
        pub enum SyntaxKind { Other, BlockComment, $($kind,)* }

        impl SyntaxKind {
            /// All kinds in the order of their numbers from 0.
            pub const ALL: &'static [Self] = &[Self::Other, Self::BlockComment, $(Self::$kind,)*];

            /// The kind that a token of this text has in Standard ML.
            #[must_use]
            pub fn of_text(text: &[u8]) -> Self {
                match text {
                    $(_ if text == $word.as_bytes() => Self::$kind,)*
                    _ if text.starts_with(b"(*") => Self::BlockComment,
                    _ => Self::Other,
                }
            }
        }
    };
}

kinds! {
    DotDotDot "..."
    AndKw "and"
    ValKw "val"
    FunKw "fun"
    TypeKw "type"
    EqtypeKw "eqtype"
    DatatypeKw "datatype"
    AbstypeKw "abstype"
    ExceptionKw "exception"
    OpenKw "open"
    InfixKw "infix"
    InfixrKw "infixr"
    NonfixKw "nonfix"
    DoKw "do"
    LocalKw "local"
    StructureKw "structure"
    SignatureKw "signature"
    FunctorKw "functor"
    IncludeKw "include"
}

impl SyntaxKind {
    /// The kind's number in the record.
    #[must_use]
    pub const fn number(self) -> u8 {
        self as u8
    }

    /// The kind of that number.
    #[must_use]
    pub fn of_number(number: u8) -> Option<Self> {
        Self::ALL.get(usize::from(number)).copied()
    }
}
