//! The words of enums, the same in all languages.

/// Gives an enum the method `word`.
macro_rules! words {
    ($type:ty: $($variant:ident $word:literal),*) => {
        impl $type {
            /// The word for this value, as the program writes it where it has one.
            #[must_use]
            pub const fn word(self) -> &'static str {
                match self {
                    $(Self::$variant => $word),*
                }
            }
        }
    };
}

pub(crate) use words;
