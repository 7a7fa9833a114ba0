//! References: numbers of which each kind is a type of its own.

/// Declares kinds of references, each a structure of one number: `entities! { /** A function. */ FuncRef; }`.
///
/// Each is `Copy`, can be compared, ordered, hashed and shown, and has `from_u32` and `as_u32`.
#[macro_export]
macro_rules! entities {
    ($($(#[$attribute:meta])* $name:ident;)*) => { $(
        $(#[$attribute])*
        #[derive(Clone, Copy, Debug, PartialEq, Eq, PartialOrd, Ord, Hash)]
        pub struct $name(u32);

        impl $name {
            /// The reference of this number.
            pub const fn from_u32(number: u32) -> Self {
                Self(number)
            }

            /// The number of the reference.
            pub const fn as_u32(self) -> u32 {
                self.0
            }
        }
    )* };
}

entities! {
    /// A value of a data flow graph.
    Value;
    /// An instruction of a data flow graph.
    Inst;
    /// A basic block.
    Block;
}
