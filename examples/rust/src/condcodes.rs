//! Stands for `ir/condcodes.rs` of `cranelift-codegen`, with some conditions of each kind.

/// A condition on two integers.
#[derive(Clone, Copy, Debug, PartialEq, Eq, Hash)]
pub enum IntCC {
    Equal,
    NotEqual,
    SignedLessThan,
}

/// A condition on two floats.
#[derive(Clone, Copy, Debug, PartialEq, Eq, Hash)]
pub enum FloatCC {
    Ordered,
    Equal,
    LessThan,
}
