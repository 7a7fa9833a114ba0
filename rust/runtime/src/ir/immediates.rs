//! The number that the methods of a builder take in place of a value.

/// A number of 64 bits.
#[derive(Clone, Copy, Debug, Default, PartialEq, Eq, PartialOrd, Ord, Hash)]
pub struct Imm64(i64);

impl Imm64 {
    /// The number.
    pub const fn new(number: i64) -> Self {
        Self(number)
    }

    /// The number.
    pub const fn bits(self) -> i64 {
        self.0
    }
}

impl From<i64> for Imm64 {
    fn from(number: i64) -> Self {
        Self(number)
    }
}

impl From<Imm64> for i64 {
    fn from(number: Imm64) -> Self {
        number.0
    }
}

impl core::fmt::Display for Imm64 {
    fn fmt(&self, f: &mut core::fmt::Formatter) -> core::fmt::Result {
        self.0.fmt(f)
    }
}
