//! Stands for `ir/immediates.rs` of `cranelift-codegen`, and for the other small types that instructions hold: flags of memory,
//! codes of traps and operations of `atomic_rmw`.

pub use ciderlater_runtime::ir::immediates::Imm64;

macro_rules! immediates {
    ($($(#[$doc:meta])* $name:ident($number:ty);)*) => { $(
        $(#[$doc])*
        #[derive(Clone, Copy, Debug, PartialEq, Eq, Hash)]
        pub struct $name(pub $number);

        impl From<$number> for $name {
            fn from(number: $number) -> Self {
                Self(number)
            }
        }
    )* };
}

immediates! {
    /// A number of 8 bits without a sign.
    Uimm8(u8);
    /// An offset to an address.
    Offset32(i32);
    /// The bits of a float of 16 bits.
    Ieee16(u16);
    /// The bits of a float of 32 bits.
    Ieee32(u32);
    /// The bits of a float of 64 bits.
    Ieee64(u64);
}

/// What a builder's method takes as the flags of a memory access.
#[derive(Clone, Copy, Debug, Default, PartialEq, Eq, Hash)]
pub struct MemFlagsData(pub u16);

/// The number of flags in a [`MemFlagsSet`], which an instruction holds. Parameters of the builder have this name, so what makes it
/// can't be in scope there.
#[derive(Clone, Copy, Debug, PartialEq, Eq, Hash)]
pub struct MemFlags(u32);

/// All flags of a data flow graph.
#[derive(Default)]
pub struct MemFlagsSet(Vec<MemFlagsData>);

impl MemFlagsSet {
    /// Keeps the flags and answers their number, or nothing past 2^32 of them.
    pub fn insert(&mut self, flags: MemFlagsData) -> Option<MemFlags> {
        let number = u32::try_from(self.0.len()).ok()?;
        self.0.push(flags);
        Some(MemFlags(number))
    }

    /// The flags of a number that this set gave.
    pub fn get(&self, flags: MemFlags) -> MemFlagsData {
        self.0[flags.0 as usize]
    }
}

/// Why an instruction traps.
#[derive(Clone, Copy, Debug, PartialEq, Eq, Hash)]
pub struct TrapCode(pub u8);

/// What `atomic_rmw` does to memory.
#[derive(Clone, Copy, Debug, PartialEq, Eq, Hash)]
pub enum AtomicRmwOp {
    Add,
    Sub,
    Xchg,
}
