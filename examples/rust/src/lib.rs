//! What Ciderlater writes for Cranelift's shared instructions, compiled where a code generator would compile it.
//!
//! The modules `ir` and `settings` are those of the runtime. The others here are small stand-ins for what Cranelift's own files
//! give. [`query`] answers by the compiled tables, and by nothing else.

pub mod condcodes;
pub mod entities;
pub mod flags;
pub mod immediates;
pub mod query;

#[cfg(test)]
mod tests;

ciderlater_runtime::modules! {
    pub use crate::entities::*;
    pub use crate::immediates::{AtomicRmwOp, MemFlags, MemFlagsData, MemFlagsSet, TrapCode};
    pub use crate::{condcodes, immediates};

    /// The instructions and values of a function, with flags of memory accesses.
    pub type DataFlowGraph = ciderlater_runtime::ir::dfg::DataFlowGraph<InstructionData, MemFlagsSet>;
}

/// The settings that lines ask for, with their defaults.
fn first_group() -> ciderlater_runtime::settings::Builder {
    settings::shared::builder()
}
