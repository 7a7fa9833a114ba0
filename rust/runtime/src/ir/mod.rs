//! What the source written for instructions names, under the paths by which it names it: `ir::Type`, `ir::instructions`, `ir::Value`.

#[cfg(feature = "alloc")]
pub mod dfg;
pub mod entities;
pub mod immediates;
pub mod instructions;
#[cfg(feature = "alloc")]
pub mod lists;
pub mod types;

pub use self::entities::{Block, Inst, Value};
#[cfg(feature = "alloc")]
pub use self::lists::{BlockArg, BlockCall, ValueList, ValueListPool};
pub use self::types::Type;
