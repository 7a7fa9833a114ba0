//! The macros by which a crate includes the written source.

/// Declares the modules of an instruction set, `ir` and `settings`, with the source that `ciderlater-build` wrote. It stands once,
/// at the root of a crate, since the source names `crate::ir`.
///
/// ```ignore
/// ciderlater_runtime::modules! {
///     /// What is compared.
///     #[derive(Clone, Copy, Debug, PartialEq, Eq, Hash)]
///     pub enum Condition { Equal, Less }
///     ciderlater_runtime::entities! {
///         /// A function.
///         FuncRef;
///     }
/// }
/// ```
///
/// Its items are those of the module `ir`, where they belong that the declarations name: the Rust types of kinds, as `Condition` and
/// `ir::FuncRef`. They also take the place of what stands there without them:
///
/// - `types`, `Type`, and `immediates`, with `Imm64`;
/// - `Value`, `Inst`, `Block`, and with the feature `alloc` `ValueList`, `ValueListPool`, `BlockCall`, `BlockArg` and
///   `DataFlowGraph`, an alias of [`DataFlowGraph`](crate::ir::dfg::DataFlowGraph) without flags of memory accesses.
///
/// What is declared is
///
/// - `ir::instructions`, with `Opcode`, `InstructionFormat`, `InstructionData` and `InstructionMapper`, and all of
///   [`instructions`](crate::ir::instructions); `ir` has the first three, too;
/// - `ir::builder`, with `InstBuilder`, which has a method for each instruction, and `InstBuilderBase`, on which it stands; with
///   the feature `alloc` also `Appender`, which adds instructions to a data flow graph;
/// - `settings`, with a module for each group, as [`settings!`](crate::settings!) declares it.
///
/// `Opcode` has, beside the methods that are written for it, `name`, `format`, `constraints`, `accepts` and `infer_results`, is
/// shown by its name, and found by it (`FromStr`).
///
/// Each method of the builder logs by `crate::trace!`, which does nothing here. A crate that has a macro of that name at its root,
/// as by `use log::trace;`, has it called.
#[macro_export]
macro_rules! modules {
    ($($items:tt)*) => {
        #[allow(unused_imports)]
        use $crate::log::*;

        /// The instruction set.
        #[allow(unused_imports, dead_code)]
        pub mod ir {
            pub use $crate::ir::*;
            pub use self::default_items::*;
            pub use self::instructions::{InstructionData, InstructionFormat, Opcode};

            $($items)*

            $crate::default_items! {}
            $crate::instructions! {}
            $crate::builder! {}
        }

        $crate::settings! {}
    };
}

/// Declares the module `settings`, with a module for each group. [`modules!`] does this, too; a file of settings alone needs no
/// more.
///
/// The module of a group has `Flags`, an enum for each setting that is one, `builder`, and `template`, the tables of the group. The
/// `Flags::new` of each group but the first takes those of the first.
#[macro_export]
macro_rules! settings {
    () => {
        /// The settings, with a module for each group.
        #[allow(
            unused,
            nonstandard_style,
            missing_docs,
            unreachable_pub,
            elided_lifetimes_in_paths
        )]
        #[allow(clippy::all, clippy::pedantic, reason = "generated code")]
        pub mod settings {
            use $crate::settings::in_scope as _runtime;

            include!(concat!(env!("OUT_DIR"), "/settings.rs"));
        }
    };
}

/// The items of `ir` that are made of the written ones, in a module from which each can be replaced.
#[cfg(feature = "alloc")]
#[doc(hidden)]
#[macro_export]
macro_rules! default_items {
    () => {
        mod default_items {
            /// The instructions and values of a function.
            pub type DataFlowGraph = $crate::ir::dfg::DataFlowGraph<super::InstructionData>;
        }
    };
}

/// The items of `ir` that are made of the written ones, in a module from which each can be replaced.
#[cfg(not(feature = "alloc"))]
#[doc(hidden)]
#[macro_export]
macro_rules! default_items {
    () => {
        mod default_items {}
    };
}

/// The module `ir::instructions`.
#[doc(hidden)]
#[allow(clippy::crate_in_macro_def, reason = "the source names the crate that includes it")]
#[macro_export]
macro_rules! instructions {
    () => {
        /// Formats, opcodes and the data of instructions.
        #[allow(
            unused,
            nonstandard_style,
            missing_docs,
            unreachable_pub,
            elided_lifetimes_in_paths
        )]
        #[allow(clippy::all, clippy::pedantic, reason = "generated code")]
        pub mod instructions {
            use super::*;
            use crate::ir;
            use $crate::bitset::ScalarBitSet;
            pub use $crate::ir::instructions::*;

            // Declarations without type sets have no table of them.
            mod where_absent {
                pub const TYPE_SETS: [$crate::ir::instructions::ValueTypeSet; 0] = [];
            }
            use self::where_absent::*;

            include!(concat!(env!("OUT_DIR"), "/instructions.rs"));
            include!(concat!(env!("OUT_DIR"), "/opcode_tables.rs"));
            include!(concat!(env!("OUT_DIR"), "/mapper.rs"));

            impl Opcode {
                /// The name by which the instruction is declared.
                pub fn name(self) -> &'static str {
                    opcode_name(self)
                }

                /// The format: what the instruction stores.
                pub fn format(self) -> InstructionFormat {
                    OPCODE_FORMAT[self as usize - 1]
                }

                /// Which types the results and values can have.
                pub fn constraints(self) -> $crate::ir::instructions::Constraints {
                    const TABLES: $crate::ir::instructions::Tables = $crate::ir::instructions::Tables {
                        type_sets: &TYPE_SETS,
                        operand_constraints: &OPERAND_CONSTRAINTS,
                    };
                    $crate::ir::instructions::Constraints::new(OPCODE_CONSTRAINTS[self as usize - 1], TABLES)
                }

                /// Whether the instruction accepts results and values of these types under these controls.
                pub fn accepts(
                    self,
                    controls: impl Into<$crate::ir::instructions::Controls>,
                    results: &[$crate::ir::Type],
                    values: &[$crate::ir::Type],
                ) -> bool {
                    self.constraints().accepts(controls, results, values)
                }

                /// What the types of the results have to be under these controls, in order. `None` where they aren't controls of
                /// the instruction, or where no type will do for a result.
                pub fn infer_results(
                    self,
                    controls: impl Into<$crate::ir::instructions::Controls>,
                ) -> Option<impl Iterator<Item = $crate::ir::instructions::ResolvedConstraint>> {
                    self.constraints().infer_results(controls)
                }
            }

            impl ::core::fmt::Display for Opcode {
                fn fmt(&self, f: &mut ::core::fmt::Formatter) -> ::core::fmt::Result {
                    f.write_str(opcode_name(*self))
                }
            }

            impl ::core::str::FromStr for Opcode {
                type Err = $crate::ir::instructions::UnknownOpcode;

                fn from_str(name: &str) -> ::core::result::Result<Self, Self::Err> {
                    const SLOTS: &[Option<Opcode>] = &OPCODE_HASH_TABLE;
                    let slot = $crate::constant_hash::probe(SLOTS.len(), name, |slot| SLOTS[slot].map(opcode_name));
                    slot.and_then(|slot| SLOTS[slot])
                        .ok_or($crate::ir::instructions::UnknownOpcode)
                }
            }
        }
    };
}

/// The module `ir::builder`.
#[doc(hidden)]
#[allow(clippy::crate_in_macro_def, reason = "the source names the crate that includes it")]
#[macro_export]
macro_rules! builder {
    () => {
        /// What builds instructions.
        #[allow(
            unused,
            nonstandard_style,
            missing_docs,
            unreachable_pub,
            elided_lifetimes_in_paths
        )]
        #[allow(clippy::all, clippy::pedantic, reason = "generated code")]
        pub mod builder {
            use super::*;
            use crate::ir;

            /// What the methods of [`InstBuilder`] stand on.
            pub trait InstBuilderBase<'f>: Sized {
                /// The graph to which the instruction is added.
                fn data_flow_graph(&self) -> &ir::DataFlowGraph;

                /// The same, to be changed.
                fn data_flow_graph_mut(&mut self) -> &mut ir::DataFlowGraph;

                /// Adds the instruction. The type is that of its control, or `types::INVALID` where it has none. A second control
                /// isn't handed over: `Constraints::controls_of_values` tells it, where a value is of it.
                fn build(
                    self,
                    data: ir::InstructionData,
                    ctrl_typevar: ir::Type,
                ) -> (ir::Inst, &'f mut ir::DataFlowGraph);

                /// A value of the type that is the number, extended with its sign or without. The methods that take a number for
                /// a value ask for it.
                fn build_imm_const(&mut self, ty: ir::Type, imm: ir::immediates::Imm64, signed: bool) -> ir::Value;
            }

            /// Before an instruction with an `Imm64` is built, its method calls `mask_immediates`, by which Cranelift cuts a number
            /// to the width of its type. A method of `InstructionData` of that name goes before this one, which keeps the number.
            trait KeepImmediates {
                fn mask_immediates(&mut self, _ctrl_typevar: ir::Type) {}
            }

            impl KeepImmediates for ir::InstructionData {}

            include!(concat!(env!("OUT_DIR"), "/builder.rs"));

            impl<'f, T: InstBuilderBase<'f>> InstBuilder<'f> for T {}

            $crate::appender! {}
        }
    };
}

/// The type `ir::builder::Appender`.
#[cfg(feature = "alloc")]
#[doc(hidden)]
#[macro_export]
macro_rules! appender {
    () => {
        /// Adds an instruction at the end of a data flow graph: `Appender(&mut dfg).add(x, y)`.
        ///
        /// The results have the types that the tables give. It panics where they leave one open, or where a second control is that
        /// of a result alone.
        pub struct Appender<'f>(pub &'f mut ir::DataFlowGraph);

        impl<'f> InstBuilderBase<'f> for Appender<'f> {
            fn data_flow_graph(&self) -> &ir::DataFlowGraph {
                self.0
            }

            fn data_flow_graph_mut(&mut self) -> &mut ir::DataFlowGraph {
                self.0
            }

            fn build(self, data: ir::InstructionData, ctrl_typevar: ir::Type) -> (ir::Inst, &'f mut ir::DataFlowGraph) {
                let values = data
                    .arguments(&self.0.value_lists)
                    .iter()
                    .map(|&it| self.0.value_type(it));
                let types = $crate::ir::dfg::result_types(data.opcode().constraints(), ctrl_typevar, values);
                let Some(types) = types else {
                    panic!("the tables don't give the types of the results of {data:?}");
                };
                (self.0.make_inst(data, types), self.0)
            }

            fn build_imm_const(&mut self, ty: ir::Type, imm: ir::immediates::Imm64, signed: bool) -> ir::Value {
                self.0.make_number(ty, imm, signed)
            }
        }
    };
}

/// The type `ir::builder::Appender`.
#[cfg(not(feature = "alloc"))]
#[doc(hidden)]
#[macro_export]
macro_rules! appender {
    () => {};
}

/// Where a builder would log: nothing is done, and nothing evaluated.
#[doc(hidden)]
#[macro_export]
macro_rules! trace {
    ($($arguments:tt)*) => {
        if false {
            let _ = format_args!($($arguments)*);
        }
    };
}

/// What stands at the root of a crate, where it has nothing of the name.
#[doc(hidden)]
pub mod log {
    pub use crate::trace;
}
