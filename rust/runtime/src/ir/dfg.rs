//! A small data flow graph, to which the methods of the written builder add.

use super::immediates::Imm64;
use super::instructions::Constraints;
use super::{Block, BlockArg, BlockCall, Inst, Type, Value, ValueListPool};
use alloc::vec::Vec;
use core::fmt;

/// The instructions and values of a function. `D` is the data of an instruction, and `F` keeps the flags of memory accesses,
/// where instructions have such.
///
/// References are those that this graph gave: others panic, or are of something else.
#[derive(Clone, Debug)]
pub struct DataFlowGraph<D, F = ()> {
    /// The lists of values that instructions hold.
    pub value_lists: ValueListPool,
    /// The flags of memory accesses that instructions hold.
    pub mem_flags: F,
    insts: Vec<D>,
    results: Vec<Vec<Value>>,
    values: Vec<(Type, ValueDef)>,
}

/// What defines a value.
#[derive(Clone, Copy, Debug, PartialEq, Eq)]
pub enum ValueDef {
    /// It is this result, from 0, of the instruction.
    Result(Inst, usize),
    /// It is the number, extended to the value's type, with its sign or without.
    Number(Imm64, bool),
    /// It was made without an instruction, as a parameter is.
    Param,
}

impl<D, F: Default> Default for DataFlowGraph<D, F> {
    fn default() -> Self {
        Self {
            value_lists: ValueListPool::new(),
            mem_flags: F::default(),
            insts: Vec::new(),
            results: Vec::new(),
            values: Vec::new(),
        }
    }
}

impl<D, F> DataFlowGraph<D, F> {
    fn push_value(&mut self, ty: Type, def: ValueDef) -> Value {
        self.values.push((ty, def));
        Value::from_u32(number_of_last(self.values.len()))
    }

    /// Adds a value of the type that no instruction defines, as a parameter.
    pub fn make_value(&mut self, ty: Type) -> Value {
        self.push_value(ty, ValueDef::Param)
    }

    /// Adds a value of the type that is a number, extended with its sign or without.
    pub fn make_number(&mut self, ty: Type, number: Imm64, signed: bool) -> Value {
        self.push_value(ty, ValueDef::Number(number, signed))
    }

    /// Adds an instruction, with a result of each of the types.
    pub fn make_inst(&mut self, data: D, results: impl IntoIterator<Item = Type>) -> Inst {
        self.insts.push(data);
        let inst = Inst::from_u32(number_of_last(self.insts.len()));
        let results = results.into_iter().enumerate();
        let results = results
            .map(|(n, ty)| self.push_value(ty, ValueDef::Result(inst, n)))
            .collect();
        self.results.push(results);
        inst
    }

    /// The call of a block with these arguments.
    pub fn block_call<'a>(&mut self, block: Block, args: impl IntoIterator<Item = &'a BlockArg>) -> BlockCall {
        BlockCall::new(block, args.into_iter().copied(), &mut self.value_lists)
    }

    /// The instructions, in the order in which they were added.
    pub fn insts(&self) -> impl ExactSizeIterator<Item = (Inst, &D)> {
        self.insts
            .iter()
            .enumerate()
            .map(|(n, data)| (Inst::from_u32(n as u32), data))
    }

    /// The data of the instruction.
    pub fn inst_data(&self, inst: Inst) -> &D {
        &self.insts[inst.as_u32() as usize]
    }

    /// The results of the instruction.
    pub fn inst_results(&self, inst: Inst) -> &[Value] {
        &self.results[inst.as_u32() as usize]
    }

    /// The first result of the instruction.
    ///
    /// # Panics
    ///
    /// If it has no result.
    pub fn first_result(&self, inst: Inst) -> Value {
        self.inst_results(inst)[0]
    }

    /// The type of the value.
    pub fn value_type(&self, value: Value) -> Type {
        self.values[value.as_u32() as usize].0
    }

    /// What defines the value.
    pub fn value_def(&self, value: Value) -> ValueDef {
        self.values[value.as_u32() as usize].1
    }

    /// The instruction, as a log shows it.
    pub fn display_inst(&self, inst: Inst) -> impl fmt::Display
    where
        D: fmt::Debug,
    {
        Shown(self.inst_data(inst))
    }
}

/// The types of an instruction's results, as a builder asks for them: under this control, which is `types::INVALID` where there is
/// none, with values of these types. `None` where these controls aren't its own, or a result is left open.
pub fn result_types(
    constraints: Constraints,
    ctrl_typevar: Type,
    values: impl Iterator<Item = Type>,
) -> Option<Vec<Type>> {
    let first = (!ctrl_typevar.is_invalid()).then_some(ctrl_typevar);
    let controls = constraints.controls_of_values(first, values);
    constraints.infer_results(controls)?.map(|it| it.bound()).collect()
}

/// What is shown as `Debug` shows it.
struct Shown<'a, D>(&'a D);

impl<D: fmt::Debug> fmt::Display for Shown<'_, D> {
    fn fmt(&self, f: &mut fmt::Formatter) -> fmt::Result {
        self.0.fmt(f)
    }
}

/// The number of the last entry of a list of this length.
fn number_of_last(length: usize) -> u32 {
    u32::try_from(length - 1).expect("a graph has at most 2^32 values and instructions")
}

#[cfg(test)]
mod tests {
    extern crate std;

    use super::super::types::{I8, I32};
    use super::*;
    use std::string::ToString;

    #[test]
    fn values_know_their_types_and_what_defines_them() {
        let mut dfg = DataFlowGraph::<&str>::default();
        let param = dfg.make_value(I32);
        let number = dfg.make_number(I8, Imm64::new(-1), true);
        let inst = dfg.make_inst("split", [I8, I32]);
        assert_eq!(
            [param, number, dfg.first_result(inst)].map(|it| dfg.value_type(it)),
            [I32, I8, I8]
        );
        assert_eq!(dfg.value_def(param), ValueDef::Param);
        assert_eq!(dfg.value_def(number), ValueDef::Number(Imm64::new(-1), true));
        assert_eq!(dfg.value_def(dfg.inst_results(inst)[1]), ValueDef::Result(inst, 1));
        assert_eq!(dfg.display_inst(inst).to_string(), "\"split\"");
        assert!(dfg.insts().eq([(inst, &"split")]));
    }
}
