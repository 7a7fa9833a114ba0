//! What the included texts do beside answering lines: they build instructions, and hold settings. The tests name instructions and
//! settings of the shared set.

use crate::condcodes::IntCC;
use crate::immediates::MemFlagsData;
use crate::ir::builder::{Appender, InstBuilder};
use crate::ir::instructions::{InstructionFormat, InstructionMapper};
use crate::ir::types::{self, Type};
use crate::ir::{Block, BlockArg, DataFlowGraph, InstructionData, Opcode, Value};
use crate::query::answers;
use crate::settings::shared;
use ciderlater_runtime::settings::SetError;
use std::hash::{DefaultHasher, Hasher};

struct Same;
impl InstructionMapper for Same {}

/// A graph with a value for each of the types.
fn graph<const N: usize>(types: [Type; N]) -> (DataFlowGraph, [Value; N]) {
    let mut dfg = DataFlowGraph::default();
    let values = types.map(|ty| dfg.make_value(ty));
    (dfg, values)
}

fn hash(data: &InstructionData, dfg: &DataFlowGraph) -> u64 {
    let mut hasher = DefaultHasher::new();
    data.hash(&mut hasher, &dfg.value_lists);
    hasher.finish()
}

#[test]
fn each_opcode_is_found_by_its_name() {
    for opcode in Opcode::all() {
        assert_eq!(opcode.to_string().parse(), Ok(*opcode));
    }
    assert!("iaddx".parse::<Opcode>().is_err());
    assert!("".parse::<Opcode>().is_err());
    assert_eq!(size_of::<Option<Opcode>>(), 1);
}

/// The constants of the text `types`, as they are written: the runtime has its own.
#[test]
fn each_written_type_is_a_constant_of_the_runtime() {
    let text = include_str!(concat!(env!("OUT_DIR"), "/types.rs"));
    let constants = text
        .lines()
        .filter_map(|line| line.strip_prefix("pub const ")?.split_once(": Type = Type(0x"));
    let mut count = 0;
    for (name, number) in constants {
        let number = u16::from_str_radix(number.strip_suffix(");").unwrap(), 16).unwrap();
        let ty = Type::from_repr(number).unwrap();
        assert_eq!(format!("{ty:?}"), format!("types::{name}"));
        count += 1;
    }
    assert_eq!(
        count,
        Type::all()
            .filter(|ty| ty.min_bits() <= 512 && ty.min_bits() > 0)
            .count()
    );
}

#[test]
fn marks_are_those_of_the_instructions() {
    assert!(Opcode::Return.is_return() && Opcode::Return.is_terminator());
    assert!(Opcode::Load.can_load() && !Opcode::Load.can_store());
    assert!(Opcode::Brif.is_branch() && !Opcode::Iadd.can_trap());
    assert_eq!(Opcode::Iadd.format(), InstructionFormat::Binary);
}

#[test]
fn results_have_the_types_that_the_tables_give() {
    let (mut dfg, [a, b, address]) = graph([types::I32, types::I32, types::I64]);
    let sum = Appender(&mut dfg).iadd(a, b);
    assert_eq!(dfg.value_type(sum), types::I32);
    let more = Appender(&mut dfg).iadd_imm_s(a, 5);
    assert_eq!(dfg.value_type(more), types::I32);
    let truth = Appender(&mut dfg).icmp(IntCC::Equal, a, b);
    assert_eq!(dfg.value_type(truth), types::I8);
    let wide = Appender(&mut dfg).uextend(types::I64, a);
    assert_eq!(dfg.value_type(wide), types::I64);
    let read = Appender(&mut dfg).load(types::F32, MemFlagsData(1), address, 8);
    assert_eq!(dfg.value_type(read), types::F32);
    let (low, high) = Appender(&mut dfg).isplit(address);
    assert_eq!([low, high].map(|value| dfg.value_type(value)), [types::I32; 2]);
}

#[test]
fn data_of_instructions_keeps_what_was_given() {
    let (mut dfg, [truth, x, address]) = graph([types::I8, types::I32, types::I64]);
    let block = Block::from_u32(3);
    let branch = Appender(&mut dfg).brif(truth, block, &[BlockArg::Value(x)], block, &[]);
    let data = *dfg.inst_data(branch);
    assert_eq!(data.opcode(), Opcode::Brif);
    assert_eq!(data.arguments(&dfg.value_lists), [truth]);
    assert_eq!(data.typevar_operand(&dfg.value_lists), Some(truth));
    let InstructionData::Brif { blocks, .. } = data else {
        panic!("another format");
    };
    assert_eq!(blocks[0].block(&dfg.value_lists), block);
    assert!(blocks[0].args(&dfg.value_lists).eq([BlockArg::Value(x)]));

    let end = Appender(&mut dfg).return_(&[x, address]);
    let data = *dfg.inst_data(end);
    assert_eq!(data.arguments(&dfg.value_lists), [x, address]);
    assert!(data.eq(&data.map(Same), &dfg.value_lists));
    let copy = data.deep_clone(&mut dfg.value_lists);
    assert!(data.eq(&copy, &dfg.value_lists));
    assert_eq!(hash(&data, &dfg), hash(&copy, &dfg));

    Appender(&mut dfg).store(MemFlagsData(7), x, address, 8);
    let inst = Appender(&mut dfg).store(MemFlagsData(9), x, address, 8);
    let InstructionData::Store { flags, offset, .. } = *dfg.inst_data(inst) else {
        panic!("another format");
    };
    assert_eq!((dfg.mem_flags.get(flags), offset.0), (MemFlagsData(9), 8));
}

#[test]
fn settings_have_their_defaults_until_they_are_turned_on() {
    let flags = shared::Flags::new(shared::builder());
    assert_eq!(flags.opt_level(), shared::OptLevel::None);
    assert_eq!(flags.probestack_size_log2(), 12);
    assert!(flags.enable_verifier() && !flags.is_pic());
    assert_eq!(flags.iter().count(), 27);
    assert!(flags.to_string().contains("\nopt_level = \"none\"\n"));
    assert_eq!("speed".parse(), Ok(shared::OptLevel::Speed));

    let mut builder = shared::builder();
    assert_eq!(builder.enable("is_pic"), Ok(()));
    assert_eq!(builder.enable("opt_level"), Err(SetError::BadType));
    assert_eq!(builder.enable("no_such"), Err(SetError::BadName));
    assert!(shared::Flags::new(builder).is_pic());
}

#[test]
fn lines_are_answered() {
    let lines = "accept iadd i32 i32 i32,i32\r\n\nsetting none_such\ninfer isplit i64\ninfer jump -\naccept iadd";
    assert_eq!(answers(lines), "accept\nunknown\nresults i32,i32\nresults -\nbad\n");
}
