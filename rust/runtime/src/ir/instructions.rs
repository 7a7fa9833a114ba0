//! The decoding of the tables: which types the operands of an instruction can have.
//!
//! An instruction that can be used with several types has a control: the type that decides which others fit. Some have a second
//! one. [`Controls`] has both, and [`Constraints`], which each opcode has, says what they leave.

use super::types::Type;
use crate::bitset::ScalarBitSet;
use core::fmt;

/// A set of types: those whose number of lanes is in the one or the other set, and whose lane is an integer or a float with a
/// width of its set. A number `i` stands for 2^`i` lanes or bits.
#[derive(Clone, Copy, Debug, Default, PartialEq, Eq, Hash)]
pub struct ValueTypeSet {
    /// The numbers of lanes of lanes and vectors.
    pub lanes: ScalarBitSet<u16>,
    /// The least numbers of lanes of dynamic vectors.
    pub dynamic_lanes: ScalarBitSet<u16>,
    /// The widths of integers.
    pub ints: ScalarBitSet<u8>,
    /// The widths of floats.
    pub floats: ScalarBitSet<u8>,
}

impl ValueTypeSet {
    /// Lanes alone, of the kind of this type and with these widths.
    const fn lanes_like(ty: Type, widths: ScalarBitSet<u8>) -> Self {
        let none = ScalarBitSet(0);
        let (ints, floats) = if ty.lane_type().is_int() {
            (widths, none)
        } else {
            (none, widths)
        };
        Self {
            lanes: ScalarBitSet(1),
            dynamic_lanes: ScalarBitSet(0),
            ints,
            floats,
        }
    }

    /// Whether the type is in the set.
    pub const fn contains(self, ty: Type) -> bool {
        if ty.is_invalid() {
            return false;
        }
        let lanes = if ty.is_dynamic_vector() {
            self.dynamic_lanes
        } else {
            self.lanes
        };
        let widths = if ty.lane_type().is_int() {
            self.ints
        } else {
            self.floats
        };
        lanes.contains(ty.log2_min_lane_count() as u8) && widths.contains(ty.log2_lane_bits() as u8)
    }

    /// The types in the set.
    pub fn types(self) -> impl Iterator<Item = Type> {
        Type::all().filter(move |&ty| self.contains(ty))
    }

    /// Whether no type is in the set.
    pub fn is_empty(self) -> bool {
        self.types().next().is_none()
    }
}

/// The controlling types of a use of an instruction.
///
/// It is made from what there is: from a type, from two, or from an `Option` of one.
#[derive(Clone, Copy, Debug, Default, PartialEq, Eq, Hash)]
pub struct Controls {
    /// The control.
    pub first: Option<Type>,
    /// The second control.
    pub second: Option<Type>,
}

impl Controls {
    /// No control, as of an instruction that has one type for each operand.
    pub const NONE: Self = Self {
        first: None,
        second: None,
    };
}

impl From<Type> for Controls {
    fn from(first: Type) -> Self {
        Self {
            first: Some(first),
            second: None,
        }
    }
}

impl From<(Type, Type)> for Controls {
    fn from((first, second): (Type, Type)) -> Self {
        Self {
            first: Some(first),
            second: Some(second),
        }
    }
}

impl From<Option<Type>> for Controls {
    fn from(first: Option<Type>) -> Self {
        Self { first, second: None }
    }
}

/// What the type of an operand has to be, once the controls are known.
#[derive(Clone, Copy, Debug, PartialEq, Eq, Hash)]
pub enum ResolvedConstraint {
    /// This type.
    Bound(Type),
    /// One of this set.
    Free(ValueTypeSet),
}

impl ResolvedConstraint {
    /// Whether the type will do.
    pub fn contains(self, ty: Type) -> bool {
        match self {
            Self::Bound(bound) => bound == ty,
            Self::Free(set) => set.contains(ty),
        }
    }

    /// The type, where it has to be this one.
    pub fn bound(self) -> Option<Type> {
        match self {
            Self::Bound(ty) => Some(ty),
            Self::Free(_) => None,
        }
    }

    /// Whether no type will do.
    fn is_empty(self) -> bool {
        match self {
            Self::Bound(_) => false,
            Self::Free(set) => set.is_empty(),
        }
    }
}

/// What the tables say of the type of an operand. The forms that end in `2` go by the second control, the others of the name by
/// the first.
#[derive(Clone, Copy, Debug, PartialEq, Eq, Hash)]
pub enum OperandConstraint {
    /// This type.
    Concrete(Type),
    /// One of the set at this place in the table of type sets.
    Free(u16),
    /// The control.
    Same,
    /// A lane of the control.
    LaneOf,
    /// What a comparison of two values of the control gives.
    AsTruthy,
    /// The control with lanes of half the width.
    HalfWidth,
    /// The control with lanes of twice the width.
    DoubleWidth,
    /// Twice as many lanes of half the width.
    SplitLanes,
    /// Half as many lanes of twice the width.
    MergeLanes,
    /// The vector of as many lanes as the control has at least.
    DynamicToVector,
    /// A lane of the kind of the control, with fewer bits.
    Narrower,
    /// A lane of the kind of the control, with more bits.
    Wider,
    /// The second control.
    Same2,
    /// As `LaneOf`, of the second control.
    LaneOf2,
    /// As `AsTruthy`, of the second control.
    AsTruthy2,
    /// As `HalfWidth`, of the second control.
    HalfWidth2,
    /// As `DoubleWidth`, of the second control.
    DoubleWidth2,
    /// As `SplitLanes`, of the second control.
    SplitLanes2,
    /// As `MergeLanes`, of the second control.
    MergeLanes2,
    /// As `DynamicToVector`, of the second control.
    DynamicToVector2,
    /// As `Narrower`, of the second control.
    Narrower2,
    /// As `Wider`, of the second control.
    Wider2,
}

impl OperandConstraint {
    /// What the type has to be under these controls, with this table of type sets. `None` where no type will do: the control
    /// that the form needs is missing, or the function gives no type of it. Cranelift panics there.
    pub fn resolve(self, controls: Controls, type_sets: &[ValueTypeSet]) -> Option<ResolvedConstraint> {
        let derived = |ty: Type| Some(ResolvedConstraint::Bound(ty));
        let first = controls.first;
        let second = controls.second;
        match self {
            Self::Concrete(ty) => derived(ty),
            Self::Free(place) => type_sets.get(usize::from(place)).copied().map(ResolvedConstraint::Free),
            Self::Same => derived(first?),
            Self::Same2 => derived(second?),
            Self::LaneOf => derived(first?.lane_of()),
            Self::LaneOf2 => derived(second?.lane_of()),
            Self::AsTruthy => derived(first?.as_truthy()),
            Self::AsTruthy2 => derived(second?.as_truthy()),
            Self::HalfWidth => derived(first?.half_width()?),
            Self::HalfWidth2 => derived(second?.half_width()?),
            Self::DoubleWidth => derived(first?.double_width()?),
            Self::DoubleWidth2 => derived(second?.double_width()?),
            Self::SplitLanes => derived(first?.split_lanes()?),
            Self::SplitLanes2 => derived(second?.split_lanes()?),
            Self::MergeLanes => derived(first?.merge_lanes()?),
            Self::MergeLanes2 => derived(second?.merge_lanes()?),
            Self::DynamicToVector => derived(first?.dynamic_to_vector()?),
            Self::DynamicToVector2 => derived(second?.dynamic_to_vector()?),
            Self::Narrower => Some(narrower(first?)),
            Self::Narrower2 => Some(narrower(second?)),
            Self::Wider => Some(wider(first?)),
            Self::Wider2 => Some(wider(second?)),
        }
    }
}

/// The lanes of the same kind with fewer bits: integers have 8 bits at least, floats 16.
fn narrower(control: Type) -> ResolvedConstraint {
    let least = if control.lane_type().is_int() { 3 } else { 4 };
    let widths = ScalarBitSet::<u8>::from_range(least, control.log2_lane_bits() as u8);
    ResolvedConstraint::Free(ValueTypeSet::lanes_like(control, widths))
}

/// The lanes of the same kind with more bits, 128 at most.
fn wider(control: Type) -> ResolvedConstraint {
    let widths = ScalarBitSet::<u8>::from_range(control.log2_lane_bits() as u8 + 1, 8);
    ResolvedConstraint::Free(ValueTypeSet::lanes_like(control, widths))
}

/// What the tables say of an opcode, in numbers. [`Constraints`] says what they mean.
///
/// This is the entry of version 3 of the text of tables.
#[derive(Clone, Copy, Debug, PartialEq, Eq, Hash)]
pub struct OpcodeConstraints {
    /// From the lowest bit: the number of results in three bits, whether the designated operand controls, whether its type has
    /// to be told, and the number of values in three bits.
    pub flags: u8,
    /// The place of the set of the control, or 65535 where there is no control.
    pub typeset_offset: u16,
    /// The place of the set of the second control, or 65535 where there is none.
    pub second_offset: u16,
    /// The place of the constraint of the first result. Those of the other results and of the values stand after it.
    pub constraint_offset: u16,
}

/// The tables to which the numbers of [`OpcodeConstraints`] point.
#[derive(Clone, Copy, Debug)]
pub struct Tables {
    /// The type sets.
    pub type_sets: &'static [ValueTypeSet],
    /// The sequences of constraints.
    pub operand_constraints: &'static [OperandConstraint],
}

/// Which types the results and values of an opcode can have.
///
/// Operands that are no values, as numbers and blocks, aren't asked for, nor are those of varargs.
#[derive(Clone, Copy, Debug)]
pub struct Constraints {
    entry: OpcodeConstraints,
    tables: Tables,
}

impl Constraints {
    /// What the entry means with these tables.
    pub const fn new(entry: OpcodeConstraints, tables: Tables) -> Self {
        Self { entry, tables }
    }

    /// Whether the control is the type of the designated operand.
    pub const fn use_typevar_operand(self) -> bool {
        self.entry.flags & 0x08 != 0
    }

    /// Whether the control can't be told from the results, and so has to be from the designated operand.
    pub const fn requires_typevar_operand(self) -> bool {
        self.entry.flags & 0x10 != 0
    }

    /// How many results there are, without those of varargs.
    pub const fn num_fixed_results(self) -> usize {
        (self.entry.flags & 0x7) as usize
    }

    /// How many values there are, without those of varargs.
    pub const fn num_fixed_value_arguments(self) -> usize {
        (self.entry.flags >> 5) as usize
    }

    /// Whether there is a control.
    pub fn is_polymorphic(self) -> bool {
        self.ctrl_typeset().is_some()
    }

    /// The types that the control may be, or `None` where there is no control.
    pub fn ctrl_typeset(self) -> Option<ValueTypeSet> {
        self.tables
            .type_sets
            .get(usize::from(self.entry.typeset_offset))
            .copied()
    }

    /// The types that the second control may be, or `None` where there is no second control.
    pub fn second_typeset(self) -> Option<ValueTypeSet> {
        self.tables
            .type_sets
            .get(usize::from(self.entry.second_offset))
            .copied()
    }

    /// Whether these are controls of the opcode: each that it has is of its set, and no other is there.
    pub fn are_controlled_by(self, controls: impl Into<Controls>) -> bool {
        let fits = |set: Option<ValueTypeSet>, ty: Option<Type>| match (set, ty) {
            (Some(set), Some(ty)) => set.contains(ty),
            (None, None) => true,
            _ => false,
        };
        let controls = controls.into();
        fits(self.ctrl_typeset(), controls.first) && fits(self.second_typeset(), controls.second)
    }

    /// What the type of result `n`, from 0, has to be. `None` where no type will do, or there is no such result.
    pub fn result_constraint(self, n: usize, controls: impl Into<Controls>) -> Option<ResolvedConstraint> {
        if n >= self.num_fixed_results() {
            return None;
        }
        self.operand(n)?.resolve(controls.into(), self.tables.type_sets)
    }

    /// What the type of value `n`, from 0, has to be. `None` where no type will do, or there is no such value.
    pub fn value_argument_constraint(self, n: usize, controls: impl Into<Controls>) -> Option<ResolvedConstraint> {
        self.value_argument(n)?.resolve(controls.into(), self.tables.type_sets)
    }

    /// What the tables say of value `n`, from 0. `None` where there is no such value.
    fn value_argument(self, n: usize) -> Option<OperandConstraint> {
        if n >= self.num_fixed_value_arguments() {
            return None;
        }
        self.operand(self.num_fixed_results() + n)
    }

    /// What the tables say of operand `n`, of the results and then the values.
    fn operand(self, n: usize) -> Option<OperandConstraint> {
        let place = usize::from(self.entry.constraint_offset) + n;
        self.tables.operand_constraints.get(place).copied()
    }

    /// Whether the opcode accepts these types under these controls: they are controls of the opcode, and each result and each
    /// value is there and has a type that will do.
    pub fn accepts(self, controls: impl Into<Controls>, results: &[Type], values: &[Type]) -> bool {
        let controls = controls.into();
        let passes = |constraint: Option<ResolvedConstraint>, ty| constraint.is_some_and(|it| it.contains(ty));
        self.are_controlled_by(controls)
            && results.len() == self.num_fixed_results()
            && values.len() == self.num_fixed_value_arguments()
            && (results.iter().enumerate()).all(|(n, &ty)| passes(self.result_constraint(n, controls), ty))
            && (values.iter().enumerate()).all(|(n, &ty)| passes(self.value_argument_constraint(n, controls), ty))
    }

    /// What the types of the results have to be under these controls, in order. `None` where they aren't controls of the
    /// opcode, or where no type will do for a result.
    pub fn infer_results(self, controls: impl Into<Controls>) -> Option<impl Iterator<Item = ResolvedConstraint>> {
        let controls = controls.into();
        let results = (0..self.num_fixed_results()).map(move |n| self.result_constraint(n, controls));
        let told = |it: Option<ResolvedConstraint>| it.is_some_and(|it| !it.is_empty());
        (self.are_controlled_by(controls) && results.clone().all(told)).then(|| results.flatten())
    }

    /// The controls of a use whose first control is known, with values of these types: the second is the type of the first
    /// value that has to be of it. Where only results are of it nothing tells it.
    pub fn controls_of_values(self, first: Option<Type>, values: impl IntoIterator<Item = Type>) -> Controls {
        let told = |(n, ty)| (self.value_argument(n) == Some(OperandConstraint::Same2)).then_some(ty);
        let second = values.into_iter().enumerate().find_map(told);
        Controls { first, second }
    }
}

/// No opcode has the name.
#[derive(Clone, Copy, Debug, PartialEq, Eq)]
pub struct UnknownOpcode;

impl fmt::Display for UnknownOpcode {
    fn fmt(&self, f: &mut fmt::Formatter) -> fmt::Result {
        f.write_str("no opcode has the name")
    }
}

impl core::error::Error for UnknownOpcode {}

#[cfg(test)]
mod tests {
    extern crate std;

    use super::super::types::*;
    use super::*;
    use std::vec::Vec;

    /// Integers of 8 to 64 bits, and then vectors of 4 lanes of floats.
    const TYPE_SETS: [ValueTypeSet; 2] = [
        ValueTypeSet {
            lanes: ScalarBitSet(1),
            dynamic_lanes: ScalarBitSet(0),
            ints: ScalarBitSet(0b0111_1000),
            floats: ScalarBitSet(0),
        },
        ValueTypeSet {
            lanes: ScalarBitSet(4),
            dynamic_lanes: ScalarBitSet(4),
            ints: ScalarBitSet(0),
            floats: ScalarBitSet(0b0110_0000),
        },
    ];

    const OPERAND_CONSTRAINTS: [OperandConstraint; 7] = [
        OperandConstraint::Same,
        OperandConstraint::Narrower,
        OperandConstraint::Same2,
        OperandConstraint::HalfWidth,
        OperandConstraint::Same,
        OperandConstraint::Concrete(I64),
        OperandConstraint::Free(1),
    ];

    fn constraints(flags: u8, typeset_offset: u16, second_offset: u16, constraint_offset: u16) -> Constraints {
        let entry = OpcodeConstraints {
            flags,
            typeset_offset,
            second_offset,
            constraint_offset,
        };
        Constraints::new(
            entry,
            Tables {
                type_sets: &TYPE_SETS,
                operand_constraints: &OPERAND_CONSTRAINTS,
            },
        )
    }

    /// One result of the control, a value that is narrower and one of the second control.
    fn shift() -> Constraints {
        constraints(0x49, 0, 0, 0)
    }

    #[test]
    fn a_set_has_what_its_masks_say() {
        assert!(TYPE_SETS[0].types().eq([I8, I16, I32, I64]));
        assert!(TYPE_SETS[1].types().eq([F32X4, F32X4XN, F64X4, F64X4XN]));
        assert!(!TYPE_SETS[0].contains(INVALID) && ValueTypeSet::default().is_empty());
    }

    #[test]
    fn flags_are_read() {
        let split = constraints(0x3a, 0, 65535, 3);
        assert!(split.use_typevar_operand() && split.requires_typevar_operand() && split.is_polymorphic());
        assert_eq!((split.num_fixed_results(), split.num_fixed_value_arguments()), (2, 1));
        assert!(shift().use_typevar_operand() && !shift().requires_typevar_operand());
        assert_eq!(
            (split.second_typeset(), shift().second_typeset()),
            (None, Some(TYPE_SETS[0]))
        );
    }

    #[test]
    fn types_are_accepted_that_the_controls_leave() {
        assert!(shift().accepts((I32, I64), &[I32], &[I16, I64]));
        assert!(!shift().accepts((I32, I64), &[I32], &[I32, I64]));
        assert!(!shift().accepts((I32, I64), &[I32], &[I16, I32]));
        assert!(!shift().accepts((I32, I64), &[I32], &[I16]));
        assert!(!shift().accepts((I32, I64), &[], &[I16, I64]));
        assert!(!shift().accepts(I32, &[I32], &[I16, I64]));
        assert!(!shift().accepts((I128, I64), &[I128], &[I16, I64]));
        assert!(!shift().accepts(Controls::NONE, &[I32], &[I16, I64]));
    }

    #[test]
    fn nothing_is_accepted_where_a_type_cannot_be_derived() {
        let half = constraints(0x01, 0, 65535, 3);
        assert!(half.accepts(I16, &[I8], &[]));
        assert!(!Type::all().any(|ty| half.accepts(I8, &[ty], &[])));
        assert!(half.infer_results(I8).is_none());
        assert!(constraints(0x01, 0, 65535, 1).infer_results(I8).is_none());
    }

    #[test]
    fn results_are_told_or_left_open() {
        let results = |it: Constraints, controls: Controls| it.infer_results(controls).map(Vec::from_iter);
        let bound = ResolvedConstraint::Bound;
        assert_eq!(results(shift(), (I32, I8).into()), Some(std::vec![bound(I32)]));
        assert_eq!(results(shift(), I32.into()), None);
        let open = constraints(0x02, 65535, 65535, 5);
        let set = ResolvedConstraint::Free(TYPE_SETS[1]);
        assert_eq!(results(open, Controls::NONE), Some(std::vec![bound(I64), set]));
        assert_eq!(set.bound(), None);
        assert_eq!(
            results(constraints(0x00, 65535, 65535, 0), None.into()),
            Some(std::vec![])
        );
    }

    #[test]
    fn values_tell_the_second_control() {
        assert_eq!(shift().controls_of_values(Some(I32), [I16, I64]), (I32, I64).into());
        assert_eq!(shift().controls_of_values(Some(I32), [I16]), I32.into());
    }

    #[test]
    fn narrower_and_wider_are_lanes_of_the_kind() {
        let types = |it: OperandConstraint, controls: Controls| match it.resolve(controls, &[]) {
            Some(ResolvedConstraint::Free(set)) => set.types().collect(),
            _ => Vec::new(),
        };
        assert_eq!(types(OperandConstraint::Narrower, I64.into()), [I8, I16, I32]);
        assert_eq!(types(OperandConstraint::Narrower2, (I8, F64).into()), [F16, F32]);
        assert_eq!(types(OperandConstraint::Wider, F32.into()), [F64, F128]);
        assert_eq!(types(OperandConstraint::Wider2, (F16, I128).into()), []);
    }

    #[test]
    fn tables_that_end_too_early_accept_nothing() {
        assert!(constraints(0x01, 0, 65535, 7).infer_results(I8).is_none());
        assert_eq!(OperandConstraint::Free(2).resolve(Controls::NONE, &TYPE_SETS), None);
    }
}
