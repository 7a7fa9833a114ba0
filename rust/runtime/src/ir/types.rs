//! The types of values: lanes, which are integers and floats; vectors of lanes; and dynamic vectors, of which the least number of
//! lanes is known.
//!
//! There is a constant for each of them, by its name in capitals: [`I8`], [`F32X4`], [`I32X4XN`]. Cranelift has constants for
//! those of at most 512 bits.

use core::fmt;
use core::str::FromStr;

/// The type of a value, or [`INVALID`].
///
/// It is kept as a number: of a lane from 0x74 on, with 0x10 more for each doubling of its lanes, and 0x80 more where these are
/// the least number of a dynamic vector.
#[derive(Clone, Copy, Default, PartialEq, Eq, Hash)]
pub struct Type(u16);

/// No type. It has no lanes and no bits, and it is the default.
pub const INVALID: Type = Type(0);

/// The number of a lane, without its lowest four bits.
const LANE_BASE: u16 = 0x70;
/// The least number of a vector.
const VECTOR_BASE: u16 = 0x80;
/// The least number of a dynamic vector.
const DYNAMIC_VECTOR_BASE: u16 = 0x100;
/// What makes a vector a dynamic one.
const DYNAMIC: u16 = 0x80;
/// What doubles the number of lanes.
const DOUBLED: u16 = 0x10;
/// The greatest number of lanes is 2 to this.
const MAX_LOG2_LANES: u32 = 8;

macro_rules! types {
    ($(
        $lane:ident = $number:literal, $name:literal:
            [$x2:ident $x4:ident $x8:ident $x16:ident $x32:ident $x64:ident $x128:ident $x256:ident]
            [$n2:ident $n4:ident $n8:ident $n16:ident $n32:ident $n64:ident $n128:ident $n256:ident];
    )*) => {
        $(
            #[doc = concat!("The type `", $name, "`.")]
            pub const $lane: Type = Type($number);
            types! { @vectors $lane $name $x2 1 2, $x4 2 4, $x8 3 8, $x16 4 16, $x32 5 32, $x64 6 64, $x128 7 128, $x256 8 256 }
            types! { @dynamic $lane $name $n2 1 2, $n4 2 4, $n8 3 8, $n16 4 16, $n32 5 32, $n64 6 64, $n128 7 128, $n256 8 256 }
        )*

        /// The types of one lane, with their names.
        const LANES: [(Type, &str); 9] = [$(($lane, $name)),*];
    };
    (@vectors $lane:ident $name:literal $($vector:ident $log2:literal $count:literal),*) => { $(
        #[doc = concat!("A vector of ", $count, " lanes of `", $name, "`.")]
        pub const $vector: Type = $lane.with_lanes($log2, false);
    )* };
    (@dynamic $lane:ident $name:literal $($vector:ident $log2:literal $count:literal),*) => { $(
        #[doc = concat!("A dynamic vector of at least ", $count, " lanes of `", $name, "`.")]
        pub const $vector: Type = $lane.with_lanes($log2, true);
    )* };
}

types! {
    I8 = 0x74, "i8":
        [I8X2 I8X4 I8X8 I8X16 I8X32 I8X64 I8X128 I8X256]
        [I8X2XN I8X4XN I8X8XN I8X16XN I8X32XN I8X64XN I8X128XN I8X256XN];
    I16 = 0x75, "i16":
        [I16X2 I16X4 I16X8 I16X16 I16X32 I16X64 I16X128 I16X256]
        [I16X2XN I16X4XN I16X8XN I16X16XN I16X32XN I16X64XN I16X128XN I16X256XN];
    I32 = 0x76, "i32":
        [I32X2 I32X4 I32X8 I32X16 I32X32 I32X64 I32X128 I32X256]
        [I32X2XN I32X4XN I32X8XN I32X16XN I32X32XN I32X64XN I32X128XN I32X256XN];
    I64 = 0x77, "i64":
        [I64X2 I64X4 I64X8 I64X16 I64X32 I64X64 I64X128 I64X256]
        [I64X2XN I64X4XN I64X8XN I64X16XN I64X32XN I64X64XN I64X128XN I64X256XN];
    I128 = 0x78, "i128":
        [I128X2 I128X4 I128X8 I128X16 I128X32 I128X64 I128X128 I128X256]
        [I128X2XN I128X4XN I128X8XN I128X16XN I128X32XN I128X64XN I128X128XN I128X256XN];
    F16 = 0x79, "f16":
        [F16X2 F16X4 F16X8 F16X16 F16X32 F16X64 F16X128 F16X256]
        [F16X2XN F16X4XN F16X8XN F16X16XN F16X32XN F16X64XN F16X128XN F16X256XN];
    F32 = 0x7a, "f32":
        [F32X2 F32X4 F32X8 F32X16 F32X32 F32X64 F32X128 F32X256]
        [F32X2XN F32X4XN F32X8XN F32X16XN F32X32XN F32X64XN F32X128XN F32X256XN];
    F64 = 0x7b, "f64":
        [F64X2 F64X4 F64X8 F64X16 F64X32 F64X64 F64X128 F64X256]
        [F64X2XN F64X4XN F64X8XN F64X16XN F64X32XN F64X64XN F64X128XN F64X256XN];
    F128 = 0x7c, "f128":
        [F128X2 F128X4 F128X8 F128X16 F128X32 F128X64 F128X128 F128X256]
        [F128X2XN F128X4XN F128X8XN F128X16XN F128X32XN F128X64XN F128X128XN F128X256XN];
}

impl Type {
    /// All types: the lanes, their vectors and their dynamic vectors.
    pub fn all() -> impl Iterator<Item = Type> {
        LANES.into_iter().flat_map(|(lane, _)| {
            let fixed = (0..=MAX_LOG2_LANES).map(move |log2| lane.with_lanes(log2, false));
            fixed.chain((1..=MAX_LOG2_LANES).map(move |log2| lane.with_lanes(log2, true)))
        })
    }

    /// The number by which a type is kept.
    pub const fn repr(self) -> u16 {
        self.0
    }

    /// The type of this number, or `None` where no type has it.
    pub fn from_repr(number: u16) -> Option<Type> {
        Type::all().find(|ty| ty.0 == number)
    }

    /// The integer with this number of bits, if there is one.
    pub const fn int(bits: u16) -> Option<Type> {
        match bits {
            8 => Some(I8),
            16 => Some(I16),
            32 => Some(I32),
            64 => Some(I64),
            128 => Some(I128),
            _ => None,
        }
    }

    /// The vector of 2^`log2` of this lane, or of at least that number.
    const fn with_lanes(self, log2: u32, dynamic: bool) -> Type {
        Type(self.0 + log2 as u16 * DOUBLED + if dynamic { DYNAMIC } else { 0 })
    }

    /// Whether this is no type.
    pub const fn is_invalid(self) -> bool {
        self.0 == INVALID.0
    }

    /// Whether it is an integer or a float, and no vector.
    pub const fn is_lane(self) -> bool {
        LANE_BASE <= self.0 && self.0 < VECTOR_BASE
    }

    /// Whether it is a vector with a fixed number of lanes, two or more.
    pub const fn is_vector(self) -> bool {
        VECTOR_BASE <= self.0 && self.0 < DYNAMIC_VECTOR_BASE
    }

    /// Whether it is a vector of which only the least number of lanes is known.
    pub const fn is_dynamic_vector(self) -> bool {
        self.0 >= DYNAMIC_VECTOR_BASE
    }

    /// Whether it is an integer, and no vector.
    pub const fn is_int(self) -> bool {
        I8.0 <= self.0 && self.0 <= I128.0
    }

    /// Whether it is a float, and no vector.
    pub const fn is_float(self) -> bool {
        F16.0 <= self.0 && self.0 <= F128.0
    }

    /// The type of a lane.
    pub const fn lane_type(self) -> Type {
        if self.is_invalid() {
            return self;
        }
        Type(LANE_BASE | self.0 & 0xf)
    }

    /// The type of a lane, as the function of declarations is called.
    pub const fn lane_of(self) -> Type {
        self.lane_type()
    }

    /// The logarithm of the bits of a lane.
    pub const fn log2_lane_bits(self) -> u32 {
        let lane = self.lane_type();
        if lane.is_int() {
            (lane.0 - I8.0) as u32 + 3
        } else if lane.is_float() {
            (lane.0 - F16.0) as u32 + 4
        } else {
            0
        }
    }

    /// How many bits a lane has.
    pub const fn lane_bits(self) -> u32 {
        if self.is_invalid() {
            return 0;
        }
        1 << self.log2_lane_bits()
    }

    /// The logarithm of the number of lanes, which is 0 where that isn't fixed.
    pub const fn log2_lane_count(self) -> u32 {
        if self.is_dynamic_vector() {
            return 0;
        }
        self.log2_min_lane_count()
    }

    /// The logarithm of the number of lanes, or of the least number where that isn't fixed.
    pub const fn log2_min_lane_count(self) -> u32 {
        let fixed = if self.is_dynamic_vector() {
            self.0 - DYNAMIC
        } else {
            self.0
        };
        (fixed.saturating_sub(LANE_BASE) / DOUBLED) as u32
    }

    /// How many lanes there are: 1 of a type that is no vector, and 0 where the number isn't fixed.
    pub const fn lane_count(self) -> u32 {
        if self.is_dynamic_vector() {
            return 0;
        }
        self.min_lane_count()
    }

    /// How many lanes there are at least.
    pub const fn min_lane_count(self) -> u32 {
        1 << self.log2_min_lane_count()
    }

    /// How many bits there are, which is 0 where that isn't fixed.
    pub const fn bits(self) -> u32 {
        self.lane_bits() * self.lane_count()
    }

    /// How many bits there are at least.
    pub const fn min_bits(self) -> u32 {
        self.lane_bits() * self.min_lane_count()
    }

    /// How many bytes there are, which is 0 where that isn't fixed.
    pub const fn bytes(self) -> u32 {
        self.bits() / 8
    }

    /// The vector of `n` times as many lanes, if there is one. A dynamic vector has none.
    pub const fn by(self, n: u32) -> Option<Type> {
        if self.is_invalid() || self.is_dynamic_vector() || !n.is_power_of_two() {
            return None;
        }
        let log2 = self.log2_lane_count() + n.trailing_zeros();
        if log2 > MAX_LOG2_LANES {
            return None;
        }
        Some(self.lane_type().with_lanes(log2, false))
    }

    /// The same with other lanes.
    const fn replace_lanes(self, lane: Type) -> Type {
        lane.with_lanes(self.log2_min_lane_count(), self.is_dynamic_vector())
    }

    /// The same with integers as wide as the lanes are.
    pub const fn as_int(self) -> Type {
        if self.is_invalid() {
            return self;
        }
        self.replace_lanes(Type(I8.0 + self.log2_lane_bits() as u16 - 3))
    }

    /// What a comparison of two values of the type gives: `i8` of lanes, and of vectors the integers of the same width.
    ///
    /// As Ciderlater defines it that of a dynamic vector is a dynamic vector, and not `i8`.
    pub const fn as_truthy(self) -> Type {
        if !self.is_vector() && !self.is_dynamic_vector() {
            return I8;
        }
        self.as_int()
    }

    /// The same with lanes of half the width, if there are such lanes.
    pub const fn half_width(self) -> Option<Type> {
        match self.lane_type() {
            INVALID | I8 | F16 => None,
            lane => Some(self.replace_lanes(Type(lane.0 - 1))),
        }
    }

    /// The same with lanes of twice the width, if there are such lanes.
    pub const fn double_width(self) -> Option<Type> {
        match self.lane_type() {
            INVALID | I128 | F128 => None,
            lane => Some(self.replace_lanes(Type(lane.0 + 1))),
        }
    }

    /// Twice as many lanes of half the width. `None` where lanes would be narrower than any type, or more than 256.
    pub const fn split_lanes(self) -> Option<Type> {
        match self.half_width() {
            Some(half) if half.log2_min_lane_count() < MAX_LOG2_LANES => Some(Type(half.0 + DOUBLED)),
            _ => None,
        }
    }

    /// Half as many lanes of twice the width. `None` where lanes would be wider than any type, or fewer than one, or than two of a
    /// dynamic vector.
    pub const fn merge_lanes(self) -> Option<Type> {
        let least = if self.is_dynamic_vector() { 2 } else { 1 };
        match self.double_width() {
            Some(double) if double.log2_min_lane_count() >= least => Some(Type(double.0 - DOUBLED)),
            _ => None,
        }
    }

    /// The vector of as many lanes as a dynamic vector has at least.
    ///
    /// As Ciderlater defines it a dynamic vector of at least 256 lanes has none.
    pub const fn dynamic_to_vector(self) -> Option<Type> {
        if self.is_dynamic_vector() && self.log2_min_lane_count() < MAX_LOG2_LANES {
            return Some(Type(self.0 - DYNAMIC));
        }
        None
    }

    /// The name of the type of a lane.
    fn lane_name(self) -> &'static str {
        let lane = self.lane_type();
        LANES
            .iter()
            .find(|(it, _)| *it == lane)
            .map_or("invalid", |(_, name)| name)
    }
}

/// The name by which declarations know the type, as `i32x4` or `i32x4xN`, or `invalid`.
impl fmt::Display for Type {
    fn fmt(&self, f: &mut fmt::Formatter) -> fmt::Result {
        f.write_str(self.lane_name())?;
        if self.min_lane_count() > 1 {
            write!(f, "x{}", self.min_lane_count())?;
        }
        f.write_str(if self.is_dynamic_vector() { "xN" } else { "" })
    }
}

/// The path of the constant, as `types::I32X4`.
impl fmt::Debug for Type {
    fn fmt(&self, f: &mut fmt::Formatter) -> fmt::Result {
        f.write_str("types::")?;
        for c in self.lane_name().chars() {
            write!(f, "{}", c.to_ascii_uppercase())?;
        }
        if self.min_lane_count() > 1 {
            write!(f, "X{}", self.min_lane_count())?;
        }
        f.write_str(if self.is_dynamic_vector() { "XN" } else { "" })
    }
}

/// No type has the name.
#[derive(Clone, Copy, Debug, PartialEq, Eq)]
pub struct UnknownType;

impl fmt::Display for UnknownType {
    fn fmt(&self, f: &mut fmt::Formatter) -> fmt::Result {
        f.write_str("no type has the name")
    }
}

impl core::error::Error for UnknownType {}

/// Reads the name that `Display` writes, and no other: `i32x1`, `i32x04` and `invalid` are no types.
impl FromStr for Type {
    type Err = UnknownType;

    fn from_str(name: &str) -> Result<Self, UnknownType> {
        parse(name).ok_or(UnknownType)
    }
}

fn parse(name: &str) -> Option<Type> {
    let (fixed, dynamic) = match name.strip_suffix("xN") {
        Some(fixed) => (fixed, true),
        None => (name, false),
    };
    let (lane, count) = match fixed.split_once('x') {
        Some((lane, count)) => (lane, Some(count)),
        None => (fixed, None),
    };
    let (lane, _) = LANES.into_iter().find(|(_, name)| *name == lane)?;
    let log2 = match count {
        Some(count) => {
            ["2", "4", "8", "16", "32", "64", "128", "256"]
                .iter()
                .position(|it| *it == count)? as u32
                + 1
        }
        None if dynamic => return None,
        None => 0,
    };
    Some(lane.with_lanes(log2, dynamic))
}

#[cfg(test)]
mod tests {
    extern crate std;

    use super::*;
    use std::string::ToString;

    #[test]
    fn there_are_153_types_with_names_of_their_own() {
        assert_eq!(Type::all().count(), 153);
        for ty in Type::all() {
            assert_eq!(ty.to_string().parse(), Ok(ty));
            assert_eq!(Type::from_repr(ty.repr()), Some(ty));
            assert_eq!(
                std::format!("{ty:?}"),
                std::format!("types::{}", ty.to_string().to_uppercase())
            );
        }
        for name in [
            "",
            "i",
            "i7",
            "i32x",
            "i32x1",
            "i32x3",
            "i32x04",
            "i32x512",
            "i32xN",
            "i32x4xn",
            "i32x4xNxN",
            "invalid",
        ] {
            assert_eq!(name.parse::<Type>(), Err(UnknownType), "{name}");
        }
        assert_eq!(
            [0, 0x70, 0x7d, 0x84, 0x17d].map(Type::from_repr),
            [None, None, None, Some(I8X2), None]
        );
    }

    #[test]
    fn numbers_are_those_of_the_tables() {
        let numbers = [I8, F128, I8X2, I8X2XN, F128X4XN, I32X4, F64X16].map(Type::repr);
        assert_eq!(numbers, [0x74, 0x7c, 0x84, 0x104, 0x11c, 0x96, 0xbb]);
    }

    #[test]
    fn a_type_knows_its_lanes_and_bits() {
        assert_eq!(
            (I16X8.lane_type(), I16X8.lane_count(), I16X8.lane_bits(), I16X8.bits()),
            (I16, 8, 16, 128)
        );
        assert_eq!(
            (
                F32X4XN.lane_count(),
                F32X4XN.min_lane_count(),
                F32X4XN.bits(),
                F32X4XN.min_bits()
            ),
            (0, 4, 0, 128)
        );
        assert_eq!(
            (I128.log2_lane_bits(), F16.log2_lane_bits(), F128X256.log2_lane_count()),
            (7, 4, 8)
        );
        assert!(I8.is_int() && I8.is_lane() && !I8.is_vector() && !I8X2.is_int() && I8X2.is_vector());
        assert!(F64.is_float() && !I64.is_float() && F64X2XN.is_dynamic_vector() && !F64X2XN.is_vector());
        assert_eq!(
            (I64.by(2), I64X128.by(4), I64X2XN.by(2), I64.by(3)),
            (Some(I64X2), None, None, None)
        );
        assert_eq!((Type::int(64), Type::int(24)), (Some(I64), None));
    }

    #[test]
    fn derived_types_are_those_of_the_declarations() {
        assert_eq!(
            [I64, F32, F64X2, F32X4XN].map(Type::as_truthy),
            [I8, I8, I64X2, I32X4XN]
        );
        assert_eq!(
            [I16, I8, F16, F64X2].map(Type::half_width),
            [Some(I8), None, None, Some(F32X2)]
        );
        assert_eq!(
            [I64, I128, F128X2, F16X4XN].map(Type::double_width),
            [Some(I128), None, None, Some(F32X4XN)]
        );
        assert_eq!(
            [I32X4, I32, I32X256, I8].map(Type::split_lanes),
            [Some(I16X8), Some(I16X2), None, None]
        );
        assert_eq!(
            [I32X4, I32X2, I32, I32X2XN].map(Type::merge_lanes),
            [Some(I64X2), Some(I64), None, None]
        );
        assert_eq!(
            [I32X4XN, I32X4, I8X256XN].map(Type::dynamic_to_vector),
            [Some(I32X4), None, None]
        );
        assert_eq!([F32X4, I8, F128X2XN].map(Type::as_int), [I32X4, I8, I128X2XN]);
    }

    #[test]
    fn nothing_is_derived_from_no_type() {
        assert_eq!(Type::default(), INVALID);
        assert_eq!(
            (INVALID.lane_of(), INVALID.as_int(), INVALID.as_truthy()),
            (INVALID, INVALID, I8)
        );
        assert_eq!(
            (INVALID.lane_bits(), INVALID.bits(), INVALID.log2_lane_bits()),
            (0, 0, 0)
        );
        assert_eq!(
            (INVALID.half_width(), INVALID.double_width(), INVALID.by(2)),
            (None, None, None)
        );
        assert_eq!(
            (
                INVALID.split_lanes(),
                INVALID.merge_lanes(),
                INVALID.dynamic_to_vector()
            ),
            (None, None, None)
        );
        assert_eq!(INVALID.to_string(), "invalid");
    }
}
