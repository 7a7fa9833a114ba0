//! Sets of small numbers.

/// A set of small numbers: bit `i` says whether `i` is in it.
#[derive(Clone, Copy, Debug, Default, PartialEq, Eq, Hash)]
pub struct ScalarBitSet<T>(pub T);

macro_rules! scalar_bit_sets {
    ($($bits:ty)*) => { $(
        impl ScalarBitSet<$bits> {
            /// The numbers from `low` up to but without `high`.
            ///
            /// # Panics
            ///
            /// If `high` is more than the bits of the set.
            pub const fn from_range(low: u8, high: u8) -> Self {
                assert!((high as u32) <= <$bits>::BITS, "a number past the bits of the set");
                let mut bits = 0;
                let mut i = low;
                while i < high {
                    bits |= 1 << i;
                    i += 1;
                }
                Self(bits)
            }

            /// Whether `i` is in the set. No number past its bits is.
            pub const fn contains(self, i: u8) -> bool {
                (i as u32) < <$bits>::BITS && self.0 >> i & 1 == 1
            }

            /// Whether no number is in the set.
            pub const fn is_empty(self) -> bool {
                self.0 == 0
            }

            /// How many numbers are in the set.
            pub const fn len(self) -> u32 {
                self.0.count_ones()
            }

            /// The numbers in the set, the least first.
            pub fn iter(self) -> impl Iterator<Item = u8> {
                (0..<$bits>::BITS as u8).filter(move |&i| self.contains(i))
            }
        }
    )* };
}

scalar_bit_sets!(u8 u16);

#[cfg(test)]
mod tests {
    use super::ScalarBitSet;

    #[test]
    fn a_bit_stands_for_its_number() {
        let set = ScalarBitSet::<u16>(0b1000_0000_0000_0101);
        assert!(set.contains(0) && set.contains(2) && set.contains(15));
        assert!(!set.contains(1) && !set.contains(16) && !set.contains(255));
        assert!(set.iter().eq([0, 2, 15]));
        assert_eq!(set.len(), 3);
    }

    #[test]
    fn a_range_is_without_its_end() {
        assert_eq!(ScalarBitSet::<u8>::from_range(3, 6), ScalarBitSet(0b0011_1000));
        assert_eq!(ScalarBitSet::<u8>::from_range(0, 8), ScalarBitSet(0xff));
        assert!(ScalarBitSet::<u8>::from_range(4, 4).is_empty());
        assert!(ScalarBitSet::<u8>::from_range(5, 4).is_empty());
    }
}
