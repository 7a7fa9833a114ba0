//! The look-up of a name in the slots that the tables hold.

/// The hash by which the slots of the tables were filled.
pub fn simple_hash(name: &str) -> usize {
    let step = |hash: u32, c| (hash ^ u32::from(c)).wrapping_add(hash.rotate_right(6));
    name.chars().fold(5381, step) as usize
}

/// The slot of a name among `slots` slots, as many as a power of two, where `name_in` answers the name that a slot holds, or
/// `None` where it is vacant. `None` where no slot has the name.
///
/// Each step goes one slot further than the one before. The search ends at a vacant slot, or after as many steps as there are
/// slots.
pub fn probe<'a>(slots: usize, name: &str, name_in: impl Fn(usize) -> Option<&'a str>) -> Option<usize> {
    let mask = slots.checked_sub(1)?;
    let mut slot = simple_hash(name) & mask;
    for step in 1..=slots {
        if name_in(slot)? == name {
            return Some(slot);
        }
        slot = (slot + step) & mask;
    }
    None
}

#[cfg(test)]
mod tests {
    use super::{probe, simple_hash};

    #[test]
    fn the_hash_is_the_one_of_the_tables() {
        // The hash of no signs, and that of one, by hand: 5381 ^ 97 is 5476, and 5381 turned by 6 is 84 with 5 in its highest bits.
        assert_eq!(simple_hash(""), 5381);
        assert_eq!(simple_hash("a"), 5476 + 84 + (5 << 26));
    }

    #[test]
    fn a_name_is_found_after_steps_that_grow() {
        let first = simple_hash("here") & 7;
        let slots = [first, (first + 1) & 7, (first + 3) & 7];
        let name_in = |slot| match slots.iter().position(|&it| it == slot)? {
            2 => Some("here"),
            _ => Some("other"),
        };
        assert_eq!(probe(8, "here", name_in), Some(slots[2]));
        assert_eq!(probe(8, "here", |slot| (slot == first).then_some("other")), None);
    }

    #[test]
    fn slots_without_a_vacant_one_end() {
        assert_eq!(probe(4, "none", |_| Some("other")), None);
        assert_eq!(probe(0, "none", |_| Some("other")), None);
    }
}
