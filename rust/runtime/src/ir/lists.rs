//! Lists of values, which a pool keeps, and calls of blocks.

use super::{Block, Value};
use alloc::vec::Vec;

/// The values of all lists of a data flow graph.
pub type ValueListPool = Vec<Vec<Value>>;

/// A list of values, which a pool keeps. The empty list is the default, and takes no place in the pool.
#[derive(Clone, Copy, Debug, Default, PartialEq, Eq, Hash)]
pub struct ValueList(
    /// 0 is the empty list, and other numbers are places in the pool, from 1.
    u32,
);

impl ValueList {
    /// The list of these values.
    pub fn from_values(values: impl IntoIterator<Item = Value>, pool: &mut ValueListPool) -> Self {
        let mut list = Self::default();
        list.extend(values, pool);
        list
    }

    /// The values.
    pub fn as_slice(self, pool: &ValueListPool) -> &[Value] {
        self.place().map_or(&[], |place| &pool[place])
    }

    /// The values, which can be changed.
    pub fn as_mut_slice(self, pool: &mut ValueListPool) -> &mut [Value] {
        self.place().map_or(&mut [], |place| &mut pool[place])
    }

    /// How many values there are.
    pub fn len(self, pool: &ValueListPool) -> usize {
        self.as_slice(pool).len()
    }

    /// Whether there are no values.
    pub fn is_empty(self, pool: &ValueListPool) -> bool {
        self.as_slice(pool).is_empty()
    }

    /// The value at this place, from 0, or `None` past the end.
    pub fn get(self, index: usize, pool: &ValueListPool) -> Option<Value> {
        self.as_slice(pool).get(index).copied()
    }

    /// Adds a value at the end.
    pub fn push(&mut self, value: Value, pool: &mut ValueListPool) {
        self.extend([value], pool);
    }

    /// Adds values at the end.
    ///
    /// # Panics
    ///
    /// If the pool has 2^32 - 1 lists, and one more is needed.
    pub fn extend(&mut self, values: impl IntoIterator<Item = Value>, pool: &mut ValueListPool) {
        let mut values = values.into_iter().peekable();
        if values.peek().is_none() {
            return;
        }
        let place = self.place().unwrap_or_else(|| {
            pool.push(Vec::new());
            self.0 = u32::try_from(pool.len()).expect("a pool has less than 2^32 lists");
            pool.len() - 1
        });
        pool[place].extend(values);
    }

    /// Another list of the same values.
    pub fn deep_clone(self, pool: &mut ValueListPool) -> Self {
        let values = self.as_slice(pool).to_vec();
        Self::from_values(values, pool)
    }

    fn place(self) -> Option<usize> {
        (self.0 as usize).checked_sub(1)
    }
}

/// What is handed to a block.
#[derive(Clone, Copy, Debug, PartialEq, Eq, Hash)]
pub enum BlockArg {
    /// A value.
    Value(Value),
}

impl From<Value> for BlockArg {
    fn from(value: Value) -> Self {
        Self::Value(value)
    }
}

/// A block with what is handed to it.
#[derive(Clone, Copy, Debug, PartialEq, Eq, Hash)]
pub struct BlockCall {
    block: Block,
    values: ValueList,
}

impl BlockCall {
    /// The block with these arguments.
    pub fn new(block: Block, args: impl IntoIterator<Item = BlockArg>, pool: &mut ValueListPool) -> Self {
        let values = args.into_iter().map(|BlockArg::Value(value)| value);
        Self {
            block,
            values: ValueList::from_values(values, pool),
        }
    }

    /// The block. Cranelift keeps it in the pool, so the pool is asked for.
    pub fn block(&self, _pool: &ValueListPool) -> Block {
        self.block
    }

    /// The arguments.
    pub fn args<'a>(&self, pool: &'a ValueListPool) -> impl ExactSizeIterator<Item = BlockArg> + use<'a> {
        self.values.as_slice(pool).iter().copied().map(BlockArg::Value)
    }

    /// Another call of the same block with the same arguments.
    pub fn deep_clone(&self, pool: &mut ValueListPool) -> Self {
        Self {
            block: self.block,
            values: self.values.deep_clone(pool),
        }
    }
}

#[cfg(test)]
mod tests {
    use super::*;

    #[test]
    fn a_list_keeps_its_values_in_the_pool() {
        let mut pool = ValueListPool::new();
        let [a, b, c] = [1, 2, 3].map(Value::from_u32);
        let mut list = ValueList::default();
        list.extend([], &mut pool);
        assert!(list.is_empty(&pool) && pool.is_empty() && list.as_mut_slice(&mut pool).is_empty());
        list.push(a, &mut pool);
        list.extend([b], &mut pool);
        let copy = list.deep_clone(&mut pool);
        list.as_mut_slice(&mut pool)[0] = c;
        assert_eq!((list.as_slice(&pool), copy.as_slice(&pool)), (&[c, b][..], &[a, b][..]));
        assert_eq!(
            (list.len(&pool), list.get(1, &pool), list.get(2, &pool)),
            (2, Some(b), None)
        );
    }

    #[test]
    fn a_call_of_a_block_keeps_what_is_handed_to_it() {
        let mut pool = ValueListPool::new();
        let value = BlockArg::from(Value::from_u32(7));
        let call = BlockCall::new(Block::from_u32(3), [value, value], &mut pool);
        let copy = call.deep_clone(&mut pool);
        assert_eq!(copy.block(&pool), Block::from_u32(3));
        assert!(copy.args(&pool).eq([value, value]) && copy != call);
    }
}
