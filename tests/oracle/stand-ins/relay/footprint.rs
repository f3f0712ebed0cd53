//! Stand-in for the reckoning of allocations: pair lists by their bytes, and places not at all,
//! save that a table of P places has no room for one more.

/// An ask that every gauge refuses.
const NO_ROOM: usize = 1 << 40;

/// The bytes of a list with room for `capacity`.
pub const fn vec<T>(capacity: usize) -> usize {
    capacity * size_of::<T>()
}

/// The most that one ask of the book may want, so that a place lists no more than `pairs`.
///
/// A full list asks for twice its capacity c, and c is at most `pairs` while the list is shorter
/// than `pairs`, so what is granted is below twice `pairs`. A list of `pairs` asks too (the second
/// edit), full or not, and its c is at least `pairs`, so what is refused is not below.
pub const fn most_for_pairs(pairs: usize) -> usize {
    vec::<(u32, u32)>(2 * pairs) - 1
}

pub const fn table_planned<K, V>(_places: usize) -> usize {
    0
}

pub fn capacity_of(_buckets: usize) -> usize {
    0
}

/// The table of a class's places.
#[derive(Default)]
pub struct Table;

impl Table {
    pub fn buckets(&self) -> usize {
        0
    }

    pub fn bytes<K, V>(&self) -> usize {
        0
    }

    /// What one place more asks for: nothing, or more than there is once P are used.
    pub fn growth<K, V>(&self, used: usize, _capacity: usize) -> usize {
        if used < crate::stage::get().places {
            0
        } else {
            NO_ROOM
        }
    }

    pub fn inserted(&mut self, _capacity: usize) {}

    pub fn shrinking<K, V>(&self, _used: usize, _to: usize) -> usize {
        0
    }

    pub fn shrunk<K, V>(&mut self, _used: usize, _to: usize) {}
}
