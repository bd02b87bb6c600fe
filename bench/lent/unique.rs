//! A list of sets without repeats, of fixed room. Sets are never empty.

use std::mem::MaybeUninit;

/// There is no room for another set.
pub struct Overflow;

pub struct Unique {
    sets: [MaybeUninit<u32>; Unique::ROOM],
    /// Open addressing with linear probing; a slot of 0 is free. Only the first `size` slots are in use, a power of two.
    slots: [MaybeUninit<u32>; 2 * Unique::ROOM],
    count: MaybeUninit<usize>,
    size: MaybeUninit<usize>,
}

impl Unique {
    pub const ROOM: usize = 4096;
    const SMALLEST: usize = 64;

    pub fn clear(&mut self) {
        self.count.write(0);
        self.clear_slots(Unique::SMALLEST);
    }

    fn clear_slots(&mut self, size: usize) {
        self.size.write(size);
        self.slots[..size].fill(MaybeUninit::new(0));
    }

    /// The sets, after the list was cleared once.
    pub fn sets(&self) -> &[u32] {
        unsafe { std::slice::from_raw_parts(self.sets.as_ptr() as *const u32, self.count.assume_init()) }
    }

    #[inline(always)]
    pub fn add(&mut self, set: u32) -> Result<(), Overflow> {
        let (count, size) = unsafe { (self.count.assume_init(), self.size.assume_init()) };
        let slot = self.slot_of(set, size);
        if unsafe { self.slots[slot].assume_init() } == set {
            return Ok(());
        }
        if count == Unique::ROOM {
            return Err(Overflow);
        }
        self.slots[slot].write(set);
        self.sets[count].write(set);
        self.count.write(count + 1);
        if 2 * count >= size && size < self.slots.len() {
            self.grow(2 * size);
        }
        Ok(())
    }

    /// Where a set is or would be. More than half of the slots are free, but for a list as long as may be.
    #[inline(always)]
    fn slot_of(&self, set: u32, size: usize) -> usize {
        let mut slot = (set.wrapping_mul(0x9E37_79B1) >> 16) as usize & (size - 1);
        loop {
            let here = unsafe { self.slots[slot].assume_init() };
            if here == 0 || here == set {
                return slot;
            }
            slot = (slot + 1) & (size - 1);
        }
    }

    #[cold]
    fn grow(&mut self, size: usize) {
        self.clear_slots(size);
        for i in 0..self.sets().len() {
            let set = self.sets()[i];
            let slot = self.slot_of(set, size);
            self.slots[slot].write(set);
        }
    }

    /// Adds the unions of one set of each list.
    pub fn unite(&mut self, one: &[u32], other: &[u32]) -> Result<(), Overflow> {
        one.iter().try_for_each(|set| other.iter().try_for_each(|more| self.add(set | more)))
    }

    /// Adds the unions of each set of a list and one more.
    pub fn add_with(&mut self, sets: &[u32], more: u32) -> Result<(), Overflow> {
        sets.iter().try_for_each(|set| self.add(set | more))
    }

    pub fn add_all(&mut self, sets: &[u32]) -> Result<(), Overflow> {
        self.add_with(sets, 0)
    }
}
