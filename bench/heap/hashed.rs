//! Any number of states: a hash table for each family.

use super::family::{in_order, Membership, New};

/// Open addressing with linear probing; a slot of 0 is free. At most half of the slots are taken.
struct HashTable {
    slots: Vec<u32>,
    taken: usize,
    shift: u32,
}

impl HashTable {
    #[inline(always)]
    fn slot_of(&self, set: u32) -> usize {
        let mask = self.slots.len() - 1;
        let mut slot = (set.wrapping_mul(0x9E37_79B1) >> self.shift) as usize;
        while self.slots[slot] != 0 && self.slots[slot] != set {
            slot = (slot + 1) & mask;
        }
        slot
    }

    #[cold]
    fn grow(&mut self) {
        let old = std::mem::take(&mut self.slots);
        self.slots = vec![0; 4 * old.len()];
        self.shift -= 2;
        for set in old.into_iter().filter(|set| *set != 0) {
            let slot = self.slot_of(set);
            self.slots[slot] = set;
        }
    }

    #[inline(always)]
    fn take(&mut self, set: u32, new: &mut New) {
        let slot = self.slot_of(set);
        if self.slots[slot] == set {
            return;
        }
        self.slots[slot] = set;
        self.taken += 1;
        new.push(set);
        if 2 * self.taken > self.slots.len() {
            self.grow();
        }
    }
}

/// Any number of states.
pub struct Hashed {
    families: Vec<HashTable>,
}

impl Membership for Hashed {
    fn none() -> Hashed {
        Hashed { families: vec![] }
    }

    fn add(&mut self, count: usize) {
        self.families.extend((0..count).map(|_| HashTable { slots: vec![0; 16], taken: 0, shift: 28 }));
    }

    #[inline(always)]
    fn begin(&mut self, _: usize, _: &mut New) {}

    #[inline(always)]
    fn take(&mut self, family: usize, sets: &[u32], new: &mut New) {
        sets.iter().for_each(|set| self.families[family].take(*set, new));
    }

    #[inline(always)]
    fn unite(&mut self, family: usize, left: &[u32], right: &[u32], _: u32, new: &mut New, room: usize) -> bool {
        let (short, long) = in_order(left, right);
        short.iter().all(|one| {
            long.iter().for_each(|other| self.families[family].take(one | other, new));
            new.count <= room
        })
    }

    #[inline(always)]
    fn finish(&mut self, _: usize, _: &mut New) {}
}
