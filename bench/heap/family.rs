//! What tells the new sets of a family from its members. Sets are never empty.

/// New sets of a family.
pub struct New {
    sets: Vec<u32>,
    pub count: usize,
    /// The members before, where a family has a bit for each set.
    pub known: [u64; 16],
}

impl New {
    pub fn none() -> New {
        New { sets: vec![], count: 0, known: [0; 16] }
    }

    #[inline(always)]
    pub fn sets(&self) -> &[u32] {
        &self.sets[..self.count]
    }

    #[inline(always)]
    pub fn clear(&mut self) {
        self.count = 0;
    }

    #[inline(always)]
    pub fn push(&mut self, set: u32) {
        if self.count == self.sets.len() {
            self.sets.resize(2 * self.count + 64, 0);
        }
        self.sets[self.count] = set;
        self.count += 1;
    }
}

/// The membership of numbered families.
pub trait Membership {
    /// No family yet.
    fn none() -> Self;

    /// So many more families, with no members.
    fn add(&mut self, count: usize);

    /// From now on sets are taken into a family.
    fn begin(&mut self, family: usize, new: &mut New);

    /// Takes sets into a family. Those that were no members are new, as of now or of `finish`.
    fn take(&mut self, family: usize, sets: &[u32], new: &mut New);

    /// Takes the unions of one set of each list in likewise, all of whose states are in `all`. False as soon as more than `room`
    /// are new.
    fn unite(&mut self, family: usize, left: &[u32], right: &[u32], all: u32, new: &mut New, room: usize) -> bool;

    /// Finds what was taken into a family since then and was new.
    fn finish(&mut self, family: usize, new: &mut New);
}

/// The shorter list, then the longer one, which is to be walked inside.
#[inline(always)]
pub fn in_order<'a>(left: &'a [u32], right: &'a [u32]) -> (&'a [u32], &'a [u32]) {
    if left.len() < right.len() { (left, right) } else { (right, left) }
}
