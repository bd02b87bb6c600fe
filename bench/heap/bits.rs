//! Few states: the membership of a family is a bit for each set.

use super::family::{in_order, Membership, New};

/// For each set of six states its bit, the bits of its subsets, and those of its supersets.
static BIT: [u64; 64] = related(true, true);
static SUBSETS: [u64; 64] = related(true, false);
static SUPERSETS: [u64; 64] = related(false, true);

const fn related(below: bool, above: bool) -> [u64; 64] {
    let mut table = [0; 64];
    let mut i = 0;
    while i < 64 * 64 {
        let (set, other) = (i / 64, i % 64);
        if (!below || other & !set == 0) && (!above || set & !other == 0) {
            table[set] |= 1 << other;
        }
        i += 1;
    }
    table
}

/// For each family its members, in W words for sets of 6 + log2 W states.
pub struct Bits<const W: usize> {
    families: Vec<[u64; W]>,
}

impl<const W: usize> Bits<W> {
    /// With more pairs than this unions are marked by bytes first, which need not be read to be written.
    const MANY: usize = 64;

    /// The unions with one set are all between it and the set of all states: if none of those is missing, it has nothing new to
    /// give.
    #[inline(always)]
    fn unite_six(members: &mut u64, short: &[u32], long: &[u32], all: u32) {
        let within = SUBSETS[all as usize & 63];
        for one in short {
            let between = SUPERSETS[*one as usize & 63] & within;
            let mut missing = between & !*members;
            if missing == 0 {
                continue;
            }
            let (fours, rest) = long.as_chunks::<4>();
            for four in fours {
                let [a, b, c, d] = four.map(|other| BIT[(one | other) as usize & 63]);
                missing &= !((a | b) | (c | d));
            }
            for other in rest {
                missing &= !BIT[(one | other) as usize & 63];
            }
            *members |= between & !missing;
        }
    }

    /// Whether a set between one set and the set of all states is missing.
    #[inline(always)]
    fn is_missing(members: &[u64; W], one: usize, all: usize) -> bool {
        let between = SUPERSETS[one & 63] & SUBSETS[all & 63];
        let of_high = |high: usize| if high & one >> 6 == one >> 6 && high & !(all >> 6) == 0 { between } else { 0 };
        members.iter().enumerate().fold(0, |missing, (high, word)| missing | of_high(high) & !word) != 0
    }

    /// The same with more than six states.
    #[inline(always)]
    fn unite_many(members: &mut [u64; W], short: &[u32], long: &[u32], all: u32) {
        let mut marks = [[0; 64]; W];
        let flat = marks.as_flattened_mut();
        for one in short.iter().filter(|one| Self::is_missing(members, **one as usize, all as usize)) {
            for other in long {
                flat[(one | other) as usize & (64 * W - 1)] = 1;
            }
        }
        for (word, marks) in members.iter_mut().zip(&marks) {
            *word |= bits_of(marks);
        }
    }
}

/// A bit for each mark.
#[inline(always)]
fn bits_of(marks: &[u8; 64]) -> u64 {
    let (eights, _) = marks.as_chunks();
    eights.iter().rev().fold(0, |bits, eight| bits << 8 | u64::from_le_bytes(*eight).wrapping_mul(0x0102_0408_1020_4080) >> 56)
}

impl<const W: usize> Membership for Bits<W> {
    fn none() -> Bits<W> {
        Bits { families: Vec::with_capacity(1 << 10) }
    }

    fn add(&mut self, count: usize) {
        self.families.resize(self.families.len() + count, [0; W]);
    }

    #[inline(always)]
    fn begin(&mut self, family: usize, new: &mut New) {
        new.known[..W].copy_from_slice(&self.families[family]);
    }

    #[inline(always)]
    fn take(&mut self, family: usize, sets: &[u32], _: &mut New) {
        let members = &mut self.families[family];
        for set in sets {
            members[*set as usize >> 6 & (W - 1)] |= 1 << (set & 63);
        }
    }

    #[inline(always)]
    fn unite(&mut self, family: usize, left: &[u32], right: &[u32], all: u32, _: &mut New, _: usize) -> bool {
        let (short, long) = in_order(left, right);
        let members = &mut self.families[family];
        if W == 1 {
            Self::unite_six(&mut members[0], short, long, all);
        } else if short.len() * long.len() > Self::MANY {
            Self::unite_many(members, short, long, all);
        } else {
            for one in short {
                for other in long {
                    let set = one | other;
                    members[set as usize >> 6 & (W - 1)] |= 1 << (set & 63);
                }
            }
        }
        true
    }

    #[inline(always)]
    fn finish(&mut self, family: usize, new: &mut New) {
        let members = &self.families[family];
        for i in 0..W {
            let mut left = members[i] & !new.known[i];
            while left != 0 {
                new.push(64 * i as u32 + left.trailing_zeros());
                left &= left - 1;
            }
        }
    }
}
