//! Families of sets of few elements as bits: a family over at most 6 elements is one word, over 6 + n elements 2^n words, and bit
//! x of them is there if the set x is a member.

use std::mem::MaybeUninit;

pub type Family<const W: usize> = [u64; W];

/// For a set of six elements and each of them all bits if the set has it, and then the supersets of the set.
static RAISING: [[u64; 8]; 64] = raising();

const fn raising() -> [[u64; 8]; 64] {
    let mut table = [[0; 8]; 64];
    let mut set = 0;
    while set < 64 {
        let mut element = 0;
        while element < 6 {
            if set >> element & 1 == 1 {
                table[set][element] = u64::MAX;
            }
            element += 1;
        }
        let mut other = 0;
        while other < 64 {
            if other & set == set {
                table[set][6] |= 1 << other;
            }
            other += 1;
        }
        set += 1;
    }
    table
}

/// Adds the unions of a member of one family and one of another.
#[inline(always)]
pub fn unite<const W: usize>(unions: &mut Family<W>, one: &Family<W>, other: &Family<W>) {
    let (many, few) = if count(one) < count(other) { (other, one) } else { (one, other) };
    if W == 1 {
        unions[0] |= unite_words(many[0], few[0]);
        return;
    }
    for high in 0..W {
        if few[high] == 0 {
            continue;
        }
        let mut raised = [0; W];
        for i in 0..W {
            raised[i | high] |= many[i];
        }
        for i in high..W {
            if raised[i] != 0 {
                unions[i] |= unite_words(raised[i], few[high]);
            }
        }
    }
}

/// The unions of sets of six elements. All those with a member of the second family are formed at once: a shift for each of its
/// elements moves the sets that lack it to those that have it, and at last what is no superset of it is cut off.
#[inline(always)]
fn unite_words(many: u64, mut few: u64) -> u64 {
    let mut unions = 0;
    while few != 0 {
        let raising = &RAISING[few.trailing_zeros() as usize & 63];
        few &= few - 1;
        let mut word = many;
        word |= word << 1 & raising[0];
        word |= word << 2 & raising[1];
        word |= word << 4 & raising[2];
        word |= word << 8 & raising[3];
        word |= word << 16 & raising[4];
        word |= word << 32 & raising[5];
        unions |= word & raising[6];
    }
    unions
}

fn count<const W: usize>(family: &Family<W>) -> u32 {
    family.iter().map(|word| if *word == 0 { 0 } else { word.count_ones() }).sum()
}

/// The family of one set.
pub fn single<const W: usize>(set: usize) -> Family<W> {
    std::array::from_fn(|high| if set / 64 == high { 1 << (set % 64) } else { 0 })
}

/// All subsets of a set of elements.
pub fn subsets<const W: usize>(set: usize) -> Family<W> {
    let mut low = 1u64;
    for element in 0..6 {
        if set >> element & 1 == 1 {
            low |= low << (1 << element);
        }
    }
    std::array::from_fn(|high| if high & !(set >> 6) == 0 { low } else { 0 })
}

#[inline(always)]
pub fn is_empty<const W: usize>(family: &Family<W>) -> bool {
    family.iter().fold(0, |any, word| any | word) == 0
}

/// The members of a family that are not in another.
#[inline(always)]
pub fn without<const W: usize>(family: &Family<W>, other: &Family<W>) -> Family<W> {
    std::array::from_fn(|i| family[i] & !other[i])
}

#[inline(always)]
pub fn add<const W: usize>(family: &mut Family<W>, other: &Family<W>) {
    for i in 0..W {
        family[i] |= other[i];
    }
}

/// So many families on the stack, each with something in it only once it was set.
pub struct Pool<const W: usize, const N: usize> {
    families: [MaybeUninit<Family<W>>; N],
}

impl<const W: usize, const N: usize> Pool<W, N> {
    #[inline(always)]
    pub fn set(&mut self, at: usize, family: Family<W>) {
        debug_assert!(at < N);
        unsafe { *self.families.get_unchecked_mut(at) = MaybeUninit::new(family) };
    }

    /// One that was set.
    #[inline(always)]
    pub fn get(&self, at: usize) -> &Family<W> {
        debug_assert!(at < N);
        unsafe { self.families.get_unchecked(at).assume_init_ref() }
    }

    /// One that was set, to be changed.
    #[inline(always)]
    pub fn get_mut(&mut self, at: usize) -> &mut Family<W> {
        debug_assert!(at < N);
        unsafe { self.families.get_unchecked_mut(at).assume_init_mut() }
    }
}
