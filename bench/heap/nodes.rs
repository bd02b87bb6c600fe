//! Which family has the unions for a set X and a letter c, one transition on c for each state of X.

use crate::reader::Mixing;
use std::collections::HashMap;

/// A table with the number + 1 of a node for each letter and set, or 0, for few states; else a hash table of families.
enum Known {
    Table { nodes: Vec<u16>, states: u32 },
    Hashed(HashMap<u64, usize, Mixing>),
}

pub struct Nodes {
    known: Known,
    first: usize,
    /// The round in which each was last looked at.
    seen_in: Vec<u32>,
}

impl Nodes {
    /// With so many states there are fewer nodes than numbers of 16 bits.
    const MAX_STATES: u32 = 10;

    /// None yet, of sets over so many states; the families from the first on are theirs.
    pub fn none(first: usize, states: u32, letters: usize) -> Nodes {
        let known = if states <= Self::MAX_STATES {
            Known::Table { nodes: vec![0; letters << states], states }
        } else {
            Known::Hashed(HashMap::with_hasher(Mixing))
        };
        Nodes { known, first, seen_in: vec![] }
    }

    #[inline(always)]
    pub fn get(&self, set: u32, letter: usize) -> Option<usize> {
        match &self.known {
            Known::Table { nodes, states } => match nodes[letter << states | set as usize] {
                0 => None,
                number => Some(self.first + number as usize - 1),
            },
            Known::Hashed(families) => families.get(&((letter as u64) << 32 | set as u64)).copied(),
        }
    }

    /// Whether a node was not looked at in the round; from now on it was.
    #[inline(always)]
    pub fn look_at(&mut self, node: usize, round: u32) -> bool {
        std::mem::replace(&mut self.seen_in[node - self.first], round) != round
    }

    /// One that is made in the round.
    pub fn add(&mut self, set: u32, letter: usize, node: usize, round: u32) {
        self.seen_in.push(round);
        match &mut self.known {
            Known::Table { nodes, states } => nodes[letter << *states | set as usize] = self.seen_in.len() as u16,
            Known::Hashed(families) => _ = families.insert((letter as u64) << 32 | set as u64, node),
        }
    }
}
