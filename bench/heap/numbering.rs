//! Sets over those states only that a set may have at all, numbered anew in their order: those of the target's sets, and those
//! that a rule writing no letters leads to. That keeps the order of sets.

use crate::reader::Game;

pub struct Numbering {
    /// The states with new numbers, in order.
    pub states: Vec<u8>,
    /// For each state its new number as a set; 0 where it has none.
    pub single: [u32; 32],
    /// The states of a set with new numbers, a byte of it at a time.
    tables: Vec<[u32; 256]>,
}

impl Numbering {
    pub fn of(game: &Game) -> Numbering {
        let targets = game.targets.iter().fold(0, |all, (_, _, set)| all | set);
        let popped = game.rules.iter().filter(|rule| rule.written == 0).fold(0, |all, rule| all | 1 << rule.to);
        let all = targets | popped;
        let states: Vec<u8> = (0..32).filter(|state| all >> state & 1 == 1).collect();
        let mut single = [0; 32];
        for (number, state) in states.iter().enumerate() {
            single[*state as usize] = 1 << number;
        }
        let tables = states.chunks(8).map(table_of).collect();
        Numbering { states, single, tables }
    }

    /// A set of states with new numbers.
    pub fn anew(&self, set: u32) -> u32 {
        let states = self.states.iter().enumerate();
        states.fold(0, |anew, (number, state)| anew | (set >> state & 1) << number)
    }

    /// The states of a set with new numbers.
    #[inline(always)]
    pub fn states_of(&self, set: u32) -> u32 {
        set.to_le_bytes().iter().zip(&self.tables).fold(0, |states, (byte, table)| states | table[*byte as usize])
    }
}

/// The states of each set of up to eight numbers.
fn table_of(states: &[u8]) -> [u32; 256] {
    let mut table = [0; 256];
    for set in 1..1usize << states.len() {
        table[set] = table[set & (set - 1)] | 1 << states[set.trailing_zeros() as usize];
    }
    table
}
