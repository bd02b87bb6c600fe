//! Sets of few states as small numbers: bit i of the number stands for the i-th of the states that any set may have. That keeps
//! the order of sets.

use super::log::{Log, Writing};
use super::reader::Game;
use crate::answer::Solved;

pub const MAX_ELEMENTS: usize = 10;

/// The states that a set may have, the lowest first, and the sets of states of sets of elements, five elements at a time.
pub struct Elements {
    pub states: [u8; MAX_ELEMENTS],
    pub count: usize,
    sets: [[u32; 32]; 2],
}

impl Elements {
    pub fn of(game: &Game) -> Elements {
        let mut elements = Elements { states: [0; MAX_ELEMENTS], count: 0, sets: [[0; 32]; 2] };
        let mut left = game.elements();
        while left != 0 {
            elements.states[elements.count] = left.trailing_zeros() as u8;
            elements.count += 1;
            left &= left - 1;
        }
        for half in 0..2 {
            for set in 1..32usize {
                let element = 5 * half + set.trailing_zeros() as usize;
                let state = if element < elements.count { 1 << elements.states[element] } else { 0 };
                elements.sets[half][set] = elements.sets[half][set & (set - 1)] | state;
            }
        }
        elements
    }

    fn states_of(&self, set: usize) -> u32 {
        self.sets[0][set & 31] | self.sets[1][set >> 5 & 31]
    }

    pub fn elements_of(&self, states: u32) -> usize {
        (0..self.count).filter(|i| states >> self.states[*i] & 1 == 1).fold(0, |set, i| set | 1 << i)
    }
}

/// Writes the entries, noted with such numbers, in order.
pub fn write<const W: usize>(game: &Game, elements: &Elements, log: &Log, table: &mut [u32]) -> Solved {
    let mut writing = Writing::new(table);
    let mut numbers = [[0u16; 64]; W];
    for state in 0..game.states {
        for letter in 0..game.letters {
            let mut family = [0u64; W];
            for number in log.of_head(state * game.letters + letter) {
                let set = log.entry(number).set as usize;
                family[set / 64] |= 1 << (set % 64);
                numbers[set / 64][set % 64] = number as u16;
            }
            for high in 0..W {
                while family[high] != 0 {
                    let low = family[high].trailing_zeros() as usize;
                    family[high] &= family[high] - 1;
                    let entry = log.entry(numbers[high][low] as usize);
                    writing.write(state, letter, elements.states_of(64 * high + low), entry);
                }
            }
        }
    }
    writing.end()
}
