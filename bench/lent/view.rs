//! The entries that a round sees, by head, the new ones of each head last.

use super::log::{Log, MAX_ENTRIES};
use super::reader::Game;
use crate::reader::Rule;
use std::ops::Range;

const MAX_HEADS: usize = 32 * 64;

pub struct View {
    letters: usize,
    pub sets: [u32; MAX_ENTRIES],
    /// Where the entries of a head begin and, with the next head's beginning, end; and where its new ones begin.
    first: [u16; MAX_HEADS + 1],
    new: [u16; MAX_HEADS],
    /// The states that all the sets of a head have in common.
    common: [u32; MAX_HEADS],
    /// For each letter, the states with a transition on it, and with a new one.
    pub alive: [u32; 64],
    pub fresh: [u32; 64],
}

impl View {
    pub fn none(letters: usize) -> View {
        View {
            letters,
            sets: [0; MAX_ENTRIES],
            first: [0; MAX_HEADS + 1],
            new: [0; MAX_HEADS],
            common: [u32::MAX; MAX_HEADS],
            alive: [0; 64],
            fresh: [0; 64],
        }
    }

    pub fn range(&self, state: usize, letter: usize) -> Range<usize> {
        let head = state * self.letters + letter;
        self.first[head] as usize..self.first[head + 1] as usize
    }

    pub fn of(&self, state: usize, letter: usize) -> &[u32] {
        &self.sets[self.range(state, letter)]
    }

    pub fn new_of(&self, state: usize, letter: usize) -> &[u32] {
        let range = self.range(state, letter);
        &self.sets[self.new[state * self.letters + letter] as usize..range.end]
    }

    /// The states that every union of one transition on a letter for each state of a set has.
    pub fn certain(&self, set: u32, letter: usize) -> u32 {
        let (mut left, mut states) = (set, 0);
        while left != 0 {
            states |= self.common[left.trailing_zeros() as usize * self.letters + letter];
            left &= left - 1;
        }
        states
    }

    /// The states that every end of a rule's runs has; the rule has one. Adding them to a union before the runs are chosen alters
    /// no whole union and leaves fewer partial ones.
    pub fn certain_of(&self, rule: &Rule) -> u32 {
        let first = rule.to as usize * self.letters + rule.b as usize;
        match rule.written {
            0 => 1 << rule.to,
            1 => self.common[first],
            _ => self.of(rule.to as usize, rule.b as usize)
                .iter()
                .filter(|set| *set & !self.alive[rule.c as usize] == 0)
                .fold(u32::MAX, |states, set| states & self.certain(*set, rule.c as usize)),
        }
    }

    /// Takes in what the log has when a round begins.
    pub fn update(&mut self, game: &Game, log: &Log, round: u16) {
        let heads = game.states * game.letters;
        self.first[..=heads].fill(0);
        self.fresh.fill(0);
        for number in 1..=log.count {
            self.first[log.entry(number).head as usize + 1] += 1;
        }
        for head in 0..heads {
            self.first[head + 1] += self.first[head];
            self.new[head] = self.first[head];
        }
        let mut next = self.first;
        for number in 1..=log.count {
            let entry = log.entry(number);
            let (head, set) = (entry.head as usize, entry.set);
            let (state, letter) = (head / self.letters, head % self.letters);
            self.sets[next[head] as usize] = set;
            self.common[head] &= set;
            next[head] += 1;
            self.alive[letter] |= 1 << state;
            if entry.round + 1 < round {
                self.new[head] = next[head];
            } else {
                self.fresh[letter] |= 1 << state;
            }
        }
    }
}
