//! The file's questions, 1 to 9 and 19, for speed: the game of a file, or the number of the first question answered no, and its place.

use crate::answer::{refuse, Refusal};
use std::collections::HashSet;

/// A rule (from, letter) → (to, w): w has `written` letters, b above c.
#[derive(Clone, Copy)]
pub struct Rule {
    pub from: u8,
    pub letter: u8,
    pub to: u8,
    pub written: u8,
    pub b: u8,
    pub c: u8,
}

#[derive(Default)]
pub struct Game {
    pub control: u8,
    pub states: u8,
    pub letters: u8,
    pub abelard: u32,
    pub finals: u32,
    pub rules: Vec<Rule>,
    pub targets: Vec<(u8, u8, u32)>,
}

pub const MAX_FILE: usize = 4096;

/// How many rules, and how many target transitions, a file may have.
pub const MAX_OF_A_KIND: usize = 256;

pub fn read(file: &[u8]) -> Result<Game, Refusal> {
    if file.is_empty() || file.len() > MAX_FILE {
        return refuse(1, 0);
    }
    let mut game = Game::default();
    let mut before = HashSet::with_capacity_and_hasher(file.len() / 7, Mixing);
    let mut at = 0;
    while file.get(at) != Some(&0xFF) || at == 0 {
        if at == file.len() {
            return refuse(8, at);
        }
        let length = match file[at] {
            0x01 => 4,
            0x02 | 0x03 => 2,
            0x04 | 0x05 => 7,
            0xFF => 1,
            _ => return refuse(2, at),
        };
        let Some(command) = file.get(at..at + length) else {
            return refuse(19, at);
        };
        if let Some(number) = game.take(command, at == 0, &mut before) {
            return refuse(number, at);
        }
        at += length;
    }
    if at + 1 != file.len() {
        return refuse(8, at);
    }
    if game.has_every_head() { Ok(game) } else { refuse(9, at) }
}

impl Game {
    pub fn is_abelards(&self, state: u8) -> bool {
        self.abelard >> state & 1 == 1
    }

    /// Takes a whole command in; or the question, of 3 to 7, that it is refused by.
    fn take(&mut self, command: &[u8], is_first: bool, before: &mut HashSet<u64, Mixing>) -> Option<u32> {
        if (command[0] == 0x01) != is_first {
            return Some(3);
        }
        if !self.in_range(command) {
            return Some(4);
        }
        if command[0] == 0x04 && !keeps_bottom(command) {
            return Some(5);
        }
        if !before.insert(number_of(command)) {
            return Some(6);
        }
        match *command {
            [0x01, control, states, letters] => (self.control, self.states, self.letters) = (control, states, letters),
            [0x02, p] => self.abelard |= 1 << p,
            [0x03, q] => self.finals |= 1 << q,
            [0x04, from, letter, to, written, b, c] => {
                if self.rules.len() == MAX_OF_A_KIND {
                    return Some(7);
                }
                self.rules.push(Rule { from, letter, to, written, b, c });
            }
            [0x05, q, letter, ref set @ ..] => {
                if self.targets.len() == MAX_OF_A_KIND {
                    return Some(7);
                }
                self.targets.push((q, letter, set_of(set)));
            }
            _ => unreachable!("every known command has its length"),
        }
        None
    }

    fn in_range(&self, command: &[u8]) -> bool {
        let (p, s, l) = (self.control, self.states, self.letters);
        match *command {
            [0x01, p, s, l] => (1..=24).contains(&p) && p < s && s <= 32 && (1..=64).contains(&l),
            [0x02, q] => q < p,
            [0x03, q] => p <= q && q < s,
            [0x04, from, letter, to, written, b, c] => {
                let unused = (written == 2 || c == 0) && (written >= 1 || b == 0);
                from < p && to < p && letter < l && b < l && c < l && written <= 2 && unused
            }
            [0x05, q, letter, ref set @ ..] => {
                let further = (((1u64 << s) - 1) & !((1u64 << p) - 1)) as u32;
                q < s && letter < l && set_of(set) != 0 && set_of(set) & !further == 0
            }
            _ => true,
        }
    }

    fn has_every_head(&self) -> bool {
        let mut heads = [0u64; 24];
        for rule in &self.rules {
            heads[rule.from as usize] |= 1 << rule.letter;
        }
        let all = (u64::MAX) >> (64 - self.letters);
        heads[..self.control as usize].iter().all(|letters| *letters == all)
    }
}

pub fn set_of(bytes: &[u8]) -> u32 {
    bytes.iter().rev().fold(0, |set, byte| set << 8 | *byte as u32)
}

/// The bytes of a command as one number; commands of different lengths differ in their first byte.
fn number_of(command: &[u8]) -> u64 {
    command.iter().rev().fold(0, |number, byte| number << 8 | *byte as u64)
}

/// On letter 0 a rule writes 0 last and only last; on another it writes no 0.
pub fn keeps_bottom(rule: &[u8]) -> bool {
    match (rule[2], rule[4]) {
        (0, 1) => rule[5] == 0,
        (0, 2) => rule[5] != 0 && rule[6] == 0,
        (0, _) => false,
        (_, 0) => true,
        (_, 1) => rule[5] != 0,
        _ => rule[5] != 0 && rule[6] != 0,
    }
}

/// A hasher of one number: by a multiplication.
#[derive(Clone, Copy, Default)]
pub struct Mixing;

pub struct Mixed(u64);

impl std::hash::BuildHasher for Mixing {
    type Hasher = Mixed;

    fn build_hasher(&self) -> Mixed {
        Mixed(0)
    }
}

impl std::hash::Hasher for Mixed {
    fn finish(&self) -> u64 {
        self.0
    }

    fn write(&mut self, _: &[u8]) {
        unreachable!("keys are numbers")
    }

    fn write_u64(&mut self, number: u64) {
        self.0 = (number ^ number >> 32).wrapping_mul(0x9E37_79B9_7F4A_7C15).rotate_left(26);
    }
}
