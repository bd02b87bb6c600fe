//! The file's questions, 1 to 9 and 19, without a heap: the game of a file in arrays of fixed length.

use crate::answer::{refuse, Refusal};
use crate::reader::{keeps_bottom, set_of, Rule, MAX_FILE, MAX_OF_A_KIND};

/// A target transition.
#[derive(Clone, Copy)]
pub struct Target {
    pub state: u8,
    pub letter: u8,
    pub set: u32,
}

pub struct Game {
    pub control: usize,
    pub states: usize,
    pub letters: usize,
    pub abelard: u32,
    finals: u32,
    rules: [Rule; MAX_OF_A_KIND],
    rule_count: usize,
    targets: [Target; MAX_OF_A_KIND],
    target_count: usize,
}

/// The rules and transitions so far, to tell repeats. A slot has 0 or a number + 1; transitions are numbered from 256.
struct Before {
    slots: [u16; Before::SLOTS],
    commands: [u64; 2 * MAX_OF_A_KIND],
}

impl Before {
    const SLOTS: usize = 1024;

    /// Takes a command in under a number; whether it is new. One that may turn out to be too many for its kind has number 512 and
    /// is only looked for.
    fn add(&mut self, command: u64, number: usize) -> bool {
        let mut slot = (command.wrapping_mul(0x9E37_79B9_7F4A_7C15) >> 54) as usize;
        while self.slots[slot] != 0 {
            if self.commands[self.slots[slot] as usize - 1] == command {
                return false;
            }
            slot = (slot + 1) % Before::SLOTS;
        }
        if number < self.commands.len() {
            self.slots[slot] = number as u16 + 1;
            self.commands[number] = command;
        }
        true
    }
}

/// Reads a file into a game that is all zero.
pub fn read(file: &[u8], game: &mut Game) -> Result<(), Refusal> {
    if file.is_empty() || file.len() > MAX_FILE {
        return refuse(1, 0);
    }
    let mut before = Before { slots: [0; Before::SLOTS], commands: [0; 2 * MAX_OF_A_KIND] };
    let mut at = 0;
    while file.get(at) != Some(&0xFF) || at == 0 {
        if at == file.len() {
            return refuse(8, at);
        }
        let length = match file[at] {
            0x01 => 4,
            0x02 | 0x03 => 2,
            0x04 | 0x05 => 7,
            0xFF => 1,
            _ => return refuse(2, at),
        };
        let Some(command) = file.get(at..at + length) else {
            return refuse(19, at);
        };
        if (command[0] == 0x01) != (at == 0) {
            return refuse(3, at);
        }
        if let Some(number) = game.take(command, &mut before) {
            return refuse(number, at);
        }
        at += length;
    }
    if at + 1 != file.len() {
        return refuse(8, at);
    }
    if game.has_every_head() { Ok(()) } else { refuse(9, at) }
}

impl Game {
    pub fn none() -> Game {
        Game {
            control: 0,
            states: 0,
            letters: 0,
            abelard: 0,
            finals: 0,
            rules: [Rule { from: 0, letter: 0, to: 0, written: 0, b: 0, c: 0 }; MAX_OF_A_KIND],
            rule_count: 0,
            targets: [Target { state: 0, letter: 0, set: 0 }; MAX_OF_A_KIND],
            target_count: 0,
        }
    }

    pub fn rules(&self) -> &[Rule] {
        &self.rules[..self.rule_count]
    }

    pub fn targets(&self) -> &[Target] {
        &self.targets[..self.target_count]
    }

    pub fn is_abelards(&self, state: usize) -> bool {
        self.abelard >> state & 1 == 1
    }

    /// The states that a set may have in any round: those of the target's sets, and those to which a rule writes no letters.
    pub fn elements(&self) -> u32 {
        let of_targets = self.targets().iter().fold(0, |states, target| states | target.set);
        self.rules().iter().filter(|rule| rule.written == 0).fold(of_targets, |states, rule| states | 1 << rule.to)
    }

    /// Takes a command in; or the question, of 4 to 7, that it is refused by.
    fn take(&mut self, command: &[u8], before: &mut Before) -> Option<u32> {
        match *command {
            [0x01, p, s, l] => {
                if !((1..=24).contains(&p) && p < s && s <= 32 && (1..=64).contains(&l)) {
                    return Some(4);
                }
                (self.control, self.states, self.letters) = (p as usize, s as usize, l as usize);
                None
            }
            [0x02, p] if (p as usize) < self.control => take_once(&mut self.abelard, p),
            [0x03, q] if (self.control..self.states).contains(&(q as usize)) => take_once(&mut self.finals, q),
            [0x04, ..] => self.take_rule(command, before),
            [0x05, ..] => self.take_target(command, before),
            _ => Some(4),
        }
    }

    fn take_rule(&mut self, command: &[u8], before: &mut Before) -> Option<u32> {
        let [_, from, letter, to, written, b, c] = *command else { return Some(4) };
        let (control, letters) = (self.control as u8, self.letters as u8);
        let unused = (written == 2 || c == 0) && (written >= 1 || b == 0);
        let in_range = from < control && to < control && letter < letters && b < letters && c < letters;
        if !(in_range && written <= 2 && unused) {
            return Some(4);
        }
        if !keeps_bottom(command) {
            return Some(5);
        }
        let is_one_more = self.rule_count == MAX_OF_A_KIND;
        if !before.add(number_of(command), if is_one_more { 2 * MAX_OF_A_KIND } else { self.rule_count }) {
            return Some(6);
        }
        if is_one_more {
            return Some(7);
        }
        self.rules[self.rule_count] = Rule { from, letter, to, written, b, c };
        self.rule_count += 1;
        None
    }

    fn take_target(&mut self, command: &[u8], before: &mut Before) -> Option<u32> {
        let (state, letter, set) = (command[1], command[2], set_of(&command[3..]));
        let further = (((1u64 << self.states) - 1) & !((1u64 << self.control) - 1)) as u32;
        if state as usize >= self.states || letter as usize >= self.letters || set == 0 || set & !further != 0 {
            return Some(4);
        }
        if !before.add(number_of(command), MAX_OF_A_KIND + self.target_count) {
            return Some(6);
        }
        if self.target_count == MAX_OF_A_KIND {
            return Some(7);
        }
        self.targets[self.target_count] = Target { state, letter, set };
        self.target_count += 1;
        None
    }

    fn has_every_head(&self) -> bool {
        let mut heads = [0u64; 24];
        for rule in self.rules() {
            heads[rule.from as usize] |= 1 << rule.letter;
        }
        let all = u64::MAX >> (64 - self.letters);
        heads[..self.control].iter().all(|letters| *letters == all)
    }
}

/// Takes a state into a set; question 6 if it is there.
fn take_once(set: &mut u32, state: u8) -> Option<u32> {
    let is_there = *set >> state & 1 == 1;
    *set |= 1 << state;
    if is_there { Some(6) } else { None }
}

/// The seven bytes of a command as one number.
fn number_of(command: &[u8]) -> u64 {
    command.iter().rev().fold(0, |number, byte| number << 8 | *byte as u64)
}
