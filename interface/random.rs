//! Seeded numbers, the same on every host (SplitMix64), and damages of bytes and of tables made with them.

use crate::apart::{Game, MAX_STACK};
use crate::calls::SESSION_BYTES;

pub struct Random {
    state: u64,
}

impl Random {
    pub fn new(seed: u64) -> Random {
        Random { state: seed }
    }

    fn next(&mut self) -> u64 {
        self.state = self.state.wrapping_add(0x9e37_79b9_7f4a_7c15);
        let mut z = self.state;
        z = (z ^ (z >> 30)).wrapping_mul(0xbf58_476d_1ce4_e5b9);
        z = (z ^ (z >> 27)).wrapping_mul(0x94d0_49bb_1331_11eb);
        z ^ (z >> 31)
    }

    /// A number below a limit that is not 0.
    pub fn below(&mut self, limit: usize) -> usize {
        (self.next() % limit as u64) as usize
    }

    pub fn one_of<T: Copy>(&mut self, values: &[T]) -> T {
        values[self.below(values.len())]
    }

    pub fn byte(&mut self) -> u8 {
        self.next() as u8
    }

    pub fn word(&mut self) -> u32 {
        self.next() as u32
    }

    pub fn words(&mut self, length: usize) -> Vec<u32> {
        (0..length).map(|_| self.word()).collect()
    }

    pub fn results(&mut self, length: usize) -> Vec<u64> {
        (0..length).map(|_| self.next()).collect()
    }
}

/// One to three damages: bytes changed, put in, taken out, exchanged; commands of seven bytes exchanged, doubled, taken out.
pub fn damage(random: &mut Random, bytes: &mut Vec<u8>) {
    for _ in 0..random.one_of(&[1, 1, 1, 2, 3]) {
        damage_once(random, bytes);
    }
}

fn damage_once(random: &mut Random, bytes: &mut Vec<u8>) {
    if bytes.is_empty() {
        bytes.push(random.byte());
        return;
    }
    let at = random.below(bytes.len());
    let other = random.below(bytes.len());
    match random.below(10) {
        0 => bytes[at] = random.byte(),
        1 => bytes[at] = bytes[other],
        2 => bytes[at] ^= 1 << random.below(8),
        3 => bytes[at] = bytes[at].wrapping_add(1),
        4 => bytes[at] = bytes[at].wrapping_sub(1),
        5 => {
            let byte = if random.below(2) == 0 { random.byte() } else { bytes[other] };
            bytes.insert(at, byte);
        }
        6 => {
            bytes.remove(at);
        }
        7 => bytes.swap(at, other),
        _ => damage_commands(random, bytes),
    }
}

fn damage_commands(random: &mut Random, bytes: &mut Vec<u8>) {
    let commands: Vec<usize> = (0..bytes.len().saturating_sub(6)).filter(|at| matches!(bytes[*at], 4 | 5)).collect();
    if commands.is_empty() {
        return;
    }
    let at = random.one_of(&commands);
    let other = random.one_of(&commands);
    let command = bytes[at..at + 7].to_vec();
    match random.below(4) {
        0 => {
            bytes.drain(at..at + 7);
        }
        1 => {
            bytes.splice(other..other, command);
        }
        2 => {
            let second = bytes[other..other + 7].to_vec();
            bytes[at..at + 7].copy_from_slice(&second);
            bytes[other..other + 7].copy_from_slice(&command);
        }
        _ => bytes[at + 1 + random.below(6)] = random.below(4) as u8,
    }
}

/// Damages of a table: words and bits changed, birthdates and rules moved, entries exchanged, doubled, emptied, the length
/// changed. Many leave it well formed.
pub fn damage_table(random: &mut Random, table: &mut Vec<u32>) {
    let entries = table.len() / 3;
    if entries == 0 {
        table.push(random.word());
        return;
    }
    let used = table.chunks_exact(3).take_while(|entry| *entry != [0, 0, 0]).count();
    let among = if random.below(4) > 0 && used > 0 { used } else { entries };
    let at = 3 * random.below(among);
    let other = 3 * random.below(entries);
    match random.below(14) {
        0 => {
            let word = random.below(3);
            table[at + word] = random.word();
        }
        1 => {
            let word = random.below(3);
            table[at + word] ^= 1 << random.below(32);
        }
        2 => table[at] = table[at].wrapping_add(65_536),
        3 => table[at] = table[at] % 65_536 + 65_536 * random.below(42) as u32,
        4 => table[at] = table[at].wrapping_add(random.one_of(&[1, 255, 256, 257])),
        5 => table[at + 1] = random.below(16) as u32,
        6 => table[at + 1] |= 1 << random.below(4),
        7 => table[at + 2] = random.below(8) as u32,
        8 => table[at + 2] = table[at + 2].wrapping_add(random.one_of(&[1, u32::MAX])),
        9 => (0..3).for_each(|word| table.swap(at + word, other + word)),
        10 => (0..3).for_each(|word| table[other + word] = table[at + word]),
        11 => (0..3).for_each(|word| table[at + word] = 0),
        12 => {
            let length = random.below(table.len() + 1);
            table.truncate(length);
        }
        _ => {
            let length = table.len() + random.one_of(&[1, 2, 3, 6]);
            table.resize(length, 0);
        }
    }
}

/// A height from 1 to 256, mostly a small one.
fn height(random: &mut Random) -> usize {
    match random.below(32) {
        0 => random.one_of(&[MAX_STACK - 2, MAX_STACK - 1, MAX_STACK]),
        1 => 1 + random.below(MAX_STACK),
        _ => 1 + random.below(6),
    }
}

/// A position in form.
pub fn position(random: &mut Random, game: &Game) -> Vec<u8> {
    let mut bytes = vec![random.below(game.control as usize) as u8];
    if game.letters > 1 {
        for _ in 1..height(random) {
            bytes.push(1 + random.below(game.letters as usize - 1) as u8);
        }
    }
    bytes.push(0);
    bytes
}

/// A position, damaged, or of a length at the edge.
pub fn damaged_position(random: &mut Random, game: &Game) -> Vec<u8> {
    let mut bytes = position(random, game);
    match random.below(12) {
        0 => bytes.truncate(1),
        1 => bytes.clear(),
        2 => {
            let top = if game.letters > 1 { 1 } else { 0 };
            let length = random.one_of(&[MAX_STACK, 1 + MAX_STACK, 2 + MAX_STACK, 600]);
            bytes = vec![top; length];
            bytes[0] = 0;
            bytes[length - 1] = 0;
        }
        _ => damage(random, &mut bytes),
    }
    bytes
}

/// The session at a position, cells from the height up anything.
pub fn session(random: &mut Random, position: &[u8]) -> Vec<u8> {
    let stack = &position[1..];
    let mut bytes = vec![position[0], (stack.len() % 256) as u8, (stack.len() / 256) as u8];
    bytes.extend(stack.iter().rev());
    while bytes.len() < SESSION_BYTES {
        let byte = random.byte();
        bytes.push(byte);
    }
    bytes
}

/// A session of 259 bytes, damaged.
pub fn damaged_session(random: &mut Random, game: &Game) -> Vec<u8> {
    let position = position(random, game);
    let mut bytes = session(random, &position);
    let in_use = 3 + position.len() - 1;
    match random.below(4) {
        0 => {
            let at = random.below(3);
            bytes[at] = random.byte();
        }
        1 => (bytes[1], bytes[2]) = random.one_of(&[(0, 0), (1, 1), (0, 1), (255, 0), (1, 0), (255, 255), (0, 2)]),
        2 => {
            let at = random.below(in_use);
            bytes[at] = random.byte();
        }
        _ => {
            let at = random.below(in_use);
            bytes[at] = random.below(3) as u8;
        }
    }
    bytes
}

/// A small game: 1 to 3 control states, 2 to 4 letters, up to 3 rules a head; question 6 may refuse it.
pub fn small_game(random: &mut Random) -> Vec<u8> {
    let control = 1 + random.below(3);
    let states = control + 1 + random.below(3);
    let letters = 2 + random.below(3);
    game_file(random, control, states, letters, 3)
}

/// A wide game: up to 24 control states, 32 states and 64 letters, one or two rules a head, at most 256 heads.
pub fn wide_game(random: &mut Random) -> Vec<u8> {
    let control = 4 + random.below(21);
    let states = control + 1 + random.below(32 - control);
    let letters = 2 + random.below((160 / control).min(63));
    game_file(random, control, states, letters, 2)
}

/// A game with every head's rules.
fn game_file(random: &mut Random, control: usize, states: usize, letters: usize, rules: usize) -> Vec<u8> {
    let mut bytes = vec![0x01, control as u8, states as u8, letters as u8];
    for p in 0..control {
        if random.below(2) == 0 {
            bytes.extend([0x02, p as u8]);
        }
    }
    for q in control..states {
        if q == control || random.below(2) == 0 {
            bytes.extend([0x03, q as u8]);
        }
    }
    for p in 0..control {
        for a in 0..letters {
            let mut seen = vec![];
            for _ in 0..1 + random.below(rules) {
                let rule = rule(random, control, letters, p, a);
                if !seen.contains(&rule) || random.below(64) == 0 {
                    bytes.extend(rule);
                    seen.push(rule);
                }
            }
        }
    }
    for _ in 0..1 + random.below(4) {
        let state = random.below(states) as u8;
        let letter = if random.below(2) == 0 { 0 } else { random.below(letters) as u8 };
        let set = (1 + random.below((1 << (states - control)) - 1)) << control;
        bytes.extend([0x05, state, letter]);
        bytes.extend((set as u32).to_le_bytes());
    }
    bytes.push(0xFF);
    bytes
}

/// A rule of the head (p, a) that keeps the bottom.
fn rule(random: &mut Random, control: usize, letters: usize, p: usize, a: usize) -> [u8; 7] {
    let to = random.below(control) as u8;
    let above = |random: &mut Random| 1 + random.below(letters - 1) as u8;
    let (k, b, c) = match (a, random.below(4)) {
        (0, 0..=2) => (1, 0, 0),
        (0, _) => (2, above(random), 0),
        (_, 0 | 1) => (0, 0, 0),
        (_, 2) => (1, above(random), 0),
        _ => (2, above(random), above(random)),
    };
    [0x04, p as u8, a as u8, to, k, b, c]
}
