//! Game files made by the bench: the longest good one, those that lead the solver deepest, the families of the growth table, the
//! kinds of hard games, and games at random.

use crate::random::Random;

/// A game file as far as it is written.
pub struct Making {
    bytes: Vec<u8>,
    control: u8,
    states: u8,
    letters: u8,
    rules: usize,
    targets: usize,
}

pub const MAX_RULES: usize = 256;
pub const MAX_TARGETS: usize = 256;
pub const MAX_STATES: u8 = 32;
pub const MAX_CONTROL: u8 = 24;

impl Making {
    pub fn new(control: u8, states: u8, letters: u8) -> Making {
        Making { bytes: vec![0x01, control, states, letters], control, states, letters, rules: 0, targets: 0 }
    }

    pub fn abelard(&mut self, p: u8) {
        self.bytes.extend([0x02, p]);
    }

    pub fn finals(&mut self, q: u8) {
        self.bytes.extend([0x03, q]);
    }

    /// A rule; nothing, if it is there or if there are as many as may be.
    pub fn rule(&mut self, from: u8, letter: u8, to: u8, word: &[u8]) {
        let mut command = [0x04, from, letter, to, word.len() as u8, 0, 0];
        command[5..5 + word.len()].copy_from_slice(word);
        if self.rules < MAX_RULES && self.is_new(&command) {
            self.bytes.extend(command);
            self.rules += 1;
        }
    }

    /// A target transition, likewise.
    pub fn target(&mut self, q: u8, letter: u8, set: u32) {
        let mut command = [0x05, q, letter, 0, 0, 0, 0];
        command[3..].copy_from_slice(&set.to_le_bytes());
        if self.targets < MAX_TARGETS && self.is_new(&command) {
            self.bytes.extend(command);
            self.targets += 1;
        }
    }

    /// Whether no equal rule or transition is there.
    fn is_new(&self, command: &[u8]) -> bool {
        let mut at = 0;
        while at < self.bytes.len() {
            let length = if self.bytes[at] == 0x01 { 4 } else if self.bytes[at] < 0x04 { 2 } else { 7 };
            if &self.bytes[at..at + length] == command {
                return false;
            }
            at += length;
        }
        true
    }

    /// A rule that changes nothing for every head, so that none is without one.
    pub fn idle_rules(&mut self) {
        for p in 0..self.control {
            self.idle_letters(p, 0..self.letters);
        }
    }

    /// The same for some letters of one control state.
    fn idle_letters(&mut self, p: u8, letters: std::ops::Range<u8>) {
        for a in letters {
            self.rule(p, a, p, &[a]);
        }
    }

    /// How many rules there are.
    pub fn rules(&self) -> usize {
        self.rules
    }

    /// All further states.
    pub fn further(&self) -> u32 {
        (((1u64 << self.states) - 1) & !((1u64 << self.control) - 1)) as u32
    }

    pub fn end(mut self) -> Vec<u8> {
        self.bytes.push(0xFF);
        self.bytes
    }
}

/// The longest file that passes the file's questions: 256 rules, 256 transitions, every control state Abelard's and every further
/// state final.
pub fn longest_file() -> Vec<u8> {
    let mut making = Making::new(MAX_CONTROL, MAX_STATES, 10);
    for p in 0..MAX_CONTROL {
        making.abelard(p);
    }
    for q in MAX_CONTROL..MAX_STATES {
        making.finals(q);
    }
    making.idle_rules();
    for to in 0..MAX_CONTROL {
        making.rule(0, 1, to, &[2, 3]);
    }
    for set in 1..=MAX_TARGETS as u32 {
        making.target((set % 32) as u8, (set % 10) as u8, (set % 255 + 1) << MAX_CONTROL);
    }
    making.end()
}

/// Many rules of one Abelard head, each with a run that passes a set of all the further states: (0, 1) → (q, [b, c]) for
/// `below` letters c and as many q and b as there is room for.
pub fn deepest_file(control: u8, below: u8) -> Vec<u8> {
    let further = MAX_STATES - control;
    let room = MAX_TARGETS - further as usize * below as usize;
    let above = (room / control as usize).min(63) as u8;
    let above = (1..=above)
        .max_by_key(|above| deep_rules(control, below, *above))
        .expect("there is room for a transition of each control state");
    let mut making = Making::new(control, MAX_STATES, 1 + above.max(below));
    making.abelard(0);
    for q in control..MAX_STATES {
        making.finals(q);
        for c in 1..=below {
            making.target(q, c, 1 << q);
        }
    }
    making.idle_rules();
    for q in 0..control {
        for b in 1..=above {
            making.target(q, b, making.further());
            for c in 1..=below {
                making.rule(0, 1, q, &[b, c]);
            }
        }
    }
    making.end()
}

/// Many rules of one Abelard head, each with a run that passes a set of 31 states, after four rules with 1,024 ends each, which
/// is as many as the library has room to list: (0, 1) → (0, [b, c]) for four letters b and c = 6, then for 42 letters b and 5
/// letters c.
pub fn unlisted_file() -> Vec<u8> {
    let (above, below) = (42, 5);
    let mut making = Making::new(1, MAX_STATES, 1 + above);
    making.abelard(0);
    for q in 1..MAX_STATES {
        making.finals(q);
        for c in 1..=below + 1 {
            making.target(q, c, 1 << q);
        }
        if q <= 10 {
            making.target(q, below + 1, 1 << 31);
        }
    }
    making.idle_rules();
    for b in 1..=above {
        making.target(0, b, making.further());
    }
    for b in 1..=4 {
        making.rule(0, 1, 0, &[b, below + 1]);
    }
    for b in 1..=above {
        for c in 1..=below {
            making.rule(0, 1, 0, &[b, c]);
        }
    }
    making.end()
}

/// Many rules of one Abelard head whose runs pass a set of all 32 states: (0, 1) → (0, [b, c]) for 7 letters c and 27 letters b.
/// Each b gets that set in round 1 from a rule that writes nothing and one that writes letter 2.
pub fn fullest_sets() -> Vec<u8> {
    let mut making = Making::new(1, MAX_STATES, 37);
    making.abelard(0);
    making.target(0, 2, making.further());
    for c in 3..10 {
        for q in 0..MAX_STATES {
            making.target(q, c, if q == 0 { 2 } else { 1 << q });
        }
    }
    for letter in [0, 2, 3, 4, 5, 6, 7, 8, 9] {
        making.rule(0, letter, 0, &[letter]);
    }
    for b in 10..37 {
        making.rule(0, b, 0, &[]);
        making.rule(0, b, 0, &[2]);
        for c in 3..10 {
            making.rule(0, 1, 0, &[b, c]);
        }
    }
    making.end()
}

/// A game whose sets may have ten states: more than that, and the Rust solver under the library's terms goes another way.
pub fn ten_elements() -> Vec<u8> {
    let mut making = Making::new(2, 12, 4);
    making.abelard(1);
    for q in 2..12 {
        for letter in 1..4 {
            making.target(q, letter, 1 << q);
        }
        making.target(0, 1, making.further() & !(1 << q));
    }
    making.idle_rules();
    making.rule(1, 2, 0, &[1, 2]);
    making.rule(1, 2, 0, &[1, 3]);
    making.end()
}

/// How many such rules a file with so many letters has.
fn deep_rules(control: u8, below: u8, above: u8) -> usize {
    let heads = control as usize * (1 + above.max(below) as usize);
    MAX_RULES.saturating_sub(heads).min(control as usize * above as usize * below as usize)
}

/// Sample D: rule j takes letter j to [j + 1, j + 1], the last letter is popped.
pub fn doubling(above_bottom: u8) -> Vec<u8> {
    let mut making = Making::new(1, 2, above_bottom + 1);
    making.finals(1);
    making.rule(0, 0, 0, &[0]);
    for j in 1..above_bottom {
        making.rule(0, j, 0, &[j + 1, j + 1]);
    }
    making.rule(0, above_bottom, 0, &[]);
    making.target(0, 0, 2);
    making.end()
}

/// A chain: 31 transitions on letter 1, and letter j + 1 rewritten to [j, 1], so that each round gives the next letter the same
/// 31 sets. Rounds grow with the letters, and entries with rounds.
pub fn chain(above_bottom: u8) -> Vec<u8> {
    let mut making = Making::new(1, MAX_STATES, above_bottom + 1);
    making.finals(1);
    making.rule(0, 0, 0, &[0]);
    making.rule(0, 1, 0, &[1]);
    for j in 1..above_bottom {
        making.rule(0, j + 1, 0, &[j, 1]);
    }
    for q in 1..MAX_STATES {
        making.target(0, 1, 1 << q);
        making.target(q, 1, 1 << q);
    }
    making.end()
}

/// The state to which the transitions of hard games lead, the one that is final.
const LAST: u8 = MAX_STATES - 1;

/// A hard game as it begins: one control state, Éloise's or Abelard's, 31 further ones, of which the last is final.
fn hard_game(letters: u8, is_abelards: bool) -> Making {
    let mut making = Making::new(1, MAX_STATES, letters);
    if is_abelards {
        making.abelard(0);
    }
    making.finals(LAST);
    making
}

/// The states 1 to n.
fn first_states(n: u8) -> u32 {
    (1 << (n + 1)) - 2
}

impl Making {
    /// Two transitions of a state on a letter, so that n such states give 2^n unions: to the last state, with or without itself.
    fn choice(&mut self, q: u8, letter: u8) {
        self.target(q, letter, 1 << LAST);
        self.target(q, letter, 1 << q | 1 << LAST);
    }
}

/// Hard games of the first kind, of which `games/hard/hard1.game` is the one with 30 states. Éloise's rule (0, 1) → (0, [2, 3])
/// has one first transition, to n states. Each but the lowest has a choice of two on letter 3, and the lowest has one
/// transition, to all further states, in which every choice of the others is lost: 2^(n - 1) runs, and one end. The library
/// passes the states of a set from the highest down, and comes to the lowest last.
pub fn absorbed_choices(n: u8) -> Vec<u8> {
    let mut making = hard_game(4, false);
    making.rule(0, 0, 0, &[0]);
    making.rule(0, 1, 0, &[2, 3]);
    making.idle_letters(0, 2..4);
    making.target(0, 2, first_states(n));
    for q in 2..=n {
        making.choice(q, 3);
    }
    making.target(1, 3, making.further());
    making.end()
}

/// Hard games of the second kind, of which `games/hard/hard2.game` is the one with 20 rules and `games/hard/deepest240.game`
/// the one with 240, which are as many as a file of the kind can have. Abelard's head (0, 1) has k rules (0, 1) → (0, [b, c]),
/// all of whose first transitions lead to ten states. Four of them, those with c = 16, have a choice of two for each: 1,024
/// ends, which with four rules is all that the library has room to list. The others have one end each, which finds no room, so
/// that they are walked for each union of the listed ones, and each takes another frame of the stack.
pub fn unlisted_rules(k: u8) -> Vec<u8> {
    let (states, above) = (10, 16);
    let mut making = hard_game(1 + above, true);
    making.rule(0, 1, 0, &[1, 1]);
    for b in 1..=4 {
        making.rule(0, 1, 0, &[b, above]);
    }
    for b in 1..=above {
        for c in 1..above {
            if making.rules < k as usize {
                making.rule(0, 1, 0, &[b, c]);
            }
        }
    }
    making.rule(0, 0, 0, &[0]);
    making.idle_letters(0, 2..1 + above);
    for b in 1..=above {
        making.target(0, b, first_states(states));
    }
    for q in 1..=states {
        making.choice(q, above);
        for c in 1..above {
            making.target(q, c, 1 << LAST);
        }
    }
    making.end()
}

/// As many rules of one head as a file can have, none of which the library lists: Abelard's (0, 1) → (0, w) for all 241 words w
/// of at most two of 15 letters. A rule of two letters is not listed where it has more than 1,024 ends. On every letter seven
/// states have a choice of two transitions each, and on letters 1 and 2 control state 0 leads to the 23 largest sets of these
/// states, which give 1,056 ends. The other letters are rewritten to 2, so that they lead to the same sets from round 2 on; the
/// first rules are theirs, so that the head has no run before. The walk takes a frame for each rule, and comes to the last of
/// them with its first run.
pub fn most_rules() -> Vec<u8> {
    let (states, above, sets) = (7, 15, 23);
    let mut making = hard_game(1 + above, true);
    for b in (1..=above).rev() {
        for c in 1..=above {
            making.rule(0, 1, 0, &[b, c]);
        }
    }
    for b in (1..=above).rev() {
        making.rule(0, 1, 0, &[b]);
    }
    making.rule(0, 1, 0, &[]);
    making.rule(0, 0, 0, &[0]);
    for b in 2..=above {
        making.rule(0, b, 0, &[2]);
    }
    let mut largest: Vec<u32> = (2..=first_states(states)).step_by(2).collect();
    largest.sort_by_key(|set| std::cmp::Reverse(set.count_ones()));
    for set in &largest[..sets] {
        making.target(0, 1, *set);
        making.target(0, 2, *set);
    }
    for q in 1..=states {
        for c in 1..=above {
            making.target(q, c, 1 << q);
            making.target(q, c, 1 << (q + states));
        }
    }
    making.end()
}

/// Hard games of the third kind, of which `games/hard/hard3.game` is the one with 18 states. Abelard's head (0, 1) has three
/// rules (0, 1) → (0, [2, c]), whose first transition leads to n states. Two of them, with c = 3 and 4, have a choice of two
/// for each state, 2^n ends; the third unites with all further states, in which every choice is lost: the head has one entry
/// more.
pub fn two_free_rules(n: u8) -> Vec<u8> {
    let mut making = hard_game(6, true);
    making.rule(0, 0, 0, &[0]);
    for c in 3..6 {
        making.rule(0, 1, 0, &[2, c]);
    }
    making.idle_letters(0, 2..6);
    making.target(0, 2, first_states(n));
    for c in 3..5 {
        for q in 1..=n {
            making.choice(q, c);
        }
    }
    for q in 1..=n {
        making.target(q, 5, making.further());
    }
    making.end()
}

/// A game at random of the size of the heavy ones.
pub fn random_game(random: &mut Random) -> Vec<u8> {
    let control = 4 + random.below(4) as u8;
    let states = control + 1 + random.below(4) as u8;
    let letters = 6 + random.below(16) as u8;
    let mut making = Making::new(control, states, letters);
    for p in 0..control {
        if random.below(3) == 0 {
            making.abelard(p);
        }
    }
    making.finals(control);
    for p in 0..control {
        for a in 0..letters {
            for _ in 0..1 + random.below(3) {
                let word = random_word(random, a, letters);
                making.rule(p, a, random.below(control as usize) as u8, &word);
            }
        }
    }
    for _ in 0..1 + random.below(5) {
        let set = (1 + random.below((1 << (states - control)) - 1) as u32) << control;
        making.target(random.below(states as usize) as u8, random.below(letters as usize) as u8, set);
    }
    making.end()
}

/// What a rule on a letter may write: the bottom is kept.
fn random_word(random: &mut Random, letter: u8, letters: u8) -> Vec<u8> {
    let above: Vec<u8> = (0..2).map(|_| 1 + random.below(letters as usize - 1) as u8).collect();
    let length = random.one_of(&[0, 1, 1, 2, 2]);
    if letter == 0 {
        return if length < 2 { vec![0] } else { vec![above[0], 0] };
    }
    above[..length].to_vec()
}
