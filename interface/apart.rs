//! Document 01 once more, with the requests of document 02 that landed: reader, rounds, judge and move, written from their text and
//! apart from the library, plainly and without regard to speed. The interface test holds the library to it.
//!
//! Leaves out: everything about buffers. Areas and their lengths are the test's matter (`main.rs`), as are words of results.

use std::collections::{BTreeMap, BTreeSet};

pub const MAX_FILE: usize = 4096;
pub const MAX_ENTRIES: usize = 2048;
pub const MAX_ROUNDS: u32 = 40;
pub const MAX_STACK: usize = 256;

/// The number of the first question answered no, and its place.
#[derive(Clone, Copy, Debug, PartialEq, Eq)]
pub struct Refusal {
    pub number: u32,
    pub place: u64,
}

fn refuse<T>(number: u32, place: usize) -> Result<T, Refusal> {
    Err(Refusal { number, place: place as u64 })
}

/// A set of states: bit s for state s.
pub type Set = u32;

fn members(set: Set) -> impl Iterator<Item = usize> {
    (0..32).filter(move |s| set & (1 << s) != 0)
}

/// A rule (from, letter) → (to, word), the word's top letter first.
#[derive(Clone, Debug)]
pub struct Rule {
    pub from: u8,
    pub letter: u8,
    pub to: u8,
    pub word: Vec<u8>,
}

#[derive(Clone, Debug)]
pub struct Game {
    pub control: u8,
    pub states: u8,
    pub letters: u8,
    pub abelard: Set,
    pub finals: Set,
    pub rules: Vec<Rule>,
    pub targets: Vec<(u8, u8, Set)>,
}

impl Game {
    pub fn is_abelards(&self, state: u8) -> bool {
        self.abelard & (1 << state) != 0
    }

    /// The rules of a head with their numbers.
    pub fn rules_of(&self, state: u8, letter: u8) -> impl Iterator<Item = (usize, &Rule)> {
        self.rules.iter().enumerate().filter(move |(_, rule)| rule.from == state && rule.letter == letter)
    }
}

/// The file's questions: 1 to 9 of document 01, and 19 of document 02 right after 2.
pub fn read(file: &[u8]) -> Result<Game, Refusal> {
    if file.is_empty() || file.len() > MAX_FILE {
        return refuse(1, 0);
    }
    let mut game = Game { control: 0, states: 0, letters: 0, abelard: 0, finals: 0, rules: vec![], targets: vec![] };
    let mut before: Vec<&[u8]> = vec![];
    let mut at = 0;
    let end = loop {
        if at == file.len() {
            return refuse(8, file.len());
        }
        let length = match file[at] {
            0x01 => 4,
            0x02 | 0x03 => 2,
            0x04 | 0x05 => 7,
            0xFF => 1,
            _ => return refuse(2, at),
        };
        if at + length > file.len() {
            return refuse(19, at);
        }
        let command = &file[at..at + length];
        if (command[0] == 0x01) != (at == 0) {
            return refuse(3, at);
        }
        if command[0] == 0xFF {
            break at;
        }
        let of_its_kind = before.iter().filter(|earlier| earlier[0] == command[0]).count();
        let (p, s, l) = (game.control, game.states, game.letters);
        match *command {
            [0x01, p, s, l] => {
                if !(1..=24).contains(&p) || !(s > p && s <= 32) || !(1..=64).contains(&l) {
                    return refuse(4, at);
                }
                (game.control, game.states, game.letters) = (p, s, l);
            }
            [0x02, q] => {
                if q >= p {
                    return refuse(4, at);
                }
                if before.contains(&command) {
                    return refuse(6, at);
                }
                game.abelard |= 1 << q;
            }
            [0x03, q] => {
                if q < p || q >= s {
                    return refuse(4, at);
                }
                if before.contains(&command) {
                    return refuse(6, at);
                }
                game.finals |= 1 << q;
            }
            [0x04, from, letter, to, k, b, c] => {
                let in_range = from < p && to < p && letter < l && b < l && c < l && k <= 2;
                if !in_range || (k < 2 && c != 0) || (k < 1 && b != 0) {
                    return refuse(4, at);
                }
                let word = [b, c][..k as usize].to_vec();
                let zeros: Vec<usize> = (0..word.len()).filter(|i| word[*i] == 0).collect();
                let keeps = if letter == 0 { !word.is_empty() && zeros == [word.len() - 1] } else { zeros.is_empty() };
                if !keeps {
                    return refuse(5, at);
                }
                if before.contains(&command) {
                    return refuse(6, at);
                }
                if of_its_kind >= 256 {
                    return refuse(7, at);
                }
                game.rules.push(Rule { from, letter, to, word });
            }
            [0x05, q, letter, s0, s1, s2, s3] => {
                let set = Set::from_le_bytes([s0, s1, s2, s3]);
                let further = members(set).all(|q| q >= p as usize && q < s as usize);
                if q >= s || letter >= l || set == 0 || !further {
                    return refuse(4, at);
                }
                if before.contains(&command) {
                    return refuse(6, at);
                }
                if of_its_kind >= 256 {
                    return refuse(7, at);
                }
                game.targets.push((q, letter, set));
            }
            _ => unreachable!("every known command has its length"),
        }
        before.push(command);
        at += length;
    };
    if end + 1 != file.len() {
        return refuse(8, end);
    }
    for p in 0..game.control {
        for a in 0..game.letters {
            if game.rules_of(p, a).next().is_none() {
                return refuse(9, end);
            }
        }
    }
    Ok(game)
}

/// State, letter, set; the order of a table is that of keys.
type Key = (u8, u8, Set);

/// Birthdate, and the rule's number where it has one.
type Born = (u32, Option<usize>);

/// Entries by key.
pub type Entries = BTreeMap<Key, Born>;

/// The ends of runs over a word from a state.
fn ends(entries: &Entries, state: u8, word: &[u8]) -> BTreeSet<Set> {
    let Some((first, rest)) = word.split_first() else {
        return BTreeSet::from([1 << state]);
    };
    let mut all = BTreeSet::new();
    for (_, set) in transitions(entries, state, *first) {
        if rest.is_empty() {
            all.insert(set);
        } else {
            all.extend(one_each(members(set).map(|q| ends(entries, q as u8, rest))));
        }
    }
    all
}

/// The birthdates and sets of the entries of a state on a letter.
fn transitions(entries: &Entries, state: u8, letter: u8) -> impl Iterator<Item = (u32, Set)> + '_ {
    entries.range((state, letter, 0)..=(state, letter, Set::MAX)).map(|((_, _, set), (born, _))| (*born, *set))
}

/// The unions of one set out of each of several.
fn one_each(choices: impl Iterator<Item = BTreeSet<Set>>) -> BTreeSet<Set> {
    let mut unions = BTreeSet::from([0]);
    for choice in choices {
        unions = unions.iter().flat_map(|union| choice.iter().map(move |set| union | set)).collect();
    }
    unions
}

/// Round i + 1 from round i.
fn next_round(game: &Game, old: &Entries, birthdate: u32) -> Entries {
    let mut new = old.clone();
    for p in 0..game.control {
        for a in 0..game.letters {
            if game.is_abelards(p) {
                let all = game.rules_of(p, a).map(|(_, rule)| ends(old, rule.to, &rule.word));
                for set in one_each(all) {
                    new.entry((p, a, set)).or_insert((birthdate, None));
                }
            } else {
                for (number, rule) in game.rules_of(p, a) {
                    for set in ends(old, rule.to, &rule.word) {
                        new.entry((p, a, set)).or_insert((birthdate, Some(number)));
                    }
                }
            }
        }
    }
    new
}

/// A solved game: its entries, and the largest birthdate.
#[derive(Clone, Debug)]
pub struct Solved {
    pub entries: Entries,
    pub rounds: u32,
}

/// Whether so many words are a table's length: question 10, and the first part of 13.
fn is_table_length(words: usize) -> bool {
    words % 3 == 0 && words >= 3 && words <= 3 * MAX_ENTRIES
}

/// The file's questions and 10 to 12, with two areas of so many words.
pub fn solve(file: &[u8], table: usize, work: usize) -> Result<Solved, Refusal> {
    let game = read(file)?;
    if table != work || !is_table_length(table) {
        return refuse(10, 0);
    }
    let room = table / 3;
    let mut entries: Entries = game.targets.iter().map(|key| (*key, (0, None))).collect();
    let mut round = 0;
    loop {
        if entries.len() > room {
            return refuse(11, round as usize);
        }
        let next = next_round(&game, &entries, round + 1);
        if next.len() == entries.len() {
            break;
        }
        if round == MAX_ROUNDS {
            return refuse(12, 41);
        }
        entries = next;
        round += 1;
    }
    let rounds = entries.values().map(|(birthdate, _)| *birthdate).max().unwrap_or(0);
    Ok(Solved { entries, rounds })
}

/// The words of a table: three an entry, zeros after them.
pub fn words(entries: &Entries, length: usize) -> Vec<u32> {
    let mut words = vec![];
    for ((state, letter, set), (birthdate, rule)) in entries {
        words.push(*state as u32 + 256 * *letter as u32 + 65_536 * birthdate);
        words.push(*set);
        words.push(rule.map_or(0, |number| number as u32 + 1));
    }
    words.resize(length, 0);
    words
}

/// Question 13, and the entries of the table.
fn table_of(game: &Game, table: &[u32]) -> Result<Entries, Refusal> {
    if !is_table_length(table.len()) {
        return refuse(13, 0);
    }
    let mut entries = Entries::new();
    let mut unused_before = false;
    for (index, entry) in table.chunks(3).enumerate() {
        if entry == [0, 0, 0] {
            unused_before = true;
            continue;
        }
        let state = (entry[0] % 256) as u8;
        let letter = (entry[0] / 256 % 256) as u8;
        let birthdate = entry[0] / 65_536;
        let set = entry[1];
        let is_control = state < game.control;
        let in_range = state < game.states
            && letter < game.letters
            && set != 0
            && members(set).all(|q| q < game.states as usize)
            && birthdate <= MAX_ROUNDS
            && (is_control || birthdate == 0)
            && (birthdate > 0 || members(set).all(|q| q >= game.control as usize));
        if !in_range {
            return refuse(13, index);
        }
        let rule = if birthdate > 0 && !game.is_abelards(state) {
            match game.rules_of(state, letter).find(|(number, _)| *number as u64 + 1 == entry[2] as u64) {
                None => return refuse(13, index),
                Some((number, _)) => Some(number),
            }
        } else if entry[2] == 0 {
            None
        } else {
            return refuse(13, index);
        };
        let key = (state, letter, set);
        if unused_before || entries.keys().next_back().is_some_and(|last| *last >= key) {
            return refuse(13, index);
        }
        entries.insert(key, (birthdate, rule));
    }
    Ok(entries)
}

/// Question 14: the first byte that breaks the form, or 0 for the length.
fn form(game: &Game, position: &[u8]) -> Result<(), Refusal> {
    if position.len() < 2 || position.len() > 1 + MAX_STACK {
        return refuse(14, 0);
    }
    for (index, byte) in position.iter().enumerate() {
        let good = match index {
            0 => *byte < game.control,
            _ if index == position.len() - 1 => *byte == 0,
            _ => *byte != 0 && *byte < game.letters,
        };
        if !good {
            return refuse(14, index);
        }
    }
    Ok(())
}

#[derive(Clone, Copy, Debug, PartialEq, Eq)]
pub enum Verdict {
    /// With the lowest-numbered rule of Abelard's that leads to a lost position: none for a position of Éloise's, and where no rule does.
    Lost { rule: Option<usize> },
    Target,
    Eloise { rule: usize, bound: u64 },
    Abelard { bound: u64 },
}

/// The worth of every state on a stack, top letter first, or none.
fn worths(game: &Game, entries: &Entries, stack: &[u8]) -> Vec<Option<u64>> {
    let Some((top, rest)) = stack.split_first() else {
        return (0..32).map(|q| if game.finals & (1 << q) != 0 { Some(0) } else { None }).collect();
    };
    let below = worths(game, entries, rest);
    (0..32).map(|q| transitions(entries, q, *top).filter_map(|run| run_worth(&below, run)).min()).collect()
}

/// The worth of the best run that starts with a transition, over the worths of the rest of the stack: the largest of its
/// branches.
fn run_worth(below: &[Option<u64>], (birthdate, set): (u32, Set)) -> Option<u64> {
    let mut largest = 0;
    for q in members(set) {
        largest = largest.max(below[q]?);
    }
    Some((1u64 << birthdate) - 1 + largest)
}

/// The states that accept a stack, top letter first, from the bottom up: the final ones accept no letters, and a state accepts one
/// letter more if it has a transition on it all of whose set accepts what is below. There is no height that this refuses, and no sum.
fn accepting(game: &Game, entries: &Entries, stack: &[u8]) -> Set {
    let mut accept = game.finals;
    for letter in stack.iter().rev() {
        let steps = |q: &u8| transitions(entries, *q, *letter).any(|(_, set)| set & !accept == 0);
        accept = (0..game.states).filter(steps).fold(0, |all, q| all | 1 << q);
    }
    accept
}

/// Document 02, 2: of a lost position of Abelard's the lowest-numbered rule that leads to a lost position. The successor, of up to 257
/// letters, is lost over the table if its control state does not accept its stack.
fn losing_rule(game: &Game, entries: &Entries, state: u8, stack: &[u8]) -> Option<usize> {
    if !game.is_abelards(state) {
        return None;
    }
    let leads_to_lost = |rule: &Rule| {
        let successor = [&rule.word, &stack[1..]].concat();
        accepting(game, entries, &successor) & (1 << rule.to) == 0
    };
    game.rules_of(state, stack[0]).find(|(_, rule)| leads_to_lost(rule)).map(|(number, _)| number)
}

/// Whether a position is in the target: its control state accepts its stack by the target's transitions alone.
pub fn is_in_target(game: &Game, position: &[u8]) -> bool {
    let targets: Entries = game.targets.iter().map(|key| (*key, (0, None))).collect();
    accepting(game, &targets, &position[1..]) & (1 << position[0]) != 0
}

/// The file's questions, 13 and 14, and the verdict.
pub fn judge(file: &[u8], table: &[u32], position: &[u8]) -> Result<Verdict, Refusal> {
    let game = read(file)?;
    let entries = table_of(&game, table)?;
    form(&game, position)?;
    let (state, stack) = (position[0], &position[1..]);
    let Some(bound) = worths(&game, &entries, stack)[state as usize] else {
        return Ok(Verdict::Lost { rule: losing_rule(&game, &entries, state, stack) });
    };
    assert!(bound < 1 << 48, "document 02, 5: no judged bound reaches 2^48");
    if bound == 0 {
        return Ok(Verdict::Target);
    }
    if game.is_abelards(state) {
        return Ok(Verdict::Abelard { bound });
    }
    let below = worths(&game, &entries, &stack[1..]);
    let rule = entries
        .iter()
        .filter(|((q, letter, _), _)| *q == state && *letter == stack[0])
        .filter(|((_, _, set), (birthdate, _))| run_worth(&below, (*birthdate, *set)) == Some(bound))
        .filter_map(|(_, (_, rule))| *rule)
        .min()
        .expect("a bound above 0 starts with an entry that has a rule");
    Ok(Verdict::Eloise { rule, bound })
}

/// A session: what 259 bytes say.
#[derive(Clone, Debug, PartialEq, Eq)]
pub struct Session {
    pub state: u8,
    pub height: usize,
    pub cells: Vec<u8>,
}

/// The file's questions, 14, 16 and 17, and the session after the move.
pub fn play(file: &[u8], session: &Session, rule: u32) -> Result<Session, Refusal> {
    let game = read(file)?;
    if session.height < 1 || session.height > MAX_STACK {
        return refuse(14, 0);
    }
    let mut stack = session.cells[..session.height].to_vec();
    let mut position = vec![session.state];
    position.extend(stack.iter().rev());
    if form(&game, &position).is_err() {
        return refuse(14, 0);
    }
    let top = stack.pop().expect("the height is at least 1");
    let found = game.rules_of(session.state, top).find(|(number, _)| *number as u64 == rule as u64);
    let Some((_, rule)) = found else {
        return refuse(16, 0);
    };
    stack.extend(rule.word.iter().rev());
    if stack.len() > MAX_STACK {
        return refuse(17, 0);
    }
    let height = stack.len();
    stack.resize(MAX_STACK, 0);
    Ok(Session { state: rule.to, height, cells: stack })
}
