//! Rounds over sets of any of the 32 states, as lists of sets without repeats. Each round starts afresh, but for rules and first
//! transitions that have nothing new since the last one. Where a list grows too long, the rules in question are walked instead.

use super::log::{Full, Log, Writing, MAX_ENTRIES};
use super::reader::Game;
use super::unique::{Overflow, Unique};
use super::view::View;
use super::walk::Walk;
use crate::answer::{refuse, Answer, Solved, MAX_ROUNDS};
use crate::reader::{Rule, MAX_OF_A_KIND};
use std::mem::MaybeUninit;

/// The larger arrays, none of them set at first.
struct Space {
    /// For the unions of one transition for each state of a set.
    unions: [Unique; 2],
    ends: Unique,
    /// For the unions of ends of an Abelard head's rules.
    layers: [Unique; 2],
    walk: Walk,
}

struct Rounds<'a> {
    game: &'a Game,
    space: &'a mut Space,
    view: View,
    log: Log,
    /// By hash of head and set the number of the entry, or 0.
    members: [u16; 2 * MAX_ENTRIES],
    walks: u32,
}

/// The rules of Abelard's heads, one head after the other.
struct Abelards {
    rules: [Rule; MAX_OF_A_KIND],
    count: usize,
}

#[inline(never)]
pub fn solve(game: &Game, table: &mut [u32]) -> Answer {
    let mut space = MaybeUninit::<Space>::uninit();
    // Every field is of memory that may be unset.
    let space = unsafe { space.assume_init_mut() };
    let abelards = Abelards::of(game);
    let mut rounds = Rounds {
        game,
        space,
        view: View::none(game.letters),
        log: Log::none(table.len() / 3),
        members: [0; 2 * MAX_ENTRIES],
        walks: 0,
    };
    for target in game.targets() {
        if rounds.offer(target.state, target.letter, target.set, 0).is_err() {
            return refuse(11, 0);
        }
    }
    loop {
        let before = rounds.log.count;
        rounds.log.round += 1;
        let round = rounds.log.round;
        let beyond = round as u32 > MAX_ROUNDS;
        if beyond {
            rounds.log.room = before;
        }
        if rounds.take(round, &abelards).is_err() {
            return refuse(if beyond { 12 } else { 11 }, round as usize);
        }
        if rounds.log.count == before {
            return Ok(write(game, &rounds.log, table));
        }
    }
}

impl Abelards {
    fn of(game: &Game) -> Abelards {
        let none = Rule { from: 0, letter: 0, to: 0, written: 0, b: 0, c: 0 };
        let mut abelards = Abelards { rules: [none; MAX_OF_A_KIND], count: 0 };
        for rule in game.rules().iter().filter(|rule| game.is_abelards(rule.from as usize)) {
            abelards.rules[abelards.count] = *rule;
            abelards.count += 1;
        }
        abelards.rules[..abelards.count].sort_unstable_by_key(|rule| (rule.from, rule.letter, rule.written));
        abelards
    }

    fn heads(&self) -> impl Iterator<Item = &[Rule]> {
        self.rules[..self.count].chunk_by(|one, other| (one.from, one.letter) == (other.from, other.letter))
    }
}

impl Rounds<'_> {
    fn take(&mut self, round: u16, abelards: &Abelards) -> Result<(), Full> {
        self.view.update(self.game, &self.log, round);
        for (number, rule) in self.game.rules().iter().enumerate() {
            if !self.game.is_abelards(rule.from as usize) && self.may_be_new(rule, round) {
                self.take_rule(rule, number as u16 + 1)?;
            }
        }
        for rules in abelards.heads() {
            if rules.iter().all(|rule| self.has_end(rule)) && rules.iter().any(|rule| self.may_be_new(rule, round)) {
                self.take_head(rules)?;
            }
        }
        Ok(())
    }

    /// Whether a rule may have an end that it had not in the last round.
    fn may_be_new(&self, rule: &Rule, round: u16) -> bool {
        let is_first_new = !self.view.new_of(rule.to as usize, rule.b as usize).is_empty();
        match rule.written {
            0 => round == 1,
            1 => is_first_new,
            _ => is_first_new || self.view.fresh[rule.c as usize] != 0,
        }
    }

    fn has_end(&self, rule: &Rule) -> bool {
        let first = self.view.of(rule.to as usize, rule.b as usize);
        match rule.written {
            0 => true,
            1 => !first.is_empty(),
            _ => first.iter().any(|set| set & !self.view.alive[rule.c as usize] == 0),
        }
    }

    fn take_rule(&mut self, rule: &Rule, number: u16) -> Result<(), Full> {
        self.space.ends.clear();
        let is_listed = match rule.written {
            0 => self.space.ends.add(1 << rule.to),
            1 => self.space.ends.add_all(self.view.new_of(rule.to as usize, rule.b as usize)),
            _ => list_runs(self.space, &self.view, rule, true),
        };
        if is_listed.is_err() {
            return self.walk(std::slice::from_ref(rule), number);
        }
        for i in 0..self.space.ends.sets().len() {
            self.offer(rule.from, rule.letter, self.space.ends.sets()[i], number)?;
        }
        Ok(())
    }

    fn take_head(&mut self, rules: &[Rule]) -> Result<(), Full> {
        let Ok(layer) = list_unions(self.space, &self.view, rules) else {
            return self.walk(rules, 0);
        };
        for i in 0..self.space.layers[layer].sets().len() {
            self.offer(rules[0].from, rules[0].letter, self.space.layers[layer].sets()[i], 0)?;
        }
        Ok(())
    }

    fn walk(&mut self, rules: &[Rule], number: u16) -> Result<(), Full> {
        self.walks += 1;
        let Rounds { game, space, view, log, members, walks } = self;
        let (state, letter) = (rules[0].from, rules[0].letter);
        let head = state as usize * game.letters + letter as usize;
        space.walk.run(view, rules, *walks, |set| offer(log, members, head, set, number))
    }

    fn offer(&mut self, state: u8, letter: u8, set: u32, rule: u16) -> Result<(), Full> {
        let head = state as usize * self.game.letters + letter as usize;
        offer(&mut self.log, &mut self.members, head, set, rule)
    }
}

/// An entry, unless it is there.
fn offer(log: &mut Log, members: &mut [u16; 2 * MAX_ENTRIES], head: usize, set: u32, rule: u16) -> Result<(), Full> {
    let mixed = (set ^ (head as u32) << 20).wrapping_mul(0x9E37_79B1).rotate_left(12) ^ head as u32;
    let mut slot = mixed as usize % members.len();
    while members[slot] != 0 {
        let entry = log.entry(members[slot] as usize);
        if entry.set == set && entry.head as usize == head {
            return Ok(());
        }
        slot = (slot + 1) % members.len();
    }
    log.push(head, set, rule)?;
    members[slot] = log.count as u16;
    Ok(())
}

/// Adds the ends of a rule's runs over two letters to `ends`; of first transitions that have nothing new only if asked to.
fn list_runs(space: &mut Space, view: &View, rule: &Rule, only_new: bool) -> Result<(), Overflow> {
    let (state, below) = (rule.to as usize, rule.c as usize);
    let first = view.of(state, rule.b as usize);
    let old = first.len() - view.new_of(state, rule.b as usize).len();
    for (i, set) in first.iter().enumerate() {
        let is_new = i >= old || set & view.fresh[below] != 0;
        if set & !view.alive[below] != 0 || only_new && !is_new {
            continue;
        }
        let [mut unions, mut next] = space.unions.each_mut();
        unions.clear();
        unions.add_with(view.of(set.trailing_zeros() as usize, below), view.certain(*set, below))?;
        let mut left = set & (set - 1);
        while left != 0 {
            next.clear();
            next.unite(unions.sets(), view.of(left.trailing_zeros() as usize, below))?;
            std::mem::swap(&mut unions, &mut next);
            left &= left - 1;
        }
        space.ends.add_all(unions.sets())?;
    }
    Ok(())
}

/// The unions of ends, one run for each rule: in which layer they are.
fn list_unions(space: &mut Space, view: &View, rules: &[Rule]) -> Result<usize, Overflow> {
    let certain = rules.iter().fold(0, |states, rule| states | view.certain_of(rule));
    for (i, rule) in rules.iter().enumerate() {
        space.ends.clear();
        match rule.written {
            0 => space.ends.add(1 << rule.to)?,
            1 => space.ends.add_all(view.of(rule.to as usize, rule.b as usize))?,
            _ => list_runs(space, view, rule, false)?,
        }
        let [mut layer, mut before] = space.layers.each_mut();
        if i % 2 == 1 {
            std::mem::swap(&mut layer, &mut before);
        }
        layer.clear();
        if i == 0 {
            layer.add_with(space.ends.sets(), certain)?;
        } else {
            layer.unite(before.sets(), space.ends.sets())?;
        }
    }
    Ok((rules.len() - 1) % 2)
}

fn write(game: &Game, log: &Log, table: &mut [u32]) -> Solved {
    let mut writing = Writing::new(table);
    let mut numbers = [0u64; MAX_ENTRIES];
    for state in 0..game.states {
        for letter in 0..game.letters {
            let mut count = 0;
            for number in log.of_head(state * game.letters + letter) {
                numbers[count] = (log.entry(number).set as u64) << 32 | number as u64;
                count += 1;
            }
            numbers[..count].sort_unstable();
            for number in &numbers[..count] {
                writing.write(state, letter, (number >> 32) as u32, log.entry(*number as u32 as usize));
            }
        }
    }
    writing.end()
}
