//! Rounds over families of sets of at most ten elements, as bits.
//!
//! Every list of sets that a rule may draw on is a family that only grows, kept over all rounds with what it grew by in the
//! running one: the entries of a head, the one set of a rule that writes no letters, the ends of runs over bc from q, and for a
//! set X and a letter c the unions of one transition on c for each state of X. The last are made from the family of X without its
//! highest element, once for each (X, c) that comes up as long as there is room, and otherwise whenever they are asked for.
//! Only what has something new in it since the last round is looked at. A family has no more members than there are sets of its
//! elements, so that nothing here depends on the number of runs.

mod begin;

use super::elements::{write, Elements};
use super::family::{add, is_empty, subsets, unite, without, Family, Pool};
use super::jobs::{Jobs, MAX_HEADS};
use super::log::{Full, Log};
use super::reader::Game;
use crate::answer::{refuse, Answer, MAX_ROUNDS};
use std::mem::MaybeUninit;

const MAX_LETTERS: usize = 64;

/// Room for every family but those of (X, c), and for at least 1,500 of those.
const FAMILIES: usize = 2304;

/// The larger arrays, none of them set at first.
struct Space<const W: usize> {
    all: Pool<W, FAMILIES>,
    new: Pool<W, FAMILIES>,
    /// What the running round adds to a head.
    added: Pool<W, MAX_HEADS>,
    /// For Abelard's heads, the unions of ends of the first two rules, three rules and so on, but for the last one.
    layers: Pool<W, MAX_HEADS>,
    /// For each letter, the sets whose elements all have a transition on it, and those of them of which an element has a new one.
    alive: Pool<W, MAX_LETTERS>,
    touched: Pool<W, MAX_LETTERS>,
    /// For each letter and set its family, or 0.
    family_of: [[[MaybeUninit<u16>; 64]; W]; MAX_LETTERS],
}

struct Rounds<'a, const W: usize> {
    space: &'a mut Space<W>,
    round: u8,
    letters: usize,
    families: usize,
    /// The round in which a family last grew, and in which it was last looked at.
    grown: [u8; FAMILIES],
    seen: [u8; FAMILIES],
    /// The family of each letter and element.
    heads: [[u16; 16]; MAX_LETTERS],
    /// For each control state the element that it is, as a set.
    element: [u16; 32],
    /// For each letter, the elements with a transition on it, and with a new one.
    alive: [u16; MAX_LETTERS],
    fresh: [u16; MAX_LETTERS],
    /// The heads that the running round adds to.
    gaining: [u16; MAX_HEADS],
    gaining_count: usize,
}

/// Rounds of a game whose sets have at most 6 + log2 W elements.
#[inline(never)]
pub fn solve<const W: usize>(game: &Game, table: &mut [u32]) -> Answer {
    let mut space = MaybeUninit::<Space<W>>::uninit();
    // Every field is of memory that may be unset.
    let space = unsafe { space.assume_init_mut() };
    let mut log = Log::none(table.len() / 3);
    let jobs = Jobs::new(game);
    let elements = Elements::of(game);
    let mut rounds = Rounds {
        space,
        round: 0,
        letters: game.letters,
        families: jobs.free(),
        grown: [0; FAMILIES],
        seen: [0; FAMILIES],
        heads: [[0; 16]; MAX_LETTERS],
        element: [0; 32],
        alive: [0; MAX_LETTERS],
        fresh: [0; MAX_LETTERS],
        gaining: [0; MAX_HEADS],
        gaining_count: 0,
    };
    if rounds.begin(game, &jobs, &elements, &mut log).is_err() {
        return refuse(11, 0);
    }
    loop {
        let before = log.count;
        rounds.round += 1;
        log.round = rounds.round as u16;
        let beyond = log.round as u32 > MAX_ROUNDS;
        if beyond {
            log.room = before;
        }
        if rounds.take(&jobs, &mut log).is_err() {
            return refuse(if beyond { 12 } else { 11 }, log.round as usize);
        }
        if log.count == before {
            return Ok(write::<W>(game, &elements, &log, table));
        }
        rounds.end();
    }
}

impl<const W: usize> Rounds<'_, W> {
    /// Which sets of elements are alive and touched, for the letters that runs pass second and on which something is new.
    fn mark(&mut self, jobs: &Jobs) {
        let mut done = 0u64;
        for ends in jobs.ends.items() {
            let letter = ends.below as usize;
            if self.fresh[letter] == 0 && self.round > 0 || done >> letter & 1 == 1 {
                continue;
            }
            done |= 1 << letter;
            let alive = subsets(self.alive[letter] as usize);
            self.space.alive.set(letter, alive);
            self.space.touched.set(letter, without(&alive, &subsets(!self.fresh[letter] as usize)));
        }
    }

    /// A round: what it adds is left in `added` and the log.
    fn take(&mut self, jobs: &Jobs, log: &mut Log) -> Result<(), Full> {
        if self.round > 1 {
            self.mark(jobs);
        }
        for single in jobs.singles.items() {
            self.grow_ends(jobs, single.family);
            if self.grown[single.family as usize] == self.round {
                let ends = *self.space.new.get(single.family as usize);
                self.offer(single.head as usize, &ends, single.rule, log)?;
            }
        }
        for product in jobs.products.items() {
            let factors = &jobs.factors[product.first as usize..product.end as usize];
            factors.iter().for_each(|factor| self.grow_ends(jobs, *factor));
            if factors.iter().any(|family| self.grown[*family as usize] == self.round) {
                let unions = self.product(factors, product.layers as usize);
                self.offer(product.head as usize, &unions, 0, log)?;
            }
        }
        Ok(())
    }

    /// Adds those of a head's entries that are not there.
    #[inline(always)]
    fn offer(&mut self, head: usize, sets: &Family<W>, rule: u16, log: &mut Log) -> Result<(), Full> {
        let (all, added) = (self.space.all.get(head), self.space.added.get_mut(head));
        let more: Family<W> = std::array::from_fn(|i| sets[i] & !(all[i] | added[i]));
        if is_empty(&more) {
            return Ok(());
        }
        if is_empty(added) {
            self.gaining[self.gaining_count] = head as u16;
            self.gaining_count += 1;
        }
        add(added, &more);
        for high in 0..W {
            let mut members = more[high];
            while members != 0 {
                log.push(head, 64 * high as u32 + members.trailing_zeros(), rule)?;
                members &= members - 1;
            }
        }
        Ok(())
    }

    /// Brings a family that rules draw on up to the old round, if it is one of the ends of runs over bc from q.
    #[inline(always)]
    fn grow_ends(&mut self, jobs: &Jobs, family: u16) {
        if let Some(ends) = jobs.ends_in(family) {
            if self.seen[family as usize] != self.round {
                self.seen[family as usize] = self.round;
                self.grow_runs(ends.first as usize, ends.below as usize, family as usize);
            }
        }
    }

    /// The ends of runs over bc from q; `first` is the head (q, b).
    fn grow_runs(&mut self, first: usize, below: usize, family: usize) {
        let is_first_new = self.grown[first] == self.round;
        let is_below_new = self.fresh[below] != 0;
        if !is_first_new && !is_below_new {
            return;
        }
        let mut sets = [0; W];
        for i in 0..W {
            if is_first_new {
                sets[i] |= self.space.new.get(first)[i] & self.space.alive.get(below)[i];
            }
            if is_below_new {
                sets[i] |= self.space.all.get(first)[i] & self.space.touched.get(below)[i];
            }
        }
        let mut ends = [0; W];
        for high in 0..W {
            let mut members = sets[high];
            while members != 0 {
                self.add_unions(&mut ends, 64 * high + members.trailing_zeros() as usize, below);
                members &= members - 1;
            }
        }
        self.grow(family, &ends);
    }

    /// Takes sets into a family, and notes those that are new as its growth of this round.
    #[inline(always)]
    fn grow(&mut self, family: usize, sets: &Family<W>) {
        let all = self.space.all.get_mut(family);
        let new = without(sets, all);
        if !is_empty(&new) {
            add(all, &new);
            self.space.new.set(family, new);
            self.grown[family] = self.round;
        }
    }

    /// Adds the unions of one transition on a letter for each element of a set, each of which has one.
    #[inline(always)]
    fn add_unions(&mut self, ends: &mut Family<W>, set: usize, letter: usize) {
        match self.unions(set, letter) {
            Some(family) => add(ends, self.space.all.get(family)),
            None => add(ends, &self.unions_anew(set, letter)),
        }
    }

    /// The family of these unions, up to the old round; none if there is no room for it.
    #[inline(always)]
    fn unions(&mut self, set: usize, letter: usize) -> Option<usize> {
        if set & (set - 1) == 0 {
            return Some(self.head(set, letter));
        }
        let known = unsafe { self.space.family_of[letter][set / 64][set % 64].assume_init() } as usize;
        if known == 0 {
            return self.take_unions(set, letter);
        }
        if self.seen[known] != self.round && set as u16 & self.fresh[letter] != 0 {
            self.grow_unions(known, set, letter);
        }
        Some(known)
    }

    /// The family of the head of a set's lowest element and a letter.
    #[inline(always)]
    fn head(&self, set: usize, letter: usize) -> usize {
        self.heads[letter][set.trailing_zeros() as usize % 16] as usize
    }

    #[inline(never)]
    fn grow_unions(&mut self, family: usize, set: usize, letter: usize) {
        self.seen[family] = self.round;
        let lowest = self.head(set, letter);
        if let Some(rest) = self.unions_again(set & (set - 1), letter) {
            let unions = self.new_unions(rest, lowest);
            self.grow(family, &unions);
        }
    }

    #[inline(never)]
    fn take_unions(&mut self, set: usize, letter: usize) -> Option<usize> {
        let lowest = self.head(set, letter);
        let rest = self.unions_again(set & (set - 1), letter)?;
        if self.families == FAMILIES {
            return None;
        }
        let family = self.families;
        self.families += 1;
        self.space.family_of[letter][set / 64][set % 64] = MaybeUninit::new(family as u16);
        let mut unions = [0; W];
        unite(&mut unions, self.space.all.get(rest), self.space.all.get(lowest));
        self.space.all.set(family, unions);
        self.space.new.set(family, unions);
        (self.grown[family], self.seen[family]) = (self.round, self.round);
        Some(family)
    }

    /// As `unions`, where it is a part of itself.
    fn unions_again(&mut self, set: usize, letter: usize) -> Option<usize> {
        self.unions(set, letter)
    }

    /// The unions of two families that have something new in them.
    #[inline(always)]
    fn new_unions(&self, one: usize, other: usize) -> Family<W> {
        let (all, new) = (&self.space.all, &self.space.new);
        let mut unions = [0; W];
        if self.grown[one] == self.round {
            unite(&mut unions, all.get(other), new.get(one));
        }
        if self.grown[other] == self.round {
            unite(&mut unions, all.get(one), new.get(other));
        }
        unions
    }

    /// The same unions without a family to keep them in.
    fn unions_anew(&self, set: usize, letter: usize) -> Family<W> {
        let mut unions = *self.space.all.get(self.head(set, letter));
        let mut left = set & (set - 1);
        while left != 0 {
            let sets = self.space.all.get(self.head(left, letter));
            let one = std::mem::replace(&mut unions, [0; W]);
            unite(&mut unions, &one, sets);
            left &= left - 1;
        }
        unions
    }

    /// The unions of one member of each factor that have something new in them. Layer n has those of the first n + 2 factors.
    fn product(&mut self, factors: &[u16], layers: usize) -> Family<W> {
        let first = factors[0] as usize;
        let mut new = if self.grown[first] == self.round { *self.space.new.get(first) } else { [0; W] };
        for (n, factor) in factors[1..].iter().enumerate() {
            let factor = *factor as usize;
            let mut unions = [0; W];
            unite(&mut unions, self.space.all.get(factor), &new);
            if self.grown[factor] == self.round {
                let before = if n == 0 { self.space.all.get(first) } else { self.space.layers.get(layers + n - 1) };
                unite(&mut unions, before, self.space.new.get(factor));
            }
            if n + 2 < factors.len() {
                let layer = self.space.layers.get_mut(layers + n);
                unions = without(&unions, layer);
                add(layer, &unions);
            }
            new = unions;
        }
        new
    }

    /// What the round added becomes old.
    fn end(&mut self) {
        self.fresh = [0; MAX_LETTERS];
        for head in &self.gaining[..self.gaining_count] {
            let head = *head as usize;
            let added = std::mem::replace(self.space.added.get_mut(head), [0; W]);
            add(self.space.all.get_mut(head), &added);
            self.space.new.set(head, added);
            self.grown[head] = self.round + 1;
            let (state, letter) = (head / self.letters, head % self.letters);
            self.fresh[letter] |= self.element[state];
            self.alive[letter] |= self.element[state];
        }
        self.gaining_count = 0;
    }
}
