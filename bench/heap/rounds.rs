//! Rounds that keep what was found over all of them and form only the unions that have something new in them:
//! - the entries of each head; a round sees those that were there when it began
//! - for a set X of states and a letter c, the unions of one transition on c for each state of X, one family for each (X, c) that
//!   comes up and has any, made from that of X without its highest state
//! - the ends of runs over bc from q, once for all the rules that write bc and go to q
//! - for Abelard's head, the unions of ends of its first two rules, three rules and so on, but for the last one
//!
//! So each of these unites a pair of sets at most once in a whole solve, not once a round. An end that an earlier round gave is
//! in the table already: only new ends are offered to it, rules of a head in order, and the first offer of a set in its round is
//! that of the lowest rule.
//!
//! Leaves out: any bound on memory, but that it gives up a game with too many partial unions.

use super::family::{Membership, New};
use super::jobs::{Ends, Job, Jobs};
use super::lists::Lists;
use super::nodes::Nodes;
use super::numbering::Numbering;
use crate::answer::{refuse, Refusal, MAX_ROUNDS};
use crate::reader::Game;

/// Where a round leaves off: an entry beyond the room.
struct Full;

/// An entry: its set, the number of its head, its round, and the rule's number + 1, which is 0 where there is none.
#[derive(Clone, Copy)]
pub struct Entry {
    pub set: u32,
    pub head: u16,
    pub round: u16,
    pub rule: u16,
}

/// A game whose partial unions of one kind pass this is beyond this solver, which keeps all of them.
const ROOM: usize = 1 << 22;

struct Rounds<M> {
    lists: Lists,
    members: M,
    entries: Vec<Entry>,
    room: usize,
    letters: usize,
    /// For each new number of a state the first of its heads.
    heads: [usize; 32],
    /// For each letter, the states with a transition on it, and with a new one.
    alive: [u32; 64],
    fresh: [u32; 64],
    ends: Vec<Ends>,
    first_single: usize,
    first_ends: usize,
    first_layer: usize,
    nodes: Nodes,
    /// What is new in a family, until its list gets it.
    new: New,
    new_ends: New,
}

impl<M: Membership> Rounds<M> {
    fn begin_round(&mut self, numbering: &Numbering) {
        self.lists.begin_round();
        self.fresh = [0; 64];
        for head in self.lists.gaining.drain(..).filter(|list| *list < self.first_single) {
            let (single, letter) = (numbering.single[head / self.letters], head % self.letters);
            self.fresh[letter] |= single;
            self.alive[letter] |= single;
        }
    }

    /// Brings a family that rules draw on up to the old round, if it is one of ends.
    #[inline(always)]
    fn grow(&mut self, family: usize) {
        if family >= self.first_ends && self.ends[family - self.first_ends].seen_in != self.lists.round {
            self.grow_ends(family);
        }
    }

    /// Takes in the unions for each set of the first head's entries: all of them where the set is new, else the new ones.
    fn grow_ends(&mut self, family: usize) {
        let ends = &mut self.ends[family - self.first_ends];
        ends.seen_in = self.lists.round;
        let (first, below) = (ends.first, ends.below);
        let (fresh, alive) = (self.fresh[below], self.alive[below]);
        let old = self.lists.count_old(first);
        if fresh == 0 && old == self.lists.count(first) {
            return;
        }
        self.members.begin(family, &mut self.new_ends);
        for i in if fresh == 0 { old } else { 0 }..self.lists.count(first) {
            let set = self.lists.at(first, i);
            if set & !alive != 0 || i < old && set & fresh == 0 {
                continue;
            }
            let unions = self.unions(set, below);
            if i >= old {
                self.members.take(family, self.lists.all(unions), &mut self.new_ends);
            } else if self.lists.has_grown(unions) {
                self.members.take(family, self.lists.new(unions), &mut self.new_ends);
            }
        }
        self.members.finish(family, &mut self.new_ends);
        self.lists.grow(family, self.new_ends.sets());
        self.new_ends.clear();
    }

    /// The family of the unions of one transition on a letter for each state of a set, each of which has one.
    fn unions(&mut self, set: u32, letter: usize) -> usize {
        let highest = 31 - set.leading_zeros();
        let head = self.heads[highest as usize & 31] + letter;
        let rest = set ^ 1 << highest;
        if rest == 0 {
            return head;
        }
        if let Some(node) = self.nodes.get(set, letter) {
            if set & self.fresh[letter] != 0 && self.nodes.look_at(node, self.lists.round) {
                let rest = self.unions(rest, letter);
                self.grow_product(node, rest, head);
            }
            return node;
        }
        let rest = self.unions(rest, letter);
        let node = self.lists.add(1);
        self.members.add(1);
        self.nodes.add(set, letter, node, self.lists.round);
        self.unite(node, rest, head);
        node
    }

    /// The unions of two families.
    fn unite(&mut self, product: usize, left: usize, right: usize) {
        let fits = self.take_unions(product, left, right, ROOM);
        self.end_product(product, fits);
    }

    /// Those unions of two families that have something new in them.
    fn grow_product(&mut self, product: usize, left: usize, right: usize) {
        if self.lists.has_grown(left) || self.lists.has_grown(right) {
            let fits = self.take_new_unions(product, left, right, ROOM - self.lists.count(product));
            self.end_product(product, fits);
        }
    }

    #[inline(always)]
    fn take_unions(&mut self, family: usize, left: usize, right: usize, room: usize) -> bool {
        self.members.begin(family, &mut self.new);
        let all = self.lists.states(left) | self.lists.states(right);
        self.members.unite(family, self.lists.all(left), self.lists.all(right), all, &mut self.new, room)
    }

    #[inline(always)]
    fn take_new_unions(&mut self, family: usize, left: usize, right: usize, room: usize) -> bool {
        self.members.begin(family, &mut self.new);
        let all = self.lists.states(left) | self.lists.states(right);
        let (old_left, new_left) = self.lists.old_and_new(left);
        let fits =
            !self.lists.has_grown(right) || self.members.unite(family, old_left, self.lists.new(right), all, &mut self.new, room);
        fits && (new_left.is_empty() || self.members.unite(family, new_left, self.lists.all(right), all, &mut self.new, room))
    }

    fn end_product(&mut self, product: usize, fits: bool) {
        assert!(fits, "more partial unions than this solver keeps");
        self.members.finish(product, &mut self.new);
        self.lists.grow(product, self.new.sets());
        self.new.clear();
    }

    fn do_job(&mut self, job: &mut Job) -> Result<(), Full> {
        match job {
            Job::Rule { head, source, rule } => {
                self.grow(*source);
                if self.lists.has_grown(*source) {
                    self.members.begin(*head, &mut self.new);
                    self.members.take(*head, self.lists.new(*source), &mut self.new);
                    self.offer(*head, *rule)?;
                }
                Ok(())
            }
            Job::Head { head, factors, layers, is_begun } => {
                for factor in factors.iter() {
                    self.grow(*factor);
                }
                if *is_begun {
                    return self.grow_head(*head, factors, self.first_layer + *layers);
                }
                if factors.iter().any(|factor| self.lists.is_empty(*factor)) {
                    return Ok(());
                }
                *is_begun = true;
                factors.sort_by_key(|factor| self.lists.count(*factor));
                self.begin_head(*head, factors, self.first_layer + *layers)
            }
        }
    }

    /// Offers all unions of one end of each factor. Layer n has those of the first n + 2 factors.
    fn begin_head(&mut self, head: usize, factors: &[usize], layers: usize) -> Result<(), Full> {
        let (first, last) = (factors[0], factors.len() - 1);
        let mut left = first;
        for (n, factor) in factors[1..last].iter().enumerate() {
            self.unite(layers + n, left, *factor);
            left = layers + n;
        }
        self.take_unions(head, left, factors[last], self.room - self.entries.len());
        self.offer(head, 0)
    }

    /// Offers those that have something new in them.
    fn grow_head(&mut self, head: usize, factors: &[usize], layers: usize) -> Result<(), Full> {
        if !factors.iter().any(|factor| self.lists.has_grown(*factor)) {
            return Ok(());
        }
        let (first, last) = (factors[0], factors.len() - 1);
        let mut left = first;
        for (n, factor) in factors[1..last].iter().enumerate() {
            self.grow_product(layers + n, left, *factor);
            left = layers + n;
        }
        self.take_new_unions(head, left, factors[last], self.room - self.entries.len());
        self.offer(head, 0)
    }

    /// Makes entries of the new sets of a head.
    fn offer(&mut self, head: usize, rule: u16) -> Result<(), Full> {
        self.members.finish(head, &mut self.new);
        if self.new.sets().len() > self.room - self.entries.len() {
            return Err(Full);
        }
        let (round, number) = (self.lists.round as u16, head as u16);
        self.entries.extend(self.new.sets().iter().map(|set| Entry { set: *set, head: number, round, rule }));
        self.lists.gain(head, self.new.sets());
        self.new.clear();
        Ok(())
    }
}

/// The entries in order of arrival; or question 11 or 12.
pub fn take_rounds<M: Membership>(game: &Game, numbering: &Numbering, room: usize) -> Result<Vec<Entry>, Refusal> {
    let (states, letters) = (game.states as usize, game.letters as usize);
    let Jobs { mut jobs, ends, layers, .. } = Jobs::of(game);
    let first_single = states * letters;
    let first_ends = first_single + states;
    let first_layer = first_ends + ends.len();
    let mut rounds: Rounds<M> = Rounds {
        lists: Lists::none(),
        members: M::none(),
        entries: Vec::with_capacity(room),
        room,
        letters,
        heads: [0; 32],
        alive: [0; 64],
        fresh: [0; 64],
        ends,
        first_single,
        first_ends,
        first_layer,
        nodes: Nodes::none(first_layer + layers, numbering.states.len() as u32, letters),
        new: New::none(),
        new_ends: New::none(),
    };
    rounds.lists.add(first_layer + layers);
    rounds.members.add(first_layer + layers);
    for (number, state) in numbering.states.iter().enumerate() {
        rounds.heads[number] = *state as usize * letters;
    }
    for (state, single) in numbering.single.iter().enumerate().filter(|(_, single)| **single != 0) {
        rounds.lists.gain(first_single + state, &[*single]);
    }
    for (q, letter, set) in &game.targets {
        let head = *q as usize * letters + *letter as usize;
        rounds.members.begin(head, &mut rounds.new);
        rounds.members.take(head, &[numbering.anew(*set)], &mut rounds.new);
        if rounds.offer(head, 0).is_err() {
            return refuse(11, 0);
        }
    }
    loop {
        let before = rounds.entries.len();
        rounds.begin_round(numbering);
        let beyond = rounds.lists.round > MAX_ROUNDS;
        if beyond {
            rounds.room = before;
        }
        if jobs.iter_mut().try_for_each(|job| rounds.do_job(job)).is_err() {
            return refuse(if beyond { 12 } else { 11 }, rounds.lists.round as usize);
        }
        if rounds.entries.len() == before {
            return Ok(rounds.entries);
        }
    }
}
