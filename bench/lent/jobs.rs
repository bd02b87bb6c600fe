//! What a round has to do for the rules, prepared once for a game: which families they draw on.

use super::reader::Game;
use crate::reader::{Rule, MAX_OF_A_KIND};

/// Of control states; there are no more of them than rules.
pub const MAX_HEADS: usize = MAX_OF_A_KIND;

const MAX_CONTROL: usize = 24;

/// The ends of runs over bc from q: the head (q, b) and the letter c.
#[derive(Clone, Copy, Default)]
pub struct Ends {
    pub first: u16,
    pub below: u8,
    /// The number + 1 of other ends with the same head, or 0.
    next: u16,
}

/// A rule whose ends are entries of its head. The rule is the third word of such an entry.
#[derive(Clone, Copy, Default)]
pub struct Single {
    pub head: u16,
    pub family: u16,
    pub rule: u16,
}

/// A head of Abelard's with several rules: its part of the factors, and its first layer.
#[derive(Clone, Copy, Default)]
pub struct Product {
    pub head: u16,
    pub first: u16,
    pub end: u16,
    pub layers: u16,
}

/// A list of fixed room.
pub struct List<T> {
    items: [T; MAX_OF_A_KIND],
    count: usize,
}

impl<T: Copy + Default> List<T> {
    fn none() -> List<T> {
        List { items: [T::default(); MAX_OF_A_KIND], count: 0 }
    }

    fn push(&mut self, item: T) {
        self.items[self.count] = item;
        self.count += 1;
    }

    #[inline(always)]
    pub fn items(&self) -> &[T] {
        &self.items[..self.count]
    }
}

pub struct Jobs {
    pub ends: List<Ends>,
    pub singles: List<Single>,
    pub products: List<Product>,
    pub factors: [u16; MAX_OF_A_KIND],
    pub layers: usize,
    /// How many heads there are, and so the family of state 0 alone.
    pub heads: usize,
    /// The states that a rule writing no letters leads to.
    pub alone: u32,
    /// For each head the number + 1 of some of its ends, or 0.
    ends_of: [u16; MAX_HEADS],
}

impl Jobs {
    /// The families that rules draw on are numbered: first those of the heads, state × letters + letter, then those of a state
    /// alone, then those of the ends.
    pub fn new(game: &Game) -> Jobs {
        let mut jobs = Jobs {
            ends: List::none(),
            singles: List::none(),
            products: List::none(),
            factors: [0; MAX_OF_A_KIND],
            layers: 0,
            heads: game.control * game.letters,
            alone: 0,
            ends_of: [0; MAX_HEADS],
        };
        let mut abelards = [0; MAX_HEADS];
        for (number, rule) in game.rules().iter().enumerate() {
            let head = rule.from as usize * game.letters + rule.letter as usize;
            if game.is_abelards(rule.from as usize) {
                abelards[head] += 1;
            } else {
                let family = jobs.family_of(rule, game.letters);
                jobs.singles.push(Single { head: head as u16, family, rule: number as u16 + 1 });
            }
        }
        if game.abelard != 0 {
            jobs.take_abelards(game, &mut abelards);
        }
        jobs
    }

    /// The heads of Abelard's, given how many rules each has; rules with few ends first.
    fn take_abelards(&mut self, game: &Game, abelards: &mut [u16; MAX_HEADS]) {
        let mut first = 0;
        for (head, rules) in abelards.iter_mut().enumerate().filter(|(_, rules)| **rules > 0) {
            let end = first + *rules;
            if *rules > 1 {
                self.products.push(Product { head: head as u16, first, end, layers: self.layers as u16 });
                self.layers += *rules as usize - 2;
            }
            (first, *rules) = (end, first);
        }
        for written in 0..3 {
            for rule in game.rules().iter().filter(|rule| rule.written == written && game.is_abelards(rule.from as usize)) {
                let at = &mut abelards[rule.from as usize * game.letters + rule.letter as usize];
                self.factors[*at as usize] = self.family_of(rule, game.letters);
                *at += 1;
            }
        }
        self.take_lone(game, abelards);
    }

    /// The heads of Abelard's with one rule; where the factors of each head end is given.
    fn take_lone(&mut self, game: &Game, ends: &[u16; MAX_HEADS]) {
        let mut first = 0;
        for head in 0..game.control * game.letters {
            if game.is_abelards(head / game.letters) {
                if ends[head] == first + 1 {
                    self.singles.push(Single { head: head as u16, family: self.factors[first as usize], rule: 0 });
                }
                first = ends[head];
            }
        }
    }

    /// The ends that a family has, if it is one of ends.
    #[inline(always)]
    pub fn ends_in(&self, family: u16) -> Option<&Ends> {
        self.ends.items().get((family as usize).wrapping_sub(self.heads + MAX_CONTROL))
    }

    /// The first family that no rule draws on.
    pub fn free(&self) -> usize {
        self.heads + MAX_CONTROL + self.ends.count
    }

    /// The family of the ends of a rule's runs.
    fn family_of(&mut self, rule: &Rule, letters: usize) -> u16 {
        let first = rule.to as usize * letters + rule.b as usize;
        match rule.written {
            0 => {
                self.alone |= 1 << rule.to;
                (self.heads + rule.to as usize) as u16
            }
            1 => first as u16,
            _ => (self.heads + MAX_CONTROL + self.number_of_ends(first, rule.c)) as u16,
        }
    }

    fn number_of_ends(&mut self, first: usize, below: u8) -> usize {
        let mut number = self.ends_of[first] as usize;
        while number != 0 {
            let ends = self.ends.items[number - 1];
            if ends.below == below {
                return number - 1;
            }
            number = ends.next as usize;
        }
        self.ends.push(Ends { first: first as u16, below, next: self.ends_of[first] });
        self.ends_of[first] = self.ends.count as u16;
        self.ends.count - 1
    }
}
