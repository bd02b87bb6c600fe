//! What a round has to do for the rules, prepared once for a game: which families they draw on.

use crate::reader::{Game, Mixing};
use std::collections::HashMap;

/// The ends of runs over bc from q: the head (q, b), the letter c, and the round in which they were last looked at.
pub struct Ends {
    pub first: usize,
    pub below: usize,
    pub seen_in: u32,
}

/// What a round does for a rule of Éloise's or the only one of Abelard's head, or for a head of Abelard's with several.
pub enum Job {
    Rule { head: usize, source: usize, rule: u16 },
    Head { head: usize, factors: Vec<usize>, layers: usize, is_begun: bool },
}

/// The families are numbered: first the entries of the heads, state × letters + letter, then those of one state alone, then the
/// ends, then the layers of Abelard's heads, and last the unions for (X, c) as they come up.
pub struct Jobs {
    pub jobs: Vec<Job>,
    pub ends: Vec<Ends>,
    pub layers: usize,
    letters: usize,
    heads: usize,
    known: HashMap<u64, usize, Mixing>,
}

impl Jobs {
    /// Heads in order, rules of Éloise's heads in order.
    pub fn of(game: &Game) -> Jobs {
        let letters = game.letters as usize;
        let heads = game.states as usize * letters;
        let known = HashMap::with_capacity_and_hasher(game.rules.len(), Mixing);
        let mut jobs = Jobs { jobs: Vec::with_capacity(game.rules.len()), ends: vec![], layers: 0, letters, heads, known };
        let mut rules: Vec<(usize, usize)> = Vec::with_capacity(game.rules.len());
        let numbers = game.rules.iter().enumerate();
        rules.extend(numbers.map(|(number, rule)| (rule.from as usize * letters + rule.letter as usize, number)));
        rules.sort_unstable();
        for rules in rules.chunk_by(|one, other| one.0 == other.0) {
            let head = rules[0].0;
            if !game.is_abelards((head / letters) as u8) {
                jobs.take_rules(game, rules);
            } else if let [(_, rule)] = rules {
                let source = jobs.source_of(game, *rule);
                jobs.jobs.push(Job::Rule { head, source, rule: 0 });
            } else {
                let factors = rules.iter().map(|(_, rule)| jobs.source_of(game, *rule)).collect();
                jobs.jobs.push(Job::Head { head, factors, layers: jobs.layers, is_begun: false });
                jobs.layers += rules.len() - 2;
            }
        }
        jobs
    }

    fn take_rules(&mut self, game: &Game, rules: &[(usize, usize)]) {
        for (head, rule) in rules {
            let source = self.source_of(game, *rule);
            self.jobs.push(Job::Rule { head: *head, source, rule: *rule as u16 + 1 });
        }
    }

    /// The family of the ends of a rule's runs.
    fn source_of(&mut self, game: &Game, rule: usize) -> usize {
        let rule = game.rules[rule];
        let (to, first) = (rule.to as usize, rule.to as usize * self.letters + rule.b as usize);
        match rule.written {
            0 => self.heads + to,
            1 => first,
            _ => {
                let (below, ends) = (rule.c as usize, &mut self.ends);
                let at = *self.known.entry((first * self.letters + below) as u64).or_insert_with(|| {
                    ends.push(Ends { first, below, seen_in: 0 });
                    ends.len() - 1
                });
                self.heads + game.states as usize + at
            }
        }
    }
}
