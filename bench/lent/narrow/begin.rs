//! Round 0: the families of the heads, of single states and of the ends, and the target's transitions in them.

use super::super::elements::Elements;
use super::super::family::{add, single};
use super::super::jobs::Jobs;
use super::super::log::{Full, Log};
use super::super::reader::Game;
use super::{Rounds, MAX_LETTERS};
use std::mem::MaybeUninit;

impl<const W: usize> Rounds<'_, W> {
    /// Round 0.
    pub fn begin(&mut self, game: &Game, jobs: &Jobs, elements: &Elements, log: &mut Log) -> Result<(), Full> {
        self.clear(game, jobs);
        for (i, state) in elements.states[..elements.count].iter().enumerate() {
            self.element[*state as usize] = 1 << i;
            for letter in 0..game.letters.min(if (*state as usize) < game.control { MAX_LETTERS } else { 0 }) {
                self.heads[letter][i] = (*state as usize * game.letters + letter) as u16;
            }
        }
        for state in (0..game.control).filter(|state| jobs.alone >> state & 1 == 1) {
            let family = jobs.heads + state;
            self.space.all.set(family, single(self.element[state] as usize));
            self.space.new.set(family, single(self.element[state] as usize));
            self.grown[family] = 1;
        }
        for target in game.targets() {
            let (state, letter) = (target.state as usize, target.letter as usize);
            let set = elements.elements_of(target.set);
            log.push(state * game.letters + letter, set as u32, 0)?;
            if let Some(family) = self.target_family(game, state, letter) {
                add(self.space.all.get_mut(family), &single(set));
                add(self.space.new.get_mut(family), &single(set));
                self.grown[family] = 1;
                self.fresh[letter] |= self.element[state];
                self.alive[letter] |= self.element[state];
            }
        }
        self.mark(jobs);
        Ok(())
    }

    /// The families of heads and ends, empty.
    fn clear(&mut self, game: &Game, jobs: &Jobs) {
        for family in 0..game.control * game.letters {
            self.space.all.set(family, [0; W]);
            self.space.new.set(family, [0; W]);
            self.space.added.set(family, [0; W]);
        }
        for (n, ends) in jobs.ends.items().iter().enumerate() {
            self.space.all.set(jobs.free() - 1 - n, [0; W]);
            self.space.new.set(jobs.free() - 1 - n, [0; W]);
            self.space.family_of[ends.below as usize] = [[MaybeUninit::new(0); 64]; W];
        }
        for layer in 0..jobs.layers {
            self.space.layers.set(layer, [0; W]);
        }
    }

    /// The family of a target transition's head, or none if no run passes it.
    fn target_family(&mut self, game: &Game, state: usize, letter: usize) -> Option<usize> {
        if state < game.control {
            return Some(state * game.letters + letter);
        }
        if self.element[state] == 0 {
            return None;
        }
        let head = &mut self.heads[letter][self.element[state].trailing_zeros() as usize];
        if *head == 0 {
            *head = self.families as u16;
            self.space.all.set(self.families, [0; W]);
            self.space.new.set(self.families, [0; W]);
            self.families += 1;
        }
        Some(*head as usize)
    }
}
