//! A walk over the runs of some rules, for where lists of unions are too long to be kept: one choice at a time, with a memory of
//! the choices met so far. Where that memory was overwritten a part is walked again, so that it is slower but misses nothing.

use super::log::Full;
use super::view::View;
use crate::reader::Rule;
use std::mem::MaybeUninit;

/// A choice among sets: of a transition for the lowest state that is left, or of the first transition of the next rule's run if
/// none is left. `rule` counts the rules walked.
#[derive(Clone, Copy)]
struct Choice {
    left: u32,
    union: u32,
    rule: u16,
    at: u16,
    end: u16,
}

/// One choice for the first transition of each of 256 rules, and one for each of at most 32 states of its set.
const DEEPEST: usize = 256 * 33;

/// A choice as it is remembered: the walk and the rule, the states left, the union.
type Met = [u32; 3];

pub struct Walk {
    choices: [MaybeUninit<Choice>; DEEPEST],
    depth: MaybeUninit<usize>,
    met: [MaybeUninit<Met>; Walk::MEMORY],
}

impl Walk {
    const MEMORY: usize = 1 << 15;

    /// Hands on the unions of ends, one run for each rule, each of them at least once; every rule has an end. `number` is another
    /// one for each walk; the first is 1.
    pub fn run(
        &mut self,
        view: &View,
        rules: &[Rule],
        number: u32,
        mut offer: impl FnMut(u32) -> Result<(), Full>,
    ) -> Result<(), Full> {
        if number == 1 {
            self.met.fill(MaybeUninit::new([0; 3]));
        }
        self.depth.write(0);
        let union = rules.iter().fold(0, |states, rule| states | view.certain_of(rule));
        self.go(view, rules, number, Choice { left: 0, union, rule: 0, at: 0, end: 0 }, &mut offer)?;
        loop {
            let depth = unsafe { self.depth.assume_init() };
            if depth == 0 {
                return Ok(());
            }
            let choice = unsafe { self.choices[depth - 1].assume_init_mut() };
            if choice.at == choice.end {
                self.depth.write(depth - 1);
                continue;
            }
            let set = view.sets[choice.at as usize];
            choice.at += 1;
            let mut next = *choice;
            let rule = &rules[choice.rule as usize];
            if choice.left == 0 && rule.written == 2 {
                if set & !view.alive[rule.c as usize] != 0 {
                    continue;
                }
                next.left = set;
                next.union |= view.certain(set, rule.c as usize);
            } else {
                next.left &= next.left.wrapping_sub(1);
                next.union |= set;
                next.rule += u16::from(next.left == 0);
            }
            self.go(view, rules, number, next, &mut offer)?;
        }
    }

    /// Goes on to what is to be chosen next, unless it was met before, or hands on the union.
    fn go(
        &mut self,
        view: &View,
        rules: &[Rule],
        number: u32,
        mut choice: Choice,
        offer: &mut impl FnMut(u32) -> Result<(), Full>,
    ) -> Result<(), Full> {
        while choice.left == 0 && (choice.rule as usize) < rules.len() && rules[choice.rule as usize].written == 0 {
            choice.union |= 1 << rules[choice.rule as usize].to;
            choice.rule += 1;
        }
        if choice.rule as usize == rules.len() {
            return offer(choice.union);
        }
        if self.was_met([number << 9 | choice.rule as u32, choice.left, choice.union]) {
            return Ok(());
        }
        let rule = &rules[choice.rule as usize];
        let range = if choice.left == 0 {
            view.range(rule.to as usize, rule.b as usize)
        } else {
            view.range(choice.left.trailing_zeros() as usize, rule.c as usize)
        };
        (choice.at, choice.end) = (range.start as u16, range.end as u16);
        let depth = unsafe { self.depth.assume_init() };
        self.choices[depth].write(choice);
        self.depth.write(depth + 1);
        Ok(())
    }

    /// Whether a choice is remembered; it is from now on.
    fn was_met(&mut self, choice: Met) -> bool {
        let mixed = choice.iter().fold(0, |mixed: u64, word| {
            (mixed ^ *word as u64).wrapping_mul(0x9E37_79B9_7F4A_7C15).rotate_left(29)
        });
        let met = unsafe { self.met[mixed as usize % Walk::MEMORY].assume_init_mut() };
        std::mem::replace(met, choice) == choice
    }
}
