//! The judge's times over large tables, beside one pass over the table, and the reader's for the longest good file.

use crate::clock::{best, milliseconds};
use crate::library;
use crate::making::{longest_file, Making, MAX_STATES};
use crate::reader;
use std::hint::black_box;
use std::time::Duration;

const BUDGET: Duration = Duration::from_millis(300);

/// The kind of a lost verdict.
const LOST: u64 = 1;

/// The heights of the stacks that are judged.
const HEIGHTS: [usize; 4] = [1, 10, 100, 256];

/// A table, its file, and the letters above the bottom of the stacks that are judged over it, taken in turn.
pub struct Judged {
    pub name: String,
    pub file: Vec<u8>,
    pub table: Vec<u32>,
    pub letters: u8,
}

/// A well-formed table of so many entries that no solver left and over which every run accepts, made to be hard to judge: each
/// state has about as many entries on each of three letters as any other, all to sets of 29 states. State 0 is Éloise's, state 1
/// Abelard's.
pub fn full_table(entries: usize) -> Judged {
    crafted("full", entries, Making::new(2, MAX_STATES, 3), None, |further, n| further & !(4 << n))
}

/// One of the shape that solved tables have: 6 control states and 5 others, 13 letters, sets of few states.
pub fn spread_table(entries: usize) -> Judged {
    crafted("spread", entries, Making::new(6, 11, 13), None, |further, n| further & ((31 - n) << 6))
}

/// One in which four of five entries were born in a round, most of them Éloise's, so that each names a rule of its head.
pub fn named_table(entries: usize) -> Judged {
    crafted("named", entries, Making::new(12, 15, 21), None, |further, n| further & ((7 - n) << 12))
}

/// One over which Abelard's state 1 is lost on letter 1 above any rest, and which has the judge ask every rule of that head: it has no
/// entry there, and all rules but the last, most of them of two letters, lead to positions that have a bound.
fn lost_table(entries: usize) -> Judged {
    let (control, letters) = (16, 4);
    let mut making = Making::new(control, MAX_STATES, letters);
    for to in 0..control {
        for above in 1..letters {
            for below in 1..letters {
                if (to, above) != (1, 1) {
                    making.rule(1, 1, to, &[above, below]);
                }
            }
        }
    }
    crafted("lost", entries, making, Some(letters as u32 + 1), |further, n| further & !(1 << (16 + n)))
}

/// A table with about as many entries for each state and letter, but for a head that has none; `set_of` gives different sets of
/// further states for different numbers, the larger the number the smaller the set. Its entries name rules that change nothing, which
/// come after those that the file has.
fn crafted(name: &str, entries: usize, mut making: Making, without: Option<u32>, set_of: fn(u32, u32) -> u32) -> Judged {
    let before = making.rules() as u32;
    making.abelard(1);
    for q in 0..32 {
        if making.further() >> q & 1 == 1 {
            making.finals(q);
        }
    }
    making.idle_rules();
    let (further, file) = (making.further(), making.end());
    let (control, states, letters) = (file[1] as u32, file[2] as u32, file[3] as u32);
    let heads = states * letters;
    let mut table = vec![];
    for head in 0..heads {
        let (state, letter) = (head / letters, head % letters);
        let birthdate = if state < control { 1 } else { 0 };
        let rule = if state < control && state != 1 { before + head + 1 } else { 0 };
        if without == Some(head) {
            continue;
        }
        let count = entries as u32 / heads + u32::from(head < entries as u32 % heads);
        for n in (0..count).rev() {
            table.extend([state + 256 * letter + 65_536 * birthdate, set_of(further, n), rule]);
        }
    }
    Judged { name: format!("{name}{entries}"), file, table, letters: letters as u8 }
}

/// Whether an entry is as question 13 asks, given the one before it, but for the rule, which only has to be within the file's
/// rules.
#[inline(always)]
fn is_in_form(game: &reader::Game, before: Option<(u32, u32, u32)>, entry: &[u32]) -> bool {
    let states = ((1u64 << game.states) - 1) as u32;
    let control = ((1u64 << game.control) - 1) as u32;
    let (state, letter, set) = key(entry);
    let birthdate = entry[0] / 65_536;
    let in_range = state < game.states as u32 && letter < game.letters as u32 && set != 0 && set & !states == 0;
    let born = if birthdate == 0 { set & control == 0 } else { birthdate <= 40 && state < game.control as u32 };
    let ruled = (entry[2] != 0) == (birthdate > 0 && !game.is_abelards(state as u8)) && entry[2] as usize <= game.rules.len();
    in_range && born && ruled && before < Some((state, letter, set))
}

#[inline(always)]
fn key(entry: &[u32]) -> (u32, u32, u32) {
    (entry[0] % 256, entry[0] / 256 % 256, entry[1])
}

/// The worth of an entry over the worths of the rest: the largest of its set's states, and its own.
#[inline(always)]
fn worth(entry: &[u32], rest: &[u64; 32]) -> u64 {
    let (mut left, mut largest) = (entry[1], 0);
    while left != 0 {
        largest = rest[left.trailing_zeros() as usize].max(largest);
        left &= left - 1;
    }
    largest.saturating_add((1 << (entry[0] / 65_536)) - 1)
}

/// One pass over a table, a loop in Rust that does for each entry what it takes to judge one letter: it asks whether the entry is
/// in form and finds its worth over given worths of the rest. The least worth of each state; none if an entry is not in form.
fn pass(game: &reader::Game, table: &[u32], rest: &[u64; 32]) -> Option<[u64; 32]> {
    let mut least = [u64::MAX; 32];
    let mut before = None;
    let mut was_used = true;
    for entry in table.chunks_exact(3) {
        if entry == [0, 0, 0] {
            was_used = false;
            continue;
        }
        if !was_used || !is_in_form(game, before, entry) {
            return None;
        }
        before = Some(key(entry));
        let state = entry[0] as usize % 32;
        least[state] = least[state].min(worth(entry, rest));
    }
    Some(least)
}

/// The part of the pass that asks whether the entries are in form.
pub fn pass_of_forms(game: &reader::Game, table: &[u32]) -> bool {
    let mut before = None;
    let mut was_used = true;
    for entry in table.chunks_exact(3) {
        if entry == [0, 0, 0] {
            was_used = false;
            continue;
        }
        if !was_used || !is_in_form(game, before, entry) {
            return false;
        }
        before = Some(key(entry));
    }
    true
}

/// The part of the pass that finds worths.
fn pass_of_worths(table: &[u32], rest: &[u64; 32]) -> [u64; 32] {
    let mut least = [u64::MAX; 32];
    for entry in table.chunks_exact(3).filter(|entry| entry[1] != 0) {
        let state = entry[0] as usize % 32;
        least[state] = least[state].min(worth(entry, rest));
    }
    least
}

/// A line for the table, with the time for 10 letters in passes, in passes of forms alone and of worths alone, and in judgements
/// of one letter by the library. The first quotient, or none if a call was refused.
pub fn judge_heights(judged: &Judged) -> Option<f64> {
    let Judged { name, file, table, letters } = judged;
    let game = reader::read(file).ok()?;
    let rest = [0; 32];
    pass(&game, table, &rest)?;
    let passes = [
        best(BUDGET, || pass(&game, black_box(table), black_box(&rest))),
        best(BUDGET, || pass_of_forms(&game, black_box(table))),
        best(BUDGET, || pass_of_worths(black_box(table), black_box(&rest))),
    ];
    let mut times = vec![];
    for height in HEIGHTS {
        let position = position(height, *letters);
        if library::judge(file, table, &position).number != 0 {
            return None;
        }
        times.push(best(BUDGET, || library::judge(file, table, black_box(&position))));
    }
    let columns: Vec<String> = passes.iter().chain(&times).map(|time| milliseconds(*time)).collect();
    let quotients: Vec<String> = passes.iter().chain(&times[..1]).map(|time| format!("{:.1}", times[1] / time)).collect();
    let entries = table.chunks(3).filter(|entry| *entry != [0, 0, 0]).count();
    println!("| {name} | {entries} | {} | {} |", columns.join(" | "), quotients.join(" | "));
    Some(times[1] / passes[0])
}

/// A line for lost positions: how long the judge takes to name Abelard's rule, where it asks as many rules of a head as this table
/// has it ask, beside a position of Éloise's that is won, on the same stacks. Whether the rule named is the last of its head.
pub fn judge_lost() -> bool {
    let Judged { file, table, letters, .. } = lost_table(2000);
    let Ok(game) = reader::read(&file) else { return false };
    let of_head: Vec<usize> = (0..game.rules.len()).filter(|r| (game.rules[*r].from, game.rules[*r].letter) == (1, 1)).collect();
    let Some(last) = of_head.last() else { return false };
    let (mut lost, mut won, mut named) = (vec![], vec![], true);
    for height in [2, 256] {
        let mut position = position(height, letters);
        won.push(milliseconds(best(BUDGET, || library::judge(&file, &table, black_box(&position)))));
        (position[0], position[1]) = (1, 1);
        lost.push(milliseconds(best(BUDGET, || library::judge(&file, &table, black_box(&position)))));
        named &= library::judge(&file, &table, &position).words[1..3] == [LOST, *last as u64 + 1];
    }
    println!(
        "\nnaming the rule of a lost position, the last of {} of its head, over {} entries: 2 letters {} ms, 256 letters {} ms; \
         a won position on these stacks {} ms and {} ms",
        of_head.len(),
        table.len() / 3,
        lost[0],
        lost[1],
        won[0],
        won[1]
    );
    named
}

/// State 0 and a stack of so many letters, those above the bottom in turn.
pub fn position(height: usize, letters: u8) -> Vec<u8> {
    let mut position: Vec<u8> = (0..=height).map(|i| 1 + (i % (letters as usize - 1)) as u8).collect();
    (position[0], position[height]) = (0, 0);
    position
}

pub fn print_heading() {
    println!(
        "| table | entries | one pass | forms alone | worths alone | 1 letter | 10 | 100 | 256 \
         | 10 letters in passes | in forms | in worths | in judgements of 1 letter |"
    );
    println!("|---|---|---|---|---|---|---|---|---|---|---|---|---|");
}

/// A line for the longest good file.
pub fn read_longest() -> bool {
    let file = longest_file();
    let is_read = library::read(&file).number == 0;
    let library = best(BUDGET, || library::read(black_box(&file)));
    let rust = best(BUDGET, || reader::read(black_box(&file)));
    println!(
        "\nreading the longest good file, {} bytes: library {} ms, Rust {} ms, ratio {:.2}",
        file.len(),
        milliseconds(library),
        milliseconds(rust),
        library / rust
    );
    is_read
}
