//! A second independent solver in Rust, not verified and tuned for speed, that works under the library's own terms: no heap, two
//! lent areas, at most 1 MiB of stack, and an exact answer for every file.
//!
//! Few states can be in a set at all: those of the target's sets, and those that a rule writing no letters leads to. With at most
//! ten of them families of sets are kept as bits (`narrow.rs`), else runs are walked one by one (`wide.rs`).

mod elements;
mod family;
mod jobs;
mod log;
mod narrow;
mod reader;
mod unique;
mod view;
mod walk;
mod wide;


use crate::answer::{refuse, Answer};
use crate::library::MAX_TABLE;
use reader::Game;

/// All that `pushdown_solve` answers: questions 1 to 12 and 19, every word of the table, and a work area of zeros.
pub fn solve(file: &[u8], table: &mut [u32], work: &mut [u32]) -> Answer {
    work.fill(0);
    let answer = solve_into(file, table, work.len());
    if answer.is_err() {
        table.fill(0);
    }
    answer
}

fn solve_into(file: &[u8], table: &mut [u32], work: usize) -> Answer {
    let mut game = Game::none();
    reader::read(file, &mut game)?;
    if table.len() != work || !(3..=MAX_TABLE).contains(&work) || work % 3 != 0 {
        return refuse(10, 0);
    }
    match game.elements().count_ones() {
        0..=6 => narrow::solve::<1>(&game, table),
        7 => narrow::solve::<2>(&game, table),
        8 => narrow::solve::<4>(&game, table),
        9 => narrow::solve::<8>(&game, table),
        10 => narrow::solve::<16>(&game, table),
        _ => wide::solve(&game, table),
    }
}
