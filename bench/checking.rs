//! The check of a table by question 13, beside judgements over it.

use crate::clock::{best_of_each, milliseconds};
use crate::judging::{full_table, named_table, pass_of_forms, position, spread_table, Judged};
use crate::{library, reader};
use std::hint::black_box;
use std::time::Duration;

const BUDGET: Duration = Duration::from_millis(900);

/// The heights of the stacks that are judged.
const HEIGHTS: [usize; 3] = [1, 10, 256];

/// The number that a position of no bytes gets. It is put after 13, so that such a call reads the file, checks the table and ends.
const POSITION: u32 = 14;

/// The tables that are made to be checked, each with as many entries as a table may have.
pub const MADE: [&str; 3] = ["spread2048", "named2048", "full2048"];

pub fn made() -> [Judged; 3] {
    [spread_table(2048), named_table(2048), full_table(2048)]
}

pub fn print_heading() {
    println!(
        "| table | entries | of them used | check | forms in Rust | 1 letter | 10 | 256 \
         | check/forms | check/1 letter | check/10 | check/256 |"
    );
    println!("|---|---|---|---|---|---|---|---|---|---|---|---|");
}

/// A line for the table: how long its check takes, and judgements over it, which read the file and check the table first. The check's
/// time is that of a call that ends after it less that of reading the file. The check in passes that ask about the form, or none if
/// a call does not end as it should.
pub fn check_beside(judged: &Judged) -> Option<f64> {
    let Judged { name, file, table, letters } = judged;
    let game = reader::read(file).ok()?;
    let [one, ten, most] = HEIGHTS.map(|height| position(height, *letters));
    let is_judged = [&one, &ten, &most].iter().all(|position| library::judge(file, table, position).number == 0);
    if !is_judged || library::judge(file, table, &[]).number != POSITION {
        return None;
    }
    let [read, checked, forms, one, ten, most] = best_of_each(
        BUDGET,
        [
            &mut || _ = black_box(library::read(black_box(file))),
            &mut || _ = black_box(library::judge(file, black_box(table), &[])),
            &mut || _ = black_box(pass_of_forms(&game, black_box(table))),
            &mut || _ = black_box(library::judge(file, black_box(table), &one)),
            &mut || _ = black_box(library::judge(file, black_box(table), &ten)),
            &mut || _ = black_box(library::judge(file, black_box(table), &most)),
        ],
    );
    let check = checked - read;
    let used = table.chunks(3).filter(|entry| *entry != [0, 0, 0]).count();
    let times = [check, forms, one, ten, most].map(milliseconds).join(" | ");
    let shares = [forms, one, ten, most].map(|time| format!("{:.2}", check / time)).join(" | ");
    println!("| {name} | {} | {used} | {times} | {shares} |", table.len() / 3);
    Some(check / forms)
}
