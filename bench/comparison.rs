//! The same games by the library and by both Rust solvers: that the answers and every word of the areas agree, the three times,
//! and the ratios of the library's to the others.

use crate::answer::{Answer, Refusal, Solved};
use crate::clock::{best_of_each, milliseconds};
use crate::{heap, lent, library};
use std::hint::black_box;
use std::time::Duration;

/// A game file with a name.
pub struct Named {
    pub name: String,
    pub file: Vec<u8>,
}

/// A game as it was solved by all three, with the times in seconds.
pub struct Compared {
    pub name: String,
    pub answer: Answer,
    pub agrees: bool,
    pub library: f64,
    pub lent: f64,
    pub heap: f64,
    pub table: Vec<u32>,
    pub file: Vec<u8>,
}

impl Compared {
    /// The library's time in times of the solver under the same terms.
    pub fn to_lent(&self) -> f64 {
        self.library / self.lent
    }

    /// The library's time in times of the solver with memory of its own.
    pub fn to_heap(&self) -> f64 {
        self.library / self.heap
    }

    pub fn entries(&self) -> usize {
        self.answer.map_or(0, |solved| solved.entries)
    }

    /// The three times as columns of a table.
    pub fn times(&self) -> String {
        [self.library, self.lent, self.heap].map(milliseconds).join(" | ")
    }

    fn line(&self) -> String {
        format!(
            "| {} | {} | {} | {:.2} | {:.2} |{}",
            self.name,
            in_words(self.answer),
            self.times(),
            self.to_lent(),
            self.to_heap(),
            mark(self.agrees)
        )
    }
}

pub fn in_words(answer: Answer) -> String {
    match answer {
        Ok(Solved { entries, rounds }) => format!("rounds {rounds} entries {entries}"),
        Err(Refusal { number, place }) => format!("refused {number} at {place}"),
    }
}

/// What stands after a line.
pub fn mark(agrees: bool) -> &'static str {
    if agrees {
        ""
    } else {
        " DIFFERS"
    }
}

/// The library's answer as the others put it.
fn answer_of(result: library::Result<3>) -> Answer {
    match (result.number, result.words) {
        (0, [_, entries, rounds]) => Ok(Solved { entries: entries as usize, rounds: rounds as u32 }),
        (number, [place, ..]) => Err(Refusal { number, place }),
    }
}

/// The solvers in Rust on a file, with 2,048 entries lent.
pub struct InRust {
    pub answer: Answer,
    /// Whether both give the same answer and table, and leave a work area of zeros.
    pub agree: bool,
    table: Vec<u32>,
    lent: [Vec<u32>; 2],
}

impl InRust {
    /// Solves by both. At first the areas that are lent are not zero.
    pub fn solve(file: &[u8]) -> InRust {
        let mut table = vec![0; library::MAX_TABLE];
        let mut lent = [[1; library::MAX_TABLE]; 2].map(|words| words.to_vec());
        let answer = heap::solve(file, &mut table);
        let [lent_table, lent_work] = &mut lent;
        let agree = lent::solve(file, lent_table, lent_work) == answer && *lent_table == table && is_zero(lent_work);
        InRust { answer, agree, table, lent }
    }

    /// The best times of both.
    pub fn times(&mut self, file: &[u8], budget: Duration) -> [f64; 2] {
        let [table, work] = &mut self.lent;
        best_of_each(
            budget,
            [
                &mut || _ = black_box(lent::solve(black_box(file), table, work)),
                &mut || _ = black_box(heap::solve(black_box(file), &mut self.table)),
            ],
        )
    }
}

fn is_zero(words: &[u32]) -> bool {
    words.iter().all(|word| *word == 0)
}

/// Two areas for the library, neither of them zero.
fn areas() -> [Vec<u32>; 2] {
    [1, 1].map(|word| vec![word; library::MAX_TABLE])
}

/// Whether the library gives the answer of the solvers in Rust, where these agree, with the same words in both areas.
fn library_agrees(rust: &InRust, file: &[u8], table: &mut [u32], work: &mut [u32]) -> bool {
    let by_library = library::solve(file, table, work);
    rust.agree
        && answer_of(by_library) == rust.answer
        && (by_library.number != 0 || by_library.words[0] == 0)
        && *table == rust.table
        && is_zero(work)
}

/// The answer of all three on a file with 2,048 entries lent, if they agree; no times.
pub fn agreed(file: &[u8]) -> Option<Answer> {
    let rust = InRust::solve(file);
    let [mut table, mut work] = areas();
    library_agrees(&rust, file, &mut table, &mut work).then_some(rust.answer)
}

/// Compares the solvers on a game with 2,048 entries lent. At first neither area is zero.
pub fn compare(game: &Named, budget: Duration) -> Compared {
    let file = &game.file;
    let rust = InRust::solve(file);
    let [mut table, mut work] = areas();
    let agrees = library_agrees(&rust, file, &mut table, &mut work);
    let InRust { answer, agree: _, table: mut heap_table, lent: [mut lent_table, mut lent_work] } = rust;
    let [library, lent, heap] = best_of_each(
        budget,
        [
            &mut || _ = black_box(library::solve(black_box(file), &mut table, &mut work)),
            &mut || _ = black_box(lent::solve(black_box(file), &mut lent_table, &mut lent_work)),
            &mut || _ = black_box(heap::solve(black_box(file), &mut heap_table)),
        ],
    );
    Compared { name: game.name.clone(), answer, agrees, library, lent, heap, table: heap_table, file: file.clone() }
}

/// Compares the solvers on several games, with a line for each.
pub fn compare_all(games: &[Named], budget: Duration) -> Vec<Compared> {
    println!("| game | answer | library, ms | lent, ms | heap, ms | library/lent | library/heap |");
    println!("|---|---|---|---|---|---|---|");
    games
        .iter()
        .map(|game| {
            let compared = compare(game, budget);
            println!("{}", compared.line());
            compared
        })
        .collect()
}

/// The geometric mean of ratios, and the largest.
pub fn mean_and_largest(ratios: &[f64]) -> (f64, f64) {
    let logarithms: f64 = ratios.iter().map(|ratio| ratio.ln()).sum();
    ((logarithms / ratios.len() as f64).exp(), ratios.iter().copied().fold(0.0, f64::max))
}
