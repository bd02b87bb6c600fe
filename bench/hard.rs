//! Games that are hard for the library's walk: three kinds, each with sizes that end in less than a second or so, and the factor by
//! which its time grows. The files of games/hard/ are of these kinds, with sizes at which the library takes half a minute or does
//! not end; they are held against their construction, and solved by the two solvers in Rust only.

use crate::clock::milliseconds;
use crate::comparison::{compare, in_words, mark, Compared, InRust, Named};
use crate::making::{absorbed_choices, two_free_rules, unlisted_rules};
use std::time::Duration;

const BUDGET: Duration = Duration::from_millis(20);

/// A kind of hard games, by what its size counts.
struct Kind {
    name: &'static str,
    counts: &'static str,
    make: fn(u8) -> Vec<u8>,
    sizes: &'static [u8],
    /// Files of this kind, with their sizes.
    files: &'static [(&'static str, u8, &'static [u8])],
}

const KINDS: [Kind; 3] = [
    Kind {
        name: "choices that are absorbed",
        counts: "states",
        make: absorbed_choices,
        sizes: &[20, 22, 24, 25],
        files: &[("hard1", 30, include_bytes!("../games/hard/hard1.game"))],
    },
    Kind {
        name: "rules that are not listed",
        counts: "rules",
        make: unlisted_rules,
        sizes: &[6, 8, 9, 10],
        files: &[
            ("hard2", 20, include_bytes!("../games/hard/hard2.game")),
            ("deepest240", 240, include_bytes!("../games/hard/deepest240.game")),
        ],
    },
    Kind {
        name: "two free rules",
        counts: "states",
        make: two_free_rules,
        sizes: &[12, 13, 14, 15],
        files: &[("hard3", 18, include_bytes!("../games/hard/hard3.game"))],
    },
];

/// Prints a line for each size of each kind, and one for each file: the games that were compared, and the files that are not what
/// their construction gives, or on which the solvers in Rust differ.
pub fn kinds() -> (Vec<Compared>, Vec<&'static str>) {
    println!("| game | bytes | answer | library, ms | lent, ms | heap, ms | library, growth for one more |");
    println!("|---|---|---|---|---|---|---|");
    let mut compared = vec![];
    let mut differing = vec![];
    for kind in &KINDS {
        compared.extend(kind.growth());
        differing.extend(kind.files.iter().filter(|file| !kind.agrees(file)).map(|(name, ..)| *name));
    }
    (compared, differing)
}

impl Kind {
    fn name(&self, size: u8) -> String {
        format!("{}, {size} {}", self.name, self.counts)
    }

    /// A line for each size.
    fn growth(&self) -> Vec<Compared> {
        let mut compared: Vec<Compared> = vec![];
        for (i, size) in self.sizes.iter().enumerate() {
            let game = compare(&Named { name: self.name(*size), file: (self.make)(*size) }, BUDGET);
            let growth = compared.last().map(|before| factor(game.library / before.library, size - self.sizes[i - 1]));
            let growth = growth.map_or("–".to_string(), |growth| format!("{growth:.2}"));
            let (bytes, answer) = (game.file.len(), in_words(game.answer));
            println!("| {} | {bytes} | {answer} | {} | {growth} |{}", game.name, game.times(), mark(game.agrees));
            compared.push(game);
        }
        compared
    }

    /// A line for a file: whether it is what its construction gives, and the solvers in Rust agree on it.
    fn agrees(&self, (name, size, file): &(&str, u8, &[u8])) -> bool {
        let mut solved = InRust::solve(file);
        let agrees = solved.agree && (self.make)(*size) == *file;
        let times = solved.times(file, BUDGET).map(milliseconds).join(" | ");
        let (bytes, answer) = (file.len(), in_words(solved.answer));
        println!("| `{name}`: {} | {bytes} | {answer} | not run | {times} | – |{}", self.name(*size), mark(agrees));
        agrees
    }
}

/// The factor for one more, where so many more give a ratio.
fn factor(ratio: f64, more: u8) -> f64 {
    ratio.powf(1.0 / more as f64)
}
