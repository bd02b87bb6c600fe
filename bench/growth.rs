//! Time against entries and rounds: families of games that grow in one of them, and the games of the comparison in the order of
//! entries times rounds.

use crate::comparison::{compare_all, Compared, Named};
use crate::making::{chain, doubling};
use std::time::Duration;

const SIZES: [u8; 4] = [5, 10, 20, 40];

/// Sample D and the chain with growing numbers of letters.
pub fn families(budget: Duration) -> Vec<Compared> {
    let mut games = vec![];
    for letters in SIZES {
        games.push(Named { name: format!("D, {letters} letters"), file: doubling(letters) });
    }
    for letters in SIZES {
        games.push(Named { name: format!("chain, {letters}"), file: chain(letters) });
    }
    compare_all(&games, budget)
}

/// The solved games in the order of entries times rounds, with the time for one entry.
pub fn by_size(games: &[Compared]) {
    let mut solved: Vec<(u64, u32, usize, &Compared)> = games
        .iter()
        .filter_map(|game| {
            let answer = game.answer.ok()?;
            Some((answer.entries as u64 * answer.rounds as u64, answer.rounds, answer.entries, game))
        })
        .collect();
    solved.sort_by_key(|(product, ..)| *product);
    println!("| game | entries | rounds | product | library, µs an entry | lent | heap |");
    println!("|---|---|---|---|---|---|---|");
    for (product, rounds, entries, game) in solved {
        let [library, lent, heap] = [game.library, game.lent, game.heap].map(|time| 1e6 * time / entries.max(1) as f64);
        println!("| {} | {entries} | {rounds} | {product} | {library:.3} | {lent:.3} | {heap:.3} |", game.name);
    }
}
