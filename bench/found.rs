//! The search for the games `games/random1.game` and so on: the first of a seeded sequence of random games whose tables are as
//! large as wanted. They are found, not made to be hard.

use crate::answer::Answer;
use crate::heap::solve;
use crate::library::MAX_TABLE;
use crate::making::random_game;
use crate::random::Random;
use std::path::Path;

/// What a game has to be: settled with so many entries, or refused by 11 in so late a round.
enum Wanted {
    Settled { from: usize, to: usize },
    Full { round: u64 },
}

impl Wanted {
    fn is(&self, answer: Answer) -> bool {
        match (self, answer) {
            (Wanted::Settled { from, to }, Ok(solved)) => (*from..*to).contains(&solved.entries),
            (Wanted::Full { round }, Err(refusal)) => refusal.number == 11 && refusal.place >= *round,
            _ => false,
        }
    }
}

const GAMES: [Wanted; 6] = [
    Wanted::Settled { from: 400, to: 700 },
    Wanted::Settled { from: 700, to: 1000 },
    Wanted::Settled { from: 1000, to: 1500 },
    Wanted::Settled { from: 1500, to: 2049 },
    Wanted::Full { round: 12 },
    Wanted::Full { round: 16 },
];

/// Writes the games into a folder; each is the first of the sequence that is wanted and comes after the one before it.
pub fn write_games(folder: &Path) {
    let mut random = Random::new(9);
    let mut table = vec![0; MAX_TABLE];
    let mut tried = 0;
    for (n, wanted) in GAMES.iter().enumerate() {
        let file = loop {
            let file = random_game(&mut random);
            tried += 1;
            if wanted.is(solve(&file, &mut table)) {
                break file;
            }
        };
        let path = folder.join(format!("random{}.game", n + 1));
        std::fs::write(&path, &file).unwrap_or_else(|error| panic!("{}: {error}", path.display()));
        println!("{}: {} bytes, game {tried} of the sequence", path.display(), file.len());
    }
}
