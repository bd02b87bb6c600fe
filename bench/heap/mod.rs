//! An independent solver in Rust, not verified and tuned for speed, with memory of its own and no bound on it: from a game file
//! to the words of a table, the same work as one call of `pushdown_solve`.

mod bits;
mod family;
mod hashed;
mod jobs;
mod lists;
mod nodes;
mod numbering;
mod rounds;

use crate::answer::{Answer, Solved};
use crate::reader::read;
use bits::Bits;
use hashed::Hashed;
use numbering::Numbering;
use rounds::{take_rounds, Entry};

/// The file's questions, 11 and 12, and every word of the table. Its length, question 10, is the caller's matter.
pub fn solve(file: &[u8], table: &mut [u32]) -> Answer {
    table.fill(0);
    let game = read(file)?;
    let room = table.len() / 3;
    let numbering = Numbering::of(&game);
    let entries = match numbering.states.len() {
        0..=6 => take_rounds::<Bits<1>>(&game, &numbering, room)?,
        7 => take_rounds::<Bits<2>>(&game, &numbering, room)?,
        8 => take_rounds::<Bits<4>>(&game, &numbering, room)?,
        9 => take_rounds::<Bits<8>>(&game, &numbering, room)?,
        10 => take_rounds::<Bits<16>>(&game, &numbering, room)?,
        _ => take_rounds::<Hashed>(&game, &numbering, room)?,
    };
    Ok(write(&entries, game.states as usize * game.letters as usize, game.letters as usize, &numbering, table))
}

/// Writes the entries in order: by head, which are numbered by state and letter, and then by set.
fn write(entries: &[Entry], heads: usize, letters: usize, numbering: &Numbering, table: &mut [u32]) -> Solved {
    let mut ends = vec![0; heads + 1];
    for entry in entries {
        ends[entry.head as usize + 1] += 1;
    }
    for head in 1..=heads {
        ends[head] += ends[head - 1];
    }
    let mut sorted = vec![0u64; entries.len()];
    for entry in entries {
        let place = &mut ends[entry.head as usize];
        sorted[*place] = (entry.set as u64) << 32 | (entry.round as u64) << 16 | entry.rule as u64;
        *place += 1;
    }
    let mut solved = Solved { entries: 0, rounds: entries.last().map_or(0, |entry| entry.round as u32) };
    for (head, end) in ends[..heads].iter().enumerate() {
        let (state, letter) = (head / letters, head % letters);
        let of_head = &mut sorted[solved.entries..*end];
        of_head.sort_unstable();
        for (words, entry) in table[3 * solved.entries..].chunks_exact_mut(3).zip(of_head) {
            words[0] = (state + 256 * letter) as u32 + (*entry as u32 & 0xFFFF_0000);
            words[1] = numbering.states_of((*entry >> 32) as u32);
            words[2] = *entry as u32 & 0xFFFF;
        }
        solved.entries = *end;
    }
    solved
}
