//! What solving answers, whoever solves.

/// The last round that may add entries.
pub const MAX_ROUNDS: u32 = 40;

/// Entries, and rounds: the largest birthdate.
#[derive(Clone, Copy, Debug, PartialEq, Eq)]
pub struct Solved {
    pub entries: usize,
    pub rounds: u32,
}

/// The number of the first question answered no, and its place.
#[derive(Clone, Copy, Debug, PartialEq, Eq)]
pub struct Refusal {
    pub number: u32,
    pub place: u64,
}

pub type Answer = Result<Solved, Refusal>;

pub fn refuse<T>(number: u32, place: usize) -> Result<T, Refusal> {
    Err(Refusal { number, place: place as u64 })
}
