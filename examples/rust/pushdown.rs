//! A safe wrapper over libpushdown.a: slices in, enums out. `unsafe` stands in this file only, one block for each function of the
//! library, and each is sound for every argument: a slice of Rust is what the library asks of a pointer and a length (not null,
//! aligned, initialised, and a `&mut` overlaps no other).
//!
//! Leaves out what the types here make impossible: an area for results of the wrong length, and a session of the wrong length.

#[path = "../../include/pushdown.rs"]
mod functions;

use functions::{pushdown_judge, pushdown_play, pushdown_read, pushdown_solve, pushdown_version, PUSHDOWN_VERSION};
use std::fmt;

/// The version of the library that is linked, major and minor, where it is not the one that this file was written for.
pub fn other_version() -> Option<(u32, u32)> {
    let version = unsafe { pushdown_version() };
    (version != PUSHDOWN_VERSION).then_some((version / 65_536, version % 65_536))
}

/// The most letters of a stack.
pub const MAX_STACK: usize = 256;

/// The most rules of a game.
pub const MAX_RULES: u32 = 256;

/// The most words of a table.
pub const MAX_TABLE: usize = 3 * 2048;

/// The question that was answered no, in the order in which the questions are put.
#[derive(Clone, Copy, Debug, PartialEq, Eq)]
pub enum Question {
    /// 1. Has the file 1 to 4,096 bytes?
    FileLength,
    /// 2. Is the command byte known?
    Command,
    /// 19. Has the command all its operands before the file's end? Put right after 2.
    Cut,
    /// 3. Is 01 the first command, and only there?
    First,
    /// 4. Are operands in range?
    Operand,
    /// 5. Does the rule keep the bottom?
    Bottom,
    /// 6. Is the statement new?
    Repeated,
    /// 7. Were fewer than 256 of its kind before?
    TooMany,
    /// 8. Is FF there, as the last byte?
    End,
    /// 9. Has every head a rule?
    Head,
    /// 10. Are table and work of equal length, a multiple of 3 from 3 to 6,144 words?
    Areas,
    /// 11. Does each of rounds 0 to 40 fit the table?
    Full,
    /// 12. Does round 41 add none?
    Unsettled,
    /// 13. Is the table well formed?
    Table,
    /// 14. Are there 2 to 257 position bytes, in form?
    Position,
    /// 16. Is the rule one of this head?
    Rule,
    /// 17. Is the new stack at most 256 letters?
    Height,
    /// A number that is none of these, as a later library may return.
    Unknown(u32),
}

impl Question {
    fn of(number: u32) -> Question {
        match number {
            1 => Question::FileLength,
            2 => Question::Command,
            19 => Question::Cut,
            3 => Question::First,
            4 => Question::Operand,
            5 => Question::Bottom,
            6 => Question::Repeated,
            7 => Question::TooMany,
            8 => Question::End,
            9 => Question::Head,
            10 => Question::Areas,
            11 => Question::Full,
            12 => Question::Unsettled,
            13 => Question::Table,
            14 => Question::Position,
            16 => Question::Rule,
            17 => Question::Height,
            _ => Question::Unknown(number),
        }
    }
}

impl fmt::Display for Question {
    fn fmt(&self, to: &mut fmt::Formatter) -> fmt::Result {
        match self {
            Question::Unknown(number) => write!(to, "number {number}, which this program does not know,"),
            known => write!(to, "{known:?}"),
        }
    }
}

/// A refusal: the question, and its place as the header puts it in brackets.
#[derive(Clone, Copy, Debug, PartialEq, Eq)]
pub struct Refused {
    pub question: Question,
    pub place: u64,
}

/// What a game file states. Sets have bit s for state s.
#[derive(Clone, Copy, Debug, PartialEq, Eq)]
pub struct Sizes {
    pub control: u64,
    pub states: u64,
    pub letters: u64,
    pub abelard: u32,
    pub finals: u32,
    pub rules: u64,
    pub targets: u64,
}

#[derive(Clone, Copy, Debug, PartialEq, Eq)]
pub struct Solved {
    pub entries: usize,
    pub rounds: u64,
}

#[derive(Clone, Copy, Debug, PartialEq, Eq)]
pub enum Verdict {
    /// With the lowest rule of Abelard's that leads to a lost position: none on Éloise's turn, and where no rule does, which only
    /// comes over a table from elsewhere.
    Lost { rule: Option<u32> },
    Target,
    Eloise { rule: u32, bound: u64 },
    Abelard { bound: u64 },
}

/// The library's number as a result. The number for an area of the wrong length does not come back from the calls below.
fn answer(number: u32, place: u64) -> Result<(), Refused> {
    match number {
        0 => Ok(()),
        _ => Err(Refused { question: Question::of(number), place }),
    }
}

/// Reads a game file.
pub fn read(file: &[u8]) -> Result<Sizes, Refused> {
    let mut out = [0u64; 8];
    let number = unsafe { pushdown_read(file.as_ptr(), file.len(), out.as_mut_ptr(), out.len()) };
    answer(number, out[0])?;
    Ok(Sizes {
        control: out[1],
        states: out[2],
        letters: out[3],
        abelard: out[4] as u32,
        finals: out[5] as u32,
        rules: out[6],
        targets: out[7],
    })
}

/// Solves a game file. Both areas are zero after a refusal, the work area always.
pub fn solve(file: &[u8], table: &mut [u32], work: &mut [u32]) -> Result<Solved, Refused> {
    let mut out = [0u64; 3];
    let number = unsafe {
        pushdown_solve(
            file.as_ptr(),
            file.len(),
            table.as_mut_ptr(),
            table.len(),
            work.as_mut_ptr(),
            work.len(),
            out.as_mut_ptr(),
            out.len(),
        )
    };
    answer(number, out[0])?;
    Ok(Solved { entries: out[1] as usize, rounds: out[2] })
}

/// Judges a position over a table.
pub fn judge(file: &[u8], table: &[u32], position: &[u8]) -> Result<Verdict, Refused> {
    let mut out = [0u64; 4];
    let number = unsafe {
        pushdown_judge(
            file.as_ptr(),
            file.len(),
            table.as_ptr(),
            table.len(),
            position.as_ptr(),
            position.len(),
            out.as_mut_ptr(),
            out.len(),
        )
    };
    answer(number, out[0])?;
    Ok(match out[1] {
        1 => Verdict::Lost { rule: (out[2] as u32).checked_sub(1) },
        2 => Verdict::Target,
        3 => Verdict::Eloise { rule: out[2] as u32, bound: out[3] },
        _ => Verdict::Abelard { bound: out[3] },
    })
}

/// A session: a control state and a stack, in the bytes that the library plays in.
#[derive(Clone)]
pub struct Session {
    bytes: [u8; 3 + MAX_STACK],
}

impl Session {
    /// The session at a position, or none where it has not 2 to 257 bytes. Its form is asked by `play`.
    pub fn start(position: &[u8]) -> Option<Session> {
        let (state, stack) = position.split_first()?;
        if stack.is_empty() || stack.len() > MAX_STACK {
            return None;
        }
        let mut bytes = [0u8; 3 + MAX_STACK];
        bytes[0] = *state;
        bytes[1..3].copy_from_slice(&(stack.len() as u16).to_le_bytes());
        for (cell, letter) in bytes[3..].iter_mut().zip(stack.iter().rev()) {
            *cell = *letter;
        }
        Some(Session { bytes })
    }

    /// The position bytes: control state, then stack, top letter first.
    pub fn position(&self) -> Vec<u8> {
        let height = u16::from_le_bytes([self.bytes[1], self.bytes[2]]) as usize;
        let mut position = vec![self.bytes[0]];
        position.extend(self.bytes[3..3 + height].iter().rev());
        position
    }

    /// Plays the rule of a number. A refusal leaves the session as it was.
    pub fn play(&mut self, file: &[u8], rule: u32) -> Result<(), Refused> {
        let mut out = [0u64; 1];
        let number = unsafe {
            pushdown_play(
                file.as_ptr(),
                file.len(),
                self.bytes.as_mut_ptr(),
                self.bytes.len(),
                rule,
                out.as_mut_ptr(),
                out.len(),
            )
        };
        answer(number, out[0])
    }
}
