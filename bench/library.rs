//! The four functions of libpushdown.a over slices. Areas and results have the lengths that the header asks for.

#[path = "../include/pushdown.rs"]
mod functions;

use functions::{pushdown_judge, pushdown_play, pushdown_read, pushdown_solve};

pub const MAX_TABLE: usize = 6144;
pub const SESSION_BYTES: usize = 259;

/// What a function returned, and the words of its result, the place first.
#[derive(Clone, Copy, Debug, PartialEq, Eq)]
pub struct Result<const WORDS: usize> {
    pub number: u32,
    pub words: [u64; WORDS],
}

pub fn read(file: &[u8]) -> Result<8> {
    let mut words = [0; 8];
    let number = unsafe { pushdown_read(file.as_ptr(), file.len(), words.as_mut_ptr(), words.len()) };
    Result { number, words }
}

pub fn solve(file: &[u8], table: &mut [u32], work: &mut [u32]) -> Result<3> {
    let mut words = [0; 3];
    let number = unsafe {
        pushdown_solve(
            file.as_ptr(),
            file.len(),
            table.as_mut_ptr(),
            table.len(),
            work.as_mut_ptr(),
            work.len(),
            words.as_mut_ptr(),
            words.len(),
        )
    };
    Result { number, words }
}

pub fn judge(file: &[u8], table: &[u32], position: &[u8]) -> Result<4> {
    let mut words = [0; 4];
    let number = unsafe {
        pushdown_judge(
            file.as_ptr(),
            file.len(),
            table.as_ptr(),
            table.len(),
            position.as_ptr(),
            position.len(),
            words.as_mut_ptr(),
            words.len(),
        )
    };
    Result { number, words }
}

pub fn play(file: &[u8], session: &mut [u8], rule: u32) -> Result<1> {
    let mut words = [0; 1];
    let number = unsafe {
        pushdown_play(
            file.as_ptr(),
            file.len(),
            session.as_mut_ptr(),
            session.len(),
            rule,
            words.as_mut_ptr(),
            words.len(),
        )
    };
    Result { number, words }
}
