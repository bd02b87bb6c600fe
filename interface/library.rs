//! The functions of libpushdown.a over lent buffers. A buffer is lent with margins on both sides, and after a call the margins,
//! and every buffer that the library may only read, are held against what they were. With margins of 0 a buffer is a block of
//! memory of its own, so that a memory checker finds an access beyond it.
//!
//! Built with `--cfg apart_only` there is no library and none of this is called.

#[cfg(not(apart_only))]
#[path = "../include/pushdown.rs"]
mod functions;

#[cfg(not(apart_only))]
use functions::{pushdown_judge, pushdown_play, pushdown_read, pushdown_solve, pushdown_version, PUSHDOWN_VERSION};
use std::fmt::Debug;

/// Whether the library is of the version that its declarations are; nothing can differ where there is none.
pub fn version_agrees() -> bool {
    #[cfg(not(apart_only))]
    return unsafe { pushdown_version() } == PUSHDOWN_VERSION;
    #[cfg(apart_only)]
    true
}

/// A buffer that is lent: margin, the slice, margin.
pub struct Lent<T> {
    cells: Vec<T>,
    margin: usize,
    before: Vec<T>,
}

impl<T: Copy + PartialEq + Debug> Lent<T> {
    pub fn new(slice: &[T], margin: usize, filler: T) -> Lent<T> {
        let mut cells = Vec::with_capacity(slice.len() + 2 * margin);
        cells.resize(margin, filler);
        cells.extend_from_slice(slice);
        cells.resize(slice.len() + 2 * margin, filler);
        Lent { before: cells.clone(), cells, margin }
    }

    fn len(&self) -> usize {
        self.cells.len() - 2 * self.margin
    }

    #[cfg(not(apart_only))]
    fn pointer(&self) -> *const T {
        self.cells[self.margin..].as_ptr()
    }

    #[cfg(not(apart_only))]
    fn pointer_mut(&mut self) -> *mut T {
        self.cells[self.margin..].as_mut_ptr()
    }

    pub fn slice(&self) -> &[T] {
        &self.cells[self.margin..self.margin + self.len()]
    }

    /// Whether nothing outside the slice was written.
    pub fn margins_kept(&self) -> bool {
        let end = self.margin + self.len();
        self.cells[..self.margin] == self.before[..self.margin] && self.cells[end..] == self.before[end..]
    }

    /// Whether nothing at all was written.
    pub fn kept(&self) -> bool {
        self.cells == self.before
    }
}

#[cfg(not(apart_only))]
pub fn read(file: &Lent<u8>, out: &mut Lent<u64>) -> u32 {
    unsafe { pushdown_read(file.pointer(), file.len(), out.pointer_mut(), out.len()) }
}

#[cfg(not(apart_only))]
pub fn solve(file: &Lent<u8>, table: &mut Lent<u32>, work: &mut Lent<u32>, out: &mut Lent<u64>) -> u32 {
    unsafe {
        pushdown_solve(
            file.pointer(),
            file.len(),
            table.pointer_mut(),
            table.len(),
            work.pointer_mut(),
            work.len(),
            out.pointer_mut(),
            out.len(),
        )
    }
}

#[cfg(not(apart_only))]
pub fn judge(file: &Lent<u8>, table: &Lent<u32>, position: &Lent<u8>, out: &mut Lent<u64>) -> u32 {
    unsafe {
        pushdown_judge(
            file.pointer(),
            file.len(),
            table.pointer(),
            table.len(),
            position.pointer(),
            position.len(),
            out.pointer_mut(),
            out.len(),
        )
    }
}

#[cfg(not(apart_only))]
pub fn play(file: &Lent<u8>, session: &mut Lent<u8>, rule: u32, out: &mut Lent<u64>) -> u32 {
    unsafe {
        pushdown_play(
            file.pointer(),
            file.len(),
            session.pointer_mut(),
            session.len(),
            rule,
            out.pointer_mut(),
            out.len(),
        )
    }
}

#[cfg(apart_only)]
pub fn read(_: &Lent<u8>, _: &mut Lent<u64>) -> u32 {
    unreachable!()
}

#[cfg(apart_only)]
pub fn solve(_: &Lent<u8>, _: &mut Lent<u32>, _: &mut Lent<u32>, _: &mut Lent<u64>) -> u32 {
    unreachable!()
}

#[cfg(apart_only)]
pub fn judge(_: &Lent<u8>, _: &Lent<u32>, _: &Lent<u8>, _: &mut Lent<u64>) -> u32 {
    unreachable!()
}

#[cfg(apart_only)]
pub fn play(_: &Lent<u8>, _: &mut Lent<u8>, _: u32, _: &mut Lent<u64>) -> u32 {
    unreachable!()
}
