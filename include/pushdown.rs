//! The functions of libpushdown.a, as `pushdown.h` declares them, for programs in Rust: what a call asks of its pointers, and
//! what it leaves, is said there. Nothing checks that the two declarations agree but the interface test, which calls every
//! function.
//!
//! Leaves out: the limits, and the names of numbers and words. A safe wrapper is in examples/rust/pushdown.rs.

// A program need not call all of them.
#![allow(dead_code)]

/// The version that these declarations go with, `PUSHDOWN_VERSION` of the header: major * 65,536 + minor.
pub const PUSHDOWN_VERSION: u32 = 4 * 65_536;

extern "C" {
    pub fn pushdown_version() -> u32;
    pub fn pushdown_read(file: *const u8, file_len: usize, out: *mut u64, out_len: usize) -> u32;
    pub fn pushdown_solve(
        file: *const u8,
        file_len: usize,
        table: *mut u32,
        table_len: usize,
        work: *mut u32,
        work_len: usize,
        out: *mut u64,
        out_len: usize,
    ) -> u32;
    pub fn pushdown_judge(
        file: *const u8,
        file_len: usize,
        table: *const u32,
        table_len: usize,
        position: *const u8,
        position_len: usize,
        out: *mut u64,
        out_len: usize,
    ) -> u32;
    pub fn pushdown_play(
        file: *const u8,
        file_len: usize,
        session: *mut u8,
        session_len: usize,
        rule: u32,
        out: *mut u64,
        out_len: usize,
    ) -> u32;
}
