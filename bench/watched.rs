//! The stack of a solve that may not end: a process of its own solves the file in a thread, looks at that thread's stack until the
//! solve ends or the deepest byte does not move any more, says how deep it is, and ends without waiting for the solve.

use crate::library;
use crate::thread::{Started, Used};
use std::io::{Read, Write};
use std::process::{Command, ExitCode, Stdio};
use std::time::{Duration, Instant};

/// The argument that makes the bench such a process; the bytes of stack follow, and the file comes by its standard input.
pub const OPTION: &str = "--watch";

const PAUSE: Duration = Duration::from_millis(100);

/// For how long the deepest byte must not have moved, and how long it is waited for at most.
const STILL: Duration = Duration::from_secs(2);
const LONGEST: Duration = Duration::from_secs(8);

/// What a watched process says: what was used, and whether the deepest byte still moved when the time was over.
pub struct Watched {
    pub used: Used,
    pub still_moves: bool,
}

/// The watched process itself.
pub fn watch(size: &str) -> ExitCode {
    let mut file = vec![];
    let is_read = std::io::stdin().read_to_end(&mut file).is_ok();
    let (true, Ok(size)) = (is_read, size.parse()) else {
        return ExitCode::FAILURE;
    };
    let [mut table, mut work] = [0, 0].map(|word| vec![word; library::MAX_TABLE]);
    let solve = move || _ = std::hint::black_box(library::solve(&file, &mut table, &mut work));
    let Some(started) = Started::new(size, Box::new(solve)) else {
        return ExitCode::FAILURE;
    };
    let Watched { used, still_moves } = look(&started);
    println!("{} {} {still_moves}", used.below_caller, used.in_all);
    // Ends the thread, too.
    std::process::exit(0)
}

fn look(started: &Started) -> Watched {
    let start = Instant::now();
    let mut moved = start;
    let mut before = Used::default();
    loop {
        std::thread::sleep(PAUSE);
        let (used, has_ended) = started.used();
        if used != before {
            (before, moved) = (used, Instant::now());
        }
        let still_moves = !has_ended && moved.elapsed() < STILL;
        if !still_moves || start.elapsed() >= LONGEST {
            return Watched { used, still_moves };
        }
    }
}

/// Starts a watched process for a file with a stack of so many bytes and waits for what it says; none if it could not be started or
/// did not end as it must, as where the solve needs more than there is.
pub fn solve(file: &[u8], size: usize) -> Option<Watched> {
    let mut process = Command::new(std::env::current_exe().ok()?)
        .args([OPTION, &size.to_string()])
        .stdin(Stdio::piped())
        .stdout(Stdio::piped())
        .spawn()
        .ok()?;
    // The other end of the pipe is closed here, so that the process finds the file's end.
    process.stdin.take()?.write_all(file).ok()?;
    let said = process.wait_with_output().ok().filter(|said| said.status.success())?;
    watched_of(std::str::from_utf8(&said.stdout).ok()?)
}

fn watched_of(said: &str) -> Option<Watched> {
    let words: Vec<&str> = said.split_whitespace().collect();
    let [below_caller, in_all, still_moves] = words[..] else {
        return None;
    };
    let used = Used { below_caller: below_caller.parse().ok()?, in_all: in_all.parse().ok()? };
    Some(Watched { used, still_moves: still_moves.parse().ok()? })
}
