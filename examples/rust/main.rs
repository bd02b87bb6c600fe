//! The library from Rust: reads a game file, solves it, judges a position, and plays from there to the target. On Éloise's turn
//! the advised rule is played; Abelard plays worst, that is the rule of his head after which the bound is largest, the lowest
//! number of several. Prints every move.
//!
//!     example FILE STATE LETTER..      the stack's letters, top first, 0 last
//!
//! Exit status 0: the target was reached; 1: the position is lost, or the library refused; 2: the file cannot be read; 3: the
//! library is of another version; 64: the arguments are not as above.
//!
//! Leaves out: writing a game file, and a table kept from an earlier call.

mod pushdown;

use pushdown::{Question, Refused, Session, Verdict, MAX_RULES, MAX_TABLE};
use std::process::ExitCode;

const NO_FILE: u8 = 2;
const OTHER_VERSION: u8 = 3;
const BAD_USAGE: u8 = 64;

/// Abelard's worst rule and the session after it. Every rule number is tried on a copy of the session; question 16 tells those
/// that are not of the head.
fn worst(file: &[u8], table: &[u32], session: &Session) -> Result<(u32, Session), Refused> {
    let mut found: Option<(u64, u32, Session)> = None;
    for rule in 0..MAX_RULES {
        let mut after = session.clone();
        match after.play(file, rule) {
            Ok(()) => {}
            Err(Refused { question: Question::Rule, .. }) => continue,
            Err(refused) => return Err(refused),
        }
        let bound = match pushdown::judge(file, table, &after.position())? {
            Verdict::Lost { .. } => u64::MAX,
            Verdict::Target => 0,
            Verdict::Eloise { bound, .. } | Verdict::Abelard { bound } => bound,
        };
        if found.as_ref().map_or(true, |(largest, _, _)| bound > *largest) {
            found = Some((bound, rule, after));
        }
    }
    let (_, rule, after) = found.expect("every head has a rule: question 9");
    Ok((rule, after))
}

fn shown(position: &[u8]) -> String {
    let letters: Vec<String> = position[1..].iter().map(u8::to_string).collect();
    format!("({},[{}])", position[0], letters.join(","))
}

/// Prints the game and the moves from a position, and says whether the target was reached.
fn play(file: &[u8], position: &[u8]) -> Result<bool, Refused> {
    let sizes = pushdown::read(file)?;
    println!(
        "read: {} control states, {} states, {} letters, {} rules, {} target transitions",
        sizes.control, sizes.states, sizes.letters, sizes.rules, sizes.targets
    );
    let mut table = vec![0u32; MAX_TABLE];
    let mut work = vec![0u32; MAX_TABLE];
    let solved = pushdown::solve(file, &mut table, &mut work)?;
    println!("solved: {} entries, {} rounds", solved.entries, solved.rounds);

    // The judge asks the position's form, length included, so that a session can be started at it.
    pushdown::judge(file, &table, position)?;
    let mut session = Session::start(position).expect("a position in form has 2 to 257 bytes");
    let mut moves = 0u64;
    loop {
        let position = session.position();
        print!("{} ", shown(&position));
        match pushdown::judge(file, &table, &position)? {
            Verdict::Lost { rule: Some(rule) } => {
                println!("lost by rule {rule}");
                return Ok(false);
            }
            Verdict::Lost { rule: None } => {
                println!("lost");
                return Ok(false);
            }
            Verdict::Target => {
                println!("target after {moves} moves");
                return Ok(true);
            }
            Verdict::Eloise { rule, bound } => {
                println!("bound {bound}, Éloise plays the advised rule {rule}");
                session.play(file, rule)?;
            }
            Verdict::Abelard { bound } => {
                let (rule, after) = worst(file, &table, &session)?;
                println!("bound {bound}, Abelard plays rule {rule}");
                session = after;
            }
        }
        moves += 1;
    }
}

/// A byte, from decimal digits and nothing else.
fn byte_of(word: &str) -> Option<u8> {
    if word.bytes().all(|digit| digit.is_ascii_digit()) {
        word.parse().ok()
    } else {
        None
    }
}

/// The position bytes of the arguments, or what is wrong with the first one that is not a byte.
fn position_of(words: &[String]) -> Result<Vec<u8>, String> {
    let mut position = vec![];
    for word in words {
        let what = if position.is_empty() { "the control state" } else { "a letter" };
        let byte = byte_of(word).ok_or_else(|| format!("'{word}' is not {what}, a number from 0 to 255"))?;
        position.push(byte);
    }
    Ok(position)
}

fn main() -> ExitCode {
    if let Some((major, minor)) = pushdown::other_version() {
        eprintln!("example: linked with version {major}.{minor} of the library, which is not the one that it was written for");
        return ExitCode::from(OTHER_VERSION);
    }
    let arguments: Vec<String> = std::env::args_os().skip(1).map(|word| word.to_string_lossy().into_owned()).collect();
    let [name, words @ ..] = &arguments[..] else {
        eprintln!("usage: example FILE STATE LETTER..");
        return ExitCode::from(BAD_USAGE);
    };
    let position = match position_of(words) {
        Ok(position) => position,
        Err(wrong) => {
            eprintln!("example: {wrong}");
            return ExitCode::from(BAD_USAGE);
        }
    };
    let file = match std::fs::read(name) {
        Ok(file) => file,
        Err(error) => {
            eprintln!("example: cannot read {name}: {error}");
            return ExitCode::from(NO_FILE);
        }
    };
    match play(&file, &position) {
        Ok(true) => ExitCode::SUCCESS,
        Ok(false) => ExitCode::FAILURE,
        Err(Refused { question, place }) => {
            println!("refused by {question} at {place}");
            ExitCode::FAILURE
        }
    }
}
