//! The bench: the library against two independent solvers in Rust on the same games in one process, the judge's and the reader's
//! times, growth, files that are refused, and the stack that each entry point needs. Its tables are in the form of docs/PERFORMANCE.md.
//!
//!     bench [--check] FILE ...      game files, in the order of the report; those whose names begin with 'heavy' count for the
//!                                   figures
//!     bench --make FOLDER           writes the games random1.game and so on and does nothing else
//!     bench --watch BYTES <FILE     for the bench itself: watched.rs
//!
//! Exit status 0: every answer agrees and no entry point needs more stack than it may; with --check every figure is reached,
//! too. 1: one of these is not so, or was not measured. The last line says what was held.

mod answer;
mod checking;
mod clock;
mod comparison;
mod figures;
mod found;
mod growth;
mod hard;
mod heap;
mod judging;
mod lent;
mod library;
mod making;
mod random;
mod reader;
mod stack;
mod thread;
mod watched;

use comparison::{compare_all, mean_and_largest, Compared, Named};
use figures::{Figures, Held};
use std::collections::BTreeMap;
use std::path::Path;
use std::process::ExitCode;
use std::time::Duration;

const BUDGET: Duration = Duration::from_millis(400);

/// The groups of games, by how their names begin, and how many each has: a run with fewer is not whole.
const GROUPS: [(&str, usize); 3] = [("heavy", 14), ("random", 6), ("wide", 4)];

/// The solvers in Rust, as figures name them.
const SOLVERS: [&str; 2] = ["lent", "heap"];

fn main() -> ExitCode {
    let arguments: Vec<String> = std::env::args().skip(1).collect();
    let words: Vec<&str> = arguments.iter().map(|word| word.as_str()).collect();
    match words[..] {
        ["--make", folder] => {
            found::write_games(Path::new(folder));
            ExitCode::SUCCESS
        }
        [watched::OPTION, size] => watched::watch(size),
        ["--check", ref files @ ..] => measure(files, true),
        ref files => measure(files, false),
    }
}

fn measure(files: &[&str], is_check: bool) -> ExitCode {
    let games: Vec<Named> = files.iter().map(|path| named(path)).collect();
    let mut figures = declared();
    let mut compared = solving(&games, &mut figures);
    judging(&compared, &mut figures);
    growing(&mut compared, &mut figures);
    hard_games(&mut figures);
    refused_files(&games, &mut figures);
    stacks(&games, &mut figures);
    println!();
    figures.print();
    println!();
    verdict(&figures, is_check)
}

/// What has to be measured: the heavy games' ratios and times, the judge's time, the time of a table's check, the stack of each function.
fn declared() -> Figures {
    let mut figures = Figures::default();
    for solver in SOLVERS {
        figures.declare(mean_of(solver), 1.0, Held::OnCheck);
        figures.declare(largest_of(solver), 3.0, Held::OnCheck);
    }
    figures.declare(LONGEST.to_string(), 5.0, Held::OnCheck);
    for table in ["spread2000", "full2000"] {
        figures.declare(passes_over(table), 10.0, Held::OnCheck);
    }
    for table in checking::MADE {
        figures.declare(forms_over(table), 1.5, Held::OnCheck);
    }
    for function in stack::FUNCTIONS {
        figures.declare(stack_of(function), stack::LIMIT as f64, Held::Always);
    }
    figures
}

fn mean_of(solver: &str) -> String {
    format!("heavy games: geometric mean of library/{solver}")
}

fn largest_of(solver: &str) -> String {
    format!("heavy games: largest library/{solver}")
}

const LONGEST: &str = "heavy games: longest solve, seconds";

fn passes_over(table: &str) -> String {
    format!("10 letters over {table}, in passes over the table")
}

fn forms_over(table: &str) -> String {
    format!("check of {table}, in passes that ask about the form")
}

fn stack_of(function: &str) -> String {
    format!("`{function}`: bytes of stack")
}

/// The last line, and the exit status.
fn verdict(figures: &Figures, is_check: bool) -> ExitCode {
    let failed: Vec<String> = figures.faults.iter().cloned().chain(figures.missed(is_check)).collect();
    if !failed.is_empty() {
        println!("bench: FAILED: {}", failed.join("; "));
        return ExitCode::FAILURE;
    }
    let games = figures.compared;
    let held = if is_check { "every figure is measured and reached" } else { "times are printed and not held" };
    println!("bench: passed: every answer and word of {games} games agrees, every call keeps within 1 MiB of stack, {held}");
    ExitCode::SUCCESS
}

/// A game file by its name without folder and ending.
fn named(path: &str) -> Named {
    let name = Path::new(path).file_stem().map(|stem| stem.to_string_lossy().into_owned()).unwrap_or_default();
    Named { name, file: std::fs::read(path).unwrap_or_else(|error| panic!("{path}: {error}")) }
}

fn solving(games: &[Named], figures: &mut Figures) -> Vec<Compared> {
    println!("solving, 2,048 entries lent, best times\n");
    let compared = compare_all(games, BUDGET);
    count(&compared, figures);
    println!("\n| games | library/lent, geometric mean | largest | library/heap, geometric mean | largest | longest solve, ms |");
    println!("|---|---|---|---|---|---|");
    for (group, size) in GROUPS {
        let members: Vec<&Compared> = compared.iter().filter(|game| game.name.starts_with(group)).collect();
        if members.len() < size {
            figures.fault(format!("{} of the {size} {group} games were given", members.len()));
            continue;
        }
        summary(group, &members, figures);
    }
    compared
}

/// A line for a group of games; the figures are of the heavy ones.
fn summary(group: &str, members: &[&Compared], figures: &mut Figures) {
    let to_lent = mean_and_largest(&members.iter().map(|game| game.to_lent()).collect::<Vec<f64>>());
    let to_heap = mean_and_largest(&members.iter().map(|game| game.to_heap()).collect::<Vec<f64>>());
    let longest = members.iter().map(|game| game.library).fold(0.0, f64::max);
    let columns = [to_lent, to_heap].map(|(mean, largest)| format!("{mean:.2} | {largest:.2}")).join(" | ");
    println!("| {group}, {} | {columns} | {} |", members.len(), clock::milliseconds(longest));
    if group == "heavy" {
        for (solver, (mean, largest)) in SOLVERS.iter().zip([to_lent, to_heap]) {
            figures.measured(&mean_of(solver), mean);
            figures.measured(&largest_of(solver), largest);
        }
        figures.measured(LONGEST, longest);
    }
}

/// Counts games that were compared, and says which answers differ.
fn count(compared: &[Compared], figures: &mut Figures) {
    figures.compared += compared.len();
    for game in compared.iter().filter(|game| !game.agrees) {
        figures.fault(format!("answers or words differ on {}", game.name));
    }
}

fn judging(compared: &[Compared], figures: &mut Figures) {
    println!("\njudging by the library, and passes over the table in Rust, ms\n");
    judging::print_heading();
    let largest = compared.iter().max_by_key(|game| game.entries()).filter(|game| game.entries() > 0);
    let mut tables: Vec<judging::Judged> = largest
        .map(|game| judging::Judged {
            name: game.name.clone(),
            file: game.file.clone(),
            table: game.table.clone(),
            letters: game.file[3],
        })
        .into_iter()
        .collect();
    tables.extend([judging::spread_table(2000), judging::full_table(2000), judging::full_table(2048)]);
    for table in &tables {
        match judging::judge_heights(table) {
            Some(passes) if table.name.ends_with("2000") => figures.measured(&passes_over(&table.name), passes),
            Some(_) => {}
            None => figures.fault(format!("judging over {} is refused", table.name)),
        }
    }
    if !judging::judge_lost() {
        figures.fault("the rule of a lost position is not the last of its head".to_string());
    }
    if !judging::read_longest() {
        figures.fault("the longest good file is refused".to_string());
    }
    tables.truncate(1);
    tables.extend(checking::made());
    checking(&tables, figures);
}

/// The check of a table beside judgements over it: of the largest that was solved and of those that are made for it.
fn checking(tables: &[judging::Judged], figures: &mut Figures) {
    println!("\nthe check of a table by question 13, and judgements over it, ms\n");
    checking::print_heading();
    for table in tables {
        match checking::check_beside(table) {
            Some(forms) if checking::MADE.contains(&table.name.as_str()) => figures.measured(&forms_over(&table.name), forms),
            Some(_) => {}
            None => figures.fault(format!("checking {} does not end as it should", table.name)),
        }
    }
}

fn growing(compared: &mut Vec<Compared>, figures: &mut Figures) {
    println!("\ngrowth\n");
    let families = growth::families(BUDGET);
    count(&families, figures);
    compared.extend(families);
    println!();
    growth::by_size(compared);
}

fn hard_games(figures: &mut Figures) {
    println!("\nhard games, 2,048 entries lent, best times\n");
    let (compared, differing) = hard::kinds();
    count(&compared, figures);
    for file in differing {
        figures.fault(format!("games/hard/{file}.game is not what its construction gives, or the solvers in Rust differ on it"));
    }
}

/// Every cut of the shortest game, and the whole of it with an unknown byte in the place of each of its bytes: that all three
/// answer each with the same number, place and words. How often each number came is printed, 0 for a file that is solved.
fn refused_files(games: &[Named], figures: &mut Figures) {
    let Some(game) = games.iter().min_by_key(|game| game.file.len()) else { return };
    let cuts = (0..game.file.len()).map(|length| game.file[..length].to_vec());
    let damages = (0..game.file.len()).map(|at| {
        let mut file = game.file.clone();
        file[at] = 0xFE;
        file
    });
    let mut counted = BTreeMap::new();
    for file in cuts.chain(damages) {
        match comparison::agreed(&file) {
            Some(answer) => *counted.entry(answer.err().map_or(0, |refusal| refusal.number)).or_insert(0) += 1,
            None => figures.fault(format!("answers or words differ on a cut or damaged file of {}", game.name)),
        }
    }
    let numbers: Vec<String> = counted.iter().map(|(number, count)| format!("{number}: {count}")).collect();
    println!("\nrefused files, every cut of {0} and every byte of it made FE, by number: {1}", game.name, numbers.join(", "));
}

fn stacks(games: &[Named], figures: &mut Figures) {
    println!("\nstack, bytes below the caller\n");
    let games: Vec<&[u8]> = games.iter().map(|game| &game.file[..]).collect();
    let measured = stack::needs(&games, |function, need| figures.measured(&stack_of(function), need as f64));
    if let Err(what) = measured {
        figures.fault(format!("stack: {what}"));
    }
}
