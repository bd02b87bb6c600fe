//! The stack that each entry point needs, on the files, tables and positions that lead it deepest.

use crate::judging::full_table;
use crate::lent;
use crate::library;
use crate::making::{deepest_file, fullest_sets, longest_file, most_rules, ten_elements, unlisted_file, unlisted_rules};
use crate::reader;
use crate::thread::{self, Used};
use crate::watched::{self, Watched};

/// What every entry point has to get by with.
pub const LIMIT: usize = 1 << 20;

/// What the need is measured in: far more than the limit, so that a need beyond it is reported and not met with the guard page.
const MEASURED_IN: usize = 16 << 20;

pub const FUNCTIONS: [&str; 4] = ["pushdown_read", "pushdown_solve", "pushdown_judge", "pushdown_play"];

/// The functions, and the Rust solver that works under the same terms.
const CALLS: usize = FUNCTIONS.len() + 1;

/// Which of the calls solves by the library.
const SOLVE: usize = 1;

fn name_of(call: usize) -> &'static str {
    FUNCTIONS.get(call).unwrap_or(&"lent")
}

/// What the four functions are called with: a file, a table of 2,048 entries that is well formed for it, and a position, as bytes
/// and as a session, whose stack has 256 letters.
struct Deep {
    file: Vec<u8>,
    table: Vec<u32>,
    position: Vec<u8>,
    session: Vec<u8>,
    rule: u32,
    areas: [Vec<u32>; 2],
    /// Whether the library's solve ends in any time that can be waited for.
    ends: bool,
}

impl Deep {
    /// With a table of its own, or one of birthdate 0 throughout. None if the file is refused.
    fn new(file: Vec<u8>, table: Option<Vec<u32>>) -> Option<Deep> {
        let game = reader::read(&file).ok()?;
        let letter = 1.min(game.letters - 1);
        let height = if letter == 0 { 1 } else { 256 };
        let mut position = vec![letter; 1 + height];
        (position[0], position[height]) = (0, 0);
        let mut session = vec![letter; library::SESSION_BYTES];
        session[..4].copy_from_slice(&[0, (height % 256) as u8, (height / 256) as u8, 0]);
        let rule = game.rules.iter().position(|rule| (rule.from, rule.letter) == (0, letter))? as u32;
        let table = table.unwrap_or_else(|| target_table(&game));
        let areas = [vec![0; library::MAX_TABLE], vec![0; library::MAX_TABLE]];
        Some(Deep { file, table, position, session, rule, areas, ends: true })
    }

    /// With a file on which the library's solve does not end.
    fn endless(file: Vec<u8>) -> Option<Deep> {
        Deep::new(file, None).map(|deep| Deep { ends: false, ..deep })
    }

    /// Calls a function; whether it was answered as it must be: a solve may find that the game does not fit, and a move that the
    /// stack is full.
    fn call(&mut self, function: usize) -> bool {
        let [table, work] = &mut self.areas;
        match function {
            0 => library::read(&self.file).number == 0,
            1 => [0, 11, 12].contains(&library::solve(&self.file, table, work).number),
            2 => library::judge(&self.file, &self.table, &self.position).number == 0,
            3 => [0, 17].contains(&library::play(&self.file, &mut self.session.clone(), self.rule).number),
            _ => lent::solve(&self.file, table, work).map_or_else(|refusal| [11, 12].contains(&refusal.number), |_| true),
        }
    }
}

/// Entries of birthdate 0 for every state and letter, to sets of most of the further states, as many as there are or 2,048.
fn target_table(game: &reader::Game) -> Vec<u32> {
    let further = (((1u64 << game.states) - 1) & !((1u64 << game.control) - 1)) as u32;
    let heads = game.states as usize * game.letters as usize;
    let each = (library::MAX_TABLE / 3).div_ceil(heads) as u32;
    let mut table = vec![];
    for head in 0..heads as u32 {
        let (state, letter) = (head / game.letters as u32, head % game.letters as u32);
        let mut sets: Vec<u32> = (0..each).map(|n| further & !(n << game.control)).filter(|set| *set != 0).collect();
        sets.sort_unstable();
        sets.dedup();
        table.extend(sets.iter().flat_map(|set| [state + 256 * letter, *set, 0]));
    }
    table.truncate(library::MAX_TABLE);
    table
}

/// Calls a function in a thread with a stack of so many bytes: what it used; or what is wrong.
fn run(deep: &mut Deep, function: usize, size: usize) -> Result<Used, String> {
    if function == SOLVE && !deep.ends {
        return watch(deep, size);
    }
    let mut answered = false;
    let used = thread::run(size, &mut || answered = deep.call(function));
    match used {
        None => Err(format!("{} could not be called in a thread of {size} bytes", name_of(function))),
        Some(_) if !answered => Err(format!("{} answers otherwise", name_of(function))),
        Some(used) => Ok(used),
    }
}

/// The same of a solve that does not end, looked at while it runs.
fn watch(deep: &Deep, size: usize) -> Result<Used, String> {
    match watched::solve(&deep.file, size) {
        None => Err(format!("the process that was to solve with {size} bytes of stack did not end as it must")),
        Some(Watched { still_moves: true, .. }) => Err("the stack still grew when the time to look at it was over".to_string()),
        Some(Watched { used, .. }) => Ok(used),
    }
}

/// How many rules the head (0, 1) of a file has.
fn rules_of_head(file: &[u8]) -> Option<usize> {
    Some(reader::read(file).ok()?.rules.iter().filter(|rule| (rule.from, rule.letter) == (0, 1)).count())
}

/// The inputs with their names; the games given come under one name.
fn inputs(games: &[&[u8]]) -> Option<Vec<(String, Vec<Deep>)>> {
    let full = full_table(library::MAX_TABLE / 3);
    let longest = longest_file();
    let mut inputs = vec![
        (format!("longest good file, {} bytes", longest.len()), vec![Deep::new(longest, None)?]),
        ("full table, every run accepting".to_string(), vec![Deep::new(full.file, Some(full.table))?]),
        ("sets of ten states".to_string(), vec![Deep::new(ten_elements(), None)?]),
    ];
    for (control, below) in [(1, 7), (2, 7), (3, 7), (3, 8)] {
        let file = deepest_file(control, below);
        let name = format!("{} rules of a head, sets of {}", rules_of_head(&file)?, 32 - control);
        inputs.push((name, vec![Deep::new(file, None)?]));
    }
    let unlisted = unlisted_file();
    let name = format!("{} rules of a head, more ends than are listed", rules_of_head(&unlisted)?);
    inputs.push((name, vec![Deep::new(unlisted, None)?]));
    inputs.push(("189 rules of a head, sets of 32".to_string(), vec![Deep::new(fullest_sets(), None)?]));
    for (file, which) in [(unlisted_rules(240), "most of them not listed"), (most_rules(), "none of them listed")] {
        let name = format!("{} rules of a head, {which}, looked at while it is solved", rules_of_head(&file)?);
        inputs.push((name, vec![Deep::endless(file)?]));
    }
    let given: Option<Vec<Deep>> = games.iter().map(|file| Deep::new(file.to_vec(), None)).collect();
    inputs.push((format!("the {} games", games.len()), given?));
    Some(inputs)
}

/// Prints the need of each function on each input, and of the Rust solver under the same terms, hands on the largest need of each
/// function, and makes every call once more with a stack of as many bytes as the limit. Or what is wrong: a call that could not be
/// made or was answered otherwise than it must be, or that needs more than the limit.
pub fn needs(games: &[&[u8]], mut measured: impl FnMut(&str, usize)) -> Result<(), String> {
    let mut inputs = inputs(games).ok_or("a file that was made for it is refused")?;
    let mut largest = [Used::default(); CALLS];
    println!("| input | read | solve | judge | play | lent |");
    println!("|---|---|---|---|---|---|");
    for (name, deeps) in &mut inputs {
        let most = most_of(deeps, MEASURED_IN).map_err(|what| format!("{name}: {what}"))?;
        println!("| {name} | {} |", most.map(|used| used.below_caller.to_string()).join(" | "));
        largest = std::array::from_fn(|call| larger(most[call], largest[call]));
    }
    println!();
    for (function, used) in FUNCTIONS.iter().zip(&largest) {
        measured(function, used.below_caller);
    }
    for (call, used) in largest.iter().enumerate() {
        let name = name_of(call);
        if used.in_all > LIMIT {
            return Err(format!("{name} uses {} bytes of a thread's stack, more than {LIMIT}", used.in_all));
        }
        run_again(&mut inputs, call)?;
        println!("{name}: every call once more, in threads whose stack has {LIMIT} bytes in all: done");
    }
    Ok(())
}

fn larger(one: Used, other: Used) -> Used {
    Used { below_caller: one.below_caller.max(other.below_caller), in_all: one.in_all.max(other.in_all) }
}

/// The most that each call uses on some inputs.
fn most_of(deeps: &mut [Deep], size: usize) -> Result<[Used; CALLS], String> {
    let mut most = [Used::default(); CALLS];
    for deep in deeps {
        for (call, most) in most.iter_mut().enumerate() {
            *most = larger(run(deep, call, size)?, *most);
        }
    }
    Ok(most)
}

/// Calls a function on every input, in threads whose stack has as many bytes as the limit.
fn run_again(inputs: &mut [(String, Vec<Deep>)], call: usize) -> Result<(), String> {
    for (name, deeps) in inputs {
        for deep in deeps {
            run(deep, call, LIMIT).map_err(|what| format!("{name}: {what}"))?;
        }
    }
    Ok(())
}
