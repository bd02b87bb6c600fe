//! The interface test: libpushdown.a held against an implementation of documents 01 and 02 written apart (`apart.rs`), through the
//! four functions of the C interface, for every word and byte that they return, leave or must not touch.
//!
//! What is tried: the samples of document 01 and its edges; judgements up to the largest bound, over tables from elsewhere; every cut
//! of every sample file; files that end within a command or have an unknown one, with what must be answered; seeded damages of the sample files; seeded small and wide games. Each file goes
//! through every function, with tables from the solver, damaged tables and garbage, positions and sessions in form and damaged, rule
//! numbers in and out of range, areas of good and of wrong lengths. Then lost positions, with the rule that must be answered, and
//! contests from lost positions of seeded small games. Every call is made twice. What was in an area before is garbage.
//!
//!     interface [--damages N] [--exact]
//!
//! --exact lends every buffer as a block of memory of its own, for a memory checker. Run it where games/ is. Its last line is
//! the digest of all results; which digest it must be is asked by interface/run. Built with `--cfg apart_only` it makes no
//! call, and the digest is that of what the implementation written apart says they must leave.
//!
//! Leaves out: what the C interface does not hand out (the rules of a game that was read), time, and stack.

mod apart;
mod calls;
mod contest;
mod library;
mod random;

use apart::{Game, Refusal, Verdict};
use calls::{Calls, Left, JUDGE_WORDS, LOST, PLAY_WORDS, READ_WORDS, SESSION_BYTES, SOLVE_WORDS};
use contest::{Contests, Judgement};
use random::Random;
use std::collections::BTreeMap;
use std::process::ExitCode;

/// Words of the tables that are lent for files that are not samples: 64 entries.
const SMALL: usize = 3 * 64;

/// Words of the tables that are lent for wide games besides: 512 entries.
const LONG: usize = 3 * 512;

/// Words of the longest table.
const LONGEST: usize = 3 * apart::MAX_ENTRIES;

const SEED: u64 = 20_240_601;

struct Test {
    calls: Calls,
    random: Random,
    /// Files that passed the file's questions, and those that were solved with 64 entries.
    accepted: u64,
    solved: u64,
    /// Wide games that were solved with 512 entries.
    solved_long: u64,
    contests: Contests,
}

impl Test {
    fn read(&mut self, file: &[u8], words: usize) {
        let out = self.random.results(words);
        self.calls.read(file, &out);
    }

    fn solve(&mut self, file: &[u8], table: usize, work: usize, words: usize) -> Left {
        let (table, work, out) = (self.random.words(table), self.random.words(work), self.random.results(words));
        self.calls.solve(file, &table, &work, &out)
    }

    fn judge(&mut self, file: &[u8], table: &[u32], position: &[u8], words: usize) -> Left {
        let out = self.random.results(words);
        self.calls.judge(file, table, position, &out)
    }

    fn play(&mut self, file: &[u8], session: &[u8], rule: u32, words: usize) {
        let out = self.random.results(words);
        self.calls.play(file, session, rule, &out);
    }

    /// The number of words of an area for results that has not so many.
    fn other_length(&mut self, words: usize) -> usize {
        let length = self.random.one_of(&[0, 1, 2, 3, 4, 5, 7, 8, 9, 16]);
        if length == words {
            words + 1
        } else {
            length
        }
    }

    /// The lengths of two areas: equal and short, or not lengths of areas, or not equal.
    fn areas(&mut self) -> (usize, usize) {
        let few = 3 * (1 + self.random.below(8));
        let any = self.random.below(20);
        match self.random.below(16) {
            0..=5 => (few, few),
            6 | 7 => (any, any),
            8 | 9 => (any, few),
            10 => (few, 0),
            11 => (0, few),
            12 => (0, 0),
            13 => (SMALL, SMALL - 3),
            14 => (SMALL, SMALL + 1),
            _ if any == 0 => (LONGEST + 3, LONGEST + 3),
            _ => (SMALL + 1, SMALL + 1),
        }
    }

    /// A rule number: of the game, just beyond it, or any.
    fn rule(&mut self, game: &Game) -> u32 {
        match self.random.below(8) {
            0 => self.random.word(),
            1 => self.random.one_of(&[255, 256, 257, u32::MAX, 1 << 31, 1 << 8, 1 << 16]),
            _ => self.random.below(game.rules.len() + 2) as u32,
        }
    }

    /// A file through every function. Positions, sessions and rules are those of the game in the file, or of a game near it
    /// where the file is refused; so is the table.
    fn file(&mut self, file: &[u8], near: &Game, near_table: &[u32]) {
        let read = apart::read(file);
        let solved = apart::solve(file, SMALL, SMALL);
        self.accepted += read.is_ok() as u64;
        self.solved += solved.is_ok() as u64;
        let table = solved.map_or(near_table.to_vec(), |solved| apart::words(&solved.entries, SMALL));
        let game = read.unwrap_or(near.clone());

        self.read(file, READ_WORDS);
        let words = self.other_length(READ_WORDS);
        self.read(file, words);

        self.solve(file, SMALL, SMALL, SOLVE_WORDS);
        let (table_length, work_length) = self.areas();
        self.solve(file, table_length, work_length, SOLVE_WORDS);
        let words = self.other_length(SOLVE_WORDS);
        let (table_length, work_length) = self.areas();
        self.solve(file, table_length, work_length, words);

        let position = random::position(&mut self.random, &game);
        self.judge(file, &table, &position, JUDGE_WORDS);
        let mut damaged_table = table.clone();
        for _ in 0..self.random.one_of(&[1, 1, 2, 3]) {
            random::damage_table(&mut self.random, &mut damaged_table);
        }
        self.judge(file, &damaged_table, &position, JUDGE_WORDS);
        let damaged_position = random::damaged_position(&mut self.random, &game);
        self.judge(file, &table, &damaged_position, JUDGE_WORDS);
        let length = self.random.one_of(&[0, 1, 2, 3, 4, 6, 9, SMALL]);
        let garbage = self.random.words(length);
        self.judge(file, &garbage, &position, JUDGE_WORDS);
        let words = self.other_length(JUDGE_WORDS);
        self.judge(file, &table, &position, words);

        let session = random::session(&mut self.random, &position);
        let rule = self.rule(&game);
        self.play(file, &session, rule, PLAY_WORDS);
        self.walk(file, &game, &session);
        let damaged_session = random::damaged_session(&mut self.random, &game);
        let rule = self.rule(&game);
        self.play(file, &damaged_session, rule, PLAY_WORDS);
        let words = self.other_length(PLAY_WORDS);
        self.play(file, &session, rule, words);
        let mut wrong_session = session.clone();
        let length = self.random.one_of(&[0, 1, 3, SESSION_BYTES - 1, SESSION_BYTES + 1, 2 * SESSION_BYTES]);
        wrong_session.resize(length, 7);
        self.play(file, &wrong_session, rule, PLAY_WORDS);
    }

    /// A file solved with more entries, and positions judged over the table.
    fn long_table(&mut self, file: &[u8]) {
        self.solve(file, LONG, LONG, SOLVE_WORDS);
        let (Ok(game), Ok(solved)) = (apart::read(file), apart::solve(file, LONG, LONG)) else {
            return;
        };
        self.solved_long += 1;
        let table = apart::words(&solved.entries, LONG);
        for _ in 0..4 {
            let position = random::position(&mut self.random, &game);
            self.judge(file, &table, &position, JUDGE_WORDS);
        }
        let mut damaged = table.clone();
        random::damage_table(&mut self.random, &mut damaged);
        let position = random::position(&mut self.random, &game);
        self.judge(file, &damaged, &position, JUDGE_WORDS);
    }

    /// Contests from the lost ones of a few positions, over the table that solving the file left; none where it is refused.
    fn contests(&mut self, file: &[u8]) {
        let solved = self.solve(file, SMALL, SMALL, SOLVE_WORDS);
        let (0, Ok(game)) = (solved.number, apart::read(file)) else {
            return;
        };
        for _ in 0..4 {
            let position = random::position(&mut self.random, &game);
            let judged = self.judge(file, &solved.table, &position, JUDGE_WORDS);
            if judged.out[1] == LOST {
                self.contests.play(&mut self.calls, &mut self.random, file, &solved.table, &position);
            }
        }
    }

    /// A few moves in one session by rules of its head, where the file is accepted.
    fn walk(&mut self, file: &[u8], game: &Game, session: &[u8]) {
        let mut session = session.to_vec();
        for _ in 0..3 {
            let at = calls::session_of(&session);
            let top = at.cells[at.height - 1];
            let head: Vec<usize> =
                (0..game.rules.len()).filter(|n| game.rules[*n].from == at.state && game.rules[*n].letter == top).collect();
            if head.is_empty() {
                return;
            }
            let rule = self.random.one_of(&head) as u32;
            self.play(file, &session, rule, PLAY_WORDS);
            match apart::play(file, &at, rule) {
                Ok(after) => session = calls::session_bytes(&after),
                Err(_) => return,
            }
        }
    }
}

/// The positions of document 01 by the index of their sample, with the verdicts that it and document 02 state: A1 to A5, B1, B2, C1,
/// and D's with 40 letters.
fn stated() -> [(usize, &'static [u8], Verdict); 9] {
    [
        (0, &[0, 0], Verdict::Target),
        (0, &[0, 1, 0], Verdict::Eloise { rule: 2, bound: 1 }),
        (0, &[1, 1, 0], Verdict::Abelard { bound: 3 }),
        (0, &[1, 1, 1, 0], Verdict::Abelard { bound: 4 }),
        (0, &[1, 0], Verdict::Abelard { bound: 1 }),
        (1, &[1, 1, 0], Verdict::Lost { rule: Some(5) }),
        (1, &[0, 1, 0], Verdict::Eloise { rule: 2, bound: 1 }),
        (2, &[0, 1, 0], Verdict::Eloise { rule: 1, bound: 3 }),
        (3, &[0, 1, 0], Verdict::Eloise { rule: 1, bound: 1_099_511_627_775 }),
    ]
}

/// Judgements up to the largest bound, with what documents 01 and 02 state of them: sample D with one letter above the bottom, its control
/// state Éloise's and then Abelard's, over a table from elsewhere whose two entries have birthdate 40, so that each letter is worth
/// 2^40 - 1. Stacks of 1, 2, 255 and 256 letters; 257, which are refused; and a table of birthdate 41, which is refused.
fn largest() -> Vec<Judgement> {
    let most = (1 << 40) - 1;
    let mut cases = vec![];
    for owner in [&[][..], &[0x02, 0]] {
        let file =
            [&[0x01, 1, 2, 2], owner, &[0x03, 1, 0x04, 0, 0, 0, 1, 0, 0, 0x04, 0, 1, 0, 0, 0, 0, 0x05, 0, 0, 2, 0, 0, 0, 0xFF]].concat();
        let fields = if owner.is_empty() { [1, 2] } else { [0, 0] };
        let table = vec![65_536 * 40, 2, fields[0], 256 + 65_536 * 40, 1, fields[1]];
        let verdict = |rule, bound| if owner.is_empty() { Verdict::Eloise { rule, bound } } else { Verdict::Abelard { bound } };
        for letters in [1, 2, 255, 256] {
            let position = [&[0], &vec![1; letters - 1][..], &[0]].concat();
            let rule = (letters > 1) as usize;
            cases.push((file.clone(), table.clone(), position, Ok(verdict(rule, letters as u64 * most))));
        }
        let position = [&[0], &[1; 256][..], &[0]].concat();
        cases.push((file.clone(), table.clone(), position, Err(Refusal { number: 14, place: 0 })));
        // One round more than there are: the first of the two entries is refused.
        let later = vec![65_536 * 41, 2, fields[0], 256 + 65_536 * 41, 1, fields[1]];
        cases.push((file, later, vec![0, 1, 0], Err(Refusal { number: 13, place: 0 })));
    }
    cases
}

/// The edges of document 01 as files: 4,096 and 4,097 bytes, 256 and 257 rules, 256 and 257 target transitions.
fn edges(sample: &[u8]) -> Vec<Vec<u8>> {
    let mut files = vec![];
    for length in [4095, 4096, 4097, 5000] {
        let mut file = sample.to_vec();
        file.resize(length, 0xFF);
        files.push(file);
        files.push(vec![0x02; length]);
    }
    for count in [255, 256, 257] {
        // 64 letters on one control state: each pops, then letters are written in their place, rule by rule.
        let mut file = vec![0x01, 1, 9, 64, 0x03, 1, 0x04, 0, 0, 0, 1, 0, 0];
        for rule in 1..count {
            let letter = 1 + (rule - 1) % 63;
            let turn = (rule - 1) / 63;
            let word = if turn == 0 { [0, 0, 0] } else { [1, 1 + ((letter + turn) % 63) as u8, 0] };
            file.extend([0x04, 0, letter as u8, 0, word[0], word[1], word[2]]);
        }
        file.extend([0x05, 0, 0, 2, 0, 0, 0, 0xFF]);
        files.push(file);

        let mut file = vec![0x01, 1, 32, 2, 0x03, 1, 0x04, 0, 0, 0, 1, 0, 0, 0x04, 0, 1, 0, 0, 0, 0];
        for target in 0..count {
            file.extend([0x05, (target % 32) as u8, (target / 128) as u8, 2 + 4 * (target / 32 % 4) as u8, 0, 0, 0x80]);
        }
        file.push(0xFF);
        files.push(file);
    }
    files.push(vec![]);
    files.push(vec![0xFF]);
    files
}

/// Files that have no whole command at some offset, with what document 02 states of them: 2 for an unknown byte, whatever comes
/// after it, and 19 for a known command that the end cuts after any of its bytes, also a second 01, and operands out of range. The
/// last three are longer than such a file can be, and document 01 states their answer: 4 twice, and 1.
fn unread(sample: &[u8]) -> Vec<(Vec<u8>, Refusal)> {
    let at = sample.len() - 1;
    let ending = |bytes: &[u8]| [&sample[..at], bytes].concat();
    let mut files = vec![];
    for byte in [0x00, 0x06, 0x44, 0x80, 0xFE] {
        files.push((ending(&[byte]), Refusal { number: 2, place: at as u64 }));
        files.push((ending(&[byte, 1, 1, 1, 1, 1, 1, 0xFF]), Refusal { number: 2, place: at as u64 }));
    }
    for (code, length) in [(0x01, 4), (0x02, 2), (0x03, 2), (0x04, 7), (0x05, 7)] {
        let command = [code, 99, 99, 99, 99, 99, 99];
        for cut in 1..length {
            files.push((ending(&command[..cut]), Refusal { number: 19, place: at as u64 }));
        }
    }
    // As many bytes as commands that pass can have, then a command that the end cuts, as far as it can be: the longest such file.
    let mut full = vec![0x01, 4, 32, 64];
    for head in 0..=255 {
        full.extend([0x04, head / 64, head % 64, 0, 1, head % 64, 0, 0x05, head / 64, head % 64, 0x10, 0, 0, 0]);
    }
    full.extend((0..32).flat_map(|state| [if state < 4 { 0x02 } else { 0x03 }, state]));
    let at = full.len();
    for (length, number, place) in [(at + 1, 19, at), (at + 6, 19, at), (at + 7, 4, at), (4096, 4, at), (4097, 1, 0)] {
        let mut file = full.clone();
        file.resize(length, 0x04);
        files.push((file, Refusal { number, place: place as u64 }));
    }
    files
}

/// Numbers, and how often each came.
fn counts<N: std::fmt::Display>(counted: &BTreeMap<N, u64>) -> String {
    let words: Vec<String> = counted.iter().map(|(number, count)| format!("{number}: {count}")).collect();
    words.join(", ")
}

fn main() -> ExitCode {
    let mut damages = 20_000;
    let mut margin = 16;
    let mut arguments = std::env::args().skip(1);
    while let Some(word) = arguments.next() {
        match word.as_str() {
            "--damages" => damages = arguments.next().and_then(|n| n.parse().ok()).expect("a number after --damages"),
            "--exact" => margin = 0,
            _ => panic!("unknown argument {word}"),
        }
    }
    let names = ["a", "b", "c", "d40", "d41"];
    let samples: Vec<Vec<u8>> = names
        .iter()
        .map(|name| std::fs::read(format!("games/{name}.game")).expect("games/ has the samples"))
        .collect();
    let games: Vec<Game> = samples.iter().map(|file| apart::read(file).expect("samples are read")).collect();
    let tables: Vec<Vec<u32>> = samples
        .iter()
        .map(|file| apart::solve(file, SMALL, SMALL).map_or(vec![0; SMALL], |s| apart::words(&s.entries, SMALL)))
        .collect();
    let mut test = Test {
        calls: Calls::new(margin),
        random: Random::new(SEED),
        accepted: 0,
        solved: 0,
        solved_long: 0,
        contests: Contests::default(),
    };
    // So many for each damage, so that a shorter run is shorter in all.
    let small_games = damages;
    let wide_games = damages / 50;
    let contest_games = damages / 100;

    // The samples, with the longest table, with as many entries as they have, and with one fewer.
    for (file, game) in samples.iter().zip(&games) {
        let longest = apart::solve(file, LONGEST, LONGEST);
        test.solve(file, LONGEST, LONGEST, SOLVE_WORDS);
        if let Ok(solved) = longest {
            let enough = 3 * solved.entries.len();
            test.solve(file, enough, enough, SOLVE_WORDS);
            test.solve(file, enough - 3, enough - 3, SOLVE_WORDS);
            let table = apart::words(&solved.entries, LONGEST);
            for _ in 0..40 {
                let position = random::position(&mut test.random, game);
                test.judge(file, &table, &position, JUDGE_WORDS);
                test.judge(file, &table[..enough], &position, JUDGE_WORDS);
            }
        }
    }
    for (sample, position, verdict) in stated() {
        assert_eq!(apart::judge(&samples[sample], &tables[sample], position), Ok(verdict), "document 01 states it");
        test.judge(&samples[sample], &tables[sample], position, JUDGE_WORDS);
    }
    let largest_bounds = largest();
    let mut largest_bound = 0;
    for (file, table, position, answer) in &largest_bounds {
        let judged = apart::judge(file, table, position);
        assert_eq!(judged, *answer, "documents 01 and 02 state it of the largest bound");
        if let Ok(Verdict::Eloise { bound, .. } | Verdict::Abelard { bound }) = judged {
            largest_bound = bound.max(largest_bound);
        }
        test.judge(file, table, position, JUDGE_WORDS);
    }
    let refused = apart::solve(&samples[4], LONGEST, LONGEST).map(|_| ());
    assert_eq!(refused, Err(Refusal { number: 12, place: 41 }), "document 01 states it of 41 letters");
    let unread_files = unread(&samples[0]);
    let mut files = 0;
    let mut cuts = 0;
    for (index, file) in samples.iter().enumerate() {
        for length in 0..=file.len() {
            test.file(&file[..length], &games[index], &tables[index]);
            cuts += (length < file.len()) as u64;
            files += 1;
        }
    }
    let edge_files = edges(&samples[0]);
    for file in &edge_files {
        test.file(file, &games[0], &tables[0]);
        test.solve(file, LONGEST, LONGEST, SOLVE_WORDS);
        files += 1;
    }
    for (file, refusal) in &unread_files {
        assert_eq!(apart::read(file).map(|_| ()), Err(*refusal), "documents 01 and 02 state it");
        test.file(file, &games[0], &tables[0]);
        files += 1;
    }
    for number in 0..damages {
        let index = number % samples.len();
        let mut file = samples[index].clone();
        random::damage(&mut test.random, &mut file);
        test.file(&file, &games[index], &tables[index]);
        files += 1;
    }
    for _ in 0..small_games {
        let file = random::small_game(&mut test.random);
        test.file(&file, &games[0], &tables[0]);
        files += 1;
    }
    for _ in 0..wide_games {
        let file = random::wide_game(&mut test.random);
        test.file(&file, &games[0], &tables[0]);
        test.long_table(&file);
        files += 1;
    }
    let lost_judgements = contest::judgements();
    for (file, table, position, answer) in &lost_judgements {
        assert_eq!(apart::judge(file, table, position), *answer, "documents 01 and 02 state it of a lost position");
        test.judge(file, table, position, JUDGE_WORDS);
    }
    for _ in 0..contest_games {
        let file = random::small_game(&mut test.random);
        test.contests(&file);
    }

    println!(
        "files {files}: samples {}, cuts {cuts}, edges {}, unread {}, damages {damages}, small games {small_games}, wide games \
         {wide_games}; seed {SEED}",
        samples.len(),
        edge_files.len(),
        unread_files.len()
    );
    println!(
        "read {} of them, solved {} with {} entries; of the wide games {} with {}",
        test.accepted,
        test.solved,
        SMALL / 3,
        test.solved_long,
        LONG / 3
    );
    println!("judgements up to the largest bound {}, the largest {largest_bound}", largest_bounds.len());
    let contests = &test.contests;
    println!(
        "judgements of lost positions {}; contests from {} lost positions of {contest_games} small games, {} failed",
        lost_judgements.len(),
        contests.started,
        contests.failed
    );
    println!(
        "  moves {}, Abelard's {} by the rule reported, {} of them not his lowest; ended at a full stack {}",
        contests.moves, contests.abelards, contests.not_lowest, contests.full
    );
    for (function, name) in calls::NAMES.iter().enumerate() {
        let (tried, differed) = (test.calls.tried[function], test.calls.differed[function]);
        if cfg!(apart_only) {
            println!("{name}: {tried} calls not made, there is no library; what they must leave is in the digest");
        } else {
            println!("{name}: {tried} calls, each made twice, {differed} differed");
        }
        println!("  answers {}", counts(&test.calls.answered[function]));
    }
    println!("verdicts by kind {}; lost by a rule of Abelard's {}", counts(&test.calls.verdicts), test.calls.losing_rules);
    let version_agrees = library::version_agrees();
    println!("version {}", if version_agrees { "as it is declared" } else { "DIFFERS from the declared one" });
    println!("digest {:016x}", test.calls.digest());
    if test.calls.differed.iter().any(|count| *count > 0) || test.contests.failed > 0 || !version_agrees {
        ExitCode::FAILURE
    } else {
        ExitCode::SUCCESS
    }
}
