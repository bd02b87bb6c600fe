//! One call of the library: made twice with equal arguments, and held against what documents 01 and 02 say by the implementation
//! written apart. Counts calls and differences and keeps the digest of all results.

use crate::apart::{self, Refusal, Verdict};
use crate::library::{self, Lent};
use std::collections::BTreeMap;

pub const WRONG_LENGTH: u32 = 100;
pub const READ_WORDS: usize = 8;
pub const SOLVE_WORDS: usize = 3;
pub const JUDGE_WORDS: usize = 4;
pub const PLAY_WORDS: usize = 1;
pub const SESSION_BYTES: usize = 259;

/// The kind of a lost verdict.
pub const LOST: u64 = 1;

/// How many differences are shown with their bytes.
const SHOWN: u64 = 20;

/// The four functions, as indices of what is counted of each.
pub const READ: usize = 0;
pub const SOLVE: usize = 1;
pub const JUDGE: usize = 2;
pub const PLAY: usize = 3;
pub const NAMES: [&str; 4] = ["read", "solve", "judge", "play"];

/// What a call returns and leaves: the number, the words of results, and the buffers that it may write.
#[derive(Clone, Debug, PartialEq, Eq)]
pub struct Left {
    pub number: u32,
    pub out: Vec<u64>,
    pub table: Vec<u32>,
    work: Vec<u32>,
    pub session: Vec<u8>,
}

impl Left {
    fn new(number: u32, out: &[u64]) -> Left {
        Left { number, out: out.to_vec(), table: vec![], work: vec![], session: vec![] }
    }
}

pub struct Calls {
    /// Elements of margin around every buffer.
    pub margin: usize,
    /// Calls tried, each counted once though it is made twice.
    pub tried: [u64; 4],
    pub differed: [u64; 4],
    /// How often each function answered each number.
    pub answered: [BTreeMap<u32, u64>; 4],
    /// How often the judge gave each kind of verdict.
    pub verdicts: BTreeMap<u64, u64>,
    /// How many lost verdicts named a rule of Abelard's.
    pub losing_rules: u64,
    digest: u64,
}

impl Calls {
    pub fn new(margin: usize) -> Calls {
        Calls {
            margin,
            tried: [0; 4],
            differed: [0; 4],
            answered: Default::default(),
            verdicts: BTreeMap::new(),
            losing_rules: 0,
            digest: 0xcbf2_9ce4_8422_2325,
        }
    }

    /// FNV-1a, 64 bits, over every result: the function, the number, then the words and bytes left, lowest byte first.
    pub fn digest(&self) -> u64 {
        self.digest
    }

    fn digest_bytes(&mut self, bytes: &[u8]) {
        for byte in bytes {
            self.digest = (self.digest ^ *byte as u64).wrapping_mul(0x0000_0100_0000_01b3);
        }
    }

    /// Takes up what two equal calls left, or, where there is no library and none was made, what they must leave: then nothing can
    /// differ here, and the digest alone is compared, with that of the hosts that make the calls. Hands out what was left.
    fn take(&mut self, function: usize, expected: Left, got: Option<[(Left, bool); 2]>, arguments: impl Fn() -> String) -> Left {
        self.tried[function] += 1;
        let left = match got {
            None => expected,
            Some([(first, first_kept), (second, second_kept)]) => {
                if first != expected || second != first || !first_kept || !second_kept {
                    self.differed[function] += 1;
                    if self.differed.iter().sum::<u64>() <= SHOWN {
                        println!("DIFFERENCE in {}: {}", NAMES[function], arguments());
                        println!("  demanded: {expected:?}");
                        println!("  first call:  {first:?}");
                        println!("  second call: {second:?}");
                        println!("  buffers that are not to be written kept: {first_kept}, {second_kept}");
                    }
                }
                first
            }
        };
        *self.answered[function].entry(left.number).or_default() += 1;
        if function == JUDGE && left.number == 0 {
            *self.verdicts.entry(left.out[1]).or_default() += 1;
            self.losing_rules += (left.out[1] == LOST && left.out[2] > 0) as u64;
        }
        self.digest_bytes(&[function as u8]);
        self.digest_bytes(&left.number.to_le_bytes());
        for word in &left.out {
            self.digest_bytes(&word.to_le_bytes());
        }
        for word in left.table.iter().chain(&left.work) {
            self.digest_bytes(&word.to_le_bytes());
        }
        self.digest_bytes(&left.session);
        left
    }

    pub fn read(&mut self, file: &[u8], out: &[u64]) -> Left {
        let expected = if out.len() != READ_WORDS {
            Left::new(WRONG_LENGTH, out)
        } else {
            match apart::read(file) {
                Ok(game) => Left::new(
                    0,
                    &[
                        0,
                        game.control as u64,
                        game.states as u64,
                        game.letters as u64,
                        game.abelard as u64,
                        game.finals as u64,
                        game.rules.len() as u64,
                        game.targets.len() as u64,
                    ],
                ),
                Err(Refusal { number, place }) => Left::new(number, &[place, 0, 0, 0, 0, 0, 0, 0]),
            }
        };
        let margin = self.margin;
        let got = twice(|| {
            let lent_file = Lent::new(file, margin, 0xA5);
            let mut lent_out = Lent::new(out, margin, 0xA5A5);
            let number = library::read(&lent_file, &mut lent_out);
            (Left::new(number, lent_out.slice()), lent_file.kept() && lent_out.margins_kept())
        });
        self.take(READ, expected, got, || format!("file {}, out {out:?}", hex(file)))
    }

    pub fn solve(&mut self, file: &[u8], table: &[u32], work: &[u32], out: &[u64]) -> Left {
        let mut expected;
        if out.len() != SOLVE_WORDS {
            expected = Left::new(WRONG_LENGTH, out);
            expected.table = table.to_vec();
            expected.work = work.to_vec();
        } else {
            match apart::solve(file, table.len(), work.len()) {
                Ok(solved) => {
                    expected = Left::new(0, &[0, solved.entries.len() as u64, solved.rounds as u64]);
                    expected.table = apart::words(&solved.entries, table.len());
                }
                Err(Refusal { number, place }) => {
                    expected = Left::new(number, &[place, 0, 0]);
                    expected.table = vec![0; table.len()];
                }
            }
            expected.work = vec![0; work.len()];
        }
        let margin = self.margin;
        let got = twice(|| {
            let lent_file = Lent::new(file, margin, 0xA5);
            let mut lent_table = Lent::new(table, margin, 0xA5A5);
            let mut lent_work = Lent::new(work, margin, 0x5A5A);
            let mut lent_out = Lent::new(out, margin, 0xA5A5);
            let number = library::solve(&lent_file, &mut lent_table, &mut lent_work, &mut lent_out);
            let mut left = Left::new(number, lent_out.slice());
            left.table = lent_table.slice().to_vec();
            left.work = lent_work.slice().to_vec();
            let kept = lent_table.margins_kept() && lent_work.margins_kept() && lent_out.margins_kept();
            (left, lent_file.kept() && kept)
        });
        self.take(SOLVE, expected, got, || {
            format!("file {}, table {table:?}, work {work:?}, out {out:?}", hex(file))
        })
    }

    pub fn judge(&mut self, file: &[u8], table: &[u32], position: &[u8], out: &[u64]) -> Left {
        let expected = if out.len() != JUDGE_WORDS {
            Left::new(WRONG_LENGTH, out)
        } else {
            match apart::judge(file, table, position) {
                Ok(Verdict::Lost { rule }) => Left::new(0, &[0, LOST, rule.map_or(0, |number| number as u64 + 1), 0]),
                Ok(Verdict::Target) => Left::new(0, &[0, 2, 0, 0]),
                Ok(Verdict::Eloise { rule, bound }) => Left::new(0, &[0, 3, rule as u64, bound]),
                Ok(Verdict::Abelard { bound }) => Left::new(0, &[0, 4, 0, bound]),
                Err(Refusal { number, place }) => Left::new(number, &[place, 0, 0, 0]),
            }
        };
        let margin = self.margin;
        let got = twice(|| {
            let lent_file = Lent::new(file, margin, 0xA5);
            let lent_table = Lent::new(table, margin, 0xA5A5);
            let lent_position = Lent::new(position, margin, 0xA5);
            let mut lent_out = Lent::new(out, margin, 0xA5A5);
            let number = library::judge(&lent_file, &lent_table, &lent_position, &mut lent_out);
            let kept = lent_file.kept() && lent_table.kept() && lent_position.kept();
            (Left::new(number, lent_out.slice()), kept && lent_out.margins_kept())
        });
        self.take(JUDGE, expected, got, || {
            format!("file {}, table {table:?}, position {}, out {out:?}", hex(file), hex(position))
        })
    }

    pub fn play(&mut self, file: &[u8], session: &[u8], rule: u32, out: &[u64]) -> Left {
        let mut expected;
        if session.len() != SESSION_BYTES || out.len() != PLAY_WORDS {
            expected = Left::new(WRONG_LENGTH, out);
            expected.session = session.to_vec();
        } else {
            match apart::play(file, &session_of(session), rule) {
                Ok(after) => {
                    expected = Left::new(0, &[0]);
                    expected.session = session_bytes(&after);
                }
                Err(Refusal { number, place }) => {
                    expected = Left::new(number, &[place]);
                    expected.session = session.to_vec();
                }
            }
        }
        let margin = self.margin;
        let got = twice(|| {
            let lent_file = Lent::new(file, margin, 0xA5);
            let mut lent_session = Lent::new(session, margin, 0xA5);
            let mut lent_out = Lent::new(out, margin, 0xA5A5);
            let number = library::play(&lent_file, &mut lent_session, rule, &mut lent_out);
            let mut left = Left::new(number, lent_out.slice());
            left.session = lent_session.slice().to_vec();
            (left, lent_file.kept() && lent_session.margins_kept() && lent_out.margins_kept())
        });
        self.take(PLAY, expected, got, || {
            format!("file {}, session {}, rule {rule}, out {out:?}", hex(file), hex(session))
        })
    }
}

/// What two equal calls left; none where there is no library to call.
fn twice(call: impl Fn() -> (Left, bool)) -> Option<[(Left, bool); 2]> {
    if cfg!(apart_only) {
        None
    } else {
        Some([call(), call()])
    }
}

/// A session's bytes: state, height (lower byte first), cells, bottom letter first.
pub fn session_of(bytes: &[u8]) -> apart::Session {
    apart::Session { state: bytes[0], height: bytes[1] as usize + 256 * bytes[2] as usize, cells: bytes[3..].to_vec() }
}

pub fn session_bytes(session: &apart::Session) -> Vec<u8> {
    let mut bytes = vec![session.state, (session.height % 256) as u8, (session.height / 256) as u8];
    bytes.extend(&session.cells);
    bytes
}

/// The position of a session: control state, then stack, top letter first.
pub fn position_bytes(session: &apart::Session) -> Vec<u8> {
    let mut bytes = vec![session.state];
    bytes.extend(session.cells[..session.height].iter().rev());
    bytes
}

fn hex(bytes: &[u8]) -> String {
    bytes.iter().map(|byte| format!("{byte:02X}")).collect()
}
