//! Lost positions: judgements with what document 02 states of their rule, and the contest, in which Abelard plays the rules that the judge
//! reports and Éloise plays anything.

use crate::apart::{self, Refusal, Verdict};
use crate::calls::{self, Calls, Left, JUDGE_WORDS, LOST, PLAY_WORDS};
use crate::random::{self, Random};

/// File, table and position, and what judging must answer.
pub type Judgement = (Vec<u8>, Vec<u32>, Vec<u8>, Result<Verdict, Refusal>);

/// Moves of a contest.
const MOVES: u64 = 30;

/// How many contests that went wrong are shown.
const SHOWN: u64 = 20;

/// A game in which Abelard's state 1 has rules that lose and rules that do not, by what lies below the top. Éloise's states have one
/// rule for each letter: 0 takes letters 1 off, takes a letter 2 off and changes to 2; 2 takes a letter 2 off and changes back to 0, and
/// stays for ever over any other letter. The target is state 0 at the bottom. So state 0 is won exactly where letters 2 come in blocks
/// of even length, and state 2 exactly over a letter 2 below which state 0 is won.
const BLOCKS: [[u8; 7]; 13] = [
    [0x04, 0, 0, 0, 1, 0, 0], // 0: (0,0) → (0,[0])
    [0x04, 0, 1, 0, 0, 0, 0], // 1: (0,1) → (0,[])
    [0x04, 0, 2, 2, 0, 0, 0], // 2: (0,2) → (2,[])
    [0x04, 1, 0, 0, 1, 0, 0], // 3: (1,0) → (0,[0])
    [0x04, 1, 1, 0, 2, 1, 2], // 4: (1,1) → (0,[1,2]), lost unless state 2 is won below
    [0x04, 1, 1, 0, 2, 2, 1], // 5: (1,1) → (0,[2,1]), lost
    [0x04, 1, 1, 2, 1, 1, 0], // 6: (1,1) → (2,[1]), lost
    [0x04, 1, 2, 0, 2, 1, 1], // 7: (1,2) → (0,[1,1]), lost unless state 0 is won below
    [0x04, 1, 2, 0, 2, 2, 2], // 8: (1,2) → (0,[2,2]), lost where 7 is
    [0x04, 1, 2, 1, 1, 2, 0], // 9: (1,2) → (1,[2]), lost: he can stay for ever
    [0x04, 2, 0, 2, 1, 0, 0], // 10: (2,0) → (2,[0])
    [0x04, 2, 1, 2, 1, 1, 0], // 11: (2,1) → (2,[1])
    [0x04, 2, 2, 0, 0, 0, 0], // 12: (2,2) → (0,[])
];

/// A game of 256 rules, its one control state Abelard's: he takes letters 2 to 17 off, on letter 1 he writes two of them by 238 rules,
/// and by the last rule, 255, he stays over letter 1 for ever.
fn most_rules() -> Vec<u8> {
    let mut file = vec![0x01, 1, 2, 18, 0x02, 0, 0x03, 1, 0x04, 0, 0, 0, 1, 0, 0];
    for letter in 2..18 {
        file.extend([0x04, 0, letter, 0, 0, 0, 0]);
    }
    for pair in 0..238 {
        file.extend([0x04, 0, 1, 0, 2, 2 + pair / 16, 2 + pair % 16]);
    }
    file.extend([0x04, 0, 1, 0, 1, 1, 0]);
    file.extend([0x05, 0, 0, 2, 0, 0, 0, 0xFF]);
    file
}

/// A game in which Abelard's state 1 takes the top off, by rule 3 to state 0 and by rule 4 to state 1, who stays for ever at the bottom.
const POPS: [u8; 51] = [
    0x01, 2, 3, 2, 0x02, 1, 0x03, 2, //
    0x04, 0, 0, 0, 1, 0, 0, // 0: (0,0) → (0,[0])
    0x04, 0, 1, 0, 0, 0, 0, // 1: (0,1) → (0,[])
    0x04, 1, 0, 1, 1, 0, 0, // 2: (1,0) → (1,[0])
    0x04, 1, 1, 0, 0, 0, 0, // 3: (1,1) → (0,[])
    0x04, 1, 1, 1, 0, 0, 0, // 4: (1,1) → (1,[])
    0x05, 0, 0, 4, 0, 0, 0, 0xFF,
];

/// Sample A.
const A: [u8; 58] = [
    0x01, 2, 3, 2, 0x02, 1, 0x03, 2, //
    0x04, 0, 0, 0, 1, 0, 0, // 0: (0,0) → (0,[0])
    0x04, 0, 1, 1, 1, 1, 0, // 1: (0,1) → (1,[1])
    0x04, 0, 1, 0, 0, 0, 0, // 2: (0,1) → (0,[])
    0x04, 1, 0, 0, 1, 0, 0, // 3: (1,0) → (0,[0])
    0x04, 1, 1, 0, 0, 0, 0, // 4: (1,1) → (0,[])
    0x04, 1, 1, 0, 1, 1, 0, // 5: (1,1) → (0,[1])
    0x05, 0, 0, 4, 0, 0, 0, 0xFF,
];

/// The entry of a state on a letter to one state, born in the last round.
fn late(state: u32, letter: u32, to: u32, field: u32) -> [u32; 3] {
    [state + 256 * letter + 65_536 * apart::MAX_ROUNDS, 1 << to, field]
}

/// Judgements of lost positions, with what document 02 states of the rule: over tables of solved games, up to stacks of 256 letters, whose
/// successors may have 257, and over tables from elsewhere.
pub fn judgements() -> Vec<Judgement> {
    let lost = |rule: Option<usize>| Ok(Verdict::Lost { rule });
    let solved = |file: &[u8]| {
        let length = 3 * 64;
        apart::words(&apart::solve(file, length, length).expect("it is solved").entries, length)
    };
    let blocks = [&[0x01, 3, 4, 3, 0x02, 1, 0x03, 3], &BLOCKS.concat()[..], &[0x05, 0, 0, 8, 0, 0, 0, 0xFF]].concat();
    let most = most_rules();
    // A control state, the letters at the top, and so many letters 1 below them, over the bottom.
    let over = |state: u8, top: &[u8], ones: usize| [&[state], top, &vec![1; ones][..], &[0]].concat();

    let mut cases: Vec<Judgement> = vec![];
    for (position, rule) in [
        // All three rules lose, the first of them too.
        (over(1, &[1], 0), Some(4)),
        (over(1, &[1], 254), Some(4)),
        // Below the top state 2 is won, so rule 4 does not lose; 5 is the lower of two that do.
        (over(1, &[1, 2], 0), Some(5)),
        (over(1, &[1, 2], 253), Some(5)),
        (over(1, &[1, 2, 2, 2, 1, 2, 2], 0), Some(5)),
        // Below the top are four letters 2, five with the one that rule 4 writes: an odd block, so it loses.
        (over(1, &[1, 2, 2, 2, 2], 0), Some(4)),
        // State 0 is won below the top, so 7 and 8, which write two letters, do not lose, and 9 does.
        (over(1, &[2], 0), Some(9)),
        (over(1, &[2], 254), Some(9)),
        (over(1, &[2, 2, 2], 252), Some(9)),
        (over(1, &[2, 2], 0), Some(7)),
        (over(1, &[2, 2], 253), Some(7)),
        // Éloise's.
        (over(0, &[2], 0), None),
        (over(0, &[1, 2], 253), None),
        (over(2, &[], 0), None),
        (over(2, &[1], 254), None),
        (over(2, &[2, 2], 253), None),
    ] {
        cases.push((blocks.clone(), solved(&blocks), position, lost(rule)));
    }
    for (position, rule) in [
        (over(0, &[1], 0), 255),
        (over(0, &[&[1], &[2; 254][..]].concat(), 0), 255),
        // A letter 1 below the top is lost already, so the first rule of the head, 17, loses.
        (over(0, &[1], 254), 17),
    ] {
        cases.push((most.clone(), solved(&most), position, lost(Some(rule))));
    }

    // A rule that takes the top off is named; the one entry of (1,1) has a set of which state 1 is lost.
    for (position, rule) in [(over(1, &[], 0), 2), (over(1, &[1], 0), 4), (over(1, &[1], 1), 4), (over(1, &[1], 254), 4)] {
        cases.push((POPS.to_vec(), solved(&POPS), position, lost(Some(rule))));
    }

    // Tables from elsewhere for A, without an entry of (1,1), in which (0,1) has entries to these sets. Over the bottom state 0 accepts and
    // state 1 does not, so that (0,[1,0]), to which rule 5 leads, has a bound exactly if the set of one of them is {0}; rule 4 leads to
    // the target.
    for (sets, rule) in [
        (&[1][..], None),
        (&[2], Some(5)),
        (&[3], Some(5)),
        (&[1, 2], None),
        (&[1, 3], None),
        (&[2, 3], Some(5)),
        (&[1, 2, 3], None),
    ] {
        let mut table = vec![0, 4, 0];
        for set in sets {
            table.extend([256 + 65_536, *set, 3]);
        }
        cases.push((A.to_vec(), table, over(1, &[1], 0), lost(rule)));
    }

    // Tables from elsewhere: entries for what the rules of the head (1,1) lead to, none for that head itself. Each letter is worth as
    // much as it can be. With all four entries every successor has a bound, without the last that of rule 6 has none, and without
    // the third that of rule 4.
    let successors = [late(0, 0, 3, 1), late(0, 1, 0, 2), late(0, 2, 0, 3), late(2, 1, 0, 12)];
    for ones in [1, 255] {
        for (entries, rule) in [(4, None), (3, Some(6)), (2, Some(4)), (0, Some(4))] {
            let mut table = successors[..entries].concat();
            table.resize(12, 0);
            cases.push((blocks.clone(), table, over(1, &[], ones), lost(rule)));
        }
        cases.push((blocks.clone(), vec![0; 3], over(0, &[], ones), lost(None)));
    }
    // 257 letters are refused, though the rule is defined for them too.
    cases.push((blocks.clone(), solved(&blocks), over(1, &[1], 255), Err(Refusal { number: 14, place: 0 })));
    cases
}

/// Contests, and what came of them.
#[derive(Default)]
pub struct Contests {
    pub started: u64,
    pub moves: u64,
    /// Moves of Abelard's, each by the rule that the judge wrote, and those of them in which his lowest rule would not have done.
    pub abelards: u64,
    pub not_lowest: u64,
    /// Contests that ended before their last move, with a stack that has no room for what the rule writes.
    pub full: u64,
    /// Contests that met a position that is not judged lost, or is in the target, or a rule that is refused.
    pub failed: u64,
}

impl Contests {
    /// Thirty moves from a position that is judged lost over the table of a solved game, and a judgement before the first and after each:
    /// on Abelard's turn the rule of the word that the judge wrote, on Éloise's any rule of the head.
    pub fn play(&mut self, calls: &mut Calls, random: &mut Random, file: &[u8], table: &[u32], position: &[u8]) {
        let game = apart::read(file).expect("the game of a solved file");
        let mut session = random::session(random, position);
        self.started += 1;
        for moves in 0..=MOVES {
            let position = calls::position_bytes(&calls::session_of(&session));
            let judged = calls.judge(file, table, &position, &random.results(JUDGE_WORDS));
            if judged.number != 0 || judged.out[1] != LOST || apart::is_in_target(&game, &position) {
                return self.fail("not lost", &position, &judged);
            }
            if moves == MOVES {
                return;
            }
            let head: Vec<usize> = game.rules_of(position[0], position[1]).map(|(number, _)| number).collect();
            let is_abelards = game.is_abelards(position[0]);
            // A word of 0, which names no rule, becomes a number that no rule has.
            let rule = if is_abelards { (judged.out[2] as u32).wrapping_sub(1) } else { random.one_of(&head) as u32 };
            let played = calls.play(file, &session, rule, &random.results(PLAY_WORDS));
            match played.number {
                0 => session = played.session,
                17 => {
                    self.full += 1;
                    return;
                }
                _ => return self.fail("refused", &position, &played),
            }
            self.moves += 1;
            self.abelards += is_abelards as u64;
            self.not_lowest += (is_abelards && rule != head[0] as u32) as u64;
        }
    }

    fn fail(&mut self, what: &str, position: &[u8], left: &Left) {
        self.failed += 1;
        if self.failed <= SHOWN {
            println!("CONTEST {what}: position {position:?}, number {}, words {:?}", left.number, left.out);
        }
    }
}
