//! The log of a length with the greatest count: each call to both implementations, and for few logs by judging each of them.

use super::{length as lent, linked, Lengths, Pair};
use compare::cards::{self, rule, Draft, Random};
use compare::twin::{self, Outcome, Symbol, Verdict, MAX_INPUTS, MAX_TOKENS, MEMO_ENTRIES, TABLE_WORDS};

/// How many logs of a length most of the random cases have at most, and how many of them are judged one by one.
const FEW: usize = 200;
const JUDGED: usize = 30;
/// The refusals of this call alone.
const REFUSALS: [u8; 2] = [22, 23];

/// How many cases there were of each kind: more logs than one have the greatest count, the found one is not the first log, and the refusals.
#[derive(Default)]
pub struct Found {
    ties: u64,
    later: u64,
    refused: [u64; 2],
}

impl Found {
    pub fn print(&self) {
        println!("  costliest logs with others of the same count {}, costliest logs that are not the first {}", self.ties, self.later);
        println!("  refused 22 {}, refused 23 {}", self.refused[0], self.refused[1]);
    }

    pub fn complete(&self) -> bool {
        [self.ties, self.later].iter().chain(&self.refused).all(|&times| times > 0)
    }
}

/// All logs of a length in letter order.
fn logs(letters: usize, length: usize) -> Vec<Vec<u8>> {
    (0..length).fold(vec![vec![]], |shorter, _| {
        let with = |log: &Vec<u8>, letter: usize| [log.as_slice(), &[letter as u8]].concat();
        shorter.iter().flat_map(|log| (0..letters).map(move |letter| with(log, letter))).collect()
    })
}

/// What the log has to be, by judging each of its length, and whether others have its count.
fn judged(words: &[u32], letters: usize, length: usize) -> (Vec<u8>, bool) {
    let (mut table, mut memo) = ([0; TABLE_WORDS], vec![0; MEMO_ENTRIES]);
    let counted: Vec<(u16, Vec<u8>)> =
        logs(letters, length).into_iter().map(|log| (twin::judge(words, &log, &mut table, &mut memo).count, log)).collect();
    let most = counted.iter().map(|(count, _)| *count).max().expect("a log");
    let mut greatest = counted.into_iter().filter(|(count, _)| *count == most);
    (greatest.next().expect("a log").1, greatest.next().is_some())
}

fn letters_of(words: &[u32]) -> usize {
    words.first().map_or(0, |heading| (heading >> 8 & 255) as usize)
}

fn number_of_logs(letters: usize, length: usize) -> usize {
    (0..length).try_fold(1usize, |logs, _| logs.checked_mul(letters)).unwrap_or(usize::MAX)
}

/// One call to both, with so many bytes lent, which hold random ones.
fn call(pair: &mut Pair, found: &mut Found, words: &[u32], length: usize, lengths: Lengths, bytes: &[u8]) -> (Outcome, Vec<u8>) {
    let (mut log, mut log_by_twin) = (bytes.to_vec(), bytes.to_vec());
    let (table, memo) = pair.twin.lend(lengths);
    let expected = twin::costliest(words, length, &mut log_by_twin, table, memo);
    let (table, memo) = pair.proved.lend(lengths);
    let answer = linked::costliest(words, length, &mut log, table, memo);
    let mut agree = answer == linked::packed(expected)
        && log == log_by_twin
        && pair.twin.table == pair.proved.table
        && pair.twin.memo == pair.proved.memo;
    let written = if expected.verdict == Verdict::Refused { 0 } else { length };
    agree &= log[written..] == bytes[written..];
    let letters = letters_of(words);
    if expected.verdict != Verdict::Refused {
        found.later += u64::from(log[..length].iter().any(|&event| event != 0));
        if number_of_logs(letters, length) <= JUDGED {
            let (wanted, tie) = judged(words, letters, length);
            agree &= log[..length] == wanted;
            found.ties += u64::from(tie);
        }
    }
    for (times, code) in found.refused.iter_mut().zip(REFUSALS) {
        *times += u64::from(expected.code == code);
    }
    pair.settle("costliest", agree, expected, answer, words, &log[..written], lengths);
    (expected, log)
}

/// Rows for the sentences of request P14: code and count, and the log.
pub fn stated_costly(pair: &mut Pair) {
    let (r, m, e) = (cards::card_r().words(), cards::card_m().words(), cards::card_e().words());
    let (a, s) = (Symbol::Terminal(0), Symbol::Nonterminal(0));
    let counts_a = |terminals| Draft { nonterminals: 1, terminals, rules: vec![rule(0, &[&[a, s]], &[]), rule(0, &[&[]], &[])] }.words();
    let recursive = Draft { nonterminals: 1, terminals: 2, rules: vec![rule(0, &[&[s]], &[])] }.words();
    let deepest = cards::chain(32, 1).words();
    let enough = vec![255; MAX_TOKENS];
    let rows: Vec<(Vec<u32>, usize, usize, usize, usize, u8, u16, Vec<u8>)> = vec![
        (r.clone(), 0, TABLE_WORDS, MEMO_ENTRIES, MAX_TOKENS, 0, 1, vec![]),
        (r.clone(), 3, TABLE_WORDS, MEMO_ENTRIES, MAX_TOKENS, 0, 4, vec![0; 3]),
        (r.clone(), MAX_TOKENS, TABLE_WORDS, MEMO_ENTRIES, MAX_TOKENS, 0, MAX_TOKENS as u16 + 1, vec![0; MAX_TOKENS]),
        (r.clone(), MAX_TOKENS + 1, TABLE_WORDS, MEMO_ENTRIES, MAX_TOKENS, 10, 0, vec![]),
        // document 01: of one event card M has 6 calls by a and 1 by c
        (m.clone(), 1, TABLE_WORDS, MEMO_ENTRIES, MAX_TOKENS, 0, 6, vec![0]),
        (m.clone(), 7, TABLE_WORDS, MEMO_ENTRIES, MAX_TOKENS, 0, 0, vec![]),
        (m.clone(), 8, TABLE_WORDS, MEMO_ENTRIES, MAX_TOKENS, 22, 0, vec![]),
        (m.clone(), MAX_TOKENS + 1, TABLE_WORDS, MEMO_ENTRIES, MAX_TOKENS, 10, 0, vec![]),
        (e, 2, TABLE_WORDS, MEMO_ENTRIES, MAX_TOKENS, 0, 4, vec![1, 0]),
        // every log that begins with a letter but 0 has one call, so the first has the most where all are of 0
        (counts_a(2), 12, TABLE_WORDS, MEMO_ENTRIES, MAX_TOKENS, 0, 13, vec![0; 12]),
        (counts_a(2), 13, TABLE_WORDS, MEMO_ENTRIES, MAX_TOKENS, 22, 0, vec![]),
        (counts_a(16), 3, TABLE_WORDS, MEMO_ENTRIES, MAX_TOKENS, 0, 4, vec![0; 3]),
        (counts_a(17), 3, TABLE_WORDS, MEMO_ENTRIES, MAX_TOKENS, 22, 0, vec![]),
        (counts_a(24), 0, TABLE_WORDS, MEMO_ENTRIES, MAX_TOKENS, 0, 1, vec![]),
        (deepest, MAX_TOKENS, TABLE_WORDS, MEMO_ENTRIES, MAX_TOKENS, 0, MEMO_ENTRIES as u16, vec![0; MAX_TOKENS]),
        // the order of refusals
        (vec![], MAX_TOKENS + 1, TABLE_WORDS - 1, MEMO_ENTRIES - 1, MAX_TOKENS - 1, 1, 0, vec![]),
        (vec![], MAX_TOKENS + 1, TABLE_WORDS, MEMO_ENTRIES - 1, MAX_TOKENS - 1, 2, 0, vec![]),
        (vec![], MAX_TOKENS + 1, TABLE_WORDS, MEMO_ENTRIES, MAX_TOKENS - 1, 23, 0, vec![]),
        (vec![], MAX_TOKENS + 1, TABLE_WORDS, MEMO_ENTRIES, MAX_TOKENS, 4, 0, vec![]),
        (recursive, MAX_TOKENS + 1, TABLE_WORDS, MEMO_ENTRIES, MAX_TOKENS, 8, 0, vec![]),
        (r, usize::MAX, TABLE_WORDS, MEMO_ENTRIES, MAX_TOKENS, 10, 0, vec![]),
    ];
    let found = &mut Found::default();
    for (words, length, table, memo, room, code, count, log) in rows {
        let lengths = Lengths { table, memo, ..Lengths::LEAST };
        let (outcome, written) = call(pair, found, &words, length, lengths, &enough[..room]);
        if outcome.code != code || (count != 0 && outcome.count != count) || written[..log.len()] != log {
            pair.tally.differ += 1;
            println!("stated for length {length}: {code} {count} {log:?}, the twin answers {outcome:?} {:?}", &written[..log.len()]);
        }
    }
}

/// A length such that there are mostly few logs, at times nearly as many as are searched, one more, or too many events.
fn some_length(random: &mut Random, letters: usize) -> usize {
    let most = |bound: usize| (0..=MAX_TOKENS).take_while(|&length| number_of_logs(letters, length) <= bound).count() - 1;
    match random.below(200) {
        0 => most(MAX_INPUTS),
        1..=6 => most(MAX_INPUTS) + 1,
        7 => MAX_TOKENS + 1 + random.below(3),
        8 => usize::MAX - random.below(2),
        _ if letters <= 1 => random.below(40),
        _ => random.below(most(FEW) + 1),
    }
}

/// A search for each of `count` random grammars, lengths and memories.
pub fn random_costly(pair: &mut Pair, seed: u64, count: u64) -> Found {
    let mut found = Found::default();
    for number in 0..count {
        let mut random = Random::new(seed.wrapping_mul(2_000_003).wrapping_add(number));
        let words = cards::words(&mut random);
        let lengths = Lengths::random(&mut random);
        let length = some_length(&mut random, letters_of(&words).clamp(1, 24));
        let bytes: Vec<u8> = (0..lent(&mut random, MAX_TOKENS)).map(|_| random.below(256) as u8).collect();
        pair.refill(&mut random);
        let differ = pair.tally.differ;
        call(pair, &mut found, &words, length, lengths, &bytes);
        if pair.tally.differ > differ {
            println!("  this was case {number} of the costliest logs of seed {seed}");
        }
    }
    found
}
