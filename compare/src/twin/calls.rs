//! The calls: what is refused in which order, and what is lent back.

use super::answers::{Outcome, Refusal};
use super::descent::Descent;
use super::limits::{MAX_PLAIN_TOKENS, MAX_TOKENS, MEMO_ENTRIES, SPAN_WORDS};
use super::one::{self, One};
use super::passed::{clear, Lookahead, Passed};
use super::plain::Spans;
use super::two::{self, Two};

/// Refuses with this code if less is lent than is asked for.
pub fn enough(lent: usize, asked: usize, code: u8) -> Result<(), Refusal> {
    if lent < asked { Err(Refusal(code, 0)) } else { Ok(()) }
}

/// The letters of a log: an event's top bit is the direction of an axle.
pub fn letters(events: &[u8]) -> Vec<u8> {
    events.iter().map(|&event| event & 0x7f).collect()
}

/// The letters of a log, unless it has more than so many events (10) or one that is no terminal (11).
fn readable(events: &[u8], most: usize, terminals: usize) -> Result<Vec<u8>, Refusal> {
    if events.len() > most {
        return Err(Refusal(10, 0));
    }
    let input = letters(events);
    match input.iter().position(|&letter| letter as usize >= terminals) {
        Some(index) => Err(Refusal(11, index)),
        None => Ok(input),
    }
}

fn try_check<T: Lookahead<K, L>, const K: usize, const L: usize>(words: &[u32], table: &mut [T::Word]) -> Result<Outcome, Refusal> {
    let (least, code) = T::TABLE;
    enough(table.len(), least, code)?;
    Passed::check::<T>(words)?.lend::<T>(table);
    Ok(Outcome::passed())
}

fn try_judge<T: Lookahead<K, L>, const K: usize, const L: usize>(
    words: &[u32],
    events: &[u8],
    table: &mut [T::Word],
    memo: &mut [u16],
) -> Result<Outcome, Refusal> {
    let (least, code) = T::TABLE;
    enough(table.len(), least, code)?;
    enough(memo.len(), MEMO_ENTRIES, 2)?;
    let passed = Passed::check::<T>(words)?;
    let input = readable(events, MAX_TOKENS, passed.grammar.terminals)?;
    passed.lend::<T>(table);
    let mut descent = Descent::new(&passed.grammar, &passed.table, &input, memo);
    let accepted = descent.call(0, 0) == Some(input.len());
    Ok(Outcome::judged(accepted, descent.count, descent.farthest as u16))
}

fn try_judge_plain(words: &[u32], events: &[u8], spans: &mut [u32]) -> Result<Outcome, Refusal> {
    enough(spans.len(), SPAN_WORDS, 12)?;
    let (grammar, _) = clear::<One, { one::K }, { one::LETTERS }>(words)?;
    let input = readable(events, MAX_PLAIN_TOKENS, grammar.terminals)?;
    let found = Spans::of(&grammar, &input);
    found.lend(spans);
    Ok(Outcome::judged(found.accepted(), 0, 0))
}

/// Checks the grammar of these words and fills the table.
pub fn check(words: &[u32], table: &mut [u32]) -> Outcome {
    try_check::<One, { one::K }, { one::LETTERS }>(words, table).unwrap_or_else(Outcome::from)
}

/// Judges a log by the grammar of these words and fills the table and the memo table.
pub fn judge(words: &[u32], events: &[u8], table: &mut [u32], memo: &mut [u16]) -> Outcome {
    try_judge::<One, { one::K }, { one::LETTERS }>(words, events, table, memo).unwrap_or_else(Outcome::from)
}

/// As `check`, with two letters of lookahead.
pub fn check2(words: &[u32], table: &mut [u64]) -> Outcome {
    try_check::<Two, { two::K }, { two::LETTERS }>(words, table).unwrap_or_else(Outcome::from)
}

/// As `judge`, with two letters of lookahead.
pub fn judge2(words: &[u32], events: &[u8], table: &mut [u64], memo: &mut [u16]) -> Outcome {
    try_judge::<Two, { two::K }, { two::LETTERS }>(words, events, table, memo).unwrap_or_else(Outcome::from)
}

/// Judges a log by the grammar of these words without a table, and fills the words of the spans.
pub fn judge_plain(words: &[u32], events: &[u8], spans: &mut [u32]) -> Outcome {
    try_judge_plain(words, events, spans).unwrap_or_else(Outcome::from)
}
