//! The log of a length with the greatest count (request P14).

use super::answers::{Outcome, Refusal};
use super::calls::{enough, judge};
use super::descent::Descent;
use super::limits::{MAX_INPUTS, MAX_TOKENS, MEMO_ENTRIES, TABLE_WORDS};
use super::one::{One, K, LETTERS};
use super::passed::Passed;

/// Whether there are at most as many logs of that length as are searched.
fn few(letters: usize, length: usize) -> bool {
    let mut logs = 1;
    (0..length).all(|_| {
        logs *= letters;
        logs <= MAX_INPUTS
    })
}

/// Makes the next log in letter order of this one, unless it is the last.
fn advance(log: &mut [u8], letters: usize) -> bool {
    for event in log.iter_mut().rev() {
        *event += 1;
        if (*event as usize) < letters {
            return true;
        }
        *event = 0;
    }
    false
}

/// The first of the logs of that length with the greatest count.
fn search(passed: &Passed<K, LETTERS>, length: usize) -> Vec<u8> {
    let mut memo = vec![0; MEMO_ENTRIES];
    let mut log = vec![0; length];
    let (mut found, mut most) = (log.clone(), 0);
    loop {
        let mut descent = Descent::new(&passed.grammar, &passed.table, &log, &mut memo);
        descent.call(0, 0);
        if descent.count > most {
            most = descent.count;
            found.clone_from(&log);
        }
        if !advance(&mut log, passed.grammar.terminals) {
            return found;
        }
    }
}

fn try_costliest(words: &[u32], length: usize, log: &mut [u8], table: &mut [u32], memo: &mut [u16]) -> Result<Outcome, Refusal> {
    enough(table.len(), TABLE_WORDS, 1)?;
    enough(memo.len(), MEMO_ENTRIES, 2)?;
    enough(log.len(), MAX_TOKENS, 23)?;
    let passed = Passed::check::<One>(words)?;
    if length > MAX_TOKENS {
        return Err(Refusal(10, 0));
    }
    if !few(passed.grammar.terminals, length) {
        return Err(Refusal(22, 0));
    }
    let found = search(&passed, length);
    log[..length].copy_from_slice(&found);
    Ok(judge(words, &found, table, memo))
}

/// Writes the log of that length with the greatest count, the first of several, and judges it.
pub fn costliest(words: &[u32], length: usize, log: &mut [u8], table: &mut [u32], memo: &mut [u16]) -> Outcome {
    try_costliest(words, length, log, table, memo).unwrap_or_else(Outcome::from)
}
