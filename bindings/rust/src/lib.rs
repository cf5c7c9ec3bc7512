//! Checking encoded Boolean grammars (cards) and judging logs by them: the calls of the proved library behind safe functions.
//!
//! Memory is lent as slices of any length; one that is too short is refused. A call keeps nothing, allocates nothing and ends.
//! `include/vinegarspit.h` describes each call, and docs/PROMISES.md what is proved of it. The deepest cards take 2,000 KiB of stack.
//!
//! ```
//! use vinegarspit::{judge, Verdict, MEMO_ENTRIES, TABLE_WORDS};
//!
//! let any_number_of_a = [0x10000101, 0x20000000, 0x30000000, 0x50000000, 0x60000000, 0x20000000, 0x30000000, 0x70000000];
//! let (mut table, mut memo) = ([0; TABLE_WORDS], [0; MEMO_ENTRIES]);
//! let answer = judge(&any_number_of_a, &[0, 0], &mut table, &mut memo);
//! assert_eq!(answer.verdict(), Verdict::Accepted);
//! assert_eq!(answer.to_string(), "accepted 3 2");
//! ```

mod answer;
mod declarations;
mod kept_log;

pub use answer::{Answer, Verdict};
pub use kept_log::KeptLog;

use declarations::*;

/// How much memory is to be lent, and the longest card and logs.
pub const TABLE_WORDS: usize = 864;
pub const MEMO_ENTRIES: usize = 13_216;
pub const CARD_WORDS: usize = 2_048;
pub const LOG_EVENTS: usize = 412;
pub const SPAN_WORDS: usize = 1_225;
pub const PLAIN_LOG_EVENTS: usize = 48;
/// The table for two events of lookahead, and how many letters it is for.
pub const TABLE2_WORDS: usize = 1_888;
pub const TABLE2_LETTERS: usize = 7;
/// How many clients there are.
pub const CLIENTS: usize = 8;
/// Among how many logs of a length the costliest is sought.
pub const COSTLIEST_LOGS: usize = 4_096;
/// The marks of a kept log, the numbers of its state, and a mark that is not set.
pub const LOG_MARKS: usize = 8;
pub const LOG_STATE: usize = 9;
pub const NOT_SET: u16 = 65_535;
/// Entries: none in a row of the table; a call that failed, and one not made, in the memo table.
pub const NO_RULE: u32 = 4_294_967_295;
pub const FAILED: u16 = 65_534;
pub const NOT_CALLED: u16 = 65_535;

/// The record of all clients: calls, refusals, acceptances and called pairs of each. All 0 is the empty one.
pub type Usage = [u32; 4 * CLIENTS];

/// Checks a card, and fills the table.
#[inline]
pub fn check(card: &[u32], table: &mut [u32]) -> Answer {
    // Sound: the pointers and lengths are those of live slices that do not overlap, and the library proves that it stays within them.
    Answer::from_bits(unsafe { vinegarspit_check(card.as_ptr(), card.len(), table.as_mut_ptr(), table.len()) })
}

/// Judges a log by a card, and fills the table and the memo table.
#[inline]
pub fn judge(card: &[u32], log: &[u8], table: &mut [u32], memo: &mut [u16]) -> Answer {
    // Sound: as above.
    Answer::from_bits(unsafe {
        vinegarspit_judge(
            card.as_ptr(),
            card.len(),
            log.as_ptr(),
            log.len(),
            table.as_mut_ptr(),
            table.len(),
            memo.as_mut_ptr(),
            memo.len(),
        )
    })
}

/// Judges a log for a client, unless its share and the limit of all are reached, and counts the answer in the record.
#[inline]
#[allow(clippy::too_many_arguments)]
pub fn judge_for(
    client: u32,
    share: u32,
    limit: u32,
    card: &[u32],
    log: &[u8],
    table: &mut [u32],
    memo: &mut [u16],
    usage: &mut Usage,
) -> Answer {
    // Sound: as above, and the library writes four counters for each client.
    Answer::from_bits(unsafe {
        vinegarspit_judge_for(
            client,
            share,
            limit,
            card.as_ptr(),
            card.len(),
            log.as_ptr(),
            log.len(),
            table.as_mut_ptr(),
            table.len(),
            memo.as_mut_ptr(),
            memo.len(),
            usage.as_mut_ptr(),
        )
    })
}

/// The sums of all clients' counters.
#[inline]
pub fn usage_totals(usage: &Usage) -> [u64; 4] {
    let mut totals = [0; 4];
    // Sound: the library reads four counters for each client and writes four numbers.
    unsafe { vinegarspit_usage_totals(usage.as_ptr(), totals.as_mut_ptr()) };
    totals
}

/// Judges a log plainly, by clashing cards too, and fills the words of the stretches.
#[inline]
pub fn judge_plain(card: &[u32], log: &[u8], spans: &mut [u32]) -> Answer {
    // Sound: as above.
    Answer::from_bits(unsafe { vinegarspit_judge_plain(card.as_ptr(), card.len(), log.as_ptr(), log.len(), spans.as_mut_ptr(), spans.len()) })
}

/// Judges a log, and writes the parse tree of an accepted one; gives the number of its words too.
#[inline]
pub fn tree(card: &[u32], log: &[u8], table: &mut [u32], memo: &mut [u16], tree: &mut [u32]) -> (Answer, u32) {
    let mut written = 0;
    // Sound: as above, and the library writes one number.
    let bits = unsafe {
        vinegarspit_tree(
            card.as_ptr(),
            card.len(),
            log.as_ptr(),
            log.len(),
            table.as_mut_ptr(),
            table.len(),
            memo.as_mut_ptr(),
            memo.len(),
            tree.as_mut_ptr(),
            tree.len(),
            &mut written,
        )
    };
    (Answer::from_bits(bits), written)
}

/// Checks a card with two events of lookahead, and fills the table for that.
#[inline]
pub fn check2(card: &[u32], table2: &mut [u64]) -> Answer {
    // Sound: as above.
    Answer::from_bits(unsafe { vinegarspit_check2(card.as_ptr(), card.len(), table2.as_mut_ptr(), table2.len()) })
}

/// Judges a log by a card with two events of lookahead, and fills the table for that and the memo table.
#[inline]
pub fn judge2(card: &[u32], log: &[u8], table2: &mut [u64], memo: &mut [u16]) -> Answer {
    // Sound: as above.
    Answer::from_bits(unsafe {
        vinegarspit_judge2(
            card.as_ptr(),
            card.len(),
            log.as_ptr(),
            log.len(),
            table2.as_mut_ptr(),
            table2.len(),
            memo.as_mut_ptr(),
            memo.len(),
        )
    })
}

/// Writes the log of that length with the greatest count, judges it, and fills the table and the memo table.
#[inline]
pub fn costliest(card: &[u32], length: usize, log: &mut [u8], table: &mut [u32], memo: &mut [u16]) -> Answer {
    // Sound: as above.
    Answer::from_bits(unsafe {
        vinegarspit_costliest(
            card.as_ptr(),
            card.len(),
            length,
            log.as_mut_ptr(),
            log.len(),
            table.as_mut_ptr(),
            table.len(),
            memo.as_mut_ptr(),
            memo.len(),
        )
    })
}
