//! The proved library's calls where they are told in the twin's terms: records, allowances and outcomes.

use compare::twin::{Allowance, Outcome, Usage, Usages, Verdict};
pub use vinegarspit::{check, check2, costliest, judge, judge2, judge_plain, tree, Answer, KeptLog as Stored};

/// The four counters of each client, one client after the other.
pub fn row_of(usages: &Usages) -> vinegarspit::Usage {
    std::array::from_fn(|at| usages[at / 4].counters()[at % 4])
}

/// The answer, and the clients' records with it counted.
pub fn judge_for(allowance: Allowance, words: &[u32], input: &[u8], table: &mut [u32], memo: &mut [u16], usages: &Usages) -> (Answer, Usages) {
    let mut row = row_of(usages);
    let answer = vinegarspit::judge_for(allowance.client, allowance.share, allowance.limit, words, input, table, memo, &mut row);
    (answer, std::array::from_fn(|client| Usage::of(std::array::from_fn(|at| row[4 * client + at]))))
}

pub fn totals(usages: &Usages) -> [u64; 4] {
    vinegarspit::usage_totals(&row_of(usages))
}

/// The answer that the library packs an outcome into.
pub fn packed(outcome: Outcome) -> Answer {
    let verdict = match outcome.verdict {
        Verdict::Refused => 0,
        Verdict::Passed => 1,
        Verdict::Rejected => 2,
        Verdict::Accepted => 3,
    };
    Answer::from_bits(
        verdict
            | (outcome.code as u64) << 8
            | (outcome.position as u64) << 16
            | (outcome.count as u64) << 32
            | (outcome.farthest as u64) << 48,
    )
}
