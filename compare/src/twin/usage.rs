//! The clients of one judge: the record of each, which a call is handed and hands on, and the allowance (requests P2 and P9).

use super::answers::{Outcome, Refusal, Verdict};
use super::calls::judge;
use super::limits::CLIENTS;

/// Calls to the judge, refusals, acceptances, and called pairs in all (request P2: the tally).
#[derive(Clone, Copy, Debug, Default, PartialEq, Eq)]
pub struct Usage {
    pub calls: u32,
    pub refusals: u32,
    pub acceptances: u32,
    pub called: u32,
}

impl Usage {
    /// The record with one more answer in it.
    pub fn after(self, outcome: Outcome) -> Usage {
        Usage {
            calls: self.calls.saturating_add(1),
            refusals: self.refusals.saturating_add(u32::from(outcome.verdict == Verdict::Refused)),
            acceptances: self.acceptances.saturating_add(u32::from(outcome.verdict == Verdict::Accepted)),
            called: self.called.saturating_add(u32::from(outcome.count)),
        }
    }

    /// The counters in their order.
    pub fn counters(self) -> [u32; 4] {
        [self.calls, self.refusals, self.acceptances, self.called]
    }

    pub fn of([calls, refusals, acceptances, called]: [u32; 4]) -> Usage {
        Usage { calls, refusals, acceptances, called }
    }
}

/// The records of all clients.
pub type Usages = [Usage; CLIENTS];

/// The sums of all clients' counters, in their order.
pub fn totals(usages: &Usages) -> [u64; 4] {
    usages.iter().fold([0; 4], |sums, usage| {
        let counters = usage.counters();
        std::array::from_fn(|at| sums[at] + u64::from(counters[at]))
    })
}

/// Who calls, its share of called pairs, and the limit for all.
#[derive(Clone, Copy, Debug)]
pub struct Allowance {
    pub client: u32,
    pub share: u32,
    pub limit: u32,
}

/// Judges an input for a client as `judge` does, unless there is no such client (15) or its share and the limit are both reached (16), and
/// counts the outcome for the client, if there is one.
pub fn judge_for(allowance: Allowance, words: &[u32], input: &[u8], table: &mut [u32], memo: &mut [u16], usages: &Usages) -> (Outcome, Usages) {
    let Allowance { client, share, limit } = allowance;
    let mut next = *usages;
    let Some(own) = next.get_mut(client as usize) else { return (Refusal(15, 0).into(), *usages) };
    let [.., called] = totals(usages);
    let outcome = if own.called >= share && called >= u64::from(limit) { Refusal(16, 0).into() } else { judge(words, input, table, memo) };
    *own = own.after(outcome);
    (outcome, next)
}
