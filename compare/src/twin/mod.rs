//! Checking Boolean grammars and judging inputs, written from the papers alone, in safe Rust: a file for each stage.

mod answers;
mod calls;
mod costliest;
mod descent;
mod kept;
mod limits;
mod lookahead;
mod one;
mod passed;
mod plain;
mod sets;
mod table;
mod tree;
mod two;
mod usage;
mod words;

pub use answers::{Outcome, Refusal, Verdict};
pub use calls::{check, check2, judge, judge2, judge_plain};
pub use costliest::costliest;
pub use kept::Log;
pub use limits::*;
pub use one::Gaps;
pub use tree::judge_tree;
pub use usage::{judge_for, totals, Allowance, Usage, Usages};
pub use words::{Grammar, Symbol};
