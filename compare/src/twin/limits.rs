//! The limits, and the codes in lent memory.

pub const MAX_WORDS: usize = 2_048;
pub const MAX_NONTERMINALS: usize = 32;
pub const MAX_TERMINALS: usize = 24;
pub const MAX_RULES: usize = 128;
pub const MAX_TOKENS: usize = 412;
/// The longest input of the plain judge.
pub const MAX_PLAIN_TOKENS: usize = 48;

/// The least number of words of a lent table (document 01: plate).
pub const TABLE_WORDS: usize = 864;
/// The most letters with two of them to look at, and the least number of words of a lent table for that.
pub const MAX_TERMINALS_OF_TWO: usize = 7;
pub const TABLE_WORDS_OF_TWO: usize = 1_888;
/// The least number of entries of a lent memo table (document 01: notebook).
pub const MEMO_ENTRIES: usize = 13_216;

/// The least number of lent words for the spans of an input (document 02: stretch memory).
pub const SPAN_WORDS: usize = 1_225;

/// A table entry that holds no rule.
pub const NO_RULE: u32 = 4_294_967_295;
/// A memo entry of a call that failed.
pub const FAILED: u16 = 65_534;
/// A memo entry of a pair that was not called.
pub const NOT_CALLED: u16 = 65_535;

/// How many clients one judge has (document 02: boxes).
pub const CLIENTS: usize = 8;
/// The marks of a kept log.
pub const MARKS: usize = 8;
/// What a mark that is not set is stored as.
pub const NOT_SET: u16 = 65_535;

/// Among how many inputs of a length the costliest is sought.
pub const MAX_INPUTS: usize = 4_096;
