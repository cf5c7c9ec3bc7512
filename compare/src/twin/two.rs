//! Two letters of lookahead (request P10): the columns are the strings in the twin's own order, and a set weighs 2^column for each.

use super::answers::Refusal;
use super::limits::{MAX_TERMINALS_OF_TWO, TABLE_WORDS_OF_TWO};
use super::lookahead::Set;
use super::passed::Lookahead;
use super::words::{Grammar, Reading};

pub const K: usize = 2;
pub const LETTERS: usize = MAX_TERMINALS_OF_TWO;

pub struct Two;

impl Lookahead<K, LETTERS> for Two {
    type Word = u64;
    const TABLE: (usize, u8) = (TABLE_WORDS_OF_TWO, 17);
    const CLASH: usize = 64;

    fn read(words: &[u32]) -> Result<Grammar, Refusal> {
        Grammar::read_as(words, Reading { letters: LETTERS, forbidding: false })
    }

    fn weight(set: Set<K, LETTERS>) -> u64 {
        set.bits()
    }

    /// A row has every column, however few letters there are.
    fn columns(_letters: usize) -> usize {
        Set::<K, LETTERS>::STRINGS
    }

    fn column(string: usize, _letters: usize) -> usize {
        string
    }

    fn string(column: usize, _letters: usize) -> usize {
        column
    }
}
