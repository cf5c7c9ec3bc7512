//! One letter of lookahead (document 01): what a set weighs, which column a string has, and the cells that have no rule or several.

use super::answers::Refusal;
use super::limits::{MAX_TERMINALS, TABLE_WORDS};
use super::lookahead::Set;
use super::passed::{clear, Lookahead};
use super::words::{Grammar, Reading};

pub const K: usize = 1;
pub const LETTERS: usize = MAX_TERMINALS;

pub struct One;

impl Lookahead<K, LETTERS> for One {
    type Word = u32;
    const TABLE: (usize, u8) = (TABLE_WORDS, 1);
    const CLASH: usize = 32;

    fn read(words: &[u32]) -> Result<Grammar, Refusal> {
        Grammar::read_as(words, Reading { letters: LETTERS, forbidding: true })
    }

    /// Letter l weighs 2^l, "nothing" 2^24.
    fn weight(set: Set<K, LETTERS>) -> u32 {
        (set.bits() >> 1 | (set.bits() & 1) << LETTERS) as u32
    }

    /// Letters in order, then the end.
    fn columns(letters: usize) -> usize {
        letters + 1
    }

    fn column(string: usize, letters: usize) -> usize {
        if string == 0 { letters } else { string - 1 }
    }

    fn string(column: usize, letters: usize) -> usize {
        if column == letters { 0 } else { column + 1 }
    }
}

/// The cells with no rule or with two or more (request P3): nonterminal, column and rules, by nonterminal, then column; and the nonterminals
/// that have a rule of negative conjuncts alone though a letter may follow.
#[derive(Debug, PartialEq)]
pub struct Gaps {
    pub cells: Vec<(usize, usize, Vec<usize>)>,
    pub unsettled: Vec<usize>,
}

impl Gaps {
    pub fn find(words: &[u32]) -> Result<Gaps, Refusal> {
        let (grammar, sets) = clear::<One, K, LETTERS>(words)?;
        let letters = grammar.terminals;
        let cells = (0..grammar.nonterminals).flat_map(|a| (0..One::columns(letters)).map(move |column| (a, column)));
        let with_rules = cells.map(|(a, column)| (a, column, grammar.claimants(&sets, a, One::string(column, letters))));
        Ok(Gaps {
            cells: with_rules.filter(|(_, _, rules)| rules.len() != 1).collect(),
            unsettled: (0..grammar.nonterminals).filter(|&a| grammar.end_unsettled(&sets, a)).collect(),
        })
    }

    /// Whether the grammar would be refused with 9.
    pub fn clash(&self) -> bool {
        !self.unsettled.is_empty() || self.cells.iter().any(|(_, _, rules)| !rules.is_empty())
    }
}
