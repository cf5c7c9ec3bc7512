//! What a lookahead settles, and the grammars that are not refused under it, for any lookahead.

use super::answers::Refusal;
use super::lookahead::Set;
use super::sets::Sets;
use super::table::Table;
use super::words::Grammar;

/// What differs with the lookahead, which is of K letters out of at most L.
pub trait Lookahead<const K: usize, const L: usize> {
    /// A word of a lent table.
    type Word: From<u32>;
    /// The least number of lent words, and the code where there are fewer.
    const TABLE: (usize, u8);
    /// What a nonterminal weighs in the position of a clash.
    const CLASH: usize;

    /// The grammar of these words, or the first fault in them.
    fn read(words: &[u32]) -> Result<Grammar, Refusal>;
    /// What a set weighs.
    fn weight(set: Set<K, L>) -> Self::Word;
    /// How many columns a row has where there are so many letters.
    fn columns(letters: usize) -> usize;
    /// The column of a string.
    fn column(string: usize, letters: usize) -> usize;
    /// The string of a column.
    fn string(column: usize, letters: usize) -> usize;
}

/// The grammar of these words with its sets, or why it is refused before its table is made (its words, then 8, then 13).
pub fn clear<T: Lookahead<K, L>, const K: usize, const L: usize>(words: &[u32]) -> Result<(Grammar, Sets<K, L>), Refusal> {
    let grammar = T::read(words)?;
    if let Some(nonterminal) = grammar.left_recursive() {
        return Err(Refusal(8, nonterminal));
    }
    let sets = grammar.sets();
    match sets.unproductive(grammar.nonterminals) {
        Some(nonterminal) => Err(Refusal(13, nonterminal)),
        None => Ok((grammar, sets)),
    }
}

/// A grammar that is not refused, with its sets and its table.
pub struct Passed<const K: usize, const L: usize> {
    pub grammar: Grammar,
    sets: Sets<K, L>,
    pub table: Table<K, L>,
}

impl<const K: usize, const L: usize> Passed<K, L> {
    /// The grammar of these words, or why it is refused (as `clear` does, then 9).
    pub fn check<T: Lookahead<K, L>>(words: &[u32]) -> Result<Self, Refusal> {
        let (grammar, sets) = clear::<T, K, L>(words)?;
        let table = grammar.table(&sets);
        match table.clash(|string| T::column(string, grammar.terminals)) {
            Some((nonterminal, column)) => Err(Refusal(9, nonterminal * T::CLASH + column)),
            None => Ok(Passed { grammar, sets, table }),
        }
    }

    /// Writes both sets of each nonterminal, then the row of each; later words stay.
    pub fn lend<T: Lookahead<K, L>>(&self, lent: &mut [T::Word]) {
        let (nonterminals, letters) = (self.grammar.nonterminals, self.grammar.terminals);
        let (sets, rows) = lent.split_at_mut(2 * nonterminals);
        for (a, row) in rows.chunks_exact_mut(T::columns(letters)).take(nonterminals).enumerate() {
            sets[2 * a] = T::weight(self.sets.first[a]);
            sets[2 * a + 1] = T::weight(self.sets.follow[a]);
            for (column, entry) in row.iter_mut().enumerate() {
                *entry = self.table.rule(a, T::string(column, letters)).into();
            }
        }
    }
}
