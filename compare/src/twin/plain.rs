//! The plain judge (request P6): to which nonterminals each span belongs, for every span from short to long.

use super::limits::{MAX_NONTERMINALS, MAX_PLAIN_TOKENS};
use super::words::{Grammar, Rule, Symbol};

const PLACES: usize = MAX_PLAIN_TOKENS + 1;

/// For each nonterminal and place, the places where a span that begins there and belongs to the nonterminal ends, a bit for each.
pub struct Spans<'a> {
    grammar: &'a Grammar,
    input: &'a [u8],
    ends: [[u64; PLACES]; MAX_NONTERMINALS],
}

impl<'a> Spans<'a> {
    /// Of one length, a span asks about itself only nonterminals of lower rank.
    pub fn of(grammar: &'a Grammar, input: &'a [u8]) -> Spans<'a> {
        let mut spans = Spans { grammar, input, ends: [[0; PLACES]; MAX_NONTERMINALS] };
        let order = grammar.by_rank();
        for length in 0..=input.len() {
            for start in 0..=input.len() - length {
                for &nonterminal in &order {
                    let rules = grammar.rules.iter().filter(|rule| rule.nonterminal as usize == nonterminal);
                    if rules.into_iter().any(|rule| spans.keeps(rule, start, start + length)) {
                        spans.ends[nonterminal][start] |= 1 << (start + length);
                    }
                }
            }
        }
        spans
    }

    fn keeps(&self, rule: &Rule, start: usize, end: usize) -> bool {
        self.grammar.conjuncts_of(rule).iter().all(|conjunct| {
            let ends = self.grammar.body(conjunct).iter().fold(1 << start, |places, symbol| self.behind(places, symbol));
            (ends >> end & 1 == 1) != conjunct.negative
        })
    }

    /// Where a piece for the symbol may end that begins at one of these places.
    fn behind(&self, places: u64, symbol: &Symbol) -> u64 {
        let among = |place: &usize| places >> place & 1 == 1;
        match *symbol {
            Symbol::Terminal(a) => (0..self.input.len()).filter(among).filter(|&place| self.input[place] == a).fold(0, |ends, place| ends | 2 << place),
            Symbol::Nonterminal(b) => (0..=self.input.len()).filter(among).fold(0, |ends, place| ends | self.ends[b as usize][place]),
        }
    }

    /// The nonterminals that a span belongs to, l weighing 2^l.
    fn word(&self, start: usize, end: usize) -> u32 {
        (0..self.grammar.nonterminals).map(|a| ((self.ends[a][start] >> end & 1) as u32) << a).sum()
    }

    pub fn accepted(&self) -> bool {
        self.word(0, self.input.len()) & 1 == 1
    }

    /// Writes the word of each span, by start, then by end; later words stay.
    pub fn lend(&self, lent: &mut [u32]) {
        let spans = (0..=self.input.len()).flat_map(|start| (start..=self.input.len()).map(move |end| (start, end)));
        for (word, (start, end)) in lent.iter_mut().zip(spans) {
            *word = self.word(start, end);
        }
    }
}
