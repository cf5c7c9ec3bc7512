//! The recursive descent over one input, with its memo table, for any lookahead.

use super::limits::{FAILED, NOT_CALLED, NO_RULE};
use super::lookahead::string;
use super::table::Table;
use super::words::{Grammar, Symbol};

pub struct Descent<'a, const K: usize, const L: usize> {
    grammar: &'a Grammar,
    table: &'a Table<K, L>,
    input: &'a [u8],
    memo: &'a mut [u16],
    pub count: u16,
    pub farthest: usize,
}

impl<'a, const K: usize, const L: usize> Descent<'a, K, L> {
    /// A descent in the front of a lent memo table.
    pub fn new(grammar: &'a Grammar, table: &'a Table<K, L>, input: &'a [u8], lent: &'a mut [u16]) -> Self {
        let memo = &mut lent[..grammar.nonterminals * (input.len() + 1)];
        memo.fill(NOT_CALLED);
        Descent { grammar, table, input, memo, count: 0, farthest: 0 }
    }

    /// The end of a call of this nonterminal at this place, or none if it fails.
    pub fn call(&mut self, nonterminal: usize, place: usize) -> Option<usize> {
        let entry = nonterminal * (self.input.len() + 1) + place;
        match self.memo[entry] {
            NOT_CALLED => {}
            FAILED => return None,
            end => return Some(end as usize),
        }
        let result = self.run_rule(nonterminal, place);
        self.memo[entry] = result.map_or(FAILED, |end| end as u16);
        self.count += 1;
        self.farthest = self.farthest.max(place);
        result
    }

    fn run_rule(&mut self, nonterminal: usize, place: usize) -> Option<usize> {
        let grammar = self.grammar;
        let number = self.table.rule(nonterminal, string::<K, L>(&self.input[place..]));
        if number == NO_RULE {
            return None;
        }
        let rule = &grammar.rules[number as usize];
        let conjuncts = grammar.conjuncts_of(rule);
        // without a positive conjunct, all up to the end of the input is taken, and nothing is called for it
        let (end, later) = if grammar.only_forbids(rule) {
            (self.input.len(), conjuncts)
        } else {
            let (first, later) = conjuncts.split_first()?;
            (self.run_body(grammar.body(first), place)?, later)
        };
        for conjunct in later {
            let ends_there = self.run_body(grammar.body(conjunct), place) == Some(end);
            if ends_there == conjunct.negative {
                return None;
            }
        }
        Some(end)
    }

    fn run_body(&mut self, body: &[Symbol], start: usize) -> Option<usize> {
        let mut place = start;
        for &symbol in body {
            match symbol {
                Symbol::Terminal(a) => {
                    if self.input.get(place) != Some(&a) {
                        return None;
                    }
                    place += 1;
                }
                Symbol::Nonterminal(b) => place = self.call(b as usize, place)?,
            }
        }
        Some(place)
    }
}
