//! What rules claim, where two claim the same, and the rule for each nonterminal and string of lookahead.

use super::limits::{MAX_NONTERMINALS, NO_RULE};
use super::lookahead::Set;
use super::sets::Sets;
use super::words::{Grammar, Rule};

/// The rule for each nonterminal and string; for each nonterminal the strings that two rules claim, and whether it has a rule of negative
/// conjuncts alone though a letter may follow it.
pub struct Table<const K: usize, const L: usize> {
    rules: Vec<u32>,
    claimed_twice: [Set<K, L>; MAX_NONTERMINALS],
    end_unsettled: [bool; MAX_NONTERMINALS],
}

impl Grammar {
    /// The strings that a rule claims: its first set strung with what may follow.
    fn claims<const K: usize, const L: usize>(&self, rule: &Rule, sets: &Sets<K, L>) -> Set<K, L> {
        self.first_of_rule(rule, &sets.first).then(sets.follow[rule.nonterminal as usize])
    }

    /// The rules of a nonterminal that claim a string, in order.
    pub fn claimants<const K: usize, const L: usize>(&self, sets: &Sets<K, L>, nonterminal: usize, string: usize) -> Vec<usize> {
        let claims = |rule: &Rule| rule.nonterminal as usize == nonterminal && self.claims(rule, sets).strings().any(|other| other == string);
        (0..self.rules.len()).filter(|&number| claims(&self.rules[number])).collect()
    }

    /// Whether a nonterminal has a rule of negative conjuncts alone though a letter may follow it.
    pub fn end_unsettled<const K: usize, const L: usize>(&self, sets: &Sets<K, L>, nonterminal: usize) -> bool {
        sets.follow[nonterminal].join(Set::NOTHING) != Set::NOTHING
            && self.rules.iter().any(|rule| rule.nonterminal as usize == nonterminal && self.only_forbids(rule))
    }

    pub fn table<const K: usize, const L: usize>(&self, sets: &Sets<K, L>) -> Table<K, L> {
        let mut rules = vec![NO_RULE; self.nonterminals * Set::<K, L>::STRINGS];
        let mut claimed = [Set::EMPTY; MAX_NONTERMINALS];
        let mut claimed_twice = [Set::EMPTY; MAX_NONTERMINALS];
        for (number, rule) in self.rules.iter().enumerate() {
            let a = rule.nonterminal as usize;
            let claims = self.claims(rule, sets);
            claimed_twice[a].add(claims.meet(claimed[a]));
            claimed[a].add(claims);
            let row = &mut rules[a * Set::<K, L>::STRINGS..][..Set::<K, L>::STRINGS];
            for string in claims.strings() {
                row[string] = number as u32;
            }
        }
        let end_unsettled = std::array::from_fn(|a| self.end_unsettled(sets, a));
        Table { rules, claimed_twice, end_unsettled }
    }
}

impl<const K: usize, const L: usize> Table<K, L> {
    /// The number of the rule for a nonterminal and a string, or `NO_RULE`.
    pub fn rule(&self, nonterminal: usize, string: usize) -> u32 {
        self.rules[nonterminal * Set::<K, L>::STRINGS + string]
    }

    /// The lowest nonterminal with a clash, and the lowest column of one: that of a string that two rules claim, or 0 where no end is
    /// settled for a rule of negative conjuncts alone.
    pub fn clash(&self, column: impl Fn(usize) -> usize) -> Option<(usize, usize)> {
        (0..MAX_NONTERMINALS).find_map(|a| {
            let twice = self.claimed_twice[a].strings().map(&column);
            Some((a, twice.chain(self.end_unsettled[a].then_some(0)).min()?))
        })
    }
}

#[cfg(test)]
mod tests {
    use crate::cards::{rule, Draft};
    use crate::twin::{Grammar, Symbol::*};

    /// S: X or Y, X and Y each b or empty. Two rules of S claim b and the end, with one letter of lookahead and with two.
    #[test]
    fn clashes_with_one_letter_and_two() {
        let mut rules: Vec<_> = [1, 2].iter().map(|&x| rule(0, &[&[Nonterminal(x)]], &[])).collect();
        for x in [1, 2] {
            rules.extend([rule(x, &[&[Terminal(1)]], &[]), rule(x, &[&[]], &[])]);
        }
        let grammar = Grammar::read(&Draft { nonterminals: 3, terminals: 2, rules }.words()).expect("well formed");
        assert_eq!(grammar.table(&grammar.sets::<1, 24>()).clash(|string| if string == 0 { 2 } else { string - 1 }), Some((0, 1)));
        assert_eq!(grammar.table(&grammar.sets::<2, 7>()).clash(|string| string), Some((0, 0)));
    }

    /// S: X b, X: not a. A letter follows X, so its one rule is a clash in column 0. Alone, with only the end behind it, it is none.
    #[test]
    fn only_the_end_may_follow_what_only_forbids() {
        let forbids = |x| rule(x, &[], &[&[Terminal(0)]]);
        let clash = |rules: Vec<_>| {
            let grammar = Grammar::read(&Draft { nonterminals: 2, terminals: 2, rules }.words()).expect("well formed");
            grammar.table(&grammar.sets::<1, 24>()).clash(|string| if string == 0 { 2 } else { string - 1 })
        };
        assert_eq!(clash(vec![rule(0, &[&[Nonterminal(1), Terminal(1)]], &[]), forbids(1)]), Some((1, 0)));
        assert_eq!(clash(vec![rule(0, &[&[Nonterminal(1)]], &[&[Nonterminal(1), Terminal(1)]]), forbids(1)]), Some((1, 0)));
        assert_eq!(clash(vec![rule(0, &[&[Nonterminal(1)]], &[]), forbids(1)]), None);
        // name 1 is not reached, so nothing follows it; beside another rule of name 0 the clash is in that rule's column
        assert_eq!(clash(vec![forbids(0), forbids(1)]), None);
        assert_eq!(clash(vec![forbids(0), rule(0, &[&[Terminal(1)]], &[])]), Some((0, 1)));
    }

    /// S: a b or a c: a clash with one letter, none with two.
    #[test]
    fn two_letters_tell_more() {
        let rules = [1, 2].map(|x| rule(0, &[&[Terminal(0), Terminal(x)]], &[])).to_vec();
        let grammar = Grammar::read(&Draft { nonterminals: 1, terminals: 3, rules }.words()).expect("well formed");
        assert_eq!(grammar.table(&grammar.sets::<1, 24>()).clash(|string| string), Some((0, 1)));
        assert_eq!(grammar.table(&grammar.sets::<2, 7>()).clash(|string| string), None);
    }

    /// S: a b and a c: a first set with one letter, none with two.
    #[test]
    fn two_letters_begin_apart() {
        let rules = vec![rule(0, &[&[Terminal(0), Terminal(1)], &[Terminal(0), Terminal(2)]], &[])];
        let grammar = Grammar::read(&Draft { nonterminals: 1, terminals: 3, rules }.words()).expect("well formed");
        assert_eq!(grammar.sets::<1, 24>().unproductive(1), None);
        assert_eq!(grammar.sets::<2, 7>().unproductive(1), Some(0));
    }
}
