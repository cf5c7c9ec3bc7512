//! Nullable nonterminals, left recursion, first and follow sets, the latter two for any lookahead.

use super::limits::MAX_NONTERMINALS;
use super::lookahead::Set;
use super::words::{Grammar, Rule, Symbol};

/// The first and the follow set of each nonterminal.
pub struct Sets<const K: usize, const L: usize> {
    pub first: [Set<K, L>; MAX_NONTERMINALS],
    pub follow: [Set<K, L>; MAX_NONTERMINALS],
}

impl<const K: usize, const L: usize> Sets<K, L> {
    /// The lowest nonterminal whose first set is empty (request P7), if there is one; reached from the start or not.
    pub fn unproductive(&self, nonterminals: usize) -> Option<usize> {
        self.first[..nonterminals].iter().position(|&first| first == Set::EMPTY)
    }
}

impl Grammar {
    /// The nullable nonterminals (document 01: maybe-empty), a bit for each.
    fn nullable(&self) -> u32 {
        let mut nullable = 0u32;
        loop {
            let before = nullable;
            for rule in &self.rules {
                let all = self.positives_of(rule).all(|conjunct| {
                    self.body(conjunct).iter().all(|symbol| match symbol {
                        Symbol::Terminal(_) => false,
                        Symbol::Nonterminal(b) => nullable >> b & 1 == 1,
                    })
                });
                if all {
                    nullable |= 1 << rule.nonterminal;
                }
            }
            if nullable == before {
                return nullable;
            }
        }
    }

    /// The nonterminals that each one reaches by left dependence (document 01: leaning), in one step or more, a bit for each.
    fn left_reaches(&self) -> [u32; MAX_NONTERMINALS] {
        let nullable = self.nullable();
        let mut reaches = [0u32; MAX_NONTERMINALS];
        for rule in &self.rules {
            for conjunct in self.conjuncts_of(rule) {
                for symbol in self.body(conjunct) {
                    let Symbol::Nonterminal(b) = symbol else { break };
                    reaches[rule.nonterminal as usize] |= 1 << b;
                    if nullable >> b & 1 == 0 {
                        break;
                    }
                }
            }
        }
        for via in 0..self.nonterminals {
            let beyond = reaches[via];
            for from in reaches.iter_mut() {
                if *from >> via & 1 == 1 {
                    *from |= beyond;
                }
            }
        }
        reaches
    }

    /// The lowest nonterminal that reaches itself, if any does.
    pub fn left_recursive(&self) -> Option<usize> {
        let reaches = self.left_reaches();
        (0..self.nonterminals).find(|&a| reaches[a] >> a & 1 == 1)
    }

    /// The nonterminals by the number of those that they reach (document 01: leaning rank), the lowest first.
    pub fn by_rank(&self) -> Vec<usize> {
        let reaches = self.left_reaches();
        let mut order: Vec<usize> = (0..self.nonterminals).collect();
        order.sort_by_key(|&a| reaches[a].count_ones());
        order
    }

    pub fn sets<const K: usize, const L: usize>(&self) -> Sets<K, L> {
        let first = self.first_sets();
        Sets { first, follow: self.follow_sets(&first) }
    }

    /// The first set of a rule: the meeting of those of its positive conjuncts; without any, every string over the card's letters.
    pub fn first_of_rule<const K: usize, const L: usize>(&self, rule: &Rule, first: &[Set<K, L>; MAX_NONTERMINALS]) -> Set<K, L> {
        let mut met = Set::every(self.terminals);
        for conjunct in self.positives_of(rule) {
            let body = self.body(conjunct).iter().rev();
            met = met.meet(body.fold(Set::NOTHING, |tail, &symbol| first_of(symbol, first).then(tail)));
        }
        met
    }

    fn first_sets<const K: usize, const L: usize>(&self) -> [Set<K, L>; MAX_NONTERMINALS] {
        let mut first = [Set::EMPTY; MAX_NONTERMINALS];
        loop {
            let mut changed = false;
            for rule in &self.rules {
                let grown = self.first_of_rule(rule, &first);
                changed |= first[rule.nonterminal as usize].add(grown);
            }
            if !changed {
                return first;
            }
        }
    }

    fn follow_sets<const K: usize, const L: usize>(&self, first: &[Set<K, L>; MAX_NONTERMINALS]) -> [Set<K, L>; MAX_NONTERMINALS] {
        let mut follow = [Set::EMPTY; MAX_NONTERMINALS];
        follow[0] = Set::NOTHING;
        loop {
            let mut changed = false;
            for rule in &self.rules {
                for conjunct in self.conjuncts_of(rule) {
                    let mut tail = follow[rule.nonterminal as usize];
                    for &symbol in self.body(conjunct).iter().rev() {
                        if let Symbol::Nonterminal(a) = symbol {
                            changed |= follow[a as usize].add(tail);
                        }
                        tail = first_of(symbol, first).then(tail);
                    }
                }
            }
            if !changed {
                return follow;
            }
        }
    }
}

fn first_of<const K: usize, const L: usize>(symbol: Symbol, first: &[Set<K, L>; MAX_NONTERMINALS]) -> Set<K, L> {
    match symbol {
        Symbol::Terminal(a) => Set::letter(a),
        Symbol::Nonterminal(b) => first[b as usize],
    }
}
