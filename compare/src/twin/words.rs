//! Reading a grammar from its words (codes 3 to 7, and 18).

use super::answers::Refusal;
use super::limits::{MAX_NONTERMINALS, MAX_RULES, MAX_TERMINALS, MAX_WORDS};

#[derive(Clone, Copy, Debug, PartialEq, Eq)]
pub enum Symbol {
    Terminal(u8),
    Nonterminal(u8),
}

/// A conjunct of a rule: the symbols `start..end`, positive (must) or negative (must-not).
#[derive(Clone, Copy, Debug)]
pub struct Conjunct {
    start: u16,
    end: u16,
    pub negative: bool,
}

/// A rule: its nonterminal and its conjuncts `start..end`.
#[derive(Clone, Copy, Debug)]
pub struct Rule {
    pub nonterminal: u8,
    start: u16,
    end: u16,
}

/// A grammar read from its words; rules, conjuncts and symbols lie in card order.
#[derive(Clone, Debug)]
pub struct Grammar {
    pub nonterminals: usize,
    pub terminals: usize,
    pub rules: Vec<Rule>,
    conjuncts: Vec<Conjunct>,
    symbols: Vec<Symbol>,
}

/// Where the reader stands among the words.
#[derive(Clone, Copy, PartialEq, Eq)]
enum State {
    BeforeRules,
    RuleBegun,
    InPositive,
    InNegative,
    Ended,
}

/// Which grammars are read: those of at most so many letters (more is 18), and rules of negative conjuncts alone too, or not (5).
#[derive(Clone, Copy)]
pub struct Reading {
    pub letters: usize,
    pub forbidding: bool,
}

impl Grammar {
    /// The grammar of these words, or the first fault in them (codes 3 to 7).
    pub fn read(words: &[u32]) -> Result<Grammar, Refusal> {
        Grammar::read_as(words, Reading { letters: MAX_TERMINALS, forbidding: true })
    }

    pub fn read_as(words: &[u32], reading: Reading) -> Result<Grammar, Refusal> {
        if words.len() > MAX_WORDS {
            return Err(Refusal(3, 0));
        }
        let Some((&heading, rest)) = words.split_first() else {
            return Err(Refusal(4, 0));
        };
        let nonterminals = (heading & 0xff) as usize;
        let terminals = (heading >> 8 & 0xff) as usize;
        if heading >> 16 != 0x1000
            || !(1..=MAX_NONTERMINALS).contains(&nonterminals)
            || !(1..=MAX_TERMINALS).contains(&terminals)
        {
            return Err(Refusal(4, 0));
        }
        if terminals > reading.letters {
            return Err(Refusal(18, 0));
        }
        let mut grammar = Grammar {
            nonterminals,
            terminals,
            rules: Vec::with_capacity(MAX_RULES),
            conjuncts: Vec::with_capacity(rest.len()),
            symbols: Vec::with_capacity(rest.len()),
        };
        let mut state = State::BeforeRules;
        for (index, &word) in rest.iter().enumerate() {
            let position = index + 1;
            state = grammar.read_word(reading, state, word).map_err(|code| Refusal(code, position))?;
        }
        if state != State::Ended {
            return Err(Refusal(5, words.len()));
        }
        Ok(grammar)
    }

    /// Takes in one word after the heading, and gives the state after it or the code of what is wrong with it.
    fn read_word(&mut self, reading: Reading, state: State, word: u32) -> Result<State, u8> {
        use State::*;
        let payload = word & 0x0fff_ffff;
        let in_body = state == InPositive || state == InNegative;
        match word >> 28 {
            2 if state == BeforeRules || in_body => {
                if payload as usize >= self.nonterminals {
                    return Err(6);
                }
                if self.rules.len() == MAX_RULES {
                    return Err(7);
                }
                let at = self.conjuncts.len() as u16;
                self.rules.push(Rule { nonterminal: payload as u8, start: at, end: at });
                Ok(RuleBegun)
            }
            3 if payload == 0 && (state == RuleBegun || state == InPositive) => {
                self.begin_conjunct(false);
                Ok(InPositive)
            }
            4 if payload == 0 && (state == RuleBegun && reading.forbidding || in_body) => {
                self.begin_conjunct(true);
                Ok(InNegative)
            }
            5 if in_body => {
                if payload as usize >= self.terminals {
                    return Err(6);
                }
                self.add_symbol(Symbol::Terminal(payload as u8));
                Ok(state)
            }
            6 if in_body => {
                if payload as usize >= self.nonterminals {
                    return Err(6);
                }
                self.add_symbol(Symbol::Nonterminal(payload as u8));
                Ok(state)
            }
            7 if payload == 0 && (state == BeforeRules || in_body) => Ok(Ended),
            _ => Err(5),
        }
    }

    fn begin_conjunct(&mut self, negative: bool) {
        let at = self.symbols.len() as u16;
        self.conjuncts.push(Conjunct { start: at, end: at, negative });
        if let Some(rule) = self.rules.last_mut() {
            rule.end = self.conjuncts.len() as u16;
        }
    }

    fn add_symbol(&mut self, symbol: Symbol) {
        self.symbols.push(symbol);
        if let Some(conjunct) = self.conjuncts.last_mut() {
            conjunct.end = self.symbols.len() as u16;
        }
    }

    pub fn rule_count(&self) -> usize {
        self.rules.len()
    }

    /// The nonterminal that a rule defines.
    pub fn defines(&self, rule: usize) -> usize {
        self.rules[rule].nonterminal as usize
    }

    /// The symbols of a rule's first positive conjunct, if it has one.
    pub fn first_positive(&self, rule: usize) -> Option<&[Symbol]> {
        self.positives_of(&self.rules[rule]).next().map(|conjunct| self.body(conjunct))
    }

    /// Whether a rule has negative conjuncts alone (request P1).
    pub fn only_forbids(&self, rule: &Rule) -> bool {
        self.positives_of(rule).next().is_none()
    }

    pub fn conjuncts_of(&self, rule: &Rule) -> &[Conjunct] {
        &self.conjuncts[rule.start as usize..rule.end as usize]
    }

    pub fn positives_of(&self, rule: &Rule) -> impl Iterator<Item = &Conjunct> {
        self.conjuncts_of(rule).iter().filter(|conjunct| !conjunct.negative)
    }

    pub fn body(&self, conjunct: &Conjunct) -> &[Symbol] {
        &self.symbols[conjunct.start as usize..conjunct.end as usize]
    }
}
