//! What a grammar means, computed from document 01's definition alone, to try the twin's verdicts by.

use crate::cards::{self, Random, WESTWARD};
use crate::twin::{self, Grammar, Outcome, Symbol, Verdict, MEMO_ENTRIES, SPAN_WORDS, TABLE_WORDS, TABLE_WORDS_OF_TWO};

/// For each nonterminal and span of an input, whether the span belongs to the nonterminal.
#[derive(Clone, PartialEq)]
struct Valuation {
    places: usize,
    belongs: Vec<bool>,
}

impl Valuation {
    fn index(&self, nonterminal: usize, start: usize, end: usize) -> usize {
        (nonterminal * self.places + start) * self.places + end
    }

    /// Whether a span can be cut into pieces, one for each symbol of a body.
    fn contains(&self, input: &[u8], body: &[Symbol], start: usize, end: usize) -> bool {
        let mut reached = vec![false; self.places];
        reached[start] = true;
        for symbol in body {
            let piece = |from: usize, to: usize| match *symbol {
                Symbol::Terminal(a) => to == from + 1 && input[from] == a,
                Symbol::Nonterminal(b) => self.belongs[self.index(b as usize, from, to)],
            };
            reached = (0..self.places).map(|to| (start..=to).any(|from| reached[from] && piece(from, to))).collect();
        }
        reached[end]
    }

    /// What the rules say if this is how things are.
    fn by_rules(&self, grammar: &Grammar, input: &[u8]) -> Valuation {
        let mut said = Valuation { places: self.places, belongs: vec![false; self.belongs.len()] };
        for rule in &grammar.rules {
            for start in 0..self.places {
                for end in start..self.places {
                    let index = self.index(rule.nonterminal as usize, start, end);
                    let all = grammar.conjuncts_of(rule).iter().all(|conjunct| {
                        self.contains(input, grammar.body(conjunct), start, end) != conjunct.negative
                    });
                    said.belongs[index] |= all;
                }
            }
        }
        said
    }
}

/// The valuation that solves a grammar without left recursion: what the rules say is settled for one more level in each round.
fn solution(grammar: &Grammar, input: &[u8]) -> Valuation {
    let places = input.len() + 1;
    let mut valuation = Valuation { places, belongs: vec![false; grammar.nonterminals * places * places] };
    loop {
        let next = valuation.by_rules(grammar, input);
        if next == valuation {
            return valuation;
        }
        valuation = next;
    }
}

/// How many verdicts of each kind there were, each that of the meaning: without and with a rule of negative conjuncts alone, or without and with
/// a clash under one letter of lookahead.
#[derive(Default)]
struct Tried {
    accepted: [usize; 2],
    rejected: [usize; 2],
}

impl Tried {
    fn add(&mut self, outcome: Outcome, grammar: &Grammar, input: &[u8], kind: bool) {
        if outcome.verdict == Verdict::Refused || input.len() > 8 || grammar.nonterminals > 8 {
            return;
        }
        let letters: Vec<u8> = input.iter().map(|event| event & !WESTWARD).collect();
        let solution = solution(grammar, &letters);
        let belongs = solution.belongs[solution.index(0, 0, input.len())];
        assert_eq!(outcome.verdict == Verdict::Accepted, belongs, "{input:?} {:?}", grammar.rules);
        (if belongs { &mut self.accepted } else { &mut self.rejected })[usize::from(kind)] += 1;
    }

    fn each_often(&self) -> bool {
        self.accepted.iter().chain(&self.rejected).all(|&times| times > 500)
    }
}

#[test]
fn verdicts_are_by_the_meaning() {
    let (mut table, mut memo) = (vec![0; TABLE_WORDS], vec![0; MEMO_ENTRIES]);
    let mut wide_table = vec![0; TABLE_WORDS_OF_TWO];
    let (mut one, mut two) = (Tried::default(), Tried::default());
    for seed in 0..60_000 {
        let mut random = Random::new(seed);
        let words = cards::words(&mut random);
        let input = cards::input(&mut random, &words);
        let Ok(grammar) = Grammar::read(&words) else { continue };
        let forbidding = grammar.rules.iter().any(|rule| grammar.only_forbids(rule));
        let outcome = twin::judge(&words, &input, &mut table, &mut memo);
        one.add(outcome, &grammar, &input, forbidding);
        let wide = twin::judge2(&words, &input, &mut wide_table, &mut memo);
        two.add(wide, &grammar, &input, outcome.code == 9);
    }
    assert!(one.each_often(), "{:?} {:?}", one.accepted, one.rejected);
    assert!(two.each_often(), "{:?} {:?}", two.accepted, two.rejected);
}

#[test]
fn plain_words_are_by_the_meaning() {
    let (mut tried, mut clashing) = (0, 0);
    for seed in 0..60_000 {
        let mut random = Random::new(seed);
        let words = cards::words(&mut random);
        let input: Vec<u8> = cards::input(&mut random, &words).iter().map(|event| event & !WESTWARD).collect();
        let Ok(grammar) = Grammar::read(&words) else { continue };
        if input.len() > 8 || grammar.nonterminals > 8 || words.len() > 200 {
            continue;
        }
        let mut spans = vec![0; SPAN_WORDS];
        let outcome = twin::judge_plain(&words, &input, &mut spans);
        if outcome.verdict == Verdict::Refused {
            continue;
        }
        let solution = solution(&grammar, &input);
        let places = (0..=input.len()).flat_map(|start| (start..=input.len()).map(move |end| (start, end)));
        for (&word, (start, end)) in spans.iter().zip(places) {
            for a in 0..32 {
                let belongs = a < grammar.nonterminals && solution.belongs[solution.index(a, start, end)];
                assert_eq!(word >> a & 1 == 1, belongs, "{words:x?} {input:?} {a} {start} {end}");
            }
        }
        assert_eq!(outcome.verdict == Verdict::Accepted, solution.belongs[solution.index(0, 0, input.len())]);
        tried += 1;
        clashing += usize::from(twin::check(&words, &mut vec![0; TABLE_WORDS]).code == 9);
    }
    assert!(tried > 5_000 && clashing > 500, "{tried} {clashing}");
}
