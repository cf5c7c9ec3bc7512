//! Encoded grammars and inputs for tests: those of document 01, random ones, damaged ones.

use crate::twin::{Grammar, Symbol, MAX_NONTERMINALS, MAX_RULES, MAX_TERMINALS, MAX_TERMINALS_OF_TWO, MAX_TOKENS, MAX_WORDS};
use Symbol::{Nonterminal, Terminal};

/// So many words or tokens more would not be noticed by a length of 16 bits.
const WRAP: usize = 65_536;

/// A generator of random numbers (xorshift64*), settled by its seed.
pub struct Random(u64);

impl Random {
    pub fn new(seed: u64) -> Random {
        let mut random = Random(seed.wrapping_mul(0x9e37_79b9_7f4a_7c15) ^ 0x2545_f491_4f6c_dd1d);
        if random.0 == 0 {
            random.0 = 1;
        }
        for _ in 0..8 {
            random.next();
        }
        random
    }

    pub fn next(&mut self) -> u64 {
        self.0 ^= self.0 >> 12;
        self.0 ^= self.0 << 25;
        self.0 ^= self.0 >> 27;
        self.0.wrapping_mul(0x2545_f491_4f6c_dd1d)
    }

    /// A number below `bound`, which is not 0.
    pub fn below(&mut self, bound: usize) -> usize {
        ((self.next() >> 32) * bound as u64 >> 32) as usize
    }

    /// A number from `low` to `high`, both included.
    pub fn between(&mut self, low: usize, high: usize) -> usize {
        low + self.below(high - low + 1)
    }

    pub fn chance(&mut self, percent: usize) -> bool {
        self.below(100) < percent
    }

    pub fn fill_words(&mut self, words: &mut [u32]) {
        for pair in words.chunks_mut(2) {
            let bits = self.next();
            for (i, word) in pair.iter_mut().enumerate() {
                *word = (bits >> (32 * i)) as u32;
            }
        }
    }

    pub fn fill_words_of_two(&mut self, words: &mut [u64]) {
        words.iter_mut().for_each(|word| *word = self.next());
    }

    pub fn fill_entries(&mut self, entries: &mut [u16]) {
        for four in entries.chunks_mut(4) {
            let bits = self.next();
            for (i, entry) in four.iter_mut().enumerate() {
                *entry = (bits >> (16 * i)) as u16;
            }
        }
    }
}

pub type Body = Vec<Symbol>;

/// A rule of a draft: its nonterminal, its positive and its negative conjuncts.
#[derive(Clone)]
pub struct Rule {
    pub nonterminal: usize,
    pub positives: Vec<Body>,
    pub negatives: Vec<Body>,
}

/// A grammar before it is encoded, not yet known to be within the limits.
#[derive(Clone)]
pub struct Draft {
    pub nonterminals: usize,
    pub terminals: usize,
    pub rules: Vec<Rule>,
}

pub fn rule(nonterminal: usize, positives: &[&[Symbol]], negatives: &[&[Symbol]]) -> Rule {
    let bodies = |all: &[&[Symbol]]| all.iter().map(|body| body.to_vec()).collect();
    Rule { nonterminal, positives: bodies(positives), negatives: bodies(negatives) }
}

impl Draft {
    /// The same rules, the last one first.
    pub fn reversed(mut self) -> Draft {
        self.rules.reverse();
        self
    }

    pub fn words(&self) -> Vec<u32> {
        let mut words = vec![1 << 28 | (self.terminals as u32) << 8 | self.nonterminals as u32];
        for rule in &self.rules {
            words.push(2 << 28 | rule.nonterminal as u32);
            for (kind, bodies) in [(3u32, &rule.positives), (4, &rule.negatives)] {
                for body in bodies {
                    words.push(kind << 28);
                    words.extend(body.iter().map(|symbol| match *symbol {
                        Terminal(a) => 5 << 28 | a as u32,
                        Nonterminal(b) => 6 << 28 | b as u32,
                    }));
                }
            }
        }
        words.push(7 << 28);
        words
    }
}

/// Card R of document 01: S: aS or empty.
pub fn card_r() -> Draft {
    let rules = vec![rule(0, &[&[Terminal(0), Nonterminal(0)]], &[]), rule(0, &[&[]], &[])];
    Draft { nonterminals: 1, terminals: 1, rules }
}

/// Card M of document 01, names S A B C D: the inputs a^m b^n c^n with m not n.
pub fn card_m() -> Draft {
    let rules = vec![
        rule(0, &[&[Nonterminal(1), Nonterminal(4)]], &[&[Nonterminal(2), Nonterminal(3)]]),
        rule(1, &[&[Terminal(0), Nonterminal(1)]], &[]),
        rule(1, &[&[]], &[]),
        rule(2, &[&[Terminal(0), Nonterminal(2), Terminal(1)]], &[]),
        rule(2, &[&[]], &[]),
        rule(3, &[&[Terminal(2), Nonterminal(3)]], &[]),
        rule(3, &[&[]], &[]),
        rule(4, &[&[Terminal(1), Nonterminal(4), Terminal(2)]], &[]),
        rule(4, &[&[]], &[]),
    ];
    Draft { nonterminals: 5, terminals: 3, rules }
}

/// Card E of document 01, names S A B C.
pub fn card_e() -> Draft {
    let rules = vec![
        rule(0, &[&[Nonterminal(1), Terminal(1)]], &[]),
        rule(1, &[&[Nonterminal(2)]], &[&[Terminal(1), Nonterminal(3)]]),
        rule(2, &[&[Terminal(0)]], &[]),
        rule(2, &[&[Terminal(1)]], &[]),
        rule(3, &[&[]], &[]),
    ];
    Draft { nonterminals: 4, terminals: 2, rules }
}

/// The yard ladder of examples/ladder.card, names Day Cuts Cut Far Full Others, letters l m a b c: it takes two letters of lookahead.
pub fn ladder() -> Draft {
    let [cuts, cut, far, full, others] = [1, 2, 3, 4, 5].map(Nonterminal);
    let [l, m, a, b, c] = [0, 1, 2, 3, 4].map(Terminal);
    let rules = vec![
        rule(0, &[&[cuts]], &[&[full]]),
        rule(1, &[&[cut, cuts]], &[]),
        rule(1, &[&[]], &[]),
        rule(2, &[&[l, a]], &[]),
        rule(2, &[&[l, far]], &[]),
        rule(3, &[&[m, b]], &[]),
        rule(3, &[&[m, c]], &[]),
        rule(4, &[&[others, l, a, others, l, a, others, l, a, cuts]], &[]),
        rule(5, &[&[l, far, others]], &[]),
        rule(5, &[&[]], &[]),
    ];
    Draft { nonterminals: 6, terminals: 5, rules }
}

/// A chain of nonterminals, each calling the next, the last reading a token and calling the first again, or empty: the
/// deepest descent there is.
pub fn chain(nonterminals: usize, terminals: usize) -> Draft {
    let mut rules: Vec<Rule> = (1..nonterminals).map(|b| rule(b - 1, &[&[Nonterminal(b as u8)]], &[])).collect();
    for a in 0..terminals {
        rules.push(rule(nonterminals - 1, &[&[Terminal(a as u8), Nonterminal(0)]], &[]));
    }
    rules.push(rule(nonterminals - 1, &[&[]], &[]));
    Draft { nonterminals, terminals, rules }
}

/// A chain of nonterminals, each of which is all that the next is not; the last reads a token and calls the first again, or is empty: as
/// deep as `chain`, with rules of negative conjuncts alone.
pub fn forbidding_chain(nonterminals: usize, terminals: usize) -> Draft {
    let mut draft = chain(nonterminals, terminals);
    for link in &mut draft.rules[..nonterminals - 1] {
        link.negatives = std::mem::take(&mut link.positives);
    }
    draft
}

/// Nonterminal 1 reads everything; nonterminals from 2 on read terminals 0. The start's one rule takes what 1 does, unless it
/// is a row of terminals 0 with one other after it: each of these is forbidden by a negative conjunct of its own.
pub fn negatives(nonterminals: usize) -> Draft {
    let terminals = nonterminals - 1;
    let all: Vec<Body> = (2..nonterminals).map(|b| vec![Nonterminal(b as u8), Terminal(b as u8 - 1)]).collect();
    let mut rules = vec![Rule { nonterminal: 0, positives: vec![vec![Nonterminal(1)]], negatives: all }];
    for a in 0..terminals {
        rules.push(rule(1, &[&[Terminal(a as u8), Nonterminal(1)]], &[]));
    }
    rules.push(rule(1, &[&[]], &[]));
    for b in 2..nonterminals {
        rules.push(rule(b, &[&[Terminal(0), Nonterminal(b as u8)]], &[]));
        rules.push(rule(b, &[&[]], &[]));
    }
    Draft { nonterminals, terminals, rules }
}

/// A grammar of 2,048 words, 32 nonterminals, 24 terminals and 128 rules that passes: four rules of each nonterminal, each led by
/// a terminal of its own; one of them is that terminal alone, the others have two positive conjuncts and a negative one.
pub fn largest() -> Draft {
    let mut rules = Vec::new();
    for b in 0..MAX_NONTERMINALS {
        for r in 0..4 {
            let lead = Terminal(((b + 6 * r) % MAX_TERMINALS) as u8);
            let near = Nonterminal(((b + r + 1) % MAX_NONTERMINALS) as u8);
            let far = Nonterminal(((b + 5 * r) % MAX_NONTERMINALS) as u8);
            let between = Terminal(((b + r) % MAX_TERMINALS) as u8);
            rules.push(match r {
                3 => rule(b, &[&[lead]], &[&[lead, near]]),
                _ => rule(b, &[&[lead, near, between, far], &[lead, near, between, far]], &[&[lead, near, near]]),
            });
        }
    }
    let mut draft = Draft { nonterminals: MAX_NONTERMINALS, terminals: MAX_TERMINALS, rules };
    for at in 0..MAX_WORDS - draft.words().len() {
        draft.rules[at % MAX_RULES].negatives[0].push(Nonterminal((at % MAX_NONTERMINALS) as u8));
    }
    draft
}

/// The same rules with so many words in all, the bodies of the first `rules` rules being filled up in turn with this symbol.
fn padded(mut draft: Draft, rules: usize, filler: Symbol, words: usize) -> Draft {
    for at in 0..words.saturating_sub(draft.words().len()) {
        draft.rules[at % rules].positives[0].push(filler);
    }
    draft
}

/// A chain of 32 nonterminals written last rule first, with bodies filled up to 2,027 words: each pass over the words settles one
/// more nonterminal.
pub fn long_chain() -> Draft {
    let mut draft = chain(MAX_NONTERMINALS, 1);
    draft.rules.truncate(MAX_NONTERMINALS - 1);
    let last = MAX_NONTERMINALS - 1;
    draft = padded(draft, last, Nonterminal(last as u8), 2_027 - 3);
    draft.rules.push(rule(last, &[&[Terminal(0)]], &[]));
    draft.reversed()
}

/// Rules in which leads go up a chain one after the other: those of the chain, and the others.
struct RisingLeads {
    terminals: usize,
    chain: Vec<Rule>,
    others: Vec<Rule>,
}

impl RisingLeads {
    /// With so many terminals of lookahead and so many nonterminals in the chain. Each of these has one rule, but the last, which has a rule for each lead:
    /// terminals, or pairs of them. Its rule of lead j counts only once the j-th nonterminal behind the chain has a first set, and that takes lead j - 1
    /// to have come all the way to the start.
    fn new(lookahead: usize, links: usize) -> RisingLeads {
        let gates = MAX_NONTERMINALS - links - (lookahead - 1);
        let terminals = if lookahead == 1 { gates + 1 } else { MAX_TERMINALS_OF_TWO };
        let gate = |j: usize| links + j - 1;
        let lead = |j: usize| lead_of(j, lookahead, terminals);
        let chain = (1..links).map(|b| rule(b - 1, &[&[Nonterminal(b as u8)]], &[])).collect();
        let mut others = vec![rule(links - 1, &[&lead(0)], &[])];
        others.extend((1..=gates).map(|j| rule(links - 1, &[&[lead(j), vec![Nonterminal(gate(j) as u8)]].concat()], &[])));
        others.extend((1..=gates).map(|j| rule(gate(j), &[&[Nonterminal(0)], &lead(j - 1)], &[])));
        if lookahead == 2 {
            others.push(rule(MAX_NONTERMINALS - 1, &[&[Terminal(0)]], &[]));
        }
        RisingLeads { terminals, chain, others }
    }

    /// The chain's bodies filled up with what takes longest: a terminal, or with two terminals of lookahead a nonterminal that is one.
    fn filled(self, lookahead: usize) -> RisingLeads {
        let filler = if lookahead == 1 { Terminal(0) } else { Nonterminal((MAX_NONTERMINALS - 1) as u8) };
        self.filled_with(filler)
    }

    fn filled_with(self, filler: Symbol) -> RisingLeads {
        let RisingLeads { terminals, mut chain, mut others } = self;
        let links = chain.len();
        chain.append(&mut others);
        let mut draft = padded(Draft { nonterminals: MAX_NONTERMINALS, terminals, rules: chain }, links, filler, MAX_WORDS);
        let others = draft.rules.split_off(links);
        RisingLeads { terminals, chain: draft.rules, others }
    }

    /// The chain from the start on, and the others behind it.
    fn in_order(mut self) -> Draft {
        self.chain.append(&mut self.others);
        Draft { nonterminals: MAX_NONTERMINALS, terminals: self.terminals, rules: self.chain }
    }

    /// The chain from the start on, behind the others.
    fn chain_last(mut self) -> Draft {
        self.others.append(&mut self.chain);
        Draft { nonterminals: MAX_NONTERMINALS, terminals: self.terminals, rules: self.others }
    }

    /// The rules of the chain at either end by turns: a pass takes a lead up by at most two nonterminals, whichever way it goes.
    fn zigzag(self) -> Draft {
        let (mut front, mut back) = (Vec::new(), Vec::new());
        for (at, link) in self.chain.into_iter().rev().enumerate() {
            if at % 2 == 0 { &mut back } else { &mut front }.push(link);
        }
        let rules = front.into_iter().chain(self.others).chain(back.into_iter().rev()).collect();
        Draft { nonterminals: MAX_NONTERMINALS, terminals: self.terminals, rules }
    }
}

/// The slowest to check that was found. A lead takes eleven of the library's passes to come up the chain, just those that go from the first rule on; the
/// twelfth, from the last rule on, comes when it has arrived.
pub fn slowest(lookahead: usize) -> Draft {
    RisingLeads::new(lookahead, 11).filled(lookahead).chain_last()
}

/// The slowest to check that was found for the twin: its passes take a lead up by one nonterminal.
pub fn slowest_of_the_twin(lookahead: usize) -> Draft {
    RisingLeads::new(lookahead, 17).filled(lookahead).in_order()
}

/// The slowest to check that was found for passes that go in both directions by turns.
pub fn slowest_zigzag(lookahead: usize) -> Draft {
    RisingLeads::new(lookahead, 17).filled(lookahead).zigzag()
}

/// Filled up with nonterminal 1, which must then have a first set before any has one: refused.
pub fn refused_zigzag(lookahead: usize) -> Draft {
    RisingLeads::new(lookahead, 17).filled_with(Nonterminal(1)).zigzag()
}

/// The slowest card with a left-recursive start, which the twin refuses before it makes first sets.
pub fn left_recursive(lookahead: usize) -> Draft {
    let mut rules = RisingLeads::new(lookahead, 11);
    rules.chain[0].negatives.push(vec![Nonterminal(0)]);
    rules.filled(lookahead).chain_last()
}

/// The start reads a row of terminals 0, each followed by what a long negative is not: that fails at its second symbol.
pub fn failing_body() -> Draft {
    let (a, b) = (Terminal(0), Terminal(1));
    let mut draft = Draft { nonterminals: 1, terminals: 2, rules: vec![rule(0, &[&[a, Nonterminal(0)]], &[&[a]]), rule(0, &[&[]], &[])] };
    let left = MAX_WORDS - draft.words().len();
    draft.rules[0].negatives[0].extend(vec![b; left]);
    draft
}

/// The start reads a row of terminals 0; at each it must, over and over, not be empty.
pub fn many_negatives() -> Draft {
    let mut draft = card_r();
    let left = MAX_WORDS - draft.words().len();
    draft.rules[0].negatives = vec![Vec::new(); left];
    draft
}

/// The start begins with what the input does not, and goes on with a long negative of a nonterminal that has every span.
pub fn failing_rule() -> Draft {
    let every = Nonterminal(1);
    let rules = vec![rule(0, &[&[Terminal(1)]], &[&[]]), rule(1, &[&[Terminal(0), every]], &[]), rule(1, &[&[]], &[])];
    let mut draft = Draft { nonterminals: 2, terminals: 2, rules };
    let left = MAX_WORDS - draft.words().len();
    draft.rules[0].negatives[0].extend(vec![every; left]);
    draft
}

/// Card R with 31 nonterminals more that nothing calls.
pub fn idle_nonterminals() -> Draft {
    let mut draft = card_r();
    draft.rules.extend((1..MAX_NONTERMINALS).map(|b| rule(b, &[&[]], &[])));
    draft.nonterminals = MAX_NONTERMINALS;
    draft
}

/// The slowest to search that was found. Two letters; at each of 13 places of each log the start runs a rule of 1,974 words, each of them, but for the
/// first call of a nonterminal there, a call that has been made.
pub fn slowest_search() -> Draft {
    let (start, rest, empty) = (0, 1, 2..MAX_NONTERMINALS);
    let mut rules = vec![
        rule(start, &[&[Nonterminal(rest as u8)]], &[]),
        rule(rest, &[&[Terminal(0), Nonterminal(start as u8)]], &[]),
        rule(rest, &[&[Terminal(1), Nonterminal(start as u8)]], &[]),
        rule(rest, &[&[]], &[]),
    ];
    rules.extend(empty.clone().map(|b| rule(b, &[&[]], &[])));
    let mut draft = Draft { nonterminals: MAX_NONTERMINALS, terminals: 2, rules };
    let left = MAX_WORDS - draft.words().len();
    draft.rules[0].positives[0].extend(empty.cycle().take(left).map(|b| Nonterminal(b as u8)));
    draft
}

/// The slowest to judge plainly that was found, on rows of terminal 0: 2,048 words, nearly all of them, in one rule, a nonterminal that has every
/// span. The rules of a nonterminal that another rule has given the span are not asked, so that more rules are not slower.
pub fn slowest_plain() -> Draft {
    let every = Nonterminal(1);
    let rules = vec![rule(0, &[&[every]], &[]), rule(1, &[&[Terminal(0), every]], &[]), rule(1, &[&[]], &[])];
    padded(Draft { nonterminals: 2, terminals: 1, rules }, 1, every, MAX_WORDS)
}

fn symbol(random: &mut Random, nonterminals: usize, terminals: usize) -> Symbol {
    if random.chance(50) {
        Terminal(random.below(terminals) as u8)
    } else {
        Nonterminal(random.below(nonterminals) as u8)
    }
}

fn body(random: &mut Random, nonterminals: usize, terminals: usize, longest: usize) -> Body {
    let length = random.between(0, longest);
    (0..length).map(|_| symbol(random, nonterminals, terminals)).collect()
}

fn small_or_large(random: &mut Random, small: usize, large: usize) -> usize {
    if random.chance(85) {
        random.between(1, small)
    } else {
        random.between(1, large)
    }
}

/// Rules of any form.
fn any_grammar(random: &mut Random) -> Draft {
    let nonterminals = small_or_large(random, 4, MAX_NONTERMINALS);
    let terminals = small_or_large(random, 3, MAX_TERMINALS);
    let rules = (0..small_or_large(random, 6, 40))
        .map(|_| Rule {
            nonterminal: random.below(nonterminals),
            positives: (0..[1, 1, 1, 1, 2, 0][random.below(6)]).map(|_| body(random, nonterminals, terminals, 4)).collect(),
            negatives: (0..random.below(6) / 3).map(|_| body(random, nonterminals, terminals, 4)).collect(),
        })
        .collect();
    Draft { nonterminals, terminals, rules }
}

/// A body that begins with this terminal or with a nonterminal above `above`.
fn guarded(random: &mut Random, above: usize, lead: u8, nonterminals: usize, terminals: usize) -> Body {
    let mut made = if above + 1 < nonterminals && random.chance(40) {
        vec![Nonterminal(random.between(above + 1, nonterminals - 1) as u8), Terminal(lead)]
    } else {
        vec![Terminal(lead)]
    };
    made.extend(body(random, nonterminals, terminals, 3));
    made
}

/// The terminals that lead a rule of this number: one, or a pair, of which neighbours mostly begin alike.
fn lead_of(number: usize, leads: usize, terminals: usize) -> Body {
    if leads == 1 {
        return vec![Terminal((number % terminals) as u8)];
    }
    let number = number % (terminals * terminals);
    vec![Terminal((number / terminals) as u8), Terminal((number % terminals) as u8)]
}

/// Rules of the forms that a predictive parser takes: of each nonterminal, rules led by different terminals, or by so many different rows of
/// them, perhaps an empty one, or a single rule that begins with a higher nonterminal.
fn predictive(random: &mut Random, leads: usize) -> Draft {
    let nonterminals = small_or_large(random, 5, MAX_NONTERMINALS);
    let terminals = if leads == 1 { small_or_large(random, 4, MAX_TERMINALS) } else { random.between(1, MAX_TERMINALS_OF_TWO) };
    let mut rules = Vec::new();
    for b in 0..nonterminals {
        let higher = b + 1 < nonterminals;
        if higher && random.chance(25) {
            let next = random.between(b + 1, nonterminals - 1) as u8;
            let mut positives = vec![vec![Nonterminal(next)]];
            if random.chance(50) {
                positives[0].push(Nonterminal(random.between(b + 1, nonterminals - 1) as u8));
            }
            if random.chance(40) {
                positives[0].extend(body(random, nonterminals, terminals, 2));
            }
            if random.chance(15) {
                positives.push(vec![Nonterminal(next)]);
            }
            let lead = random.below(terminals) as u8;
            let negatives = (0..random.below(5) / 2).map(|_| guarded(random, b, lead, nonterminals, terminals)).collect();
            rules.push(Rule { nonterminal: b, positives, negatives });
            continue;
        }
        let shift = random.below(terminals.pow(leads as u32));
        let least = usize::from(random.chance(90));
        for i in 0..random.between(least, terminals.pow(leads as u32).min(4)) {
            if rules.len() + 2 >= MAX_RULES {
                break;
            }
            let mut first = lead_of(shift + i, leads, terminals);
            let lead = match first[0] {
                Terminal(a) | Nonterminal(a) => a,
            };
            if random.chance(20) {
                first.extend([Nonterminal(b as u8), Terminal(random.below(terminals) as u8)]);
            } else {
                first.extend(body(random, nonterminals, terminals, 3));
            }
            let mut positives = vec![first.clone()];
            if random.chance(20) {
                let other = || lead_of(shift + i, leads, terminals);
                positives.push(if random.chance(50) { first.clone() } else { [other(), vec![symbol(random, nonterminals, terminals)]].concat() });
            }
            let negatives = (0..random.below(8) / 5).map(|_| guarded(random, b, lead, nonterminals, terminals)).collect();
            rules.push(Rule { nonterminal: b, positives, negatives });
        }
        if random.chance(45) && rules.len() < MAX_RULES {
            rules.push(rule(b, &[&[]], &[]));
        }
    }
    if random.chance(30) {
        for i in (1..rules.len()).rev() {
            let other = random.below(i + 1);
            rules.swap(i, other);
        }
    }
    Draft { nonterminals, terminals, rules }
}

/// Whether the first set of a nonterminal is empty, with so many terminals of lookahead.
fn unproductive(draft: &Draft, nonterminal: usize, leads: usize) -> bool {
    let Ok(grammar) = Grammar::read(&draft.words()) else { return false };
    match leads {
        1 => grammar.sets::<1, MAX_TERMINALS>().first[nonterminal].bits() == 0,
        _ => grammar.sets::<2, MAX_TERMINALS_OF_TWO>().first[nonterminal].bits() == 0,
    }
}

/// The same grammar with a first set for each nonterminal that had an empty one: where it has a rule, the bodies of the first are cut to the
/// symbols that they begin with, so that nothing more is claimed; else it gets a rule of one terminal. Higher ones come first, since rules of
/// the form above begin with those.
fn begun(random: &mut Random, mut draft: Draft, leads: usize) -> Draft {
    for b in (0..draft.nonterminals).rev() {
        if !unproductive(&draft, b, leads) {
            continue;
        }
        match draft.rules.iter_mut().find(|rule| rule.nonterminal == b) {
            Some(first) => first.positives.iter_mut().for_each(|body| body.truncate(leads)),
            None => draft.rules.push(rule(b, &[&[Terminal(random.below(draft.terminals) as u8)]], &[])),
        }
    }
    draft
}

/// A body with each nonterminal's number so much higher.
fn shifted(mut body: Body, by: usize) -> Body {
    for symbol in &mut body {
        if let Nonterminal(b) = symbol {
            *b += by as u8;
        }
    }
    body
}

/// Nonterminals in front of a predictive grammar that stand only at the ends of one another's bodies, so that only the end may follow them.
/// Each has a rule of negative conjuncts alone, or rules that are led by different terminals.
fn forbidding(random: &mut Random) -> Draft {
    let mut draft = predictive(random, 1);
    let front = random.between(1, 4).min(MAX_NONTERMINALS - draft.nonterminals);
    let (behind, terminals) = (draft.nonterminals, draft.terminals);
    for rule in &mut draft.rules {
        rule.nonterminal += front;
        for body in rule.positives.iter_mut().chain(&mut rule.negatives) {
            *body = shifted(std::mem::take(body), front);
        }
    }
    draft.nonterminals += front;
    for b in 0..front {
        if draft.rules.len() + 4 >= MAX_RULES {
            break;
        }
        // perhaps one of those in front, behind a body: any one if a terminal leads it, else a later one
        let end = |random: &mut Random, mut body: Body| {
            let least = if matches!(body.first(), Some(Terminal(_))) { 0 } else { b + 1 };
            if least < front && random.chance(50) {
                body.push(Nonterminal(random.between(least, front - 1) as u8));
            }
            body
        };
        let mut negatives: Vec<Body> = Vec::new();
        for _ in 0..random.between(1, 3) {
            let made = body(random, behind, terminals, 3);
            negatives.push(end(random, shifted(made, front)));
        }
        if b == 0 || random.chance(50) {
            draft.rules.push(Rule { nonterminal: b, positives: vec![], negatives });
            continue;
        }
        for lead in 0..random.between(1, terminals.min(3)) {
            let made = [vec![Terminal(lead as u8)], shifted(body(random, behind, terminals, 2), front)].concat();
            let positives = vec![end(random, made)];
            draft.rules.push(Rule { nonterminal: b, positives, negatives: if random.chance(30) { negatives.clone() } else { vec![] } });
        }
    }
    // the start may also come to a rule of negative conjuncts alone behind a terminal
    if front > 1 && random.chance(50) {
        draft.rules.retain(|rule| rule.nonterminal != 0);
        let count = random.between(1, terminals.min(3));
        for lead in 0..count {
            let next = random.between(1, front - 1) as u8;
            draft.rules.push(rule(0, &[&[Terminal(lead as u8), Nonterminal(next)]], &[]));
        }
    }
    draft
}

/// A chain of some length, some of whose links have further conjuncts.
fn random_chain(random: &mut Random) -> Draft {
    let nonterminals = random.between(1, MAX_NONTERMINALS);
    let terminals = small_or_large(random, 3, MAX_TERMINALS);
    let mut draft = if random.chance(30) { forbidding_chain(nonterminals, terminals) } else { chain(nonterminals, terminals) };
    for at in 0..draft.rules.len() {
        let lead = random.below(terminals) as u8;
        let link = &mut draft.rules[at];
        if random.chance(8) {
            link.positives.extend_from_within(..link.positives.len().min(1));
        }
        if random.chance(8) {
            link.negatives.push(guarded(random, link.nonterminal, lead, nonterminals, terminals));
        }
    }
    draft
}

/// A grammar at or near the limits.
fn near_limits(random: &mut Random) -> Draft {
    let mut draft = match random.below(6) {
        0 => largest(),
        1 => chain(MAX_NONTERMINALS, random.between(20, MAX_TERMINALS)),
        2 => forbidding_chain(MAX_NONTERMINALS, random.between(20, MAX_TERMINALS)),
        3 => negatives(random.between(3, 25)),
        4 => forbidding(random),
        _ => predictive(random, 1),
    };
    match random.below(5) {
        0 => draft.nonterminals = [0, 31, 32, 33, 255][random.below(5)],
        1 => draft.terminals = [0, 7, 8, 23, 24, 25, 255][random.below(7)],
        2 => {
            let wanted = random.between(MAX_RULES - 1, MAX_RULES + 2);
            while draft.rules.len() < wanted {
                let nonterminal = random.below(draft.nonterminals);
                let lead = Terminal(random.below(draft.terminals) as u8);
                draft.rules.push(rule(nonterminal, &[&[lead], &[]], &[]));
            }
        }
        3 if !draft.rules.is_empty() => {
            let wanted = random.between(MAX_WORDS - 2, MAX_WORDS + 3);
            let missing = wanted.saturating_sub(draft.words().len());
            let at = random.below(draft.rules.len());
            let filler = Terminal(random.below(draft.terminals) as u8);
            let chosen = &mut draft.rules[at];
            if let Some(longer) = chosen.positives.first_mut().or(chosen.negatives.first_mut()) {
                longer.extend(std::iter::repeat(filler).take(missing));
            }
        }
        _ => {}
    }
    draft
}

/// Words of no grammar.
fn noise(random: &mut Random) -> Vec<u32> {
    let length = if random.chance(90) { random.between(0, 12) } else { random.between(0, 2_100) };
    let tame = random.chance(70);
    (0..length)
        .map(|at| match random.below(8) {
            _ if at == 0 && random.chance(80) => 1 << 28 | (random.between(0, 26) << 8 | random.between(0, 34)) as u32,
            0 => random.next() as u32,
            _ if tame => (random.between(1, 7) << 28 | random.below(2)) as u32,
            _ => (random.below(16) << 28 | random.below(40)) as u32,
        })
        .collect()
}

fn any_word(random: &mut Random) -> u32 {
    match random.below(4) {
        0 => random.next() as u32,
        1 => (random.between(2, 7) << 28) as u32,
        _ => (random.between(1, 7) << 28 | random.below(6)) as u32,
    }
}

/// One change to a row of words.
fn damage(random: &mut Random, words: &mut Vec<u32>) {
    if words.is_empty() {
        words.push(any_word(random));
        return;
    }
    let at = random.below(words.len());
    let other = random.below(words.len());
    match random.below(11) {
        // a conjunct of the other sign: a positive one behind a negative, a rule of negative ones alone
        0 | 1 if matches!(words[at] >> 28, 3 | 4) => words[at] ^= 7 << 28,
        0 => words.insert(at, 4 << 28),
        9 => words[at] ^= 1 << random.below(32),
        1 => words[at] ^= 1 << random.below(4),
        2 => words[at] = any_word(random),
        3 => words.truncate(at),
        4 => words.insert(at, any_word(random)),
        5 => words.insert(at, words[other]),
        6 => words.swap(at, other),
        7 => words.push(any_word(random)),
        _ => {
            words.remove(at);
        }
    }
}

/// One change to a grammar that leaves it well formed, unless a rule is left without any conjunct.
fn edit(random: &mut Random, draft: &mut Draft) {
    let (nonterminals, terminals) = (draft.nonterminals, draft.terminals);
    if draft.rules.is_empty() {
        return;
    }
    let at = random.below(draft.rules.len());
    let copy = draft.rules[at].clone();
    let edited = &mut draft.rules[at];
    match random.below(10) {
        0 => edited.negatives.push(body(random, nonterminals, terminals, 3)),
        1 => edited.positives.push(body(random, nonterminals, terminals, 3)),
        2 => edited.negatives.clear(),
        3 => edited.positives = vec![body(random, nonterminals, terminals, 3)],
        4 => edited.nonterminal = random.below(nonterminals),
        5 => {
            if let Some(longer) = edited.positives.first_mut().or(edited.negatives.first_mut()) {
                let place = random.between(0, longer.len());
                longer.insert(place, symbol(random, nonterminals, terminals));
            }
        }
        6 if !edited.negatives.is_empty() || random.chance(10) => edited.positives.clear(),
        7 => std::mem::swap(&mut edited.positives, &mut edited.negatives),
        8 => {
            let moved = random.between(0, draft.rules.len());
            draft.rules.insert(moved, copy);
        }
        _ => {
            draft.rules.remove(at);
        }
    }
}

/// A random encoded grammar: often one that passes, at times damaged.
pub fn words(random: &mut Random) -> Vec<u32> {
    let kind = random.below(100);
    let leads = if (40..=51).contains(&kind) { 2 } else { 1 };
    let mut draft = match kind {
        0..=5 => return noise(random),
        6..=19 => any_grammar(random),
        20..=51 => predictive(random, leads),
        52..=67 => forbidding(random),
        68..=75 => card_m(),
        76..=79 => card_e(),
        80..=81 => card_r(),
        82 => ladder(),
        83..=85 => negatives(random.between(3, 25)),
        86..=91 => random_chain(random),
        _ => near_limits(random),
    };
    if random.chance(90) {
        draft = begun(random, draft, leads);
    }
    for _ in 0..[0, 0, 0, 0, 1, 2, 3][random.below(7)] {
        edit(random, &mut draft);
    }
    if random.chance(10) {
        draft = draft.reversed();
    }
    let mut words = draft.words();
    if random.chance(20) {
        for _ in 0..=random.below(8) / 6 {
            damage(random, &mut words);
        }
    }
    if random.below(500) == 0 {
        words.resize(words.len() + WRAP, 7 << 28);
    }
    words
}

/// Tokens derived from the start by the first positive conjuncts, no more than about `longest`; a greedy derivation mostly
/// takes the longest rule.
fn derived(random: &mut Random, grammar: &Grammar, longest: usize) -> Vec<u8> {
    let mut rules_of: Vec<Vec<usize>> = vec![Vec::new(); grammar.nonterminals];
    for number in 0..grammar.rule_count() {
        rules_of[grammar.defines(number)].push(number);
    }
    let greedy = random.chance(50);
    let mut stack = vec![Nonterminal(0)];
    let mut tokens = Vec::new();
    let mut steps = 0;
    while let Some(top) = stack.pop() {
        match top {
            Terminal(a) => tokens.push(a),
            Nonterminal(b) => {
                let rules = &rules_of[b as usize];
                if rules.is_empty() {
                    continue;
                }
                steps += 1;
                let length = |&number: &usize| grammar.first_positive(number).map_or(0, <[Symbol]>::len);
                let chosen = if steps > 2 * longest || tokens.len() + stack.len() >= longest {
                    rules.iter().copied().min_by_key(length)
                } else if greedy && random.chance(80) {
                    rules.iter().copied().max_by_key(length)
                } else {
                    Some(rules[random.below(rules.len())])
                };
                let Some(chosen) = chosen else { continue };
                match grammar.first_positive(chosen) {
                    Some(body) => stack.extend(body.iter().rev()),
                    // any tokens, and the end of the input behind them
                    None => {
                        let length = random.below(8);
                        tokens.extend((0..length).map(|_| random.below(grammar.terminals) as u8));
                    }
                }
            }
        }
        if tokens.len() > longest || steps > 20 * longest + 100 {
            break;
        }
    }
    tokens
}

/// The top bit of an event, which tells the direction of an axle.
pub const WESTWARD: u8 = 0x80;

/// The events of a random input for these words, a third of them with directions.
pub fn events(random: &mut Random, words: &[u32]) -> Vec<u8> {
    let mut events = input(random, words);
    if random.chance(33) {
        for event in &mut events {
            *event ^= if random.chance(50) { WESTWARD } else { 0 };
        }
    }
    events
}

/// A random input for these words, often one that their grammar derives.
pub fn input(random: &mut Random, words: &[u32]) -> Vec<u8> {
    let grammar = Grammar::read(words);
    let terminals = grammar.as_ref().map_or(2, |grammar| grammar.terminals);
    let longest = match random.below(40) {
        0..=19 => 6,
        20..=35 => 40,
        36..=38 => 250,
        _ => MAX_TOKENS,
    };
    let mut tokens: Vec<u8> = match (random.below(10), &grammar) {
        (0..=5, Ok(grammar)) => derived(random, grammar, longest),
        (6, _) => (0..terminals).flat_map(|a| vec![a as u8; random.between(0, longest / terminals + 1)]).collect(),
        _ => (0..random.between(0, longest)).map(|_| random.below(terminals) as u8).collect(),
    };
    match random.below(40) {
        0 => tokens.resize(random.between(MAX_TOKENS - 2, MAX_TOKENS), random.below(terminals) as u8),
        1 => tokens.resize(random.between(MAX_TOKENS + 1, MAX_TOKENS + 300), random.next() as u8),
        2 => tokens.push(random.between(terminals, 255) as u8),
        3 if random.chance(10) => tokens.resize(tokens.len() + WRAP, 0),
        3..=5 if !tokens.is_empty() => {
            let at = random.below(tokens.len());
            tokens[at] = random.below(terminals + 1) as u8;
        }
        6..=7 if !tokens.is_empty() => {
            let at = random.below(tokens.len());
            tokens.remove(at);
        }
        _ => {}
    }
    tokens
}
