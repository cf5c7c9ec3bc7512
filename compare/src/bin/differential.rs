//! Compares the proved library with the twin, answer, memory and record, on random, damaged and all small grammars and inputs.

#[path = "../costly.rs"]
mod costly;
#[path = "../histories.rs"]
mod histories;
#[path = "../kept_logs.rs"]
mod kept_logs;
#[path = "../linked.rs"]
mod linked;

use compare::cards::{self, rule, Draft, Random, WESTWARD};
use compare::twin::{self, Gaps, Grammar, Outcome, Symbol, Verdict, MAX_PLAIN_TOKENS, MAX_TOKENS, MEMO_ENTRIES, SPAN_WORDS, TABLE_WORDS, TABLE_WORDS_OF_TWO};
use std::{fmt::Debug, process::ExitCode, thread, time::Instant};

/// How many words or entries lie before and behind what is lent, and must not change.
const GUARD: usize = 64;
/// The stack that both run on, which the deepest descent of either must fit into.
const STACK: usize = 4 << 20;
/// The nonterminals, the terminals and the most words of the grammars that are tried without exception.
const SMALL: [(u32, u32, usize); 4] = [(1, 1, 11), (1, 2, 10), (2, 1, 10), (2, 2, 9)];
const MOST_TOKENS: usize = 4;
const MOST_PLAIN: usize = 2;
/// The longest grammar that is always judged plainly too, and how many of the longer ones are not, for one that is.
const PLAIN_WORDS: usize = 200;
const PASSED_OVER: u64 = 40;
/// More than the greatest number of a refusal that the papers know.
const CODES: usize = 24;
/// The refusals that a check or a judgement can give, in the order in which they are told; and that of judging plainly alone.
const REFUSALS: [usize; 12] = [1, 2, 3, 4, 5, 6, 7, 8, 13, 9, 10, 11];
const PLAIN_REFUSAL: usize = 12;
/// And that of judging with a tree alone.
const TREE_REFUSAL: usize = 14;
/// The refusals with two letters of lookahead, in their order.
const WIDE_REFUSALS: [usize; 13] = [17, 2, 3, 4, 18, 5, 6, 7, 8, 13, 9, 10, 11];
const DEFAULT_SEED: u64 = 1;
const DEFAULT_COUNT: u64 = 150_000;
/// How many random cases there are for each random history.
const CASES_A_HISTORY: u64 = 10;
/// And for each search of a costliest log.
const CASES_A_SEARCH: u64 = 20;

/// The memory lent to one of the two, with what lies around it.
#[derive(Clone)]
struct Memory {
    table: Vec<u32>,
    memo: Vec<u16>,
    spans: Vec<u32>,
    tree: Vec<u32>,
    table2: Vec<u64>,
}

impl Memory {
    fn random(random: &mut Random) -> Memory {
        let (table, memo) = (vec![0; TABLE_WORDS + 200], vec![0; MEMO_ENTRIES + 200]);
        let (spans, tree) = (vec![0; SPAN_WORDS + 200], vec![0; MEMO_ENTRIES + 200]);
        let mut memory = Memory { table, memo, spans, tree, table2: vec![0; TABLE_WORDS_OF_TWO + 200] };
        memory.refill(random);
        memory
    }

    fn refill(&mut self, random: &mut Random) {
        random.fill_words(&mut self.table);
        random.fill_entries(&mut self.memo);
        random.fill_words(&mut self.spans);
        random.fill_words(&mut self.tree);
        random.fill_words_of_two(&mut self.table2);
    }

    fn lend(&mut self, lengths: Lengths) -> (&mut [u32], &mut [u16]) {
        (&mut self.table[GUARD..GUARD + lengths.table], &mut self.memo[GUARD..GUARD + lengths.memo])
    }

    /// With a table for two letters of lookahead.
    fn lend_two(&mut self, lengths: Lengths) -> (&mut [u64], &mut [u16]) {
        (&mut self.table2[GUARD..GUARD + lengths.table2], &mut self.memo[GUARD..GUARD + lengths.memo])
    }

    fn lend_spans(&mut self, lengths: Lengths) -> &mut [u32] {
        &mut self.spans[GUARD..GUARD + lengths.spans]
    }

    /// With memory for a tree.
    fn lend_tree(&mut self, lengths: Lengths, tree: usize) -> (&mut [u32], &mut [u16], &mut [u32]) {
        let memory = (&mut self.table[GUARD..GUARD + lengths.table], &mut self.memo[GUARD..GUARD + lengths.memo]);
        (memory.0, memory.1, &mut self.tree[GUARD..GUARD + tree])
    }
}

#[derive(Clone, Copy, Debug)]
struct Lengths {
    table: usize,
    memo: usize,
    spans: usize,
    table2: usize,
}

impl Lengths {
    const LEAST: Lengths = Lengths { table: TABLE_WORDS, memo: MEMO_ENTRIES, spans: SPAN_WORDS, table2: TABLE_WORDS_OF_TWO };

    fn random(random: &mut Random) -> Lengths {
        Lengths {
            table: length(random, TABLE_WORDS),
            memo: length(random, MEMO_ENTRIES),
            spans: length(random, SPAN_WORDS),
            table2: length(random, TABLE_WORDS_OF_TWO),
        }
    }
}

/// Mostly enough, at times more, at times less.
fn length(random: &mut Random, enough: usize) -> usize {
    match random.below(50) {
        0 => random.below(enough),
        1 => enough - 1,
        2..=20 => enough + random.between(1, 72),
        _ => enough,
    }
}

/// How often each outcome was seen.
#[derive(Default)]
struct Outcomes {
    refused: [u64; CODES],
    passed: u64,
    rejected: u64,
    accepted: u64,
}

impl Outcomes {
    fn add(&mut self, outcome: Outcome) {
        match outcome.verdict {
            Verdict::Refused => self.refused[outcome.code as usize] += 1,
            Verdict::Passed => self.passed += 1,
            Verdict::Rejected => self.rejected += 1,
            Verdict::Accepted => self.accepted += 1,
        }
    }

    fn verdicts(&self) -> u64 {
        self.rejected + self.accepted
    }

    fn print(&self, codes: &[usize]) {
        for &code in codes {
            println!("  refused {code:<2} {:>9}", self.refused[code]);
        }
        println!("  passed     {:>9}", self.passed);
        println!("  rejected   {:>9}", self.rejected);
        println!("  accepted   {:>9}", self.accepted);
    }

    /// Whether these refusals and both verdicts were seen.
    fn judged(&self, codes: &[usize]) -> bool {
        codes.iter().map(|&code| self.refused[code]).chain([self.rejected, self.accepted]).all(|times| times > 0)
    }
}

/// How often each outcome was seen, and how many cases there were and differed.
#[derive(Default)]
struct Tally {
    cases: u64,
    differ: u64,
    outcomes: Outcomes,
    /// Those with two letters of lookahead, which are counted above too.
    wide: Outcomes,
    /// Verdicts with two letters of lookahead by a grammar that passes with one, and by one that clashes with one.
    wide_verdicts: [u64; 2],
    /// Words of trees.
    vertices: u64,
    /// Verdicts by a grammar in which a rule has negative conjuncts alone.
    forbidding: u64,
    /// Verdicts on events of which some are westward.
    westward: u64,
    /// Plain verdicts by a grammar that a check passes, and by one that it refuses for a clash.
    plain: [u64; 2],
    calls: u64,
    most_calls: u16,
}

impl Tally {
    fn add(&mut self, outcome: Outcome) {
        self.cases += 1;
        self.calls += outcome.count as u64;
        self.most_calls = self.most_calls.max(outcome.count);
        self.outcomes.add(outcome);
    }

    fn print(&self) {
        self.outcomes.print(&REFUSALS);
        println!("  verdicts by a grammar with a rule of negatives alone {}", self.forbidding);
        println!("  verdicts on events with directions {}", self.westward);
        println!("  plain verdicts by grammars that pass {}, by clashing ones {}", self.plain[0], self.plain[1]);
        println!("  words of parse trees {}", self.vertices);
        println!("  calls of nonterminals {}, in one descent at most {}", self.calls, self.most_calls);
    }

    fn print_wide(&self) {
        println!("  of these, with two letters of lookahead:");
        self.wide.print(&WIDE_REFUSALS);
        println!("  verdicts by grammars that pass with one letter {}, by clashing ones {}", self.wide_verdicts[0], self.wide_verdicts[1]);
    }

    /// Whether every outcome of judging was seen.
    fn judged(&self) -> bool {
        self.outcomes.judged(&REFUSALS)
    }

    /// Whether every outcome that the papers know was seen.
    fn complete(&self) -> bool {
        let refused = self.outcomes.refused;
        let others = [self.outcomes.passed, self.forbidding, self.westward, refused[PLAIN_REFUSAL], refused[TREE_REFUSAL], self.wide.passed];
        self.judged() && self.wide.judged(&WIDE_REFUSALS) && others.iter().chain(&self.plain).chain(&self.wide_verdicts).all(|&times| times > 0)
    }
}

/// Both implementations and their memories.
struct Pair {
    twin: Memory,
    proved: Memory,
    tally: Tally,
}

impl Pair {
    fn check(&mut self, words: &[u32], lengths: Lengths) -> Outcome {
        let expected = twin::check(words, self.twin.lend(lengths).0);
        let answer = linked::check(words, self.proved.lend(lengths).0);
        let shown = lengths.table < TABLE_WORDS || Gaps::find(words).is_ok_and(|gaps| gaps.clash()) == (expected.code == 9);
        let agree = answer == linked::packed(expected) && self.twin.table == self.proved.table && shown;
        self.settle("check", agree, expected, answer, words, &[], lengths)
    }

    fn judge(&mut self, words: &[u32], input: &[u8], lengths: Lengths) -> Outcome {
        let (table, memo) = self.twin.lend(lengths);
        let expected = twin::judge(words, input, table, memo);
        let (table, memo) = self.proved.lend(lengths);
        let answer = linked::judge(words, input, table, memo);
        let agree = answer == linked::packed(expected)
            && self.twin.table == self.proved.table
            && self.twin.memo == self.proved.memo;
        self.settle("judge", agree, expected, answer, words, input, lengths)
    }

    /// Judges plainly; where a check passes the grammar, the verdict has to be that of judging too.
    fn judge_plain(&mut self, words: &[u32], input: &[u8], lengths: Lengths) -> Outcome {
        let expected = twin::judge_plain(words, input, self.twin.lend_spans(lengths));
        let answer = linked::judge_plain(words, input, self.proved.lend_spans(lengths));
        let mut agree = answer == linked::packed(expected) && self.twin.spans == self.proved.spans;
        if expected.verdict != Verdict::Refused {
            let (mut table, mut memo) = ([0; TABLE_WORDS], [0; MEMO_ENTRIES]);
            let judged = twin::judge(words, input, &mut table, &mut memo);
            agree &= judged.verdict == expected.verdict || judged.code == 9;
            self.tally.plain[usize::from(judged.code == 9)] += 1;
        }
        self.settle("judge_plain", agree, expected, answer, words, input, lengths)
    }

    fn tree(&mut self, words: &[u32], input: &[u8], lengths: Lengths, tree: usize) -> Outcome {
        let (table, memo, lent) = self.twin.lend_tree(lengths, tree);
        let (expected, written) = twin::judge_tree(words, input, table, memo, lent);
        let (table, memo, lent) = self.proved.lend_tree(lengths, tree);
        let (answer, number) = linked::tree(words, input, table, memo, lent);
        self.tally.vertices += written as u64;
        let agree = answer == linked::packed(expected)
            && number == written
            && self.twin.table == self.proved.table
            && self.twin.memo == self.proved.memo
            && self.twin.tree == self.proved.tree;
        self.settle("tree", agree, expected, answer, words, input, lengths)
    }

    fn check2(&mut self, words: &[u32], lengths: Lengths) -> Outcome {
        let expected = twin::check2(words, self.twin.lend_two(lengths).0);
        let answer = linked::check2(words, self.proved.lend_two(lengths).0);
        let agree = answer == linked::packed(expected) && self.twin.table2 == self.proved.table2;
        self.tally.wide.add(expected);
        self.settle("check2", agree, expected, answer, words, &[], lengths)
    }

    /// Judges with two letters of lookahead, after one gave the other outcome: what passes with one letter never clashes with two, and where
    /// both give a verdict it is the same.
    fn judge2(&mut self, words: &[u32], input: &[u8], lengths: Lengths, with_one: Outcome) -> Outcome {
        let (table, memo) = self.twin.lend_two(lengths);
        let expected = twin::judge2(words, input, table, memo);
        let (table, memo) = self.proved.lend_two(lengths);
        let answer = linked::judge2(words, input, table, memo);
        let (refused, refused_with_one) = (expected.verdict == Verdict::Refused, with_one.verdict == Verdict::Refused);
        let lawful = refused_with_one || if refused { expected.code != 9 } else { expected.verdict == with_one.verdict };
        let agree = answer == linked::packed(expected)
            && self.twin.table2 == self.proved.table2
            && self.twin.memo == self.proved.memo
            && lawful;
        self.tally.wide.add(expected);
        self.tally.wide_verdicts[0] += u64::from(!refused && !refused_with_one);
        self.tally.wide_verdicts[1] += u64::from(!refused && with_one.code == 9);
        self.settle("judge2", agree, expected, answer, words, input, lengths)
    }

    fn settle(&mut self, call: &str, agree: bool, expected: Outcome, answer: linked::Answer, words: &[u32], input: &[u8], lengths: Lengths) -> Outcome {
        self.tally.add(expected);
        if !agree {
            self.tally.differ += 1;
            if self.tally.differ <= 10 {
                println!("{call} differs, {lengths:?}");
                println!("  words {}", words.iter().map(|word| format!("{word:08x}")).collect::<Vec<_>>().join(" "));
                println!("  input {}", input.iter().map(|token| format!("{token:02x}")).collect::<String>());
                println!("  the twin answers {:?}, {expected:?}", linked::packed(expected));
                println!("  the library answers {answer:?}");
                print_first_difference("table", &self.twin.table, &self.proved.table);
                print_first_difference("memo", &self.twin.memo, &self.proved.memo);
                print_first_difference("spans", &self.twin.spans, &self.proved.spans);
                print_first_difference("tree", &self.twin.tree, &self.proved.tree);
                print_first_difference("table2", &self.twin.table2, &self.proved.table2);
            }
            self.proved = self.twin.clone();
        }
        expected
    }

    fn refill(&mut self, random: &mut Random) {
        self.twin.refill(random);
        self.proved.clone_from(&self.twin);
    }
}

fn print_first_difference<T: PartialEq + Debug>(name: &str, twin: &[T], proved: &[T]) {
    if let Some(at) = (0..twin.len()).find(|&at| twin[at] != proved[at]) {
        let place = at as isize - GUARD as isize;
        println!("  {name}[{place}]: the twin has {:?}, the library {:?}", twin[at], proved[at]);
    }
}

/// A verdict with the code and position of a refusal, else with the count and the farthest place.
type Stated = (Verdict, u16, u16);

fn told(outcome: Outcome) -> Stated {
    match outcome.verdict {
        Verdict::Refused => (outcome.verdict, outcome.code as u16, outcome.position),
        _ => (outcome.verdict, outcome.count, outcome.farthest),
    }
}

/// The judged inputs and the limits that document 01 states, and rows for the sentences of requests P1, P5 and P7, with the verdict, the code and
/// position or the count and farthest place that the papers give.
fn stated_cases(pair: &mut Pair) {
    use Verdict::{Accepted, Refused, Rejected};
    let (r, m, e) = (cards::card_r().words(), cards::card_m().words(), cards::card_e().words());
    let one = |rules| Draft { nonterminals: 1, terminals: 1, rules }.words();
    let (a, b) = (Symbol::Terminal(0), Symbol::Terminal(1));
    let two = |nonterminals, rules| Draft { nonterminals, terminals: 2, rules }.words();
    let x = Symbol::Nonterminal(1);
    let forbids_a = two(1, vec![rule(0, &[], &[&[a]])]);
    let forbids_nothing = two(1, vec![rule(0, &[], &[&[]])]);
    let forbids_both = two(1, vec![rule(0, &[], &[&[], &[a, b]])]);
    let followed = two(2, vec![rule(0, &[&[x, b]], &[]), rule(1, &[], &[&[a]])]);
    let followed_in_a_negative = two(2, vec![rule(0, &[&[x]], &[&[x, b]]), rule(1, &[], &[&[a]])]);
    let deepest_forbidding = cards::forbidding_chain(32, 24).words();
    let start = Symbol::Nonterminal(0);
    let clash = [rule(0, &[&[a]], &[]), rule(0, &[&[a]], &[])];
    let deepest = cards::chain(32, 24);
    let largest = cards::largest().words();
    let with = |nonterminals, terminals| Draft { nonterminals, terminals, ..deepest.clone() }.words();
    let rows: Vec<(Vec<u32>, Vec<u8>, Verdict, u16, u16)> = vec![
        (r.clone(), vec![], Accepted, 1, 0),
        (r.clone(), vec![0], Accepted, 2, 1),
        (r, vec![WESTWARD], Accepted, 2, 1),
        (m.clone(), vec![], Rejected, 5, 0),
        (m.clone(), vec![0], Accepted, 6, 1),
        (m.clone(), vec![1, 2], Accepted, 6, 1),
        (m.clone(), vec![WESTWARD + 1, 2], Accepted, 6, 1),
        (m.clone(), vec![0, 1], Rejected, 5, 2),
        (m.clone(), vec![0, 1, 2], Rejected, 9, 3),
        (m, vec![2], Rejected, 1, 0),
        (e.clone(), vec![0, 1], Accepted, 3, 0),
        (e, vec![1, 0], Rejected, 4, 1),
        (deepest.words(), vec![0; MAX_TOKENS], Accepted, MEMO_ENTRIES as u16, MAX_TOKENS as u16),
        (deepest.words(), vec![0; MAX_TOKENS + 1], Refused, 10, 0),
        (deepest.words(), vec![0, 23, 24], Refused, 11, 2),
        (deepest.words(), vec![WESTWARD, WESTWARD + 23, WESTWARD + 24, 24], Refused, 11, 2),
        (with(33, 24), vec![], Refused, 4, 0),
        (with(32, 25), vec![], Refused, 4, 0),
        (largest.clone(), vec![], Rejected, 1, 0),
        ([largest, vec![7 << 28]].concat(), vec![], Refused, 3, 0),
        (one(vec![rule(0, &[&[]], &[]); 129]), vec![], Refused, 7, 257),
        (one(vec![rule(0, &[&[a]], &[&[Symbol::Nonterminal(0)]])]), vec![], Refused, 8, 0),
        (one(clash.to_vec()), vec![], Refused, 9, 0),
        (one(vec![]), vec![], Refused, 13, 0),
        (one(vec![]), vec![0; MAX_TOKENS + 1], Refused, 13, 0),
        (one(vec![rule(0, &[&[a, start]], &[])]), vec![0], Refused, 13, 0),
        // name 1 is not reached; with one letter of lookahead its two bodies begin apart
        (two(2, vec![rule(0, &[&[a]], &[])]), vec![0], Refused, 13, 1),
        (two(2, vec![rule(0, &[&[a]], &[]), rule(1, &[&[a], &[b]], &[])]), vec![0], Refused, 13, 1),
        (two(1, vec![rule(0, &[&[a, b], &[a, a]], &[])]), vec![0], Rejected, 1, 0),
        // the lowest of two; before a clash; behind left recursion
        (two(3, vec![rule(0, &[&[a]], &[]), rule(1, &[&[Symbol::Nonterminal(2)]], &[])]), vec![], Refused, 13, 1),
        (two(2, clash.to_vec()), vec![], Refused, 13, 1),
        (two(2, vec![rule(0, &[&[x, start]], &[&[start]])]), vec![], Refused, 8, 0),
        (forbids_a.clone(), vec![], Accepted, 1, 0),
        (forbids_a.clone(), vec![0], Rejected, 1, 0),
        (forbids_a.clone(), vec![1], Accepted, 1, 0),
        (forbids_a.clone(), vec![0, 0], Accepted, 1, 0),
        (forbids_a, vec![1; MAX_TOKENS], Accepted, 1, 0),
        (forbids_nothing.clone(), vec![], Rejected, 1, 0),
        (forbids_nothing, vec![0], Accepted, 1, 0),
        (forbids_both.clone(), vec![0, 1], Rejected, 1, 0),
        (forbids_both, vec![0, 1, 0], Accepted, 1, 0),
        (followed, vec![], Refused, 9, 32),
        (followed_in_a_negative, vec![], Refused, 9, 32),
        // the last of the chain has what begins with a letter and goes on as the start, and each before it what the next has not: so the
        // start has the inputs of an odd length
        (deepest_forbidding.clone(), vec![], Rejected, 32, 0),
        (deepest_forbidding, vec![0; MAX_TOKENS], Rejected, MEMO_ENTRIES as u16, MAX_TOKENS as u16),
        (two(1, vec![rule(0, &[], &[])]), vec![], Refused, 5, 2),
        (two(2, vec![rule(0, &[], &[&[x]]), rule(1, &[], &[&[Symbol::Nonterminal(0)]])]), vec![], Refused, 8, 0),
    ];
    for (words, input, verdict, first, second) in rows {
        pair.check(&words, Lengths::LEAST);
        let outcome = pair.judge(&words, &input, Lengths::LEAST);
        pair.tree(&words, &input, Lengths::LEAST, MEMO_ENTRIES);
        if told(outcome) != (verdict, first, second) {
            pair.tally.differ += 1;
            println!("the papers state {verdict:?} {first} {second}, the twin answers {outcome:?}");
        }
    }
}

/// Rows for the sentences of request P6: verdict, code and position, and the words of the spans.
fn stated_plain_cases(pair: &mut Pair) {
    use Verdict::{Accepted, Refused, Rejected};
    let (r, e) = (cards::card_r().words(), cards::card_e().words());
    let (a, s) = (Symbol::Terminal(0), Symbol::Nonterminal(0));
    let one = |rules| Draft { nonterminals: 1, terminals: 1, rules }.words();
    let clashing = one(vec![rule(0, &[&[a]], &[]), rule(0, &[&[a]], &[])]);
    let overrun = one(vec![rule(0, &[&[a, s, a]], &[]), rule(0, &[], &[&[a]])]);
    let few = Lengths { spans: SPAN_WORDS - 1, ..Lengths::LEAST };
    let rows: Vec<(Vec<u32>, Vec<u8>, Lengths, Verdict, u8, u16, Vec<u32>)> = vec![
        (r.clone(), vec![], Lengths::LEAST, Accepted, 0, 0, vec![1]),
        (r.clone(), vec![0], Lengths::LEAST, Accepted, 0, 0, vec![1, 1, 1]),
        (r.clone(), vec![0; MAX_PLAIN_TOKENS], Lengths::LEAST, Accepted, 0, 0, vec![1; SPAN_WORDS]),
        (r.clone(), vec![0; MAX_PLAIN_TOKENS + 1], Lengths::LEAST, Refused, 10, 0, vec![]),
        (r.clone(), vec![0, WESTWARD, WESTWARD + 1], Lengths::LEAST, Refused, 11, 2, vec![]),
        (r, vec![0], few, Refused, 12, 0, vec![]),
        (vec![], vec![7; MAX_PLAIN_TOKENS + 1], few, Refused, 12, 0, vec![]),
        (vec![], vec![7; MAX_PLAIN_TOKENS + 1], Lengths::LEAST, Refused, 4, 0, vec![]),
        (one(vec![rule(0, &[&[s]], &[])]), vec![1; MAX_PLAIN_TOKENS + 1], Lengths::LEAST, Refused, 8, 0, vec![]),
        (clashing, vec![0], Lengths::LEAST, Accepted, 0, 0, vec![0, 1, 0]),
        (overrun, vec![0, 0], Lengths::LEAST, Accepted, 0, 0, vec![1, 0, 1, 1, 0, 1]),
        // S, A, B and C of card E: of "ba" A has nothing but a, for b is what it must not have, and S has nothing
        (e, vec![1, 0], Lengths::LEAST, Rejected, 0, 0, vec![8, 4, 0, 8, 6, 8]),
    ];
    for (words, input, lengths, verdict, code, position, spans) in rows {
        let outcome = pair.judge_plain(&words, &input, lengths);
        if (outcome.verdict, outcome.code, outcome.position) != (verdict, code, position) || pair.twin.lend_spans(lengths)[..spans.len()] != spans {
            pair.tally.differ += 1;
            println!("the papers state {verdict:?} {code} {position} {spans:?}, the twin answers {outcome:?}");
        }
    }
}

/// Rows for the sentences of request P10, and what the papers give with two letters of lookahead, and with one.
fn stated_wide_cases(pair: &mut Pair) {
    use Verdict::{Accepted, Refused, Rejected};
    let [a, b, c] = [0, 1, 2].map(Symbol::Terminal);
    let [x, y] = [1, 2].map(Symbol::Nonterminal);
    let three = |nonterminals, rules| Draft { nonterminals, terminals: 3, rules }.words();
    let ladder = cards::ladder().words();
    let deepest = cards::chain(32, 7).words();
    let letters = |terminals| Draft { terminals, ..cards::chain(32, 7) }.words();
    let twice = |body: &[Symbol]| three(2, vec![rule(0, &[&[a, x]], &[]), rule(1, &[body], &[]), rule(1, &[body], &[])]);
    let each = |nonterminal| [rule(nonterminal, &[&[b]], &[]), rule(nonterminal, &[&[]], &[])];
    let alike = three(3, [vec![rule(0, &[&[x]], &[]), rule(0, &[&[y]], &[])], each(1).to_vec(), each(2).to_vec()].concat());
    let begun_alike = three(1, vec![rule(0, &[&[a, b], &[a, c]], &[])]);
    let forbids = three(1, vec![rule(0, &[], &[&[a]])]);
    let least = Lengths::LEAST;
    let (short, no_memo) = (Lengths { table2: TABLE_WORDS_OF_TWO - 1, ..least }, Lengths { memo: MEMO_ENTRIES - 1, ..least });
    let neither = Lengths { table2: TABLE_WORDS_OF_TWO - 1, ..no_memo };
    let longest = (Accepted, MEMO_ENTRIES as u16, MAX_TOKENS as u16);
    let rows: Vec<(Vec<u32>, Vec<u8>, Lengths, Stated, Stated)> = vec![
        (ladder.clone(), vec![], least, (Accepted, 3, 0), (Refused, 9, 64)),
        (ladder.clone(), vec![0, 2, 0, 1, 3, 0, 2], least, (Accepted, 14, 7), (Refused, 9, 64)),
        (ladder.clone(), vec![0, 2, 0, 2, WESTWARD, 2], least, (Rejected, 12, 6), (Refused, 9, 64)),
        (ladder.clone(), vec![0, 5, 5], least, (Refused, 11, 1), (Refused, 9, 64)),
        (ladder.clone(), vec![], short, (Refused, 17, 0), (Refused, 9, 64)),
        (ladder.clone(), vec![], no_memo, (Refused, 2, 0), (Refused, 2, 0)),
        (vec![], vec![], neither, (Refused, 17, 0), (Refused, 2, 0)),
        (deepest.clone(), vec![0; MAX_TOKENS], least, longest, longest),
        (deepest, vec![0; MAX_TOKENS + 1], least, (Refused, 10, 0), (Refused, 10, 0)),
        (letters(8), vec![], least, (Refused, 18, 0), (Accepted, 32, 0)),
        (letters(24), vec![], least, (Refused, 18, 0), (Accepted, 32, 0)),
        (letters(25), vec![], least, (Refused, 4, 0), (Refused, 4, 0)),
        // 18 comes before a faulty word, and behind a faulty heading
        (vec![1 << 28 | 8 << 8 | 1, 0], vec![], least, (Refused, 18, 0), (Refused, 5, 1)),
        (vec![1 << 28 | 1 << 16 | 8 << 8 | 1, 0], vec![], least, (Refused, 4, 0), (Refused, 4, 0)),
        (forbids, vec![], least, (Refused, 5, 2), (Accepted, 1, 0)),
        // the columns: b alone and the end, two pairs of letters, a last letter, the end alone
        (alike, vec![], least, (Refused, 9, 0), (Refused, 9, 1)),
        (twice(&[a, c]), vec![], least, (Refused, 9, 64 + 10), (Refused, 9, 32)),
        (twice(&[c, a]), vec![], least, (Refused, 9, 64 + 22), (Refused, 9, 34)),
        (twice(&[b]), vec![], least, (Refused, 9, 64 + 2), (Refused, 9, 33)),
        (twice(&[]), vec![], least, (Refused, 9, 64), (Refused, 9, 35)),
        (begun_alike, vec![0, 1], least, (Refused, 13, 0), (Rejected, 1, 0)),
    ];
    for (words, input, lengths, stated, stated_with_one) in rows {
        pair.check2(&words, lengths);
        let with_one = pair.judge(&words, &input, lengths);
        let outcome = pair.judge2(&words, &input, lengths, with_one);
        for (outcome, stated) in [(outcome, stated), (with_one, stated_with_one)] {
            if told(outcome) != stated {
                pair.tally.differ += 1;
                println!("the papers state {stated:?}, the twin answers {outcome:?}");
            }
        }
    }
}

/// Whether these words are those of a grammar in which a rule has negative conjuncts alone.
fn only_forbids(words: &[u32]) -> bool {
    Grammar::read(words).is_ok_and(|grammar| grammar.rules.iter().any(|rule| grammar.only_forbids(rule)))
}

/// A check and a judgement for each of `count` random grammars, inputs and memories; a case depends on the seed and its
/// number alone.
fn random_cases(pair: &mut Pair, seed: u64, count: u64) {
    for number in 0..count {
        let mut random = Random::new(seed.wrapping_mul(1_000_003).wrapping_add(number));
        let words = cards::words(&mut random);
        let events = cards::events(&mut random, &words);
        let lengths = Lengths::random(&mut random);
        let tree = length(&mut random, MEMO_ENTRIES);
        pair.refill(&mut random);
        let differ = pair.tally.differ;
        pair.check(&words, lengths);
        if words.len() <= PLAIN_WORDS || number % PASSED_OVER == 0 {
            pair.judge_plain(&words, &events, lengths);
        }
        let outcome = pair.judge(&words, &events, lengths);
        pair.tree(&words, &events, lengths, tree);
        pair.check2(&words, lengths);
        pair.judge2(&words, &events, lengths, outcome);
        pair.tally.westward += u64::from(outcome.verdict != Verdict::Refused && events.iter().any(|event| event & WESTWARD != 0));
        pair.tally.forbidding += u64::from(outcome.verdict != Verdict::Refused && only_forbids(&words));
        if pair.tally.differ > differ {
            println!("  this was case {number} of seed {seed}");
        }
    }
}

/// Every row of words over a small alphabet, after this heading, that is sound up to its last word, and every short
/// input for those that pass.
struct SmallCases {
    alphabet: Vec<u32>,
    tokens: u8,
    most_words: usize,
    most_tokens: usize,
}

impl SmallCases {
    fn new(nonterminals: u32, terminals: u32, most_words: usize, most_tokens: usize) -> SmallCases {
        let mut alphabet = vec![0, 3 << 28, 3 << 28 | 1, 4 << 28, 7 << 28, 7 << 28 | 1];
        alphabet.extend((0..=nonterminals).flat_map(|b| [2 << 28 | b, 6 << 28 | b]));
        alphabet.extend((0..=terminals).map(|a| 5 << 28 | a));
        SmallCases { alphabet, tokens: terminals as u8 + 1, most_words, most_tokens }
    }

    fn grammars(&self, pair: &mut Pair, words: &mut Vec<u32>) {
        let outcome = pair.check(words, Lengths::LEAST);
        let wide = pair.check2(words, Lengths::LEAST);
        let faulty = matches!(outcome.code, 3..=7) && (outcome.position as usize) < words.len();
        if outcome.code == 9 {
            self.plain_inputs(pair, words, &mut Vec::new());
        }
        if outcome.code == 9 && wide.verdict == Verdict::Passed {
            self.wide_inputs(pair, words, &mut Vec::new(), outcome);
        }
        if outcome.verdict == Verdict::Passed {
            let before = pair.tally.outcomes.verdicts();
            self.inputs(pair, words, &mut Vec::new());
            if only_forbids(words) {
                pair.tally.forbidding += pair.tally.outcomes.verdicts() - before;
            }
        }
        if faulty || words.len() == self.most_words {
            return;
        }
        for &word in &self.alphabet {
            words.push(word);
            self.grammars(pair, words);
            words.pop();
        }
    }

    /// A grammar that clashes has plain verdicts alone.
    fn plain_inputs(&self, pair: &mut Pair, words: &[u32], input: &mut Vec<u8>) {
        let outcome = pair.judge_plain(words, input, Lengths::LEAST);
        if outcome.code == 11 || input.len() == MOST_PLAIN {
            return;
        }
        for token in 0..self.tokens {
            input.push(token);
            self.plain_inputs(pair, words, input);
            input.pop();
        }
    }

    /// A grammar that clashes with one letter of lookahead, and passes with two.
    fn wide_inputs(&self, pair: &mut Pair, words: &[u32], input: &mut Vec<u8>, with_one: Outcome) {
        let outcome = pair.judge2(words, input, Lengths::LEAST, with_one);
        if outcome.code == 11 || input.len() == self.most_tokens {
            return;
        }
        for token in 0..self.tokens {
            input.push(token);
            self.wide_inputs(pair, words, input, with_one);
            input.pop();
        }
    }

    fn inputs(&self, pair: &mut Pair, words: &[u32], input: &mut Vec<u8>) {
        let outcome = pair.judge(words, input, Lengths::LEAST);
        pair.judge2(words, input, Lengths::LEAST, outcome);
        if input.len() <= MOST_PLAIN {
            pair.judge_plain(words, input, Lengths::LEAST);
        }
        pair.tree(words, input, Lengths::LEAST, MEMO_ENTRIES);
        if outcome.code == 11 || input.len() == self.most_tokens {
            return;
        }
        for token in 0..self.tokens {
            input.push(token);
            self.inputs(pair, words, input);
            input.pop();
        }
    }
}

fn run(seed: u64, count: u64) -> bool {
    let mut random = Random::new(seed);
    let memory = Memory::random(&mut random);
    let mut pair = Pair { twin: memory.clone(), proved: memory, tally: Tally::default() };

    println!("stated: the judged inputs and limits of document 01, and rows of the requests");
    stated_cases(&mut pair);
    histories::stated_histories(&mut pair);
    stated_plain_cases(&mut pair);
    stated_wide_cases(&mut pair);
    costly::stated_costly(&mut pair);
    println!("  {} cases, {} differ", pair.tally.cases, pair.tally.differ);
    let stated_tally = std::mem::take(&mut pair.tally);

    let start = Instant::now();
    println!("random: seed {seed}, {count} grammars and inputs, each checked, judged, judged with a tree, and with two letters of lookahead");
    random_cases(&mut pair, seed, count);
    pair.tally.print();
    pair.tally.print_wide();
    let complete = pair.tally.complete();
    println!("  {} cases, {} differ, {:.1} s", pair.tally.cases, pair.tally.differ, start.elapsed().as_secs_f64());
    let random_tally = std::mem::take(&mut pair.tally);

    let start = Instant::now();
    println!("recorded: seed {seed}, random histories of judgements for clients, each with the record that the one before handed back");
    let seen = histories::random_histories(&mut pair, seed, count / CASES_A_HISTORY);
    pair.tally.print();
    seen.print();
    let complete = complete && pair.tally.judged() && seen.complete();
    println!("  {} cases, {} differ, {:.1} s", pair.tally.cases, pair.tally.differ, start.elapsed().as_secs_f64());
    let recorded_tally = std::mem::take(&mut pair.tally);

    let start = Instant::now();
    println!("kept: seed {seed}, random histories of a kept log, each judgement also afresh");
    let kept = kept_logs::random_histories(&mut pair, seed, count / CASES_A_HISTORY);
    kept.print();
    let complete = complete && kept.complete();
    println!("  {} cases, {} differ, {:.1} s", pair.tally.cases, pair.tally.differ, start.elapsed().as_secs_f64());
    let kept_tally = std::mem::take(&mut pair.tally);

    let start = Instant::now();
    println!("searched: seed {seed}, random grammars and lengths, for each the costliest log");
    let found = costly::random_costly(&mut pair, seed, count / CASES_A_SEARCH);
    found.print();
    let complete = complete && found.complete();
    println!("  {} cases, {} differ, {:.1} s", pair.tally.cases, pair.tally.differ, start.elapsed().as_secs_f64());
    let searched_tally = std::mem::take(&mut pair.tally);

    let start = Instant::now();
    println!("small: every grammar over few words, and every input up to {MOST_TOKENS} tokens for each that passes");
    for (nonterminals, terminals, most_words) in SMALL {
        pair.refill(&mut random);
        println!("  nonterminals {nonterminals}, terminals {terminals}, up to {most_words} words");
        let small = SmallCases::new(nonterminals, terminals, most_words, MOST_TOKENS);
        small.grammars(&mut pair, &mut vec![1 << 28 | terminals << 8 | nonterminals]);
    }
    pair.tally.print();
    pair.tally.print_wide();
    println!("  {} cases, {} differ, {:.1} s", pair.tally.cases, pair.tally.differ, start.elapsed().as_secs_f64());

    let tallies = [&stated_tally, &random_tally, &recorded_tally, &kept_tally, &searched_tally, &pair.tally];
    let differ: u64 = tallies.iter().map(|tally| tally.differ).sum();
    let cases: u64 = tallies.iter().map(|tally| tally.cases).sum();
    println!("{cases} cases, {differ} differ");
    if !complete {
        println!("an outcome never occurred among the random cases, histories or searches");
    }
    differ == 0 && (complete || count < 10_000)
}

fn main() -> ExitCode {
    let mut arguments = std::env::args().skip(1).map(|argument| argument.parse::<u64>().expect("a number"));
    let seed = arguments.next().unwrap_or(DEFAULT_SEED);
    let count = arguments.next().unwrap_or(DEFAULT_COUNT);
    let thread = thread::Builder::new().stack_size(STACK).spawn(move || run(seed, count)).expect("a thread");
    if thread.join().unwrap_or(false) { ExitCode::SUCCESS } else { ExitCode::FAILURE }
}
