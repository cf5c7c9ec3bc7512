//! The rows of the benchmark: each a call, made by the proved library, by the twin and, on card M, by the recognizer that peg makes. What both
//! answer, and the memory that is lent, has been compared when the calls are made first.

use crate::linked::{self, Stored};
use compare::cards::{self, rule, Draft};
use compare::twin::{
    self, Allowance, Log, Outcome, Symbol::Nonterminal, Symbol::Terminal, Usages, MARKS, MAX_PLAIN_TOKENS, MAX_TERMINALS, MAX_TERMINALS_OF_TWO,
    MAX_TOKENS, MEMO_ENTRIES, NOT_SET, SPAN_WORDS, TABLE_WORDS, TABLE_WORDS_OF_TWO,
};
use std::hint::black_box;

pub type Call = Box<dyn FnMut() -> u64>;

/// What both answer; and the call by the library, by the twin and, on card M where there is one, by peg's recognizer.
pub struct Made {
    pub answer: String,
    pub calls: Vec<Call>,
}

pub struct Row {
    /// What is called, and on how much.
    pub what: String,
    pub size: String,
    /// Whether a call may take so long that few are made.
    pub long: bool,
    /// Makes the first calls and compares them.
    pub make: Box<dyn FnOnce() -> Made>,
}

#[cfg(peg)]
mod peg {
    extern "C" {
        fn pegm_accepts(input: *const std::ffi::c_char, length: usize) -> i32;
    }

    pub const MADE: bool = true;

    pub fn accepts(letters: &[u8]) -> bool {
        // Sound: the recognizer reads `length` bytes from `input` and runs in this thread alone.
        unsafe { pegm_accepts(letters.as_ptr().cast(), letters.len()) != 0 }
    }
}

#[cfg(not(peg))]
mod peg {
    pub const MADE: bool = false;

    pub fn accepts(_letters: &[u8]) -> bool {
        false
    }
}

#[derive(Clone, PartialEq)]
struct Memory<Word> {
    table: Vec<Word>,
    memo: Vec<u16>,
}

/// The calls of one lookahead, by the library and by the twin.
#[derive(Clone, Copy)]
struct Lookahead<Word> {
    name: &'static str,
    table_words: usize,
    check: fn(&[u32], &mut [Word]) -> linked::Answer,
    check_by_twin: fn(&[u32], &mut [Word]) -> Outcome,
    judge: fn(&[u32], &[u8], &mut [Word], &mut [u16]) -> linked::Answer,
    judge_by_twin: fn(&[u32], &[u8], &mut [Word], &mut [u16]) -> Outcome,
}

const ONE: Lookahead<u32> = Lookahead {
    name: "",
    table_words: TABLE_WORDS,
    check: linked::check,
    check_by_twin: twin::check,
    judge: linked::judge,
    judge_by_twin: twin::judge,
};

const TWO: Lookahead<u64> = Lookahead {
    name: "2",
    table_words: TABLE_WORDS_OF_TWO,
    check: linked::check2,
    check_by_twin: twin::check2,
    judge: linked::judge2,
    judge_by_twin: twin::judge2,
};

impl<Word: Clone + From<u32>> Lookahead<Word> {
    fn memory(&self) -> Memory<Word> {
        Memory { table: vec![0.into(); self.table_words], memo: vec![0; MEMO_ENTRIES] }
    }
}

fn answer_of(outcome: Outcome) -> String {
    format!("{:?}", outcome.verdict).to_lowercase()
}

fn made(answer: String, library: Call, twin: Call) -> Made {
    Made { answer, calls: vec![library, twin] }
}

fn row(what: String, size: String, make: impl FnOnce() -> Made + 'static) -> Row {
    Row { what, size, long: false, make: Box::new(make) }
}

fn check<Word: Clone + From<u32> + PartialEq + 'static>(by: Lookahead<Word>, what: &str, draft: &Draft) -> Row {
    let words = draft.words();
    row(format!("check{} {what}", by.name), format!("{} words", words.len()), move || {
        let (mut lent, mut lent_to_twin) = (by.memory(), by.memory());
        let outcome = (by.check_by_twin)(&words, &mut lent_to_twin.table);
        let answer = (by.check)(&words, &mut lent.table);
        assert!(answer == linked::packed(outcome) && lent == lent_to_twin, "the answers differ");
        let words_of_twin = words.clone();
        made(
            answer_of(outcome),
            Box::new(move || (by.check)(black_box(&words), &mut lent.table).bits()),
            Box::new(move || linked::packed((by.check_by_twin)(black_box(&words_of_twin), &mut lent_to_twin.table)).bits()),
        )
    })
}

fn judge<Word: Clone + From<u32> + PartialEq + 'static>(by: Lookahead<Word>, what: &str, draft: &Draft, input: &[u8]) -> Row {
    let (words, log) = (draft.words(), input.to_vec());
    row(format!("judge{} {what}", by.name), format!("{} tokens", log.len()), move || {
        let (mut lent, mut lent_to_twin) = (by.memory(), by.memory());
        let outcome = (by.judge_by_twin)(&words, &log, &mut lent_to_twin.table, &mut lent_to_twin.memo);
        let answer = (by.judge)(&words, &log, &mut lent.table, &mut lent.memo);
        assert!(answer == linked::packed(outcome) && lent == lent_to_twin, "the answers differ");
        let (words_of_twin, log_of_twin) = (words.clone(), log.clone());
        made(
            answer_of(outcome),
            Box::new(move || (by.judge)(black_box(&words), black_box(&log), &mut lent.table, &mut lent.memo).bits()),
            Box::new(move || {
                let (words, log) = (black_box(&words_of_twin), black_box(&log_of_twin));
                linked::packed((by.judge_by_twin)(words, log, &mut lent_to_twin.table, &mut lent_to_twin.memo)).bits()
            }),
        )
    })
}

/// The row of an input of card M's language with peg's recognizer, where there is one.
fn with_peg(of: Row, input: &[u8]) -> Row {
    let letters: Vec<u8> = input.iter().map(|token| b'a' + token).collect();
    row(of.what, of.size, move || {
        let mut made = (of.make)();
        if peg::MADE {
            assert!(peg::accepts(&letters) == (made.answer == "accepted"), "peg's answer differs");
            made.calls.push(Box::new(move || peg::accepts(black_box(&letters)) as u64));
        }
        made
    })
}

/// As `judge`, for a client, with a record that goes from call to call; share and limit are not reached in the meantime.
fn judge_for(what: &str, draft: &Draft, input: &[u8]) -> Row {
    let (words, log) = (draft.words(), input.to_vec());
    row(format!("client {what}"), format!("{} tokens", log.len()), move || {
        let (mut lent, mut lent_to_twin) = (ONE.memory(), ONE.memory());
        let (empty, allowance) = (Usages::default(), Allowance { client: 3, share: u32::MAX, limit: u32::MAX });
        let (outcome, record) = twin::judge_for(allowance, &words, &log, &mut lent_to_twin.table, &mut lent_to_twin.memo, &empty);
        let answer = linked::judge_for(allowance, &words, &log, &mut lent.table, &mut lent.memo, &empty);
        assert!(answer == (linked::packed(outcome), record) && lent == lent_to_twin, "the answers differ");
        let (words_of_twin, log_of_twin) = (words.clone(), log.clone());
        let (mut counters, mut record_of_twin) = (linked::row_of(&empty), empty);
        let Allowance { client, share, limit } = allowance;
        made(
            answer_of(outcome),
            Box::new(move || {
                let (words, log) = (black_box(&words), black_box(&log));
                vinegarspit::judge_for(client, share, limit, words, log, &mut lent.table, &mut lent.memo, &mut counters).bits()
            }),
            Box::new(move || {
                let (words, log) = (black_box(&words_of_twin), black_box(&log_of_twin));
                let (outcome, next) = twin::judge_for(allowance, words, log, &mut lent_to_twin.table, &mut lent_to_twin.memo, &record_of_twin);
                record_of_twin = next;
                linked::packed(outcome).bits()
            }),
        )
    })
}

fn totals() -> Row {
    row("totals".into(), "8 clients".into(), || {
        let usages = Usages::default();
        let counters = linked::row_of(&usages);
        assert!(vinegarspit::usage_totals(&counters) == twin::totals(&usages), "the totals differ");
        made(
            String::new(),
            Box::new(move || vinegarspit::usage_totals(black_box(&counters))[3]),
            Box::new(move || twin::totals(black_box(&usages))[3]),
        )
    })
}

fn plain(what: &str, draft: &Draft, input: &[u8]) -> Row {
    let (words, log) = (draft.words(), input.to_vec());
    row(format!("plain {what}"), format!("{} tokens", log.len()), move || {
        let (mut spans, mut spans_of_twin) = (vec![0; SPAN_WORDS], vec![0; SPAN_WORDS]);
        let outcome = twin::judge_plain(&words, &log, &mut spans_of_twin);
        let answer = linked::judge_plain(&words, &log, &mut spans);
        assert!(answer == linked::packed(outcome) && spans == spans_of_twin, "the answers differ");
        let (words_of_twin, log_of_twin) = (words.clone(), log.clone());
        made(
            answer_of(outcome),
            Box::new(move || linked::judge_plain(black_box(&words), black_box(&log), &mut spans).bits()),
            Box::new(move || linked::packed(twin::judge_plain(black_box(&words_of_twin), black_box(&log_of_twin), &mut spans_of_twin)).bits()),
        )
    })
}

fn stored() -> Stored {
    let mut stored = Stored { events: [0; MAX_TOKENS], state: [NOT_SET; MARKS + 1] };
    stored.state[0] = 0;
    stored.mark(0);
    stored
}

fn kept_by_twin() -> Log {
    let mut log = Log::default();
    log.mark(0).expect("a mark");
    log
}

/// A kept log that is returned to its beginning and grows again to so many events, one call each.
fn grow(input: &[u8]) -> Row {
    let events = input.to_vec();
    row("grow".into(), format!("{} events", events.len()), move || {
        let (mut stored, mut log) = (stored(), kept_by_twin());
        let events_of_twin = events.clone();
        made(
            "passed".into(),
            Box::new(move || {
                stored.return_to(0);
                events.iter().map(|&event| stored.add(black_box(event)).bits()).sum()
            }),
            Box::new(move || {
                log.return_to(0).expect("a mark");
                events_of_twin.iter().map(|&event| u64::from(log.add(black_box(event)).is_ok())).sum()
            }),
        )
    })
}

/// The judgement of a kept log.
fn kept(what: &str, draft: &Draft, input: &[u8]) -> Row {
    let (words, events) = (draft.words(), input.to_vec());
    row(format!("kept {what}"), format!("{} tokens", events.len()), move || {
        let (mut stored, mut log) = (stored(), kept_by_twin());
        for &event in &events {
            stored.add(event);
            log.add(event).expect("there is room");
        }
        let (mut lent, mut lent_to_twin) = (ONE.memory(), ONE.memory());
        let outcome = log.judge(&words, &mut lent_to_twin.table, &mut lent_to_twin.memo);
        let answer = stored.judge(&words, &mut lent.table, &mut lent.memo);
        assert!(answer == linked::packed(outcome) && lent == lent_to_twin, "the answers differ");
        let words_of_twin = words.clone();
        made(
            answer_of(outcome),
            Box::new(move || stored.judge(black_box(&words), &mut lent.table, &mut lent.memo).bits()),
            Box::new(move || linked::packed(log.judge(black_box(&words_of_twin), &mut lent_to_twin.table, &mut lent_to_twin.memo)).bits()),
        )
    })
}

/// As `judge`, with the parse tree.
fn tree(what: &str, draft: &Draft, input: &[u8]) -> Row {
    let (words, log) = (draft.words(), input.to_vec());
    row(format!("tree {what}"), format!("{} tokens", log.len()), move || {
        let (mut lent, mut lent_to_twin) = (ONE.memory(), ONE.memory());
        let (mut tree, mut tree_of_twin) = (vec![0; MEMO_ENTRIES], vec![0; MEMO_ENTRIES]);
        let (outcome, written) = twin::judge_tree(&words, &log, &mut lent_to_twin.table, &mut lent_to_twin.memo, &mut tree_of_twin);
        let answer = linked::tree(&words, &log, &mut lent.table, &mut lent.memo, &mut tree);
        assert!(answer == (linked::packed(outcome), written) && tree == tree_of_twin, "the trees differ");
        let (words_of_twin, log_of_twin) = (words.clone(), log.clone());
        made(
            answer_of(outcome),
            Box::new(move || linked::tree(black_box(&words), black_box(&log), &mut lent.table, &mut lent.memo, &mut tree).0.bits()),
            Box::new(move || {
                let (words, log) = (black_box(&words_of_twin), black_box(&log_of_twin));
                linked::packed(twin::judge_tree(words, log, &mut lent_to_twin.table, &mut lent_to_twin.memo, &mut tree_of_twin).0).bits()
            }),
        )
    })
}

/// The costliest input of a length.
fn costliest(what: &str, draft: &Draft, length: usize) -> Row {
    let words = draft.words();
    let mut row = row(format!("costliest {what}"), format!("{length} tokens"), move || {
        let (mut lent, mut lent_to_twin) = (ONE.memory(), ONE.memory());
        let (mut log, mut log_of_twin) = (vec![0; MAX_TOKENS], vec![0; MAX_TOKENS]);
        let outcome = twin::costliest(&words, length, &mut log_of_twin, &mut lent_to_twin.table, &mut lent_to_twin.memo);
        let answer = linked::costliest(&words, length, &mut log, &mut lent.table, &mut lent.memo);
        assert!(answer == linked::packed(outcome) && log == log_of_twin && lent == lent_to_twin, "the answers differ");
        let words_of_twin = words.clone();
        made(
            answer_of(outcome),
            Box::new(move || linked::costliest(black_box(&words), length, &mut log, &mut lent.table, &mut lent.memo).bits()),
            Box::new(move || {
                let words = black_box(&words_of_twin);
                linked::packed(twin::costliest(words, length, &mut log_of_twin, &mut lent_to_twin.table, &mut lent_to_twin.memo)).bits()
            }),
        )
    });
    row.long = true;
    row
}

/// An input of card M's language where `before` is not `nested`: a's, then b's and as many c's.
fn axles(before: usize, nested: usize) -> Vec<u8> {
    [vec![0; before], vec![1; nested], vec![2; nested]].concat()
}

/// So many tokens, about four of five of them nested.
fn axles_of(tokens: usize) -> Vec<u8> {
    let nested = 2 * tokens / 5;
    axles(tokens - 2 * nested, nested)
}

/// The rows of the benchmark.
pub fn benchmark() -> Vec<Row> {
    use cards::{card_m, chain, negatives};
    vec![
        check(ONE, "card R", &cards::card_r()),
        check(ONE, "card M", &card_m()),
        check(ONE, "chain of 32", &chain(32, 1)),
        check(ONE, "chain, last first", &chain(32, 1).reversed()),
        check(ONE, "23 negatives", &negatives(25)),
        check(ONE, "largest", &cards::largest()),
        check(ONE, "long chain", &cards::long_chain()),
        check(ONE, "slowest found", &cards::slowest(1)),
        check(ONE, "slowest of the twin", &cards::slowest_of_the_twin(1)),
        check(ONE, "slowest by turns", &cards::slowest_zigzag(1)),
        check(ONE, "refused zigzag", &cards::refused_zigzag(1)),
        with_peg(judge(ONE, "card M", &card_m(), &axles(0, 0)), &axles(0, 0)),
        with_peg(judge(ONE, "card M", &card_m(), &axles(10, 20)), &axles(10, 20)),
        with_peg(judge(ONE, "card M", &card_m(), &axles_of(MAX_TOKENS)), &axles_of(MAX_TOKENS)),
        judge_for("card M", &card_m(), &axles(10, 20)),
        totals(),
        tree("card M", &card_m(), &axles(10, 20)),
        grow(&axles(10, 20)),
        kept("card M", &card_m(), &axles(10, 20)),
        tree("chain of 32", &chain(32, 1), &[0; MAX_TOKENS]),
        judge(ONE, "chain of 32", &chain(32, 1), &[]),
        judge(ONE, "chain of 32", &chain(32, 1), &[0; 50]),
        judge(ONE, "chain of 32", &chain(32, 1), &[0; MAX_TOKENS]),
        judge(ONE, "23 negatives", &negatives(25), &[]),
        judge(ONE, "23 negatives", &negatives(25), &[0; 50]),
        judge(ONE, "23 negatives", &negatives(25), &[0; MAX_TOKENS]),
        plain("card M", &card_m(), &axles(14, 17)),
        plain("chain of 32", &chain(32, 1), &[0; MAX_PLAIN_TOKENS]),
        plain("23 negatives", &negatives(25), &[0; MAX_PLAIN_TOKENS]),
        plain("slowest found", &cards::slowest_plain(), &[0; MAX_PLAIN_TOKENS]),
        check(TWO, "card M", &card_m()),
        check(TWO, "ladder", &cards::ladder()),
        check(TWO, "chain, last first", &chain(32, 7).reversed()),
        check(TWO, "slowest found", &cards::slowest(2)),
        check(TWO, "slowest of the twin", &cards::slowest_of_the_twin(2)),
        check(TWO, "slowest by turns", &cards::slowest_zigzag(2)),
        check(TWO, "refused zigzag", &cards::refused_zigzag(2)),
        judge(TWO, "card M", &card_m(), &axles(10, 20)),
        judge(TWO, "ladder", &cards::ladder(), &[0, 1, 3].repeat(16)),
        judge(TWO, "chain of 32", &chain(32, 7), &[0; MAX_TOKENS]),
        costliest("card M", &card_m(), 7),
        costliest("chain of 32", &chain(32, 1), MAX_TOKENS),
        costliest("chain of 32", &chain(32, 2), 12),
        costliest("slowest found", &cards::slowest_search(), 12),
    ]
}

/// Calls that take the library far more instructions than the twin, each of another kind.
pub fn behind() -> Vec<Row> {
    vec![
        check(ONE, "left-recursive", &cards::left_recursive(1)),
        check(TWO, "left-recursive", &cards::left_recursive(2)),
        judge(ONE, "a long body that fails", &cards::failing_body(), &[0; MAX_TOKENS]),
        judge(ONE, "many negatives", &cards::many_negatives(), &[0; MAX_TOKENS]),
        tree("idle nonterminals", &cards::idle_nonterminals(), &[0; MAX_TOKENS]),
        plain("a long rule that fails", &cards::failing_rule(), &[0; MAX_PLAIN_TOKENS]),
    ]
}

/// Four rules for each nonterminal, each led by a terminal of its own, with two positives and a negative: words grow with the nonterminals.
fn block(nonterminals: usize, terminals: usize) -> Draft {
    let mut rules = Vec::new();
    for b in 0..nonterminals {
        for r in 0..4 {
            let lead = Terminal(((b + r * terminals / 4) % terminals) as u8);
            let near = Nonterminal(((b + r + 1) % nonterminals) as u8);
            let far = Nonterminal(((b + 5 * r) % nonterminals) as u8);
            rules.push(match r {
                3 => rule(b, &[&[lead]], &[&[lead, near]]),
                _ => rule(b, &[&[lead, near, lead, far], &[lead, near, lead, far]], &[&[lead, near, near]]),
            });
        }
    }
    Draft { nonterminals, terminals, rules }
}

/// One rule of so many words in its body, each a nonterminal that is nothing.
fn body_of(words: usize) -> Draft {
    let body: Vec<_> = std::iter::once(Terminal(0)).chain(std::iter::repeat(Nonterminal(1)).take(words)).collect();
    Draft { nonterminals: 2, terminals: 1, rules: vec![rule(0, &[&body], &[]), rule(1, &[&[]], &[])] }
}

/// The row with a size that is not told by the input or the words.
fn sized(mut row: Row, size: String) -> Row {
    row.size = size;
    row
}

/// For each of the sizes a row.
fn series(sizes: &[usize], row: fn(usize) -> Row) -> Vec<Row> {
    sizes.iter().map(|&size| row(size)).collect()
}

/// Rows of which one size doubles, or grows by one, from row to row.
pub fn growth() -> Vec<Row> {
    use cards::{card_m, chain};
    const BODIES: [usize; 5] = [120, 248, 504, 1016, 2040];
    const NAMES: [usize; 5] = [2, 4, 8, 16, 32];
    const TOKENS: [usize; 6] = [0, 25, 50, 100, 200, 400];
    const PLAIN_TOKENS: [usize; 4] = [6, 12, 24, 48];
    [
        series(&BODIES, |words| check(ONE, "one long body", &body_of(words))),
        series(&NAMES, |names| check(ONE, "four rules a name", &block(names, MAX_TERMINALS))),
        series(&NAMES, |names| sized(check(ONE, "chain, last first", &chain(names, 1).reversed()), format!("{names} names"))),
        series(&[1, 3, 6, 12, 24], |letters| sized(check(ONE, "chain of 32", &chain(32, letters)), format!("{letters} letters"))),
        series(&[4, 8, 16, 24], |letters| sized(check(ONE, "16 names, four rules each", &block(16, letters)), format!("{letters} letters"))),
        series(&BODIES, |words| check(TWO, "one long body", &body_of(words))),
        series(&NAMES, |names| check(TWO, "four rules a name", &block(names, MAX_TERMINALS_OF_TWO))),
        series(&TOKENS, |tokens| judge(ONE, "card M", &card_m(), &axles_of(tokens))),
        series(&TOKENS, |tokens| judge(ONE, "chain of 32", &chain(32, 1), &vec![0; tokens])),
        series(&TOKENS, |tokens| judge(TWO, "card M", &card_m(), &axles_of(tokens))),
        series(&TOKENS, |tokens| tree("card M", &card_m(), &axles_of(tokens))),
        series(&PLAIN_TOKENS, |tokens| plain("card M", &card_m(), &axles_of(tokens))),
        series(&PLAIN_TOKENS, |tokens| plain("chain of 32", &chain(32, 1), &vec![0; tokens])),
        series(&TOKENS[1..], |tokens| grow(&axles_of(tokens))),
        series(&[1, 2, 3, 4, 5, 6, 7], |tokens| costliest("card M", &card_m(), tokens)),
    ]
    .into_iter()
    .flatten()
    .collect()
}
