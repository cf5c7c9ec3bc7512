//! Random histories of a kept log (request P11): each step to both implementations, and each judgement also afresh, of the log that the history leaves.

use super::{linked, Lengths, Pair};
use compare::cards::{self, Random, WESTWARD};
use compare::twin::{Log, Outcome, Refusal, Verdict, MARKS, MAX_TOKENS, NOT_SET};

/// The most steps of a history.
const MOST_STEPS: usize = 40;

#[derive(Clone, Copy, Debug)]
enum Step {
    Add(u8),
    Mark(u32),
    Return(u32),
    Judge,
}

/// How many steps of each kind were done and refused.
#[derive(Default)]
pub struct Seen {
    histories: u64,
    done: [u64; 3],
    unknown: [u64; 2],
    not_set: u64,
    full: u64,
    /// Marks that a return cleared, and others that stayed at just its length.
    cleared: u64,
    stayed: u64,
    judged: u64,
    /// Verdicts with two events of lookahead.
    judged2: u64,
    /// Histories from a value that no history leaves.
    odd: u64,
}

impl Seen {
    fn add(&mut self, step: Step, told: Result<(), Refusal>) {
        let counter = match (step, told) {
            (Step::Add(_), Ok(())) => &mut self.done[0],
            (Step::Mark(_), Ok(())) => &mut self.done[1],
            (Step::Return(_), Ok(())) => &mut self.done[2],
            (Step::Add(_), Err(_)) => &mut self.full,
            (Step::Mark(_), Err(_)) => &mut self.unknown[0],
            (Step::Return(_), Err(Refusal(19, _))) => &mut self.unknown[1],
            (Step::Return(_), Err(_)) => &mut self.not_set,
            (Step::Judge, _) => &mut self.judged,
        };
        *counter += 1;
    }

    pub fn print(&self) {
        println!("  {} histories, {} of them from odd values", self.histories, self.odd);
        println!("  added, marked and returned {:?}; marks cleared by a return {}, stayed at its length {}", self.done, self.cleared, self.stayed);
        println!("  refused 19 {:?}, 20 {}, 21 {}; judged {}, with a verdict by two events {}", self.unknown, self.not_set, self.full, self.judged, self.judged2);
    }

    /// Whether every outcome of a step was seen.
    pub fn complete(&self) -> bool {
        let [a, b, c] = self.done;
        [a, b, c, self.unknown[0], self.unknown[1], self.not_set, self.full, self.cleared, self.stayed, self.judged, self.judged2, self.odd].iter().all(|&times| times > 0)
    }
}

/// One of so many letters, at times westward.
fn random_event(random: &mut Random, letters: usize) -> u8 {
    random.below(letters) as u8 + if random.chance(10) { WESTWARD } else { 0 }
}

/// Random events, and a state that is that of an empty log, or that of some log, or any.
fn first_value(random: &mut Random, letters: usize) -> (linked::Stored, bool) {
    let mut events = [0; MAX_TOKENS];
    events.iter_mut().for_each(|event| *event = random_event(random, letters + 1));
    let mut state = [NOT_SET; MARKS + 1];
    state[0] = 0;
    let odd = random.chance(20);
    if odd {
        state.iter_mut().for_each(|number| {
            *number = match random.below(3) {
                0 => random.next() as u16,
                1 => random.between(MAX_TOKENS - 3, MAX_TOKENS + 3) as u16,
                _ => random.below(MAX_TOKENS) as u16,
            }
        });
    } else if random.chance(30) {
        state[0] = random.between(MAX_TOKENS - 5, MAX_TOKENS) as u16;
        state[1..].iter_mut().for_each(|mark| *mark = random.between(MAX_TOKENS - 8, MAX_TOKENS) as u16);
        let length = state[0];
        state[1..].iter_mut().filter(|mark| **mark > length).for_each(|mark| *mark = NOT_SET);
    }
    (linked::Stored { events, state }, odd)
}

fn random_step(random: &mut Random, letters: usize) -> Step {
    let mark = match random.below(25) {
        0 => random.between(MARKS, MARKS + 2) as u32,
        1 => random.next() as u32,
        _ => random.below(MARKS) as u32,
    };
    match random.below(10) {
        0..=4 => Step::Add(random_event(random, letters)),
        5..=6 => Step::Mark(mark),
        7..=8 => Step::Return(mark),
        _ => Step::Judge,
    }
}

/// A judgement of the kept log by each of the two, and by the library afresh.
fn judge(pair: &mut Pair, words: &[u32], log: &Log, stored: &linked::Stored, lengths: Lengths) {
    let fresh = &mut pair.twin.clone();
    let (table, memo) = fresh.lend(lengths);
    let taken_afresh = linked::judge(words, &log.events, table, memo);
    let (table, memo) = pair.twin.lend(lengths);
    let expected = log.judge(words, table, memo);
    let (table, memo) = pair.proved.lend(lengths);
    let answer = stored.judge(words, table, memo);
    let agree = [linked::packed(expected), taken_afresh].iter().all(|&other| other == answer)
        && [&pair.twin.table, &fresh.table].iter().all(|&other| *other == pair.proved.table)
        && [&pair.twin.memo, &fresh.memo].iter().all(|&other| *other == pair.proved.memo);
    pair.settle("log_judge", agree, expected, answer, words, &log.events, lengths);
}

/// The same with two events of lookahead; whether it is a verdict.
fn judge2(pair: &mut Pair, words: &[u32], log: &Log, stored: &linked::Stored, lengths: Lengths) -> bool {
    let fresh = &mut pair.twin.clone();
    let (table, memo) = fresh.lend_two(lengths);
    let taken_afresh = linked::judge2(words, &log.events, table, memo);
    let (table, memo) = pair.twin.lend_two(lengths);
    let expected = log.judge2(words, table, memo);
    let (table, memo) = pair.proved.lend_two(lengths);
    let answer = stored.judge2(words, table, memo);
    let agree = [linked::packed(expected), taken_afresh].iter().all(|&other| other == answer)
        && [&pair.twin.table2, &fresh.table2].iter().all(|&other| *other == pair.proved.table2)
        && [&pair.twin.memo, &fresh.memo].iter().all(|&other| *other == pair.proved.memo);
    pair.settle("log_judge2", agree, expected, answer, words, &log.events, lengths).verdict != Verdict::Refused
}

/// A step of adding, marking or returning by each of the two, compared in answer, events and state.
fn change(pair: &mut Pair, step: Step, log: &mut Log, stored: &mut linked::Stored, seen: &mut Seen) {
    let mut expected = stored.clone();
    let before = log.clone();
    let (told, answer) = match step {
        Step::Add(event) => (log.add(event), stored.add(event)),
        Step::Mark(mark) => (log.mark(mark), stored.mark(mark)),
        Step::Return(mark) => (log.return_to(mark), stored.return_to(mark)),
        Step::Judge => return,
    };
    if told.is_ok() {
        log.store(&mut expected.events, &mut expected.state);
    }
    if let (Step::Return(_), Ok(())) = (step, told) {
        seen.cleared += before.marks.iter().zip(log.marks).filter(|(old, new)| **old != *new).count() as u64;
        seen.stayed += u64::from(log.marks.iter().filter(|&&mark| mark == Some(log.events.len())).count() > 1);
    }
    seen.add(step, told);
    let outcome = told.map_or_else(Outcome::from, |()| Outcome::passed());
    pair.tally.cases += 1;
    if answer != linked::packed(outcome) || *stored != expected {
        pair.tally.differ += 1;
        println!("{step:?} of {before:?}: the twin answers {outcome:?} and has {:?}, the library {answer:?} and {:?}", expected.state, stored.state);
        *stored = expected;
    }
}

fn history(pair: &mut Pair, random: &mut Random, seen: &mut Seen) {
    let words = cards::words(random);
    let letters = words.first().map_or(1, |heading| (heading >> 8 & 255).clamp(1, 24)) as usize;
    let (mut stored, odd) = first_value(random, letters);
    let mut log = Log::read(&stored.events, &stored.state);
    seen.histories += 1;
    seen.odd += u64::from(odd);
    for _ in 0..random.between(1, MOST_STEPS) {
        match random_step(random, letters) {
            Step::Judge => {
                let lengths = Lengths::random(random);
                pair.refill(random);
                judge(pair, &words, &log, &stored, lengths);
                seen.judged2 += u64::from(judge2(pair, &words, &log, &stored, lengths));
                seen.add(Step::Judge, Ok(()));
            }
            step => change(pair, step, &mut log, &mut stored, seen),
        }
    }
}

/// So many histories, each of which depends on the seed and its number alone.
pub fn random_histories(pair: &mut Pair, seed: u64, count: u64) -> Seen {
    let mut seen = Seen::default();
    for number in 0..count {
        let mut random = Random::new(seed.wrapping_mul(1_000_037).wrapping_add(number));
        let differ = pair.tally.differ;
        history(pair, &mut random, &mut seen);
        if pair.tally.differ > differ {
            println!("  this was history {number} of a kept log, of seed {seed}");
        }
    }
    seen
}
