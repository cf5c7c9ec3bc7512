//! The texts that the three programs print, and those that record calls, made from the twin's answers.

use crate::twin::{self, Allowance, Gaps, Grammar, Log, Outcome, Usage, Usages, Verdict, MAX_TOKENS, MAX_WORDS, MEMO_ENTRIES, NO_RULE, NOT_CALLED, FAILED, TABLE_WORDS};
use std::fmt::Write;

/// The columns of a row with two letters of lookahead.
const COLUMNS_OF_TWO: usize = 57;

/// The words of a file, low byte first; none if it is not made of 4-byte words, or of more than so many.
fn words_of(file: &[u8], most: usize) -> Option<Vec<u32>> {
    if file.len() % 4 != 0 || file.len() / 4 > most {
        return None;
    }
    Some(file.chunks_exact(4).map(|word| u32::from_le_bytes([word[0], word[1], word[2], word[3]])).collect())
}

fn refused(outcome: Outcome) -> String {
    format!("refused {} {}\n", outcome.code, outcome.position)
}

/// What the program sheet prints for a card's bytes.
pub fn sheet(card: &[u8]) -> String {
    let Some(words) = words_of(card, MAX_WORDS) else { return "refused 3 0\n".into() };
    let mut table = vec![0u32; TABLE_WORDS];
    let outcome = twin::check(&words, &mut table);
    let (Verdict::Passed, Ok(grammar)) = (outcome.verdict, Grammar::read(&words)) else { return refused(outcome) };
    let (names, letters) = (grammar.nonterminals, grammar.terminals);
    let mut text = format!("names {names} letters {letters} rules {}\n", grammar.rule_count());
    for name in 0..names {
        let (first, follow) = (table[2 * name], table[2 * name + 1]);
        let _ = writeln!(text, "name {name} first {first} {} follow {follow} {}", first.count_ones(), follow.count_ones());
        text.push_str("cells");
        for &cell in &table[2 * names + name * (letters + 1)..][..=letters] {
            let _ = if cell == NO_RULE { write!(text, " -") } else { write!(text, " {cell}") };
        }
        text.push('\n');
    }
    text
}

/// What the program gaps prints for a card's bytes.
pub fn gaps(card: &[u8]) -> String {
    let Some(words) = words_of(card, MAX_WORDS) else { return "refused 3 0\n".into() };
    let gaps = match Gaps::find(&words) {
        Ok(gaps) => gaps,
        Err(refusal) => return refused(refusal.into()),
    };
    let mut text = String::new();
    for (name, column, rules) in gaps.cells {
        let rules = rules.iter().map(|rule| format!(" {rule}")).collect::<String>();
        let _ = writeln!(text, "{name} {column}{}", if rules.is_empty() { " -" } else { &rules });
    }
    for name in gaps.unsettled {
        let _ = writeln!(text, "{name}");
    }
    text
}

/// What the program judge prints for the bytes of a card and of a log.
pub fn judgement(card: &[u8], log: &[u8]) -> String {
    let Some(words) = words_of(card, MAX_WORDS) else { return "refused 3 0\n".into() };
    let (mut table, mut memo) = (vec![0u32; TABLE_WORDS], vec![0u16; MEMO_ENTRIES]);
    let outcome = twin::judge(&words, &log[..log.len().min(MAX_TOKENS + 1)], &mut table, &mut memo);
    let verdict = match outcome.verdict {
        Verdict::Accepted => "accepted",
        Verdict::Rejected => "rejected",
        _ => return refused(outcome),
    };
    let places = log.len() + 1;
    format!("{verdict} {} {}\n", outcome.count, outcome.farthest) + &calls_in(&memo[..names_of(&words) * places], places)
}

/// A line for each call that a memo table for so many places tells.
fn calls_in(memo: &[u16], places: usize) -> String {
    let mut text = String::new();
    for (entry, &end) in memo.iter().enumerate() {
        let (name, place) = (entry / places, entry % places);
        let _ = match end {
            NOT_CALLED => Ok(()),
            FAILED => writeln!(text, "{name} {place} -"),
            _ => writeln!(text, "{name} {place} {end}"),
        };
    }
    text
}

/// Every byte of the memory that a recorded call is lent.
const FILL: u8 = 0xa5;

/// A memory that changed, up to the last element that did.
fn changed<T: Copy + PartialEq + std::fmt::Display>(name: &str, memory: &[T], fill: T) -> String {
    let used = memory.iter().rposition(|&element| element != fill).map_or(0, |last| last + 1);
    if used == 0 {
        return String::new();
    }
    memory[..used].iter().fold(format!("/{name}"), |text, element| format!("{text} {element}"))
}

fn verdict(outcome: Outcome) -> &'static str {
    match outcome.verdict {
        Verdict::Refused => "refused",
        Verdict::Passed => "passed",
        Verdict::Rejected => "rejected",
        Verdict::Accepted => "accepted",
    }
}

/// All that an answer tells.
pub fn answered(outcome: Outcome) -> String {
    format!("{} {} {} {} {}", verdict(outcome), outcome.code, outcome.position, outcome.count, outcome.farthest)
}

/// What the plain judge answers, all of it, and the words that it writes for the spans, where so many are lent.
pub fn plain(card: &[u8], log: &[u8], lent: usize) -> String {
    let words = words_of(card, usize::MAX).expect("words");
    let fill = u32::from_le_bytes([FILL; 4]);
    let mut spans = vec![fill; lent];
    let outcome = twin::judge_plain(&words, log, &mut spans);
    let written = changed("", &spans, fill);
    answered(outcome) + " | " + if written.is_empty() { "-" } else { &written["/ ".len()..] }
}

/// What searching the costliest log answers, all of it, and the log, where so much is lent.
pub fn costliest(card: &[u8], length: usize, lent: [usize; 3]) -> String {
    let words = words_of(card, usize::MAX).expect("words");
    let (mut table, mut memo, mut log) = (vec![0; lent[0]], vec![0; lent[1]], vec![FILL; lent[2]]);
    let outcome = twin::costliest(&words, length, &mut log, &mut table, &mut memo);
    let written = if outcome.verdict == Verdict::Refused { 0 } else { length };
    let told: String = log[..written].iter().map(|event| format!("{event:02x}")).collect();
    let behind = if log[written..].iter().any(|&byte| byte != FILL) { " and bytes behind it" } else { "" };
    answered(outcome) + " | " + if told.is_empty() { "-" } else { &told } + behind
}

/// The nonterminals that the heading of a grammar's words tells.
fn names_of(words: &[u32]) -> usize {
    (words[0] & 0xff) as usize
}

/// What a table for two letters of lookahead holds: for each nonterminal both sets, and column and rule of each entry that has one. Words behind
/// it have to be as they were.
fn wide_table(words: &[u32], table: &[u64], fill: u64) -> String {
    let names = names_of(words);
    let (sets, rest) = table.split_at(2 * names);
    let (rows, behind) = rest.split_at(names * COLUMNS_OF_TWO);
    let rows = rows.chunks_exact(COLUMNS_OF_TWO).zip(sets.chunks_exact(2)).map(|(row, sets)| {
        let claimed = row.iter().enumerate().filter(|(_, &entry)| entry != NO_RULE.into());
        claimed.fold(format!("{} {}", sets[0], sets[1]), |text, (column, entry)| format!("{text} {column}:{entry}"))
    });
    rows.collect::<Vec<_>>().join("/") + if behind.iter().any(|&word| word != fill) { " and words behind it" } else { "" }
}

/// What a check with two letters of lookahead answers, all of it, and what it leaves in so many lent words.
pub fn check2(card: &[u8], lent: usize) -> String {
    let words = words_of(card, usize::MAX).expect("words");
    let fill = u64::from_le_bytes([FILL; 8]);
    let mut table = vec![fill; lent];
    let outcome = twin::check2(&words, &mut table);
    let told = match outcome.verdict {
        Verdict::Refused => changed("table", &table, fill) + "-",
        _ => wide_table(&words, &table, fill),
    };
    answered(outcome) + " | " + &told
}

/// What judging with two letters of lookahead answers, all of it, and the called pairs; the table has to be that of a check, and entries behind
/// those of the log as they were.
pub fn judge2(card: &[u8], log: &[u8], lent: [usize; 2]) -> String {
    let words = words_of(card, usize::MAX).expect("words");
    let (word, entry) = (u64::from_le_bytes([FILL; 8]), u16::from_le_bytes([FILL; 2]));
    let (mut table, mut memo) = (vec![word; lent[0]], vec![entry; lent[1]]);
    let outcome = twin::judge2(&words, log, &mut table, &mut memo);
    if outcome.verdict == Verdict::Refused {
        return answered(outcome) + " | " + &changed("table", &table, word) + &changed("memo", &memo, entry) + "-";
    }
    let mut checked = vec![word; lent[0]];
    twin::check2(&words, &mut checked);
    let (pairs, behind) = memo.split_at(names_of(&words) * (log.len() + 1));
    let other = checked != table || behind.iter().any(|&rest| rest != entry);
    answered(outcome) + " | " + calls_in(pairs, log.len() + 1).trim_end().replace('\n', "/").as_str() + if other { " and other memory" } else { "" }
}

/// A record as rows of usage.txt write it.
fn record_of(text: &str) -> Usages {
    let mut usages = Usages::default();
    for part in text.split(' ').filter(|_| text != "empty") {
        let (client, counters) = part.split_once('=').expect("a client and its counters");
        let counters: Vec<u32> = counters.split(',').map(|counter| counter.parse().expect("a counter")).collect();
        usages[client.parse::<usize>().expect("a client")] = Usage::of(counters.try_into().expect("four counters"));
    }
    usages
}

fn record_text(usages: &Usages) -> String {
    let told = usages.iter().enumerate().filter(|(_, &usage)| usage != Usage::default());
    let told: Vec<String> = told.map(|(client, usage)| format!("{client}={}", usage.counters().map(|counter| counter.to_string()).join(","))).collect();
    if told.is_empty() { "empty".into() } else { told.join(" ") }
}

/// What is told of a call for a client in a history, with the record that it leaves, which goes to the next row.
pub fn usage(kept: &mut Usages, before: &str, allowance: &str, card: &[u8], log: &[u8], rooms: &str) -> String {
    let numbers = |text: &str| text.split(' ').map(|number| number.parse().expect("a number")).collect::<Vec<u32>>();
    let (words, lent, called) = (words_of(card, usize::MAX).expect("words"), numbers(rooms), numbers(allowance));
    let (mut table, mut memo) = (vec![0; lent[0] as usize], vec![0; lent[1] as usize]);
    let usages = if before == "-" { *kept } else { record_of(before) };
    let allowance = Allowance { client: called[0], share: called[1], limit: called[2] };
    let (outcome, next) = twin::judge_for(allowance, &words, log, &mut table, &mut memo, &usages);
    *kept = next;
    let told = format!("{} {} {} {} {}", verdict(outcome), outcome.code, outcome.position, outcome.count, outcome.farthest);
    format!("{told} | {} | {}", record_text(&next), twin::totals(&next).map(|sum| sum.to_string()).join(" "))
}

/// What a recorded call answers, and what it leaves in the memory that is lent to it and in the record; the numbers are, in the order of the
/// call's parameters, client, share and limit, the sizes of the memories, and the record.
pub fn call(name: &str, numbers: &[usize], card: &[u8], log: &[u8]) -> String {
    let words = words_of(card, usize::MAX).expect("words");
    let (word, entry) = (u32::from_le_bytes([FILL; 4]), u16::from_le_bytes([FILL; 2]));
    let (allowance, numbers) = numbers.split_at(if name == "judge_for" { 3 } else { 0 });
    let given = |at: usize| numbers.get(at).copied().unwrap_or(0);
    let (mut table, mut memo) = (vec![word; given(0)], vec![entry; given(1)]);
    let mut record = String::new();
    let outcome = match name {
        "check" => twin::check(&words, &mut table),
        "judge" => twin::judge(&words, log, &mut table, &mut memo),
        "judge_for" => {
            let [client, share, limit] = [0, 1, 2].map(|at| allowance[at] as u32);
            let usages: Usages = std::array::from_fn(|client| Usage::of(std::array::from_fn(|at| given(2 + 4 * client + at) as u32)));
            let (outcome, next) = twin::judge_for(Allowance { client, share, limit }, &words, log, &mut table, &mut memo, &usages);
            record = next.iter().flat_map(|usage| usage.counters()).fold("/usage".into(), |text, counter| format!("{text} {counter}"));
            outcome
        }
        _ => panic!("no call {name}"),
    };
    let numbers = match outcome.verdict {
        Verdict::Refused => format!(" {} {}", outcome.code, outcome.position),
        Verdict::Passed => String::new(),
        Verdict::Rejected | Verdict::Accepted => format!(" {} {}", outcome.count, outcome.farthest),
    };
    let answer = verdict(outcome).to_string() + &numbers;
    answer + &changed("table", &table, word) + &changed("memo", &memo, entry) + &record
}

/// What is told of a step of a kept log: aXX adds an event, aXX*5 five times, m3 marks, r3 returns, j judges.
pub fn kept_step(words: &[u32], log: &mut Log, step: &str) -> String {
    let (kind, of) = step.split_at(1);
    if kind == "j" {
        let outcome = log.judge(words, &mut vec![0; TABLE_WORDS], &mut vec![0; MEMO_ENTRIES]);
        let numbers = match outcome.verdict {
            Verdict::Refused => (outcome.code.into(), outcome.position),
            _ => (outcome.count, outcome.farthest),
        };
        return format!("{}:{}:{}", verdict(outcome), numbers.0, numbers.1);
    }
    let (of, times) = of.split_once('*').map_or((of, 1), |(of, times)| (of, times.parse().expect("a number")));
    let mut runs: Vec<(u8, usize)> = Vec::new();
    for _ in 0..times {
        let told = match kind {
            "a" => log.add(u8::from_str_radix(of, 16).expect("an event")),
            "m" => log.mark(of.parse().expect("a mark")),
            _ => log.return_to(of.parse().expect("a mark")),
        };
        let code = told.map_or_else(|refusal| refusal.0, |()| 0);
        match runs.last_mut() {
            Some(run) if run.0 == code => run.1 += 1,
            _ => runs.push((code, 1)),
        }
    }
    let told = runs.iter().map(|&(code, length)| if length == 1 { code.to_string() } else { format!("{code}*{length}") });
    told.collect::<Vec<_>>().join(",")
}
