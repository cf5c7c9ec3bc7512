//! Runs the twin over the recorded rows of tests/vectors and tells where its texts differ.

use compare::{text, twin};
use std::{fs, path::{Path, PathBuf}, process::ExitCode};

fn bytes_of(field: &str) -> Vec<u8> {
    let digits = if matches!(field, "-" | "no file") { "" } else { field };
    (0..digits.len() / 2).map(|i| u8::from_str_radix(&digits[2 * i..2 * i + 2], 16).expect("hex digits")).collect()
}

fn sizes(field: &str) -> Vec<usize> {
    field.split(' ').map(|size| size.parse().expect("a size")).collect()
}

fn recorded_call(call: &str, card: &str, log: &str) -> String {
    let (name, numbers) = call.split_once(' ').expect("a call and sizes");
    text::call(name, &sizes(numbers), &bytes_of(card), &bytes_of(log))
}

/// The words of the tree, or the answer where it is another one.
fn recorded_tree(card: &str, log: &str, rooms: &str, verdict: &str) -> String {
    let rooms = sizes(rooms);
    let words: Vec<u32> = bytes_of(card).chunks_exact(4).map(|bytes| u32::from_le_bytes(bytes.try_into().expect("four bytes"))).collect();
    let (mut table, mut memo, mut tree) = (vec![0; rooms[0]], vec![0; rooms[1]], vec![0; rooms[2]]);
    let (outcome, written) = twin::judge_tree(&words, &bytes_of(log), &mut table, &mut memo, &mut tree);
    let answer = text::answered(outcome);
    if answer != verdict {
        return answer;
    }
    let told: Vec<String> = tree[..written as usize].iter().map(|word| format!("{word:08x}")).collect();
    if told.is_empty() { "-".into() } else { told.join(" ") }
}

/// What is told of a history of a kept log, the log that it leaves and its marks.
fn recorded_history(card: &str, history: &str) -> String {
    let words: Vec<u32> = bytes_of(card).chunks_exact(4).map(|bytes| u32::from_le_bytes(bytes.try_into().expect("four bytes"))).collect();
    let mut log = twin::Log::default();
    let answers: Vec<String> = history.split(' ').map(|step| text::kept_step(&words, &mut log, step)).collect();
    let left = match log.events.len() {
        0 => "-".into(),
        length @ 100.. => length.to_string(),
        _ => log.events.iter().map(|event| format!("{event:02x}")).collect::<String>(),
    };
    let marks = log.marks.map(|mark| mark.map_or("-".into(), |length| length.to_string()));
    format!("{} | {left} | {}", answers.join(" "), marks.join(" "))
}

/// The files of rows, by name; those of request P1 begin with p01_, and so on.
fn files() -> Vec<PathBuf> {
    let folder = Path::new(env!("CARGO_MANIFEST_DIR")).join("../tests/vectors");
    let mut found: Vec<PathBuf> = fs::read_dir(folder).expect("the recorded rows").map(|file| file.expect("a file").path()).collect();
    found.sort();
    found
}

fn main() -> ExitCode {
    let mut all_agree = true;
    for path in files() {
        let name = path.file_stem().and_then(|stem| stem.to_str()).expect("a name");
        let kind = name.rsplit('_').next().expect("a part");
        let rows = fs::read_to_string(&path).expect("the recorded rows");
        let (mut run, mut wrong) = (0, 0);
        let mut record = twin::Usages::default();
        for (number, row) in rows.lines().enumerate() {
            if row.trim().is_empty() || row.starts_with('#') {
                continue;
            }
            let fields: Vec<&str> = row.split('|').map(str::trim).collect();
            let told = match kind {
                "plain" | "check2" | "judge2" | "costly" => 2,
                "usage" | "kept" => 3,
                _ => 1,
            };
            let (given, expected) = fields.split_at(fields.len().saturating_sub(told));
            let expected = expected.join(" | ");
            let printed = match (kind, given) {
                ("sheet", [card]) => text::sheet(&bytes_of(card)),
                ("gaps", [card]) => text::gaps(&bytes_of(card)),
                ("judge", [card, log]) => text::judgement(&bytes_of(card), &bytes_of(log)),
                ("calls", [call, card]) => recorded_call(call, card, "-"),
                ("calls", [call, card, log]) => recorded_call(call, card, log),
                ("plain", [card, log, lent]) => text::plain(&bytes_of(card), &bytes_of(log), lent.parse().expect("a size")),
                ("check2", [card, lent]) => text::check2(&bytes_of(card), sizes(lent)[0]),
                ("judge2", [card, log, lent]) => text::judge2(&bytes_of(card), &bytes_of(log), sizes(lent).try_into().expect("two sizes")),
                ("usage", [_, before, allowance, card, log, rooms]) => text::usage(&mut record, before, allowance, &bytes_of(card), &bytes_of(log), rooms),
                ("costly", [card, length, rooms]) => text::costliest(&bytes_of(card), sizes(length)[0], sizes(rooms).try_into().expect("three sizes")),
                ("tree", [card, log, rooms, verdict]) => recorded_tree(card, log, rooms, verdict),
                ("kept", [card, history]) => recorded_history(card, history),
                _ => panic!("{name}.txt:{}: not a row", number + 1),
            };
            let printed = printed.trim_end().replace('\n', "/");
            run += 1;
            if printed != expected {
                wrong += 1;
                println!("{name}.txt:{}: expected {expected}, printed {printed}", number + 1);
            }
        }
        println!("{name}: {run} rows, {wrong} differ");
        all_agree &= wrong == 0;
    }
    if all_agree { ExitCode::SUCCESS } else { ExitCode::FAILURE }
}
