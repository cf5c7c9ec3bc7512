//! Makes the calls of the benchmark's rows: by the clock, or for callgrind to count their instructions.
//!
//!     benchmark [PART]                      the median time of each call, in nanoseconds
//!     benchmark --counted [PART]            each call a few times inside `counted`, after which callgrind is told to write what it counted
//!     benchmark --counted-growth [PART]     the same of the rows whose size grows
//!     benchmark --counted-behind [PART]     the same of the rows in which the library takes far more than the twin
//!
//! Only rows with PART in their name. A line for each row: what, size, answer, then a number for each call; tabs stand between. For callgrind that is
//! how often the call was made.

#[path = "../linked.rs"]
#[allow(dead_code)]
mod linked;
#[path = "../rows.rs"]
mod rows;

use rows::Call;
use std::{hint::black_box, time::Instant};

/// How many batches of each kind are timed; odd numbers, so that one of them is the median.
const ROUNDS: usize = 61;
/// And of calls that may take long.
const FEW_ROUNDS: usize = 5;
/// About how long a batch lasts, in nanoseconds.
const BATCH: f64 = 1_000_000.0;

/// The nanoseconds that one call takes, on average over a batch.
fn batch(times: usize, call: &mut Call) -> f64 {
    let start = Instant::now();
    for _ in 0..times {
        black_box(call());
    }
    start.elapsed().as_nanos() as f64 / times as f64
}

/// How many calls make a batch.
fn batch_size(call: &mut Call) -> usize {
    batch(3, call);
    (BATCH / batch(10, call)).clamp(1.0, 100_000.0) as usize
}

/// The median time of each call, in nanoseconds; batches of the calls take turns.
fn medians(calls: &mut [Call], long: bool) -> Vec<f64> {
    let sizes: Vec<usize> = calls.iter_mut().map(|call| if long { 1 } else { batch_size(call) }).collect();
    let mut times = vec![Vec::new(); calls.len()];
    for _ in 0..if long { FEW_ROUNDS } else { ROUNDS } {
        for (at, call) in calls.iter_mut().enumerate() {
            times[at].push(batch(sizes[at], call));
        }
    }
    times
        .iter_mut()
        .map(|times| {
            times.sort_by(f64::total_cmp);
            times[times.len() / 2]
        })
        .collect()
}

/// Callgrind counts inside it and writes what it counted when it ends.
#[no_mangle]
#[inline(never)]
fn counted(call: &mut Call, times: usize) {
    for _ in 0..times {
        black_box(call());
    }
}

/// How often each call was made.
fn count(calls: &mut [Call], long: bool) -> Vec<f64> {
    let times = if long { 1 } else { 4 };
    for call in calls.iter_mut() {
        counted(call, times);
    }
    vec![times as f64; calls.len()]
}

fn main() {
    let arguments: Vec<String> = std::env::args().skip(1).collect();
    let flag = arguments.first().filter(|first| first.starts_with("--")).map_or("", String::as_str);
    let part = arguments.get(usize::from(!flag.is_empty())).map_or("", String::as_str);
    let rows = match flag {
        "--counted-growth" => rows::growth(),
        "--counted-behind" => rows::behind(),
        _ => rows::benchmark(),
    };
    for row in rows.into_iter().filter(|row| format!("{}, {}", row.what, row.size).contains(part)) {
        let mut made = (row.make)();
        let numbers = if flag.is_empty() { medians(&mut made.calls, row.long) } else { count(&mut made.calls, row.long) };
        let numbers: Vec<String> = numbers.iter().map(|number| format!("{number:.1}")).collect();
        println!("{}\t{}\t{}\t{}", row.what, row.size, made.answer, numbers.join("\t"));
    }
}
