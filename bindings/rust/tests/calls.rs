//! Each call on cards of document 01, against what the header and the examples state.

use vinegarspit::*;

/// Card R: any number of a's.
const R: [u32; 8] = [0x10000101, 0x20000000, 0x30000000, 0x50000000, 0x60000000, 0x20000000, 0x30000000, 0x70000000];

/// Card E: only ab.
const E: [u32; 20] = [
    0x10000204, 0x20000000, 0x30000000, 0x60000001, 0x50000001, 0x20000001, 0x30000000, 0x60000002, 0x40000000, 0x50000001, 0x60000003, 0x20000002,
    0x30000000, 0x50000000, 0x20000002, 0x30000000, 0x50000001, 0x20000003, 0x30000000, 0x70000000,
];

fn table() -> Vec<u32> {
    vec![0; TABLE_WORDS]
}

fn memo() -> Vec<u16> {
    vec![0; MEMO_ENTRIES]
}

#[test]
fn checked() {
    let mut lent = table();
    assert_eq!(check(&R, &mut lent).verdict(), Verdict::Passed);
    assert_eq!(&lent[..4], &[1 | 1 << 24, 1 << 24, 0, 1]);
    assert_eq!(check2(&R, &mut vec![0; TABLE2_WORDS]).to_string(), "passed");
    assert_eq!(check(&R[..7], &mut lent).to_string(), "refused 5 7");
    assert_eq!(check(&[], &mut lent).to_string(), "refused 4 0");
    assert_eq!(check(&R, &mut lent[1..]).to_string(), "refused 1 0");
}

#[test]
fn judged() {
    let (mut lent, mut calls) = (table(), memo());
    for (log, told) in [(&[][..], "rejected 1 0"), (&[0, 1], "accepted 3 0"), (&[128, 1], "accepted 3 0"), (&[1, 0], "rejected 4 1"), (&[0, 7], "refused 11 1")] {
        assert_eq!(judge(&E, log, &mut lent, &mut calls).to_string(), told, "{log:?}");
    }
    let answer = judge(&R, &[0], &mut lent, &mut calls);
    assert_eq!((answer.verdict(), answer.number(), answer.place(), answer.count(), answer.far()), (Verdict::Accepted, 0, 0, 2, 1));
    assert_eq!(&calls[..2], &[1, 1]);
    assert_eq!(judge(&R, &[0; LOG_EVENTS + 1], &mut lent, &mut calls).to_string(), "refused 10 0");
    assert_eq!(judge2(&E, &[0, 1], &mut vec![0; TABLE2_WORDS], &mut calls).verdict(), Verdict::Accepted);
    let mut spans = vec![0; SPAN_WORDS];
    assert_eq!(judge_plain(&E, &[0, 1], &mut spans).verdict(), Verdict::Accepted);
    assert_eq!(spans[2] & 1, 1);
    assert_eq!(Answer::from_bits(answer.bits()), answer);
}

#[test]
fn drawn_and_searched() {
    let (mut lent, mut calls) = (table(), memo());
    let mut words = vec![0; MEMO_ENTRIES];
    let (answer, written) = tree(&R, &[0], &mut lent, &mut calls, &mut words);
    assert_eq!((answer.to_string().as_str(), written), ("accepted 2 1", 2));
    assert_eq!(&words[..2], &[8 << 28 | 1 << 16, 8 << 28 | 1 << 16 | 1 << 7 | 1]);
    let mut log = [9; LOG_EVENTS];
    assert_eq!(costliest(&R, 2, &mut log, &mut lent, &mut calls).to_string(), "accepted 3 2");
    assert_eq!(&log[..3], &[0, 0, 9]);
}

#[test]
fn counted_for_clients() {
    let (mut lent, mut calls, mut usage) = (table(), memo(), [0; 4 * CLIENTS]);
    assert_eq!(judge_for(3, 2, 2, &R, &[0], &mut lent, &mut calls, &mut usage).to_string(), "accepted 2 1");
    assert_eq!(judge_for(3, 2, 2, &R, &[0], &mut lent, &mut calls, &mut usage).to_string(), "refused 16 0");
    assert_eq!(judge_for(8, 2, 2, &R, &[0], &mut lent, &mut calls, &mut usage).to_string(), "refused 15 0");
    assert_eq!(&usage[12..16], &[2, 1, 1, 2]);
    assert_eq!(usage_totals(&usage), [2, 1, 1, 2]);
}

#[test]
fn kept() {
    let mut log = KeptLog::default();
    assert_eq!(log.add(0).to_string(), "passed");
    assert_eq!(log.mark(0).to_string(), "passed");
    assert_eq!(log.add(7).to_string(), "passed");
    assert_eq!(log.judge(&R, &mut table(), &mut memo()).to_string(), "refused 11 1");
    assert_eq!(log.judge2(&R, &mut [], &mut memo()).to_string(), "refused 17 0");
    assert_eq!(log.return_to(0).to_string(), "passed");
    assert_eq!(log.judge(&R, &mut table(), &mut memo()).to_string(), "accepted 2 1");
    assert_eq!(log.judge2(&R, &mut vec![0; TABLE2_WORDS], &mut memo()).to_string(), "accepted 2 1");
    assert_eq!(log.return_to(1).to_string(), "refused 20 0");
    assert_eq!(log.mark(8).to_string(), "refused 19 0");
}
