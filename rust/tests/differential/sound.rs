//! Which logs 18 refuses: each clause alone, and the counts around it that it does not ask about.

use super::log::{log_of, update_both};
use mundrefol::plain::{ENTRIES, OUTPUTS};
use mundrefol::{Entry, Log, Noted};

/// What a log is refused for.
const KEPT: &str = "kept not the smaller of 32 and differing";
const DIFFERING: &str = "differing above readings";
const EQUAL_WORDS: &str = "equal words kept";
const ABOVE: &str = "a count above differing";
const BELOW: &str = "the sum below differing";
const NOT_THOSE: &str = "under 33, a count not that of the entries";
const MOST: &str = "readings at the limit";

/// Each clause of 18.
pub const BROKEN: [&str; 7] = [KEPT, DIFFERING, EQUAL_WORDS, ABOVE, BELOW, NOT_THOSE, MOST];

/// The clauses of 18 that a log breaks.
pub fn broken(log: &Log) -> Vec<&'static str> {
    let kept = &log.entries[..ENTRIES.min(log.kept as usize)];
    let sum: u64 = log.outputs.into_iter().map(u64::from).sum();
    let clauses = [
        (KEPT, log.kept != log.differing.min(32)),
        (DIFFERING, log.differing > log.readings),
        (EQUAL_WORDS, kept.iter().any(|entry| entry.expected == entry.seen)),
        (ABOVE, log.outputs.into_iter().any(|count| count > log.differing)),
        (BELOW, sum < log.differing.into()),
        (NOT_THOSE, log.differing < 33 && log.outputs != log_of(kept).outputs),
        (MOST, log.readings == u32::MAX),
    ];
    clauses.into_iter().filter(|(_, breaks)| *breaks).map(|(clause, _)| clause).collect()
}

/// A reading whose words differ in the outputs of a word.
fn reading(outputs: u16) -> Entry {
    Entry { run: 1, change: 2, second: true, expected: 0xa53c, seen: 0xa53c ^ outputs }
}

/// The log of two equal readings, and of one for each word, in whose outputs it differs.
fn noted(outputs: &[u16]) -> Log {
    log_of(&[&[0, 0], outputs].concat().into_iter().map(reading).collect::<Vec<_>>())
}

/// Counts that begin with these, zero otherwise.
fn counts(first: &[u32]) -> [u32; OUTPUTS] {
    let mut counts = [0; OUTPUTS];
    counts[..first.len()].copy_from_slice(first);
    counts
}

/// A log with another entry, which differs in the outputs of a word.
fn with_entry(mut log: Log, at: usize, outputs: u16) -> Log {
    log.entries[at] = reading(outputs);
    log
}

/// Logs with few differences, each with the one clause that it breaks.
fn few_differences() -> Vec<(&'static str, Log)> {
    let few = noted(&[7, 2, 1]);
    let mut reversed = few.outputs;
    reversed.reverse();
    vec![
        (KEPT, Log { kept: 2, outputs: counts(&[1, 2, 1]), ..few }),
        (KEPT, Log { kept: 4, outputs: counts(&[2, 2, 2]), ..with_entry(few, 3, 4) }),
        (DIFFERING, Log { readings: 2, ..few }),
        (DIFFERING, Log { readings: 0, ..few }),
        (EQUAL_WORDS, Log { outputs: counts(&[2, 1, 1]), ..with_entry(few, 1, 0) }),
        (EQUAL_WORDS, Log { outputs: counts(&[1, 2, 1]), ..with_entry(few, 2, 0) }),
        (NOT_THOSE, Log { outputs: counts(&[2, 2]), ..few }),
        (NOT_THOSE, Log { outputs: counts(&[2, 2, 2]), ..few }),
        (NOT_THOSE, Log { outputs: counts(&[1, 2, 2]), ..few }),
        (NOT_THOSE, Log { outputs: counts(&[2, 2, 1, 3]), ..few }),
        (NOT_THOSE, Log { outputs: reversed, ..few }),
        (MOST, Log { readings: u32::MAX, ..few }),
        (MOST, Log { readings: u32::MAX, ..Log::default() }),
    ]
}

/// Logs with 33 differences or more, each with the one clause that it breaks.
fn many_differences() -> Vec<(&'static str, Log)> {
    let most = u32::MAX;
    let many = noted(&[1 << 15 | 1; 33]);
    vec![
        (KEPT, Log { kept: 31, ..many }),
        (KEPT, Log { kept: 33, ..many }),
        (KEPT, Log { kept: most, ..many }),
        (DIFFERING, Log { readings: 32, ..many }),
        (EQUAL_WORDS, with_entry(many, 0, 0)),
        (EQUAL_WORDS, with_entry(many, 31, 0)),
        (ABOVE, Log { outputs: counts(&[34]), ..many }),
        (ABOVE, Log { outputs: counts(&[&[0; 15][..], &[34]].concat()), ..many }),
        (ABOVE, Log { outputs: [most; OUTPUTS], ..many }),
        (BELOW, Log { outputs: counts(&[32]), ..many }),
        (BELOW, Log { outputs: [2; OUTPUTS], ..many }),
        (BELOW, Log { outputs: [0; OUTPUTS], ..many }),
        (BELOW, Log { readings: most - 1, differing: most - 1, ..many }),
        (MOST, Log { readings: most, ..many }),
        (MOST, Log { readings: most, differing: most, outputs: [most; OUTPUTS], ..many }),
    ]
}

/// A log is refused by 18, kind 3, and unchanged, whether the words are equal or not.
#[track_caller]
fn assert_refused(log: Log) {
    for outputs in [0, 1, u16::MAX] {
        let mut lent = log;
        let noted = update_both(&mut lent, reading(outputs));
        assert_eq!(noted, Noted { number: 18, place: 0, kind: 3 });
        assert_eq!(lent, log);
    }
}

/// A log that keeps no more entries counts a reading that differs in one output.
#[track_caller]
fn assert_full(log: Log, output: usize) {
    let mut lent = log;
    let noted = update_both(&mut lent, reading(1 << output));
    assert_eq!(noted, Noted { number: 0, place: 0, kind: 2 });
    let mut counted = Log { readings: log.readings + 1, differing: log.differing + 1, ..log };
    counted.outputs[output] += 1;
    assert_eq!(lent, counted);
}

#[test]
fn refused_updates() {
    let refused = [few_differences(), many_differences()].concat();
    for (clause, log) in &refused {
        assert_eq!(broken(log), [*clause]);
        assert_refused(*log);
    }
    assert!(BROKEN.iter().all(|it| refused.iter().any(|(clause, _)| clause == it)));
}

/// With 32 differences a count that is off by one is refused, with 33 it is taken as it is.
#[test]
fn off_by_one() {
    let outputs: Vec<u16> = (0..33).map(|it| 1 << (it % 16) | 1 << ((it + 5) % 16)).collect();
    let (last, more) = (noted(&outputs[..32]), noted(&outputs));
    for output in 0..OUTPUTS {
        assert_full(last, output);
        assert_full(more, output);
        for off in [-1, 1] {
            let (mut last, mut more) = (last, more);
            last.outputs[output] = last.outputs[output].wrapping_add_signed(off);
            more.outputs[output] = more.outputs[output].wrapping_add_signed(off);
            assert_eq!(broken(&last), [NOT_THOSE]);
            assert_refused(last);
            assert_full(more, output);
        }
    }
}

/// Counts at the limit: their sum needs up to 36 bits, and its low 32 bits mean nothing alone.
#[test]
fn large_sums() {
    let most = u32::MAX - 1;
    let many = Log { readings: most, differing: most, ..noted(&[1; 33]) };
    for first in [&[most][..], &[most, 2], &[1 << 31, 1 << 31], &[most - 5, 5], &[most; OUTPUTS]] {
        let log = Log { outputs: counts(first), ..many };
        (0..OUTPUTS).for_each(|output| assert_full(log, output));
        assert_refused(Log { readings: u32::MAX, ..log });
    }
    let log = Log { outputs: counts(&[most - 5, 4]), ..many };
    assert_eq!(broken(&log), [BELOW]);
    assert_refused(log);
}
