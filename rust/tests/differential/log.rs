//! The bench log: seeded logs, and histories from a fresh one.

use super::cases::try_cases;
use super::sound::{broken, BROKEN};
use mundrefol::generate::{any_log, any_reading};
use mundrefol::plain::{outputs_of, ENTRIES, OUTPUTS};
use mundrefol::{plain, Entry, Log, Noted};

const UPDATE: usize = 16_000;
const HISTORY: usize = 1_000;

/// How often each answer is met at least.
const OFTEN: usize = 10;

/// What a log that is not refused holds.
const ROOM: &str = "room for an entry";
const LAST: &str = "32 differences";
const NEXT: &str = "33 differences";
const MORE: &str = "more";
const FEWER: &str = "more, a count below that of the entries";
const WIDE: &str = "more, above the low 32 bits of the sum";
const TOP: &str = "more, a count at a limit of 2^31 or more";

/// What a log is refused for, if not for one clause of 18 alone.
const SEVERAL: &str = "several";

/// Every kind of answer, with what the log was before.
fn answers() -> Vec<(usize, &'static str)> {
    let room = [(0, ROOM), (1, ROOM)];
    let full = [LAST, NEXT, MORE, FEWER, WIDE, TOP].map(|held| [(0, held), (2, held)]).concat();
    let refused = BROKEN.map(|clause| (3, clause));
    [&room[..], &full, &refused, &[(3, SEVERAL)]].concat()
}

/// What a log holds, or which clause of 18 it breaks.
fn what(log: &Log) -> &'static str {
    match broken(log)[..] {
        [] => held(log),
        [clause] => clause,
        _ => SEVERAL,
    }
}

fn held(log: &Log) -> &'static str {
    let low_bits = log.outputs.into_iter().fold(0, u32::wrapping_add);
    let counts = outputs_of(&log.entries[..log.kept as usize]);
    match log.differing {
        ..=31 => ROOM,
        32 => LAST,
        33 => NEXT,
        _ if low_bits < log.differing => WIDE,
        _ if log.differing >= 1 << 31 && log.outputs.contains(&log.differing) => TOP,
        _ if (0..OUTPUTS).any(|output| log.outputs[output] < counts[output]) => FEWER,
        _ => MORE,
    }
}

/// Notes a reading by both, which leave the same log.
pub fn update_both(log: &mut Log, reading: Entry) -> Noted {
    let mut plain_log = *log;
    let noted = mundrefol::update(log, reading);
    let plain = plain::update(&mut plain_log, reading);
    assert_eq!(noted, plain);
    assert_eq!(*log, plain_log);
    noted
}

#[test]
fn update() {
    let met = try_cases("update", UPDATE, &answers(), |random| {
        let mut log = any_log(random);
        let before = log;
        let noted = update_both(&mut log, any_reading(random));
        let refused = noted.kind == 3;
        assert_eq!(refused, !broken(&before).is_empty());
        assert_eq!((noted.number, noted.place), (if refused { 18 } else { 0 }, 0));
        assert_eq!(log == before, refused);
        (noted.kind, what(&before))
    });
    assert!(met.values().all(|&times| times >= OFTEN));
}

/// The log of these readings: every count, and each entry, from the readings themselves.
pub fn log_of(readings: &[Entry]) -> Log {
    let differs = |reading: &&Entry| reading.expected != reading.seen;
    let differing = readings.iter().filter(differs).count();
    let mut log = Log {
        readings: readings.len() as u32,
        differing: differing as u32,
        kept: differing.min(ENTRIES) as u32,
        ..Log::default()
    };
    for (entry, reading) in log.entries.iter_mut().zip(readings.iter().filter(differs)) {
        *entry = *reading;
    }
    for (output, count) in log.outputs.iter_mut().enumerate() {
        let shows = |word: u16| word / (1 << output) % 2;
        let differs = |it: &&Entry| shows(it.expected) != shows(it.seen);
        *count = readings.iter().filter(differs).count() as u32;
    }
    log
}

/// From a fresh log: after each update, the log of all readings so far.
#[test]
fn history() {
    try_cases("history", HISTORY, &[false, true], |random| {
        let mut log = Log::default();
        let mut readings = Vec::new();
        for _ in 0..random.between(1, 120) {
            let reading = any_reading(random);
            readings.push(reading);
            update_both(&mut log, reading);
            assert_eq!(log, log_of(&readings));
        }
        log.differing as usize > ENTRIES
    });
}

/// More differences than are kept, all in the same outputs, and an equal reading after each.
#[test]
fn same_outputs() {
    for outputs in [1, 1 << 15, 1 << 15 | 1, u16::MAX] {
        let mut log = Log::default();
        let mut readings = Vec::new();
        for change in 1..=45 {
            for (second, seen) in [(false, 0x5aa5 ^ outputs), (true, 0x5aa5)] {
                let reading = Entry { run: 9, change, second, expected: 0x5aa5, seen };
                readings.push(reading);
                update_both(&mut log, reading);
                assert_eq!(log, log_of(&readings));
            }
        }
        let counts = [45, 0].map(|times| log.outputs.iter().filter(|&&it| it == times).count());
        assert_eq!(counts, [outputs.count_ones(), outputs.count_zeros()].map(|it| it as usize));
        assert_eq!((log.readings, log.differing, log.kept), (90, 45, 32));
    }
}
