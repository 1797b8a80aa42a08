//! A table job done by both implementations on the same lent buffers, every element of them compared.

use super::assert_same;
use super::lent::{couples, junk_bytes, junk_words, length, lent_ranks};
use mundrefol::generate::{Random, Table};
use mundrefol::plain::{Expected, RunTo, Write, EVERY_SETTING, NO_SETTING, STATES};
use mundrefol::{Answer, Frame};

/// How an answer compares with that of a frame with every setting used and every start allowed.
pub const SAME: &str = "as with all settings and starts";
pub const RULED_OUT: &str = "for what is ruled out";
pub const RULED_OUT_LATER: &str = "for what is ruled out, in a change";
pub const NOT_ALLOWED: &str = "for starts not allowed";
pub const BOTH: &str = "for each start ruled out or not allowed";

/// The number of an answer, and how it compares.
pub type Met = (usize, &'static str);

/// An answer as it is met; the bytes that 16 asks for are not looked at.
pub fn compared(answer: Answer, frame: Frame, mut job: impl FnMut(Frame) -> Answer) -> Met {
    let allowed = Frame { starts: EVERY_SETTING, ..frame };
    let used = Frame { never: NO_SETTING, ..frame };
    let same = answer == job(Frame { starts: EVERY_SETTING, ..used }) || answer.number == 16;
    let later = answer.number == 17 && answer.place > 0;
    let why = if same {
        SAME
    } else if later {
        RULED_OUT_LATER
    } else if answer == job(allowed) {
        RULED_OUT
    } else if answer.number == 13 && answer != job(used) {
        BOTH
    } else {
        NOT_ALLOWED
    };
    (answer.number, why)
}

/// Answers that do not depend on the two sets, then those that do on each, and one more.
pub fn answers(same: &[usize], of_the_sets: &[usize], more: Met) -> Vec<Met> {
    let same = same.iter().map(|&number| (number, SAME));
    let of_the_sets = of_the_sets.iter();
    let each = of_the_sets.flat_map(|&number| [(number, RULED_OUT), (number, NOT_ALLOWED)]);
    same.chain(each).chain([more]).collect()
}

/// Some couple: mostly one of the table, or of its initial state; now and then beyond the last.
fn some_couple(random: &mut Random, table: &Table) -> usize {
    let Frame { states, initial, .. } = table.frame;
    let couples = couples(table);
    let settings = couples / states.clamp(1, STATES);
    match random.below(20) {
        0 => couples + random.below(3),
        1 => usize::MAX - random.below(2),
        2..=9 => initial.wrapping_mul(settings) | random.below(settings.max(1)),
        _ => random.below(couples.max(1)),
    }
}

/// The run to some couple by both: how the answer compares, and what is then in the run's buffer.
pub fn run_to(random: &mut Random, lent: &Table, [library, plain]: [RunTo; 2]) -> (Met, Vec<u8>) {
    let Table { frame, ref moves } = *lent;
    let couple = some_couple(random, lent);
    let job = |frame, ranks: &mut [u16], run: &mut [u8]| plain(frame, moves, ranks, couple, run);
    let by = |ranks: &mut [u16], run: &mut [u8]| library(frame, moves, ranks, couple, run);
    write_both(random, lent, by, job)
}

/// The plan or the list by both: how the answer compares, and what is then in its buffer.
pub fn write(random: &mut Random, lent: &Table, [library, plain]: [Write; 2]) -> (Met, Vec<u8>) {
    let Table { frame, ref moves } = *lent;
    let job = |frame, ranks: &mut [u16], bytes: &mut [u8]| plain(frame, moves, ranks, bytes);
    let by = |ranks: &mut [u16], bytes: &mut [u8]| library(frame, moves, ranks, bytes);
    write_both(random, lent, by, job)
}

/// A job that fills ranks and writes bytes, by both; the buffers may be short or long.
fn write_both(
    random: &mut Random,
    lent: &Table,
    library: impl Fn(&mut [u16], &mut [u8]) -> Answer,
    plain: impl Fn(Frame, &mut [u16], &mut [u8]) -> Answer,
) -> (Met, Vec<u8>) {
    let mut ranks = lent_ranks(random, lent);
    let mut plain_ranks = ranks.clone();
    let needed = plain(lent.frame, &mut ranks.clone(), &mut []).place;
    let bytes_length = length(random, needed);
    let mut bytes = junk_bytes(random, bytes_length);
    let mut plain_bytes = bytes.clone();
    let answer = library(&mut ranks, &mut bytes);
    assert_eq!(answer, plain(lent.frame, &mut plain_ranks, &mut plain_bytes));
    assert_same("ranks", &ranks, &plain_ranks);
    assert_same("bytes", &bytes, &plain_bytes);
    let met =
        compared(answer, lent.frame, |frame| plain(frame, &mut plain_ranks, &mut plain_bytes));
    bytes.truncate(if answer.number == 0 { answer.place } else { 0 });
    (met, bytes)
}

/// The readings expected on a run by both.
pub fn expected(
    random: &mut Random,
    lent: &Table,
    run: &[u8],
    [library, plain]: [Expected; 2],
) -> Met {
    let Table { frame, ref moves } = *lent;
    let words_length = length(random, frame.states.min(STATES));
    let words = junk_words(random, words_length);
    let readings_length = length(random, (2 * run.len()).saturating_sub(1));
    let mut readings = junk_words(random, readings_length);
    let mut plain_readings = readings.clone();
    let answer = library(frame, moves, &words, run, &mut readings);
    assert_eq!(answer, plain(frame, moves, &words, run, &mut plain_readings));
    assert_same("readings", &readings, &plain_readings);
    compared(answer, frame, |frame| plain(frame, moves, &words, run, &mut readings))
}

/// The whole plan or list of a table, from a buffer that is one byte short and one that is not: its bytes.
pub fn write_whole(table: &Table, [library, plain]: [Write; 2]) -> Vec<u8> {
    let Table { frame, ref moves } = *table;
    let (mut ranks, mut plain_ranks) = (vec![0; moves.len()], vec![1; moves.len()]);
    let needed = plain(frame, moves, &mut plain_ranks, &mut []).place;
    let (mut bytes, mut plain_bytes) = (vec![0; needed], vec![1; needed]);
    let short = library(frame, moves, &mut ranks, &mut bytes[1..]);
    assert_eq!(short, Answer::refused(16, needed));
    assert_same("ranks", &ranks, &plain_ranks);
    assert_same("bytes", &bytes, &vec![0; needed]);
    let answer = library(frame, moves, &mut ranks, &mut bytes);
    assert_eq!(answer, plain(frame, moves, &mut plain_ranks, &mut plain_bytes));
    assert_same("ranks", &ranks, &plain_ranks);
    assert_same("bytes", &bytes, &plain_bytes);
    bytes
}
