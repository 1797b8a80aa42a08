//! Settings never used: what reading answers of kind 5, what the table jobs make of it, and what
//! changes nothing.

mod cases;
mod made;

use cases::try_cases;
use made::{made, marked, one_state, Made, SETS};
use mundrefol::examples::{cutter, cutter_alarm, gate, lamp};
use mundrefol::file::File;
use mundrefol::generate::settled_file;
use mundrefol::plain::{NO_SETTING, UNMARKED};
use mundrefol::{Answer, Frame};

/// The bits below 2^inputs are those of the settings at which the condition holds; no other is set.
#[test]
fn the_set_of_a_condition() {
    let all_starts = |inputs| one_state(inputs).starts("1");
    assert_eq!(made(&all_starts(8)).contents.frame.never, NO_SETTING);
    for (inputs, text, set) in SETS {
        assert_eq!(made(&all_starts(inputs).never(text)).contents.frame.never, set, "{text}");
    }
    for file in [all_starts(2).never("1"), all_starts(2).never("c"), lamp().never("!a")] {
        assert_eq!(made(&file).contents.frame, Frame::default());
    }
}

/// The lamp that is never switched on: one couple is marked, and 17 names the first setting ruled out.
#[test]
fn lamp_without_a() {
    let Made { contents, table, words, answers, ranks, plan } = made(&lamp().never("a"));
    assert_eq!(table[..4], [0, 1, 0, 1]);
    assert_eq!(answers, [Answer::done(0), Answer::done(3)]);
    assert_eq!(ranks[..5], [0, UNMARKED, UNMARKED, UNMARKED, 7]);
    assert_eq!(plan[..4], [1, 0, 0, 7]);
    let expected = |frame, run: &[u8]| {
        let mut readings = [9; 10];
        mundrefol::expected(frame, &table, &words, run, &mut readings)
    };
    let ruled_out = |first| {
        let mut frame = contents.frame;
        frame.never[0] = first;
        frame
    };
    assert_eq!(expected(contents.frame, &[0]), Answer::done(1));
    assert_eq!(expected(contents.frame, &[0, 1, 0]), Answer::refused(17, 1));
    assert_eq!(expected(contents.frame, &[0, 0, 1]), Answer::refused(17, 1));
    assert_eq!(expected(ruled_out(0), &[0, 1, 0]), Answer::done(5));
    assert_eq!(expected(ruled_out(1), &[0, 1, 0]), Answer::refused(17, 0));
    assert_eq!(expected(ruled_out(!3), &[0, 1, 0]), Answer::done(5));
}

/// The gate whose o and c never close together: the nine marked couples with both closed are lost.
#[test]
fn gate_without_both_ends() {
    let (mut left, after) = (marked(&gate()), marked(&gate().never("c.d")));
    left.retain(|couple| couple % 16 < 12);
    assert_eq!((left.len(), after), (31, left));
}

/// The cutter loses the couples with both contacts closed, and no other; its alarm loses all.
#[test]
fn cutters() {
    let without = |file: File| marked(&File { never: None, ..file });
    let apart = |couples: Vec<usize>| Vec::from_iter(couples.into_iter().filter(|it| it % 8 < 6));
    assert_eq!(without(cutter()).len(), 32);
    assert_eq!(marked(&cutter()), apart(without(cutter())));
    let of_alarm = |couples: Vec<usize>| couples.iter().filter(|&&couple| couple / 8 == 4).count();
    assert_eq!(of_alarm(without(cutter_alarm())), 8);
    assert_eq!(of_alarm(marked(&cutter_alarm())), 0);
}

/// Kind 5 `0` changes nothing: contents, table, words, ranks and plan; nor does any condition change
/// the table and words of a file that reads with it.
#[test]
fn a_condition_that_never_holds() {
    try_cases("kind 5 `0`", 1_500, &[false, true], |random| {
        let file = settled_file(random);
        let bare = made(&File { never: None, ..file.clone() });
        assert_eq!(made(&file.clone().never("0")), bare);
        let with = made(&file);
        let read = with.contents.answer.number == 0;
        if read {
            assert_eq!((with.table, with.words), (bare.table, bare.words));
        }
        read
    });
}
