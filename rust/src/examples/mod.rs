//! The specification files of the folder `examples/`, as readable descriptions.

mod rests;

pub use rests::table_3;

use crate::file::{with_contents, File, Leaving, State};
use crate::generate::{nested, padded, sum_of_products, Product};
use crate::plain::{INPUTS, PARENTHESES, SEQ1, STATES, TEXT};

/// An example: its name in the folder, and its bytes.
pub struct Example {
    pub name: &'static str,
    pub bytes: Vec<u8>,
}

fn example(name: &'static str, bytes: Vec<u8>) -> Example {
    Example { name, bytes }
}

/// Every example of the folder, in the order of their names.
pub fn all() -> Vec<Example> {
    let mut all = sound();
    all.extend(refused_for_bytes());
    all.extend(refused_for_rules());
    all.extend(rests::without_rests());
    all.sort_by_key(|example| example.name);
    all
}

/// The files that print a sheet.
fn sound() -> Vec<Example> {
    vec![
        example("cutter", cutter().bytes()),
        example("cutter-alarm", cutter_alarm().bytes()),
        example("cutter-at-the-top", cutter().starts("b").bytes()),
        example("gate", gate().bytes()),
        example("gate-not-both", gate().never("a.b").bytes()),
        example("gate-two-starts", gate().starts("!a.!b.d").bytes()),
        example("lamp", lamp().bytes()),
        example("table-iv", table_iv().bytes()),
        example("two-hands", two_hands().bytes()),
    ]
}

/// Files refused by 1 to 5: contents, sizes, numbers and texts.
fn refused_for_bytes() -> Vec<Example> {
    vec![
        example("refused-01-kind-4-twice", with_kinds(lamp().never("a"), &[1, 2, 3, 4, 4])),
        example("refused-01-kind-6-before-5", kind_6_before_5()),
        example("refused-01-kinds-1-2-3-5", with_kinds(lamp(), &[1, 2, 3, 5])),
        example("refused-01-seven-entries", seven_entries()),
        example("refused-01-wrong-mark", wrong_mark()),
        example("refused-02-long-kind-5", lamp().never(&padded("!a".into(), TEXT + 1)).bytes()),
        example("refused-02-long-kind-6", lamp().starts(&padded("!a".into(), TEXT + 1)).bytes()),
        example("refused-02-nine-inputs", File { inputs: 9, ..lamp() }.bytes()),
        example("refused-04-output-bit", with_word(lamp(), 1, 3).bytes()),
        example("refused-05-bad-character", with_condition(gate(), 4, "!c.(b+!d,a)").bytes()),
        example("refused-05-bad-letter", with_condition(gate(), 0, "c.(b+a)+e.!b").bytes()),
        example("refused-05-kind-5-does-not-read", cutter().never("b.").bytes()),
        example("refused-05-kind-5-is-empty", cutter().never("").bytes()),
        example("refused-05-kind-6-after-kind-5", cutter().starts("b.").bytes()),
        example("refused-05-kind-6-alone", gate().starts("!a.!b.e").bytes()),
        example("refused-05-kind-6-is-empty", lamp().starts("").bytes()),
        example("refused-05-ninth-parenthesis", ninth_parenthesis().bytes()),
        example("refused-05-stops-too-early", with_condition(lamp(), 3, "!a+").bytes()),
    ]
}

/// Files refused by 6 and more.
fn refused_for_rules() -> Vec<Example> {
    vec![
        example("refused-06-own-source", own_source().bytes()),
        example("refused-07-same-states", same_states().bytes()),
        example("refused-08-two-rules", with_condition(lamp(), 0, "1").bytes()),
        example("refused-09-no-rule", with_condition(lamp(), 2, "0").bytes()),
        example("refused-10-transient", transient().bytes()),
        example("refused-11-same-word", with_word(gate(), 2, 1).bytes()),
        example("refused-12-never-reached", never_reached().bytes()),
        example("refused-13-all-starts-ruled-out", lamp().never("!a").bytes()),
        example("refused-13-gate-at-power-up", File { starts: None, ..gate() }.bytes()),
        example("refused-13-kind-6-ruled-out", cutter().starts("b.c").bytes()),
        example("refused-13-no-start", no_start().bytes()),
        example("refused-16-long-list", long_list().bytes()),
        example("refused-16-long-plan", counter(INPUTS as u8, STATES as u8).bytes()),
    ]
}

/// Document 01's lamp.
pub fn lamp() -> File {
    File::new(1, 1, &[(0, "!a"), (1, "a")], &[(0, 1, "a"), (1, 0, "!a")])
}

/// Document 01's gate: source document 002, table 1; its v, r, o, c are a, b, c, d. Its reset works at
/// every setting.
pub fn gate() -> File {
    File::new(
        4,
        2,
        &[(0, "c.(b+a)+d.!b"), (1, "!d.!b.!a"), (2, "!c")],
        &[
            (0, 1, "!d.!b.!a"),
            (0, 2, "!c.(b+!d.a)"),
            (1, 0, "c.(b+a)+d.!b"),
            (1, 2, "!c.(b+!d.a)"),
            (2, 0, "c.(d+b+a)"),
            (2, 1, "!d.c.!b.!a"),
        ],
    )
    .starts("1")
}

/// A press with a cutter: a is the start button, b closes with the cutter at the top, c at the bottom;
/// both never close together. The cutter waits (0), cuts downwards (1), returns (2), and at the top
/// waits for a button still held to be let go (3). With both contacts closed nothing moves.
pub fn cutter() -> File {
    File::new(
        3,
        3,
        &[(0, "!a+!b+c"), (1, "b+!c"), (2, "!b+c"), (4, "a")],
        &[(0, 1, "a.b.!c"), (1, 2, "!b.c"), (2, 0, "!a.b.!c"), (2, 3, "a.b.!c"), (3, 0, "!a")],
    )
    .never("b.c")
}

/// The cutter with an alarm (4) while both contacts are closed and until both are open: a state that
/// no run can visit.
pub fn cutter_alarm() -> File {
    File::new(
        3,
        4,
        &[(0, "!b+!a.!c"), (1, "!c"), (2, "!b"), (4, "a.!(b.c)"), (8, "b+c")],
        &[
            (0, 1, "a.b.!c"),
            (1, 2, "!b.c"),
            (2, 0, "!a.b.!c"),
            (2, 3, "a.b.!c"),
            (3, 0, "!a.!(b.c)"),
            (0, 4, "b.c"),
            (1, 4, "b.c"),
            (2, 4, "b.c"),
            (3, 4, "b.c"),
            (4, 0, "!b.!c"),
        ],
    )
    .never("b.c")
}

/// Source document 001, table IV: s1 to s5 are states 0 to 4. The words are the states' numbers, and
/// a run may start wherever s1 rests.
pub fn table_iv() -> File {
    File::new(
        3,
        3,
        &[(0, "a.(b+c)"), (1, "!b.!c"), (2, "!a"), (3, "!c"), (4, "!b")],
        &[
            (0, 1, "a.!b.!c"),
            (0, 2, "!a"),
            (1, 0, "a.b.c"),
            (1, 2, "!a.b.c"),
            (1, 3, "b.!c"),
            (1, 4, "!b.c"),
            (2, 0, "a.(b+c)"),
            (2, 1, "a.!b.!c"),
            (3, 0, "a.c"),
            (3, 2, "!a.c"),
            (4, 0, "a.b"),
            (4, 2, "!a.b"),
        ],
    )
    .starts("1")
}

/// A press with a button for each hand, a and b. It waits (0), closes when both are pressed at once (1),
/// and opens when both are let go at once (3); a hand alone stops it (2) until both are off.
pub fn two_hands() -> File {
    let one = "a.!b+!a.b";
    File::new(
        2,
        2,
        &[(0, "!a.!b"), (1, "a.b"), (2, "a+b"), (3, "!a.!b")],
        &[
            (0, 1, "a.b"),
            (0, 2, one),
            (1, 2, one),
            (1, 3, "!a.!b"),
            (2, 0, "!a.!b"),
            (3, 1, "a.b"),
            (3, 2, one),
        ],
    )
}

/// A ring of states that input a steps through at each of its changes; the other inputs do nothing.
pub fn counter(inputs: u8, states: u8) -> File {
    let on = |state: u8| if state.is_multiple_of(2) { "!a" } else { "a" };
    let state = |number: u8| State { word: number.into(), rest: on(number).to_string() };
    let leaving = |source: u8| Leaving {
        source,
        target: (source + 1) % states,
        condition: on(source + 1).to_string(),
    };
    File {
        states: (0..states).map(state).collect(),
        evolutions: (0..states).map(leaving).collect(),
        ..File::new(inputs, 16, &[], &[])
    }
}

/// The largest ring, whose settings with exactly one input on are never used: no single change leaves its
/// start, and after one multiple change the whole ring is open.
pub fn long_list() -> File {
    let alone = |input: usize| Product { named: (1 << INPUTS) - 1, on: 1 << input };
    let never: Vec<Product> = (0..INPUTS).map(alone).collect();
    counter(INPUTS as u8, STATES as u8).never(&sum_of_products(&never))
}

fn with_word(mut file: File, state: usize, word: u16) -> File {
    file.states[state].word = word;
    file
}

fn with_condition(mut file: File, record: usize, text: &str) -> File {
    *file.condition_mut(record) = text.to_string();
    file
}

/// The bodies of a file under other kinds.
fn with_kinds(file: File, kinds: &[u8]) -> Vec<u8> {
    let bodies = kinds.iter().zip(file.bodies()).map(|(&kind, (_, body))| (kind, body));
    with_contents(file.mark, &bodies.collect::<Vec<_>>())
}

/// The lamp with kind 6 `1` before kind 5 `0`.
fn kind_6_before_5() -> Vec<u8> {
    with_kinds(lamp().never("1").starts("0"), &[1, 2, 3, 4, 6, 5])
}

/// The lamp with three bodies more, the last of a kind that there is not.
fn seven_entries() -> Vec<u8> {
    let mut bodies = lamp().never("0").starts("1").bodies();
    bodies.push((7, b"1".to_vec()));
    with_contents(SEQ1, &bodies)
}

/// The lamp under the mark of another kind of file.
fn wrong_mark() -> Vec<u8> {
    let mut bytes = lamp().bytes();
    bytes[3] = b'9';
    bytes
}

/// The lamp with the rest of state 1 in one parenthesis too many.
fn ninth_parenthesis() -> File {
    with_condition(lamp(), 1, &nested("a", PARENTHESES + 1))
}

/// The lamp with an evolution from state 1 to itself.
fn own_source() -> File {
    File::new(1, 1, &[(0, "!a"), (1, "0")], &[(0, 1, "a"), (1, 0, "!a"), (1, 1, "a")])
}

/// The lamp with its way to state 1 in two evolutions.
fn same_states() -> File {
    File::new(1, 1, &[(0, "!a"), (1, "a")], &[(0, 1, "a"), (1, 0, "!a"), (0, 1, "a")])
}

/// Three lamps in a row: with a on, state 0 moves to 1 and 1 at once to 2.
fn transient() -> File {
    File::new(1, 2, &[(0, "!a"), (1, "!a"), (2, "a")], &[(0, 1, "a"), (1, 2, "a"), (2, 0, "!a")])
}

/// The lamp with a third state that nothing moves to.
fn never_reached() -> File {
    File::new(1, 2, &[(0, "!a"), (1, "a"), (2, "a")], &[(0, 1, "a"), (1, 0, "!a"), (2, 0, "!a")])
}

/// A lamp whose initial state rests at no setting, though each is an allowed start.
fn no_start() -> File {
    File::new(
        1,
        2,
        &[(0, "0"), (1, "a"), (2, "!a")],
        &[(0, 1, "a"), (0, 2, "!a"), (1, 2, "!a"), (2, 1, "a")],
    )
    .starts("1")
}
