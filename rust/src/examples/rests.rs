//! Files without rest conditions, SEQ2: a state rests where none of its evolutions holds.

use super::{cutter, example, gate, lamp, with_condition, Example};
use crate::file::File;

/// The examples without rest conditions, sound and refused.
pub fn without_rests() -> Vec<Example> {
    let gate = || gate().without_rests();
    let lamp = || lamp().without_rests();
    vec![
        example("cutter-without-rests", cutter().starts("b").without_rests().bytes()),
        example("fuse", fuse().bytes()),
        example("gate-without-rests", gate().bytes()),
        example("lamp-without-rests", lamp().bytes()),
        example("refused-01-seq3", File { mark: *b"SEQ3", ..lamp() }.bytes()),
        example("refused-02-rest-length", with_condition(lamp(), 1, "a").bytes()),
        example("refused-05-without-rests", with_condition(gate(), 4, "!c.(b+!d,a)").bytes()),
        example("refused-08-two-evolutions", with_condition(gate(), 4, "!c").bytes()),
        example("table-3", table_3().bytes()),
    ]
}

/// A fuse that blows when a is on: state 1 has no evolution and rests everywhere.
fn fuse() -> File {
    File::new(1, 1, &[(0, ""), (1, "")], &[(0, 1, "a")]).without_rests()
}

/// Source document 000, equation 2: s1 to s6 are states 0 to 5, U, V, W the outputs of weight 1, 2, 4.
/// From s1 to s3 the condition is the one that its table 3 shows; a run may start wherever s1 rests.
pub fn table_3() -> File {
    File::new(
        3,
        3,
        &[(0, ""), (1, ""), (6, ""), (3, ""), (5, ""), (4, "")],
        &[
            (0, 1, "!a.b.c"),
            (0, 2, "!a.(!b+!c)"),
            (1, 0, "a.!b.!c"),
            (2, 3, "a.!b.c"),
            (2, 4, "a.b.!c"),
            (3, 5, "b"),
            (4, 5, "c"),
            (5, 0, "a.!b.!c"),
        ],
    )
    .starts("1")
    .without_rests()
}
