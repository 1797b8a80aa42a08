//! What the script `sheet` says of each refused example.

use super::{assert_text, root};
use mundrefol::examples;
use std::process::Command;

const CONTENTS_WRONG: &str =
    "1: the file is too long or too short, or its mark (SEQ1 or SEQ2), contents or end are wrong";

/// What the script says of each refused example: the refusal's number, then its words.
const EXPLAINED: [(&str, &str); 35] = [
    ("refused-01-kind-4-twice", CONTENTS_WRONG),
    ("refused-01-kind-6-before-5", CONTENTS_WRONG),
    ("refused-01-kinds-1-2-3-5", CONTENTS_WRONG),
    ("refused-01-seq3", CONTENTS_WRONG),
    ("refused-01-seven-entries", CONTENTS_WRONG),
    ("refused-01-wrong-mark", CONTENTS_WRONG),
    (
        "refused-02-long-kind-5",
        "2: a size is outside its range, or the sizes do not agree with the bodies: \
         inputs 1, outputs 1, states 2, initial state 0; \
         the condition of kind 5, settings never used, has 256 bytes, over 255",
    ),
    (
        "refused-02-long-kind-6",
        "2: a size is outside its range, or the sizes do not agree with the bodies: \
         inputs 1, outputs 1, states 2, initial state 0; \
         the condition of kind 6, allowed starts, has 256 bytes, over 255",
    ),
    (
        "refused-02-nine-inputs",
        "2: a size is outside its range, or the sizes do not agree with the bodies: \
         inputs 9, outputs 1, states 2, initial state 0",
    ),
    (
        "refused-02-rest-length",
        "2: a size is outside its range, or the sizes do not agree with the bodies: \
         inputs 1, outputs 1, states 2, initial state 0; \
         state 1 has the length 1, but a SEQ2 file has no rest conditions",
    ),
    (
        "refused-04-output-bit",
        "4: state 1 has the output word 3, with a bit beyond the outputs (1)",
    ),
    (
        "refused-05-bad-character",
        "5: evolution 1, from state 0 to 2, does not read at character 9
    !c.(b+!d,a)
            ^ only +, . or ) can stand here",
    ),
    (
        "refused-05-bad-letter",
        "5: the rest condition of state 0 does not read at character 9
    c.(b+a)+e.!b
            ^ the file has no input e; its last is d",
    ),
    (
        "refused-05-kind-5-does-not-read",
        "5: the condition of kind 5, settings never used, does not read at character 3
    b.
      ^ the condition stops here; a factor must follow",
    ),
    (
        "refused-05-kind-5-is-empty",
        "5: the condition of kind 5, settings never used, does not read at character 1\n    \n    \
         ^ the condition is empty; a factor must follow",
    ),
    (
        "refused-05-kind-6-after-kind-5",
        "5: the condition of kind 6, allowed starts, does not read at character 3
    b.
      ^ the condition stops here; a factor must follow",
    ),
    (
        "refused-05-kind-6-alone",
        "5: the condition of kind 6, allowed starts, does not read at character 7
    !a.!b.e
          ^ the file has no input e; its last is d",
    ),
    (
        "refused-05-kind-6-is-empty",
        "5: the condition of kind 6, allowed starts, does not read at character 1\n    \n    \
         ^ the condition is empty; a factor must follow",
    ),
    (
        "refused-05-ninth-parenthesis",
        "5: the rest condition of state 1 does not read at character 9
    (((((((((a)))))))))
            ^ a ninth parenthesis; at most 8 may be open",
    ),
    (
        "refused-05-stops-too-early",
        "5: evolution 1, from state 1 to 0, does not read at character 4
    !a+
       ^ the condition stops here; a factor must follow",
    ),
    (
        "refused-05-without-rests",
        "5: evolution 1, from state 0 to 2, does not read at character 9
    !c.(b+!d,a)
            ^ only +, . or ) can stand here",
    ),
    ("refused-06-own-source", r#"6: evolution 2, from state 1 to 1, leads to its own source: "a""#),
    (
        "refused-07-same-states",
        r#"7: evolution 2, from state 0 to 1, has the source and target of evolution 0: "a""#,
    ),
    ("refused-08-two-evolutions", "8: two evolutions hold for state 0 at setting 0 (no input on)"),
    ("refused-08-two-rules", "8: two rules hold for state 0 at setting 1 (a on)"),
    ("refused-09-no-rule", "9: no rule holds for state 0 at setting 1 (a on)"),
    (
        "refused-10-transient",
        "10: state 0 at setting 1 (a on) moves to a state that does not rest there",
    ),
    ("refused-11-same-word", "11: state 2 has the output word 1, as state 1 has"),
    ("refused-12-never-reached", "12: state 2 is never reached from the initial state 0"),
    (
        "refused-13-all-starts-ruled-out",
        "13: there is no start: the initial state 0 rests at none of the starts looked at: \
         setting 0 alone (no kind 6: power-up, all contacts open), \
         less the settings at which kind 5 holds (\"!a\")",
    ),
    (
        "refused-13-gate-at-power-up",
        "13: there is no start: the initial state 0 rests at none of the starts looked at: \
         setting 0 alone (no kind 6: power-up, all contacts open)",
    ),
    (
        "refused-13-kind-6-ruled-out",
        "13: there is no start: the initial state 0 rests at none of the starts looked at: \
         the settings at which kind 6 holds (\"b.c\"), \
         less the settings at which kind 5 holds (\"b.c\")",
    ),
    (
        "refused-13-no-start",
        "13: there is no start: the initial state 0 rests at none of the starts looked at: \
         the settings at which kind 6 holds (\"1\")",
    ),
    (
        "refused-16-long-list",
        "16: the plan, or where that fits the list of runs that change several inputs at once, \
         needs 85984 bytes, more than the 65536 there are",
    ),
    (
        "refused-16-long-plan",
        "16: the plan, or where that fits the list of runs that change several inputs at once, \
         needs 95040 bytes, more than the 65536 there are",
    ),
];

#[test]
fn the_script_explains_each_refused_example() {
    let refused = examples::all().into_iter().filter(|example| example.name.starts_with("refused"));
    let names: Vec<&str> = refused.map(|example| example.name).collect();
    assert_eq!(names, EXPLAINED.map(|(name, _)| name));
    for (name, words) in EXPLAINED {
        let path = root().join("examples").join(name);
        let output = Command::new(root().join("sheet")).arg(&path).output();
        let output = output.expect("the script `sheet` runs");
        assert_eq!(output.status.code(), Some(1), "{name}");
        let said = format!("sheet: {} is refused by {words}\n", path.display());
        assert_text(name, &output.stderr, said.as_bytes());
    }
}
