//! What the script says of a refused file.

use super::cases::try_cases;
use super::{root, sheet, status, words};
use mundrefol::file::File;
use mundrefol::generate::{damaged, damaged_without_rests};
use mundrefol::plain::SEQ2;
use mundrefol::{examples, plain};
use std::fs;
use std::path::PathBuf;
use std::thread;

/// Two bytes of a file, low byte first; 0 beyond its end.
fn two(file: &[u8], at: usize) -> usize {
    file.get(at..at + 2).map_or(0, |bytes| usize::from(bytes[0]) + 256 * usize::from(bytes[1]))
}

/// Words that the explanation of a refusal has: those of the couple or evolution, or the place.
fn named(file: &[u8], number: usize, place: usize) -> String {
    let sizes = two(file, 6);
    let states = || usize::from(file[sizes + 2]);
    let records = || states() + two(file, 18) / 3;
    match number {
        1 | 2 | 13 => String::new(),
        8..=10 => {
            let settings = 1 << file[sizes];
            format!("state {} at setting {} (", place / settings, place % settings)
        }
        5 if place >= records() => {
            let entry = 25 + 5 * (place - records());
            format!("the condition of kind {}, ", file[entry])
        }
        4..=7 if place >= states() => {
            let evolution = place - states();
            let (source, target) =
                (two(file, 16) + 3 * evolution, two(file, 16) + 3 * evolution + 1);
            format!("evolution {evolution}, from state {} to {}, ", file[source], file[target])
        }
        16 => format!(" {place} bytes"),
        _ => format!("state {place} "),
    }
}

/// What the script says of a refused file, from the refusal's number on.
fn explained(file: &[u8]) -> String {
    let name = format!("explained-{:?}", thread::current().id());
    let path = PathBuf::from(env!("CARGO_TARGET_TMPDIR")).join(name);
    fs::write(&path, file).expect("the file is written");
    let said = words(&sheet(&root(), &[path.to_str().expect("the path is text")]));
    let (_, said) = said.split_once(" is refused by ").expect("the file is refused");
    said.trim_end().to_string()
}

/// Settings by the inputs that are on, without kinds 5 and 6 and with them.
#[test]
fn words_of_a_couple() {
    for (inputs, rest, place) in [
        (3, "!(a.!b.c)", "state 0 at setting 5 (a, c on)"),
        (8, "!h+!g+a", "state 0 at setting 192 (g, h on)"),
        (1, "a", "state 0 at setting 0 (no input on)"),
    ] {
        let file = File::new(inputs, 1, &[(0, rest), (1, "1")], &[(0, 1, "0")]);
        let said = format!("9: no rule holds for {place}");
        assert_eq!(explained(&file.bytes()), said);
        assert_eq!(explained(&file.clone().starts("1").bytes()), said);
        assert_eq!(explained(&file.never("a+0").bytes()), said);
    }
}

/// What the script calls the conditions of kinds 5 and 6.
const NEVER: &str = "the condition of kind 5, settings never used,";
const STARTS: &str = "the condition of kind 6, allowed starts,";

/// The bytes of a condition that is shown with \ and two digits for a byte that is not plain.
fn bytes_of(shown: &str) -> Vec<u8> {
    let mut parts = shown.split('\\');
    let mut bytes = parts.next().expect("a first part").as_bytes().to_vec();
    for (digits, plain) in parts.map(|part| part.split_at(2)) {
        bytes.push(u8::from_str_radix(digits, 16).expect("two digits"));
        bytes.extend(plain.bytes());
    }
    bytes
}

/// A condition as it is shown, with a caret before the character at which it does not read, in each
/// sort of record.
fn assert_unread(inputs: u8, marked: &str, wrong: &str) {
    let (before, after) = marked.split_once('^').expect("a caret");
    let (shown, blanks) = (format!("{before}{after}"), " ".repeat(before.len()));
    let character = before.len() + 1;
    let neither = File::new(inputs, 1, &[(0, "!a"), (1, "1")], &[(0, 1, "a")]);
    let with = neither.clone().never("a+0");
    let (alone, both) = (neither.clone().starts("1"), with.clone().starts("1"));
    let [no_rests, both_without] = [&neither, &both].map(|file| file.clone().without_rests());
    for (file, record, name) in [
        (&neither, 0, "the rest condition of state 0"),
        (&with, 0, "the rest condition of state 0"),
        (&neither, 2, "evolution 0, from state 0 to 1,"),
        (&with, 2, "evolution 0, from state 0 to 1,"),
        (&with, 3, NEVER),
        (&both, 3, NEVER),
        (&alone, 3, STARTS),
        (&both, 4, STARTS),
        (&no_rests, 2, "evolution 0, from state 0 to 1,"),
        (&both_without, 2, "evolution 0, from state 0 to 1,"),
        (&both_without, 3, NEVER),
        (&both_without, 4, STARTS),
    ] {
        let said = explained(&file.clone().bytes_with(record, &bytes_of(&shown)));
        let first = format!("5: {name} does not read at character {character}");
        assert_eq!(said, format!("{first}\n    {shown}\n    {blanks}^ {wrong}"));
    }
}

/// What is wrong at the character, and what could stand there.
#[test]
fn words_of_a_character() {
    let stops = "the condition stops here";
    let open = "open; +, . or ) must follow";
    let [one, three] = ["the letter a", "a letter a to c"]
        .map(|letters| format!("a factor must stand here: !, (, 0, 1 or {letters}"));
    let outside = "only + or . can stand here, or the end";
    let inside = "only +, . or ) can stand here";
    for (inputs, marked, wrong) in [
        (1, "^", "the condition is empty; a factor must follow"),
        (1, "(a.^", &format!("{stops}; a factor must follow")),
        (1, "(a^", &format!("{stops} with 1 parenthesis {open}")),
        (1, "((a)+(0^", &format!("{stops} with 2 parentheses {open}")),
        (1, "a+^b.a", "the file has no input b; its last is a"),
        (8, "!^z", "the file has no input z; its last is h"),
        (1, "((((((((^(a", "a ninth parenthesis; at most 8 may be open"),
        (1, "((((((((^+a", "a factor must stand here: !, 0, 1 or the letter a"),
        (1, "(^)", &one),
        (3, "a.^A", &three),
        (3, "^ a", &format!("no blanks; {three}")),
        (2, "a^b", outside),
        (2, "a^)", &format!("no parenthesis is open; {outside}")),
        (2, "(a)^ +b", &format!("no blanks; {outside}")),
        (2, "(a^!b)", inside),
        (2, "(a^ +b)", &format!("no blanks; {inside}")),
        (1, r"a^\0a", outside),
        (1, r"(a^\ff\00)", inside),
        (1, r"^\00\7f~ ", &one),
        (1, r#"^$(no)`no`'"%s\5c"#, &one),
        (1, r"^\c3\a9", &one),
    ] {
        assert_unread(inputs, marked, wrong);
    }
}

/// What is said of sizes.
fn sizes(inputs: u8) -> String {
    format!(
        "2: a size is outside its range, or the sizes do not agree with the bodies: \
         inputs {inputs}, outputs 1, states 2, initial state 0"
    )
}

/// The first state with a length, where states have no rest conditions.
#[test]
fn words_of_files_without_rests() {
    let lamp = |inputs: u8| File { inputs, ..examples::lamp() };
    let with = |mut file: File, state: usize, text: &str| {
        *file.condition_mut(state) = text.to_string();
        explained(&file.bytes())
    };
    let without = |inputs: u8| lamp(inputs).without_rests();
    let has = |state: usize, length: usize| {
        format!("; state {state} has the length {length}, but a SEQ2 file has no rest conditions")
    };
    assert_eq!(with(without(1), 1, "1+1"), sizes(1) + &has(1, 3));
    assert_eq!(with(without(9), 0, &"a".repeat(255)), sizes(9) + &has(0, 255));
    assert_eq!(explained(&File { mark: SEQ2, ..lamp(1) }.bytes()), sizes(1) + &has(0, 2));
    assert_eq!(explained(&without(9).bytes()), sizes(9));
    let both = File::new(1, 2, &[(0, "!a"), (1, "1"), (2, "1")], &[(0, 1, "a"), (0, 2, "a")]);
    let hold = "hold for state 0 at setting 1 (a on)";
    assert_eq!(explained(&both.bytes()), format!("8: two rules {hold}"));
    assert_eq!(explained(&both.without_rests().bytes()), format!("8: two evolutions {hold}"));
}

/// Sizes, with the length of kinds 5 and 6 where that is over 255.
#[test]
fn words_of_long_conditions() {
    let lamp = |inputs: u8| File { inputs, ..examples::lamp() };
    let [right, long] = [255, 300].map(|bytes| "a".repeat(bytes));
    let over = |name: &str| format!("; {name} has 300 bytes, over 255");
    let said = |file: File| explained(&file.bytes());
    assert_eq!(said(lamp(9).never(&right).starts(&right)), sizes(9));
    assert_eq!(said(lamp(1).never(&long)), sizes(1) + &over(NEVER));
    assert_eq!(said(lamp(1).starts(&long)), sizes(1) + &over(STARTS));
    assert_eq!(said(lamp(1).never(&right).starts(&long)), sizes(1) + &over(STARTS));
    assert_eq!(said(lamp(1).never(&long).starts(&long)), sizes(1) + &over(NEVER) + &over(STARTS));
}

/// The starts that were looked at: setting 0 or those of kind 6, without those of kind 5.
#[test]
fn words_of_starts() {
    let looked =
        "13: there is no start: the initial state 0 rests at none of the starts looked at: ";
    let alone = "setting 0 alone (no kind 6: power-up, all contacts open)";
    let without = |text: &str| format!(", less the settings at which kind 5 holds (\"{text}\")");
    let with = |text: &str| format!("the settings at which kind 6 holds (\"{text}\")");
    let gate = || File { starts: None, ..examples::gate() };
    for (file, starts) in [
        (gate(), alone.to_string()),
        (gate().never("a.b"), alone.to_string() + &without("a.b")),
        (gate().starts("!(a+b+c+d)"), with("!(a+b+c+d)")),
        (gate().never("1").starts("d"), with("d") + &without("1")),
    ] {
        assert_eq!(explained(&file.bytes()), format!("{looked}{starts}"));
    }
}

/// Whatever is wrong with a file: its refusal, and a line of plain characters that names the place; for
/// 5 two more, the condition and a caret under the character.
#[test]
fn damaged_files_are_explained() {
    let path = PathBuf::from(env!("CARGO_TARGET_TMPDIR")).join("damaged");
    let path = path.to_str().expect("the path is text");
    try_cases("script", 250, &[0, 1], |random| {
        let rests = random.once_in(2);
        let file = if rests { damaged(random) } else { damaged_without_rests(random) };
        let right = plain::sheet(&file);
        fs::write(path, &file).expect("the file is written");
        let output = sheet(&root(), &[path]);
        assert!(output.stdout == right);
        let Some(refusal) = right.strip_prefix(b"REFUSED ") else {
            assert_eq!((status(&output), words(&output).as_str()), (0, ""));
            return 0;
        };
        assert_eq!(status(&output), 1);
        let said = words(&output);
        assert!(said.bytes().all(|byte| (b' '..=b'~').contains(&byte) || byte == b'\n'), "{said}");
        assert_explained(&file, path, &String::from_utf8_lossy(refusal), &said);
        1
    });
}

/// The lines that the script says of a refusal, which is its numbers.
fn assert_explained(file: &[u8], path: &str, refusal: &str, said: &str) {
    let numbers = refusal.split_whitespace().map(|it| it.parse().expect("a number"));
    let numbers: Vec<usize> = numbers.collect();
    let lines: Vec<&str> = said.strip_suffix('\n').expect("whole lines").split('\n').collect();
    let (number, place) = (numbers[0], numbers[1]);
    assert!(lines[0].starts_with(&format!("sheet: {path} is refused by {number}: ")), "{said}");
    assert!(lines[0].contains(&named(file, number, place)), "{said}");
    if let [5, _, character] = numbers[..] {
        let end = format!(" does not read at character {character}");
        assert!(lines[0].ends_with(&end) && lines[1].starts_with("    "), "{said}");
        assert_eq!((lines.len(), lines[2].find('^')), (3, Some(character + 3)), "{said}");
    } else {
        assert_eq!((lines.len(), numbers.len()), (1, 2), "{said}");
    }
}
