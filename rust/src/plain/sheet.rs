//! The text of the sheet.

use super::runs::{split_first, split_multi};
use super::{COUPLES, EVOLUTIONS, LIST, PLAN, STATES, UNMARKED};
use crate::{Answer, Contents, Evolution, Frame};
use std::io::Write as _;

/// Reading a file.
pub type Read = fn(&[u8], &mut [u8], &mut [u16], &mut [Evolution]) -> Contents;
/// Writing the plan, or the list.
pub type Write = fn(Frame, &[u8], &mut [u16], &mut [u8]) -> Answer;

/// The jobs that a sheet is made of.
#[derive(Clone, Copy)]
pub struct Jobs {
    pub read: Read,
    pub plan: Write,
    pub list: Write,
}

/// The sheet of a specification file, or the line of its refusal.
pub fn sheet(file: &[u8]) -> Vec<u8> {
    lines(Jobs { read: super::read, plan: super::plan, list: super::multi_list }, file)
}

/// The sheet of a specification file by the given jobs.
pub fn lines(jobs: Jobs, file: &[u8]) -> Vec<u8> {
    let mut text = Vec::new();
    let mut table = [0; COUPLES];
    let contents =
        (jobs.read)(file, &mut table, &mut [0; STATES], &mut [Evolution::default(); EVOLUTIONS]);
    if contents.answer.number != 0 {
        write_refusal(&mut text, contents.answer, contents.character);
        return text;
    }
    let frame = contents.frame;
    let mut ranks = [UNMARKED; COUPLES];
    let mut write = |job: Write, bytes: usize| {
        let mut buffer = vec![0; bytes];
        let answer = job(frame, &table, &mut ranks, &mut buffer);
        buffer.truncate(answer.place);
        if answer.number == 0 {
            Ok(buffer)
        } else {
            Err(answer)
        }
    };
    match write(jobs.plan, PLAN).and_then(|plan| Ok((plan, write(jobs.list, LIST)?))) {
        Ok((plan, list)) => {
            write_ranks(&mut text, frame, &ranks[..frame.couples()]);
            write_runs(&mut text, &plan);
            write_list(&mut text, &list);
        }
        Err(answer) => write_refusal(&mut text, answer, 0),
    }
    text
}

/// Adds one line: the word, then the numbers, parted by blanks.
fn write_line(text: &mut Vec<u8>, word: &str, numbers: &[usize]) {
    text.extend_from_slice(word.as_bytes());
    for number in numbers {
        write!(text, " {number}").expect("a vector takes every byte");
    }
    text.push(b'\n');
}

/// Adds the line of a refusal, which has the character for 5 alone.
fn write_refusal(text: &mut Vec<u8>, answer: Answer, character: usize) {
    let fields = [answer.number, answer.place, character];
    let count = if answer.number == 5 { 3 } else { 2 };
    write_line(text, "REFUSED", &fields[..count]);
}

fn write_ranks(text: &mut Vec<u8>, frame: Frame, ranks: &[u16]) {
    let (inputs, states, couples) = (frame.inputs, frame.states, frame.couples());
    let marked = ranks.iter().filter(|&&rank| rank != UNMARKED).count();
    writeln!(text, "INPUTS {inputs} STATES {states} COUPLES {couples} MARKED {marked}")
        .expect("a vector takes every byte");
    let mut counts: Vec<usize> = Vec::new();
    for rank in ranks.iter().filter(|&&rank| rank != UNMARKED).map(|&rank| usize::from(rank)) {
        counts.resize(counts.len().max(rank + 1), 0);
        counts[rank] += 1;
    }
    for (rank, &count) in counts.iter().enumerate() {
        write_line(text, "RANK", &[rank, count]);
    }
}

fn write_runs(text: &mut Vec<u8>, mut plan: &[u8]) {
    let mut number = 1;
    while let Some((settings, after)) = split_first(plan) {
        write_run(text, "RUN", number, settings);
        number += 1;
        plan = after;
    }
}

fn write_list(text: &mut Vec<u8>, mut list: &[u8]) {
    while let Some((multiple, settings, after)) = split_multi(list) {
        write_run(text, "MULTI", multiple, settings);
        list = after;
    }
}

/// Adds one line: the word, a number, the settings.
fn write_run(text: &mut Vec<u8>, word: &str, number: usize, settings: &[u8]) {
    write!(text, "{word} {number}").expect("a vector takes every byte");
    for setting in settings {
        write!(text, " {setting}").expect("a vector takes every byte");
    }
    text.push(b'\n');
}
