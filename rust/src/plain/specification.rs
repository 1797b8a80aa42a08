//! Reading a specification file: checks 1 to 13, its table, words and records.

use super::character::character;
use super::condition::holds;
use super::contents::{Bodies, RECORD_BYTES};
use super::machine::Machine;
use super::{check_lengths, refuse_at, set_of, Set};
use super::{EVOLUTIONS, NO_MOVE, NO_SETTING, NO_WORD, OUTPUTS, POWER_UP, STATES, TEXT};
use crate::{Answer, Contents, Evolution, Frame};
use std::ops::Range;

/// Reads a specification file, SEQ1 or SEQ2, into a table, the states' output words and the evolutions'
/// records.
pub fn read(
    file: &[u8],
    table: &mut [u8],
    words: &mut [u16],
    records: &mut [Evolution],
) -> Contents {
    let lengths = (table.len(), words.len(), records.len());
    let layout = match Layout::of(file, lengths) {
        Ok(layout) => layout,
        Err(answer) => return refused(answer),
    };
    let table = &mut table[..layout.frame.couples()];
    let words = &mut words[..layout.frame.states];
    let records = &mut records[..layout.evolutions];
    match layout.fill(table, words, records) {
        Ok(frame) => {
            let Layout { outputs, evolutions, .. } = layout;
            Contents { answer: Answer::done(0), character: 0, outputs, evolutions, frame }
        }
        Err(answer) => {
            table.fill(NO_MOVE);
            words.fill(NO_WORD);
            records.fill(Evolution::default());
            Contents { character: layout.character(answer), ..refused(answer) }
        }
    }
}

fn refused(answer: Answer) -> Contents {
    Contents { answer, ..Contents::default() }
}

/// A file that passes checks 1 to 3: its sizes, in a frame whose sets are still empty, and its bodies.
pub struct Layout<'a> {
    file: &'a [u8],
    pub frame: Frame,
    outputs: usize,
    evolutions: usize,
    pub bodies: Bodies,
}

impl<'a> Layout<'a> {
    /// Checks 1 to 3; the lengths are those of table, words and records.
    pub fn of(file: &'a [u8], lengths: (usize, usize, usize)) -> Result<Self, Answer> {
        let bodies = Bodies::of(file).ok_or(Answer::refused(1, 0))?;
        let size = |index: usize| usize::from(file[bodies.sizes.start + index]);
        let (inputs, states, initial) = (size(0), size(2), size(3));
        let layout = Layout {
            file,
            frame: Frame { inputs, states, initial, ..Frame::default() },
            outputs: size(1),
            evolutions: bodies.evolutions.len() / RECORD_BYTES,
            bodies,
        };
        if !layout.sizes_agree() {
            return Err(Answer::refused(2, 0));
        }
        check_lengths(&[
            (lengths.0, layout.frame.couples()),
            (lengths.1, layout.frame.states),
            (lengths.2, layout.evolutions),
        ])?;
        Ok(layout)
    }

    /// Check 2.
    fn sizes_agree(&self) -> bool {
        let Bodies { states, texts, .. } = &self.bodies;
        let text_lengths = (0..self.records()).map(|record| self.text_length(record));
        self.frame.fits()
            && (1..=OUTPUTS).contains(&self.outputs)
            && states.len() == RECORD_BYTES * self.frame.states
            && (0..self.first_text()).all(|state| self.text_length(state) == 0)
            && self.evolutions <= EVOLUTIONS
            && text_lengths.sum::<usize>() == texts.len()
            && self.bodies.optional().all(|text| text.len() <= TEXT)
    }

    /// Number of records, states first.
    pub fn records(&self) -> usize {
        self.frame.states + self.evolutions
    }

    /// The first record that has a condition: states without rest conditions have an empty text.
    fn first_text(&self) -> usize {
        if self.bodies.rests {
            0
        } else {
            self.frame.states
        }
    }

    /// The three bytes of a record.
    pub fn record(&self, record: usize) -> &'a [u8] {
        let start = if record < self.frame.states {
            self.bodies.states.start + RECORD_BYTES * record
        } else {
            self.bodies.evolutions.start + RECORD_BYTES * (record - self.frame.states)
        };
        &self.file[start..start + RECORD_BYTES]
    }

    /// Length of a record's condition.
    fn text_length(&self, record: usize) -> usize {
        usize::from(self.record(record)[2])
    }

    /// Where each condition stands in the file, those of kinds 5 and 6 last if there are any.
    pub fn text_places(&self) -> Vec<Range<usize>> {
        let mut end = self.bodies.texts.start;
        let place = |record| {
            let start = end;
            end += self.text_length(record);
            start..end
        };
        (0..self.records()).map(place).chain(self.bodies.optional().cloned()).collect()
    }

    /// The character at which a condition that 5 refuses does not read; zero with any other refusal.
    fn character(&self, answer: Answer) -> usize {
        if answer.number != 5 {
            return 0;
        }
        let text = self.text_places().swap_remove(answer.place);
        character(&self.file[text], self.frame.inputs)
    }

    /// Checks 4 to 13; the buffers have exactly the needed lengths and are filled on the way. The
    /// frame is the file's, with both sets.
    fn fill(
        &self,
        table: &mut [u8],
        words: &mut [u16],
        records: &mut [Evolution],
    ) -> Result<Frame, Answer> {
        let texts = self.text_places();
        self.copy_records(&texts, words, records);
        self.check_records(words, records)?;
        let unread = |&record: &usize| self.holds(&texts[record], 0).is_none();
        refuse_at(5, (self.first_text()..texts.len()).find(unread))?;
        self.check_evolutions(records)?;
        self.fill_table(&texts[self.first_text()..self.records()], records, table)?;
        let machine = Machine { frame: self.whole_frame(), moves: table };
        machine.check_transients()?;
        refuse_at(11, (0..words.len()).find(|&state| words[..state].contains(&words[state])))?;
        refuse_at(12, first_unreached(&machine))?;
        machine.check_start()?;
        Ok(machine.frame)
    }

    /// The frame with the settings never used, none without kind 5, and the allowed starts, setting 0
    /// alone without kind 6.
    fn whole_frame(&self) -> Frame {
        let Bodies { never, starts, .. } = &self.bodies;
        let set = |text: &Option<Range<usize>>| text.as_ref().map(|text| self.set(text));
        Frame {
            never: set(never).unwrap_or(NO_SETTING),
            starts: set(starts).unwrap_or(POWER_UP),
            ..self.frame
        }
    }

    /// The settings at which a condition holds.
    fn set(&self, text: &Range<usize>) -> Set {
        let settings = 1 << self.frame.inputs;
        set_of(|setting| setting < settings && self.holds(text, setting) == Some(true))
    }

    fn copy_records(&self, texts: &[Range<usize>], words: &mut [u16], records: &mut [Evolution]) {
        for (state, word) in words.iter_mut().enumerate() {
            let bytes = self.record(state);
            *word = u16::from_le_bytes([bytes[0], bytes[1]]);
        }
        for (index, evolution) in records.iter_mut().enumerate() {
            let bytes = self.record(self.frame.states + index);
            let at = texts[self.frame.states + index].start as u16;
            *evolution = Evolution { source: bytes[0], target: bytes[1], at, length: bytes[2] };
        }
    }

    /// Check 4: words within the outputs, then states within the evolutions.
    fn check_records(&self, words: &[u16], records: &[Evolution]) -> Result<(), Answer> {
        refuse_at(4, words.iter().position(|&word| u32::from(word) >> self.outputs != 0))?;
        let foreign = |state: u8| usize::from(state) >= self.frame.states;
        let index = records.iter().position(|it| foreign(it.source) || foreign(it.target));
        refuse_at(4, index.map(|index| self.frame.states + index))
    }

    /// Checks 6 and 7: no evolution to its own source, none with the states of an earlier one.
    fn check_evolutions(&self, records: &[Evolution]) -> Result<(), Answer> {
        let own = records.iter().position(|it| it.source == it.target);
        refuse_at(6, own.map(|index| self.frame.states + index))?;
        let mut seen = [[false; STATES]; STATES];
        let again = records.iter().position(|it| {
            let pair = &mut seen[usize::from(it.source)][usize::from(it.target)];
            std::mem::replace(pair, true)
        });
        refuse_at(7, again.map(|index| self.frame.states + index))
    }

    /// Checks 8 and 9, and the move of each couple.
    fn fill_table(
        &self,
        texts: &[Range<usize>],
        records: &[Evolution],
        table: &mut [u8],
    ) -> Result<(), Answer> {
        let mut without = None;
        for state in 0..self.frame.states {
            let rules = rules_of(state, texts, records);
            for setting in 0..1 << self.frame.inputs {
                let couple = state << self.frame.inputs | setting;
                let mut holding = rules.iter().filter(|rule| self.says(rule, setting));
                match (holding.next(), holding.next()) {
                    (Some(_), Some(_)) => return Err(Answer::refused(8, couple)),
                    (Some(rule), None) => table[couple] = rule.target,
                    (None, _) if !self.bodies.rests => table[couple] = state as u8,
                    (None, _) => without = without.or(Some(couple)),
                }
            }
        }
        refuse_at(9, without)
    }

    fn says(&self, rule: &Rule, setting: usize) -> bool {
        self.holds(&rule.text, setting) == Some(true)
    }

    fn holds(&self, text: &Range<usize>, setting: usize) -> Option<bool> {
        holds(&self.file[text.clone()], self.frame.inputs, setting)
    }
}

/// A rule of a state: where its condition stands, and the state it moves to.
struct Rule {
    text: Range<usize>,
    target: u8,
}

/// The rest condition of a state, if the texts begin with rest conditions, then its evolutions.
fn rules_of(state: usize, texts: &[Range<usize>], records: &[Evolution]) -> Vec<Rule> {
    let (rests, evolutions) = texts.split_at(texts.len() - records.len());
    let rest = rests.get(state).map(|text| Rule { text: text.clone(), target: state as u8 });
    let leaving = records.iter().zip(evolutions).filter(|(it, _)| usize::from(it.source) == state);
    let leaving = leaving.map(|(it, text)| Rule { text: text.clone(), target: it.target });
    rest.into_iter().chain(leaving).collect()
}

/// The first state that no sequence of settings reaches from the initial one.
fn first_unreached(machine: &Machine) -> Option<usize> {
    let mut reached = [false; STATES];
    let mut open = vec![machine.frame.initial];
    reached[machine.frame.initial] = true;
    while let Some(state) = open.pop() {
        for setting in 0..machine.settings() {
            let next = machine.to(machine.couple(state, setting));
            if !std::mem::replace(&mut reached[next], true) {
                open.push(next);
            }
        }
    }
    (0..machine.frame.states).find(|&state| !reached[state])
}
