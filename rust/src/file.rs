//! Specification files from readable descriptions.

use crate::plain::{SEQ1, SEQ2};

/// A specification as its author would say it.
#[derive(Clone, Debug, PartialEq, Eq)]
pub struct File {
    pub mark: [u8; 4],
    pub inputs: u8,
    pub outputs: u8,
    pub initial: u8,
    pub states: Vec<State>,
    pub evolutions: Vec<Leaving>,
    /// The condition at which a setting is never used, if the file has one.
    pub never: Option<String>,
    /// The condition at which a run may start, if the file has one.
    pub starts: Option<String>,
}

/// A state: its output word and its rest condition, empty if it has none.
#[derive(Clone, Debug, PartialEq, Eq)]
pub struct State {
    pub word: u16,
    pub rest: String,
}

/// An evolution: the states it leaves and reaches, and its condition.
#[derive(Clone, Debug, PartialEq, Eq)]
pub struct Leaving {
    pub source: u8,
    pub target: u8,
    pub condition: String,
}

impl File {
    /// A specification from its states (word, rest) and evolutions (source, target, condition),
    /// with initial state 0, every setting used, and setting 0 as the only allowed start.
    pub fn new(
        inputs: u8,
        outputs: u8,
        states: &[(u16, &str)],
        evolutions: &[(u8, u8, &str)],
    ) -> File {
        let state = |&(word, rest): &(u16, &str)| State { word, rest: rest.to_string() };
        let leaving = |&(source, target, condition): &(u8, u8, &str)| Leaving {
            source,
            target,
            condition: condition.to_string(),
        };
        File {
            mark: SEQ1,
            inputs,
            outputs,
            initial: 0,
            states: states.iter().map(state).collect(),
            evolutions: evolutions.iter().map(leaving).collect(),
            never: None,
            starts: None,
        }
    }

    /// The specification with settings that are never used: those at which the condition holds.
    pub fn never(self, condition: &str) -> File {
        File { never: Some(condition.to_string()), ..self }
    }

    /// The specification with allowed starts: the settings at which the condition holds.
    pub fn starts(self, condition: &str) -> File {
        File { starts: Some(condition.to_string()), ..self }
    }

    /// The specification as SEQ2: its states have no rest conditions.
    pub fn without_rests(mut self) -> File {
        self.states.iter_mut().for_each(|state| state.rest.clear());
        File { mark: SEQ2, ..self }
    }

    /// The conditions in the order of the records, to be changed: states, evolutions, settings never
    /// used, allowed starts.
    pub fn conditions_mut(&mut self) -> impl Iterator<Item = &mut String> {
        let rests = self.states.iter_mut().map(|state| &mut state.rest);
        let leaving = self.evolutions.iter_mut().map(|it| &mut it.condition);
        rests.chain(leaving).chain(&mut self.never).chain(&mut self.starts)
    }

    /// The condition of a record of the file, to be changed.
    pub fn condition_mut(&mut self, record: usize) -> &mut String {
        self.conditions_mut().nth(record).expect("the record is one of the file's")
    }

    /// The file's bytes.
    pub fn bytes(&self) -> Vec<u8> {
        with_contents(self.mark, &self.bodies())
    }

    /// The file's bytes with any bytes as the condition of a record.
    pub fn bytes_with(mut self, record: usize, text: &[u8]) -> Vec<u8> {
        *self.condition_mut(record) = "0".repeat(text.len());
        let texts: usize = self.conditions_mut().skip(record).map(|text| text.len()).sum();
        let mut bytes = self.bytes();
        let at = bytes.len() - texts;
        bytes[at..at + text.len()].copy_from_slice(text);
        bytes
    }

    /// The bodies with their kinds. A number too large for its bytes is written without its high
    /// part, so that files beyond the limits can be made too.
    pub fn bodies(&self) -> Vec<(u8, Vec<u8>)> {
        let sizes = vec![self.inputs, self.outputs, self.states.len() as u8, self.initial];
        let (mut states, mut evolutions, mut texts) = (Vec::new(), Vec::new(), Vec::new());
        for state in &self.states {
            states.extend(state.word.to_le_bytes());
            states.push(state.rest.len() as u8);
            texts.extend(state.rest.bytes());
        }
        for it in &self.evolutions {
            evolutions.extend([it.source, it.target, it.condition.len() as u8]);
            texts.extend(it.condition.bytes());
        }
        let mut bodies = vec![(1, sizes), (2, states), (3, evolutions), (4, texts)];
        let optional = [(5, &self.never), (6, &self.starts)];
        let body = |(kind, text): (u8, &Option<String>)| Some((kind, text.clone()?.into_bytes()));
        bodies.extend(optional.into_iter().filter_map(body));
        bodies
    }
}

/// A file of the given mark, kinds and bodies, after its contents.
pub fn with_contents(mark: [u8; 4], bodies: &[(u8, Vec<u8>)]) -> Vec<u8> {
    let mut file = mark.to_vec();
    file.push(bodies.len() as u8);
    let mut offset = 5 + 5 * bodies.len();
    for (kind, body) in bodies {
        file.push(*kind);
        file.extend((offset as u16).to_le_bytes());
        file.extend((body.len() as u16).to_le_bytes());
        offset += body.len();
    }
    file.extend(bodies.iter().flat_map(|(_, body)| body));
    file
}
