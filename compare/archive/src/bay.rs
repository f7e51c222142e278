//! The archive's side: its buffers, and what of a call is not as it must be.
#[path = "../../../embed/rust/src/archive.rs"]
#[rustfmt::skip] // it has another style's file beside it
mod archive;

use crate::layout::Layout;
use judge::view::{View, hex};

/// What a call must give.
pub struct Want {
    pub code: u8,
    pub effects: Vec<u8>,
    pub state: Vec<u8>,
}

pub struct Bay {
    pub state: Vec<u8>,
    work: Vec<u8>,
    output: Vec<u8>,
    zeros: Vec<u8>,
    calls: usize,
}

const LENGTH: u8 = 1;
pub const STATE: u8 = 2;

/// So many digits of these bytes at the most.
fn digits(bytes: &[u8]) -> String {
    let most = 300;
    if bytes.len() > most { format!("{}.. ({} bytes)", hex(&bytes[..most]), bytes.len()) } else { hex(bytes) }
}

fn told(what: &str, want: &[u8], got: &[u8]) -> String {
    format!("{what}\n    judge   {}\n    archive {}", digits(want), digits(got))
}

/// The first place where they part.
fn parting(a: &[u8], b: &[u8]) -> usize {
    a.iter().zip(b).position(|(a, b)| a != b).unwrap_or(a.len().min(b.len()))
}

impl Bay {
    /// With a fresh state.
    pub fn new() -> Self {
        let (state, output) = (vec![0xff; archive::state_length()], vec![0; archive::output_length() + 3]);
        let mut bay = Self { work: state.clone(), zeros: vec![0; state.len()], state, output, calls: 0 };
        assert_eq!(archive::fresh(&mut bay.state), 0);
        bay
    }

    /// A step from `self.state`: what differs from what it must give. The buffers hold other bytes before each call.
    pub fn step(&mut self, layout: &Layout, frame: &[u8], want: &Want) -> Vec<String> {
        self.calls += 1;
        self.work.fill(self.calls as u8);
        self.output.fill(!self.calls as u8);
        let output = &mut self.output[..archive::output_length() + self.calls % 4];
        let (code, length) = archive::step(&mut self.state, &mut self.work, output, frame);
        let mut found = Vec::new();
        if code != want.code {
            found.push(format!("answer: judge {}, archive {code}", want.code));
        }
        let length = length.min(output.len());
        let (effects, rest) = output.split_at(length);
        if effects != want.effects {
            let at = parting(&want.effects, effects);
            found.push(told(&format!("effects, from byte {at} on"), &want.effects[at..], &effects[at..]));
        }
        if *rest != self.zeros[..rest.len()] {
            found.push("the output is not zero past the effects".to_owned());
        }
        if self.work != self.zeros {
            found.push("the work buffer is not zero".to_owned());
        }
        if self.state != want.state {
            let (words, value) = layout.place(parting(&want.state, &self.state));
            found.push(told(&format!("the state, first in {words}"), &want.state[value.clone()], &self.state[value]));
        }
        found
    }

    /// What is wrong with the reading functions. `view` is the state, or nothing if the bytes are no state's.
    pub fn reads(&self, view: Option<&View>) -> Vec<String> {
        let state = &self.state;
        let Some(view) = view else {
            let (cursor, waiting) = (archive::cursor(state).0, archive::waiting_count(state, b"a").0);
            let codes = [cursor, waiting, archive::record_at(state, 0).0, archive::in_flight_at(state, 0).0];
            return codes.iter().filter(|c| **c != STATE).map(|c| format!("reading from no state gives {c}")).collect();
        };
        let queues: Vec<&str> = view.edits.keys().map(|name| name.as_str()).collect();
        match (view.readable(), self.readable(&queues)) {
            (want, Ok(got)) if got == want => Vec::new(),
            (want, Ok(got)) => vec![told("what can be read", &want, &got)],
            (_, Err(code)) => vec![format!("reading gives {code}")],
        }
    }

    /// As `View::readable`, by the reading functions.
    fn readable(&self, queues: &[&str]) -> Result<Vec<u8>, u8> {
        let state = &self.state;
        let cursor = accepted(archive::cursor(state))?;
        let records = all(|place| archive::record_at(state, place))?;
        let numbers = all(|place| archive::in_flight_at(state, place))?;
        let mut bytes = vec![u8::from(cursor.is_some())];
        bytes.extend(cursor.iter().flat_map(|text| text_of(text.of(state))));
        bytes.push(records.len() as u8);
        bytes.extend(records.iter().flat_map(|(name, event)| [&text_of(name.of(state)), event.of(state)].concat()));
        bytes.push(numbers.len() as u8);
        bytes.extend(numbers.iter().flat_map(|number| number.to_be_bytes()));
        bytes.push(queues.len() as u8);
        for name in queues {
            bytes.extend(text_of(name.as_bytes()));
            bytes.push(accepted(archive::waiting_count(state, name.as_bytes()))? as u8);
        }
        Ok(bytes)
    }
}

/// What is wrong with the answers to buffers of wrong lengths: refusal 1, and nothing written.
pub fn lengths(frame: &[u8]) -> Vec<String> {
    let (state, output) = (archive::state_length(), archive::output_length());
    let mut found = Vec::new();
    for lengths in [
        [state - 1, state, output],
        [state + 1, state, output],
        [state, state - 1, output],
        [state, state + 1, output],
        [state, state, output - 1],
        [0, 0, 0],
    ] {
        let mut buffers = lengths.map(|length| vec![7; length]);
        let before = buffers.clone();
        let [state, work, output] = &mut buffers;
        let answer = archive::step(state, work, output, frame);
        if answer != (LENGTH, 0) || buffers != before {
            found.push(format!("buffers of {lengths:?} bytes give {answer:?}, or are written"));
        }
    }
    found
}

fn accepted<T>((code, value): (u8, T)) -> Result<T, u8> {
    if code == 0 { Ok(value) } else { Err(code) }
}

/// What there is at the places from 0 on.
fn all<T>(at: impl Fn(usize) -> (u8, Option<T>)) -> Result<Vec<T>, u8> {
    let mut list = Vec::new();
    while let Some(value) = accepted(at(list.len()))? {
        list.push(value);
    }
    Ok(list)
}

/// A text in the frame's form.
fn text_of(text: &[u8]) -> Vec<u8> {
    [&[text.len() as u8], text].concat()
}
