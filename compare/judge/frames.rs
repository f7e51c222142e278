//! Random frames that mean something: the generator keeps the engine's state and answers what is in flight. The same seed,
//! steps and profile give the same lines.
mod clerks;
mod damage;
mod fills;
mod merges;
mod moves;
mod replies;
mod rng;
mod scripts;
mod values;
mod wild;

use crate::cover::Cover;
use crate::engine::{self, Engine};
use crate::limited::{Input, Outcome, RequestId, ResourceId, codec};
use crate::view::{Purpose, View, hex};
pub use clerks::clerks_input;
pub use damage::ODD_TEXTS;
pub use merges::{AttendeeMerge, attendee_merges};
pub use rng::Rng;
pub use wild::random_state;

/// A kind of run.
pub struct Profile {
    pub name: &'static str,
    /// How often each kind of step comes: sync, edit, answer, tick, resume, unknown number, damage, script.
    weights: [usize; 8],
    /// How many ordinary names there are.
    names: usize,
}

pub const PROFILES: [Profile; 6] = [
    Profile { name: "mixed", weights: [6, 30, 62, 4, 3, 3, 3, 2], names: 10 },
    Profile { name: "queues", weights: [2, 52, 50, 6, 3, 1, 0, 1], names: 4 },
    Profile { name: "passes", weights: [12, 16, 76, 1, 3, 2, 0, 2], names: 9 },
    Profile { name: "merges", weights: [1, 30, 68, 1, 1, 0, 0, 3], names: 4 },
    Profile { name: "limits", weights: [5, 24, 44, 1, 1, 1, 1, 10], names: 40 },
    Profile { name: "damage", weights: [4, 20, 34, 3, 2, 3, 50, 0], names: 10 },
];

struct Gen<'c> {
    rng: Rng,
    engine: Engine,
    view: View,
    lines: Vec<Vec<u8>>,
    steps: usize,
    cover: Option<&'c mut Cover>,
    profile: &'static Profile,
    edits: u64,
    revisions: u64,
    last_frame: Vec<u8>,
}

/// The lines from this engine's state on, or nothing for an unknown profile.
pub fn generate(
    engine: Engine,
    seed: u64,
    steps: usize,
    profile: &str,
    cover: Option<&mut Cover>,
) -> Option<Vec<Vec<u8>>> {
    let place = PROFILES.iter().position(|p| p.name == profile)?;
    let rng = Rng::new(seed.wrapping_mul(6).wrapping_add(place as u64));
    let mut g = Gen::new(engine, rng, steps, &PROFILES[place], cover);
    while !g.full() {
        g.one();
    }
    Some(g.lines)
}

pub fn res(name: impl Into<String>) -> ResourceId {
    ResourceId::new(name)
}

impl<'c> Gen<'c> {
    fn new(engine: Engine, rng: Rng, steps: usize, profile: &'static Profile, cover: Option<&'c mut Cover>) -> Self {
        let view = engine.view();
        Self {
            rng,
            engine,
            view,
            lines: Vec::new(),
            steps,
            cover,
            profile,
            edits: 0,
            revisions: 0,
            last_frame: vec![0],
        }
    }

    fn full(&self) -> bool {
        self.lines.len() >= self.steps
    }

    /// The answer's number, or 255 where there are steps enough.
    fn raw(&mut self, line: Vec<u8>) -> u8 {
        if self.full() {
            return 255;
        }
        let before = self.cover.is_some().then(|| self.view.clone());
        let answer = self.engine.line(&line);
        if answer.number == 0 {
            self.view = self.engine.view();
        }
        if let (Some(cover), Some(before)) = (self.cover.as_deref_mut(), before) {
            let input = engine::frame(&line).and_then(|f| codec::decode(&f));
            cover.step(&before, &line, input.as_ref(), &answer, &self.view);
        }
        self.lines.push(line);
        answer.number
    }

    fn put(&mut self, input: Input) -> u8 {
        let frame = serde::save(&input);
        let line = hex(&frame).into_bytes();
        self.last_frame = frame;
        self.raw(line)
    }

    fn answer(&mut self, request: u64, outcome: Outcome) -> u8 {
        self.put(Input::Outcome { request: RequestId::new(request), outcome })
    }

    /// One random step, or one script of several.
    fn one(&mut self) {
        match self.rng.weigh(&self.profile.weights) {
            0 => {
                self.put(Input::Sync);
            }
            1 => {
                let edit = self.edit();
                self.put(Input::Edit(edit));
            }
            2 => self.answer_one(),
            3 => {
                let now = self.time();
                self.put(Input::Tick { now });
            }
            4 => {
                self.put(Input::Resume);
            }
            5 => self.answer_unknown(),
            6 => self.damage(),
            _ => self.script(),
        }
    }

    /// A reply to what is in flight: the first, the last or any.
    fn answer_one(&mut self) {
        let flight: Vec<RequestId> = self.view.in_flight.keys().copied().collect();
        if flight.is_empty() {
            if self.rng.chance(50) {
                self.put(Input::Sync);
            }
            return;
        }
        let at = match self.rng.below(4) {
            0 => 0,
            1 => flight.len() - 1,
            _ => self.rng.below(flight.len()),
        };
        let outcome = self.outcome(flight[at]);
        self.answer(flight[at].get(), outcome);
    }

    /// A reply under a number that is mostly not in flight.
    fn answer_unknown(&mut self) {
        let next = self.view.next_request;
        let request = *self.rng.pick(&[next, next.wrapping_add(7), u64::MAX, next / 2, next.saturating_sub(1), 0]);
        let outcome = match self.view.in_flight.contains_key(&RequestId::new(request)) {
            true => self.outcome(RequestId::new(request)),
            false => self.any_outcome(),
        };
        self.answer(request, outcome);
    }

    // What is in flight.

    fn find(&self, want: impl Fn(&Purpose) -> bool) -> Option<u64> {
        self.view.in_flight.iter().find(|(_, p)| want(p)).map(|(id, _)| id.get())
    }

    fn listing(&self) -> Option<u64> {
        self.find(|p| *p == Purpose::List)
    }

    fn edit_read(&self, name: &str) -> Option<u64> {
        self.find(|p| *p == Purpose::EditRead(res(name)))
    }

    fn edit_write(&self, name: &str) -> Option<u64> {
        self.find(|p| *p == Purpose::EditWrite(res(name)))
    }
}
