//! Random well-formed states, mostly ones that no steps lead to.
use super::{Gen, PROFILES, Rng, res};
use crate::engine::Engine;
use crate::limited::{Conflict, FieldValue, ListFrom, Operation, Refused, RequestId, limits, merge};
use crate::view::{PassView, PendingView, Purpose, Staged, View};
use calendar_sync_model::Field;
use std::collections::BTreeMap;
use std::collections::btree_map::Entry;

pub fn random_state(seed: u64) -> View {
    let mut g = Gen::new(Engine::new(false), Rng::new(seed ^ 0x7374_6174_6573), 0, &PROFILES[0], None);
    g.state();
    assert_eq!(g.view.fault(&limits::LIMITS), None);
    g.view
}

impl Gen<'_> {
    /// Up to `most` of something, often none, often all.
    fn some(&mut self, most: usize) -> usize {
        match self.rng.below(6) {
            0 | 1 => 0,
            2 => most,
            3 => most.saturating_sub(1),
            _ => self.rng.below(most + 1),
        }
    }

    fn state(&mut self) {
        self.view.next_request = match self.rng.below(12) {
            0 => u64::MAX,
            1 => u64::MAX - 1 - self.rng.below(4) as u64,
            2 => 24,
            _ => 30 + self.rng.below(30) as u64,
        };
        for _ in 0..self.some(10) {
            let name = self.name();
            let id = if self.rng.chance(85) { name.clone() } else { self.name() };
            let e = self.event(&id);
            self.view.records.insert(res(name), e);
        }
        self.view.cursor = self.maybe(60, Self::cursor);
        self.view.pass = self.maybe(65, Self::open_pass);
        self.queues();
        self.requests();
        self.numbers();
    }

    fn open_pass(&mut self) -> PassView {
        let from = match self.rng.below(3) {
            0 => ListFrom::Start,
            1 => ListFrom::Since(self.cursor()),
            _ => ListFrom::Continue(self.cursor()),
        };
        let full = self.rng.chance(50);
        let done = self.maybe(50, Self::cursor);
        let mut p = PassView {
            full,
            from,
            staged: Default::default(),
            seen: Default::default(),
            observed: Default::default(),
            done,
        };
        let unread = self.rng.chance(60);
        for _ in 0..self.some(10) {
            let name = self.name();
            let staged = match self.rng.below(3) {
                0 => Staged::Present(Box::new(self.event(&name))),
                1 if unread => Staged::Unread,
                _ => Staged::Removed,
            };
            p.staged.insert(res(name), staged);
        }
        for _ in 0..self.some(32) {
            p.seen.insert(res(self.name()));
        }
        if self.rng.chance(20) {
            p.seen.extend((0..32).map(|i| res(format!("q{i:02}"))));
        }
        while p.seen.len() > 32 {
            p.seen.pop_last();
        }
        for _ in 0..self.some(16) {
            p.observed.insert(res(self.name()));
        }
        p
    }

    fn queues(&mut self) {
        let mut entries = self.some(6).max(self.rng.below(3));
        while entries > 0 {
            let n = 1 + self.rng.below(entries);
            let name = self.name();
            if self.view.edits.contains_key(&res(name.clone())) {
                entries -= 1;
                continue;
            }
            entries -= n;
            for _ in 0..n {
                let entry = self.entry(&name);
                self.view.edits.entry(res(name.clone())).or_default().push_back(entry);
            }
        }
    }

    fn entry(&mut self, name: &str) -> PendingView {
        let mut edit = self.edit();
        edit.resource = res(name);
        let planned = self.rng.chance(50);
        let (conflicts, refused) = match &edit.operation {
            Operation::Update { base, ours } if planned => {
                let theirs = self.theirs(base, ours);
                let mut e = self.event(name);
                e.fields = theirs;
                let m = merge::merge(base, ours, &e, &edit.role);
                (m.conflicts, m.refused)
            }
            _ if self.rng.chance(15) => longest_reports(),
            _ => (Vec::new(), Vec::new()),
        };
        let absorbed = (0..self.some(8)).map(|_| self.edit_id()).collect();
        PendingView { edit, conflicts, refused, collided: self.rng.chance(25), absorbed }
    }

    /// Requests in flight, under distinct numbers.
    fn requests(&mut self) {
        let names: Vec<_> = self.view.edits.keys().cloned().collect();
        let mut purposes: Vec<Purpose> = Vec::new();
        for r in names {
            purposes.push(if self.rng.chance(50) { Purpose::EditRead(r) } else { Purpose::EditWrite(r) });
        }
        if self.rng.chance(60) {
            purposes.push(Purpose::List);
        }
        if self.rng.chance(10) {
            purposes.push(Purpose::List);
        }
        let room = 24 - purposes.len();
        for _ in 0..self.some(room) {
            let name = res(self.name());
            purposes.push(if self.rng.chance(50) { Purpose::PassRead(name) } else { Purpose::Refresh(name) });
        }
        let next = self.view.next_request;
        for p in purposes {
            let high = self.rng.chance(50) || next <= 60;
            loop {
                let n = self.rng.below(next.min(60) as usize) as u64;
                let n = if high { next - 1 - n } else { n };
                if let Entry::Vacant(place) = self.view.in_flight.entry(RequestId::new(n)) {
                    place.insert(p);
                    break;
                }
            }
        }
    }

    /// What is learned, the time and the aliases.
    fn numbers(&mut self) {
        let next = self.view.next_request;
        let mut learned = BTreeMap::new();
        for _ in 0..self.some(32) {
            let n = match self.rng.below(8) {
                0 => next,
                1 => next.saturating_add(1),
                _ => next.saturating_sub(self.rng.below(60) as u64),
            };
            learned.insert(res(self.name()), n);
        }
        if self.rng.chance(15) {
            learned.extend((0..32).map(|i| (res(format!("l{i:02}")), next)));
        }
        while learned.len() > 32 {
            learned.pop_last();
        }
        self.view.learned_all = match self.rng.below(8) {
            2 => next.saturating_add(3),
            0 | 1 => next.saturating_sub(self.rng.below(60) as u64),
            _ => 0,
        };
        self.view.now = self.maybe(50, Self::time);
        let mut aliases = BTreeMap::new();
        for _ in 0..self.some(8) {
            aliases.insert(res(self.name()), res(self.name()));
        }
        self.view.learned = learned;
        self.view.aliases = aliases;
    }
}

/// As many conflicts and refused parts as are well-formed, so that effects may overflow.
fn longest_reports() -> (Vec<Conflict>, Vec<Refused>) {
    let long = || Some("k".repeat(32));
    let conflict = Conflict {
        field: Field::Location,
        attendee: None,
        base: FieldValue::Location(long()),
        ours: FieldValue::Location(None),
        theirs: FieldValue::Location(long()),
    };
    let refused = Refused { field: Field::Attendees, attendee: long() };
    (vec![conflict; 41], vec![refused; 29])
}
