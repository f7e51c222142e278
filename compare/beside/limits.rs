//! Document 01's refusals 4 to 7, met at the Rust's own statements. The script `build` puts calls of these functions into the
//! copy of sync.rs that the limited engine is built from, line for line.
use crate::codec;
use crate::merge::MergeOutcome;
use crate::sync::Effect;
use std::cell::Cell;
use std::collections::{BTreeMap, BTreeSet};
use std::panic::{Location, resume_unwind};

/// Why and where a step was refused. `line` is the line of the published sync.rs.
#[derive(Clone, Copy, Debug)]
pub struct Refusal {
    pub number: u8,
    pub table: &'static str,
    pub line: u32,
}

/// The nine tables, in document 01's order.
pub const TABLES: [&str; 9] =
    ["records", "staged", "seen", "observed", "waiting", "absorbed", "in_flight", "learned", "aliases"];
/// Document 01's nine limits.
pub const LIMITS: [usize; 9] = [10, 10, 32, 16, 6, 8, 24, 32, 8];
/// The bytes of a waiting entry's conflicts and of its refused list, their count bytes included.
pub const CONFLICTS: usize = 3072;
pub const REFUSED: usize = 1024;
/// The effects' bytes.
pub const EFFECTS: usize = 32_768;
/// A merged event's attendees.
pub const ATTENDEES: usize = 8;

thread_local! {
    static SETTINGS: Cell<[usize; 9]> = const { Cell::new(LIMITS) };
}

/// Other limits than document 01's, for this thread.
pub fn set(limits: [usize; 9]) {
    SETTINGS.set(limits);
}

/// A table's limit, in this thread.
pub fn limit(table: &str) -> usize {
    SETTINGS.get()[TABLES.iter().position(|t| *t == table).expect("a table")]
}

#[track_caller]
fn refuse(number: u8, table: &'static str) -> ! {
    resume_unwind(Box::new(Refusal { number, table, line: Location::caller().line() }))
}

/// `next_request += 1`.
#[track_caller]
pub fn number(next: u64) -> u64 {
    match next.checked_add(1) {
        Some(next) => next,
        None => refuse(4, "next_request"),
    }
}

/// What a merge gave.
#[track_caller]
pub fn merged(outcome: MergeOutcome) -> MergeOutcome {
    if outcome.event.fields.attendees.len() > ATTENDEES {
        refuse(6, "attendees");
    }
    outcome
}

/// One more waiting entry, where `held` wait in all.
#[track_caller]
pub fn waiting(held: usize) {
    if held >= limit("waiting") {
        refuse(5, "waiting");
    }
}

pub trait LimitedMap<K, V> {
    fn insert_in(&mut self, table: &'static str, key: K, value: V) -> Option<V>;
}
impl<K: Ord, V> LimitedMap<K, V> for BTreeMap<K, V> {
    #[track_caller]
    fn insert_in(&mut self, table: &'static str, key: K, value: V) -> Option<V> {
        if self.len() >= limit(table) && !self.contains_key(&key) {
            refuse(5, table);
        }
        self.insert(key, value)
    }
}

pub trait LimitedSet<K> {
    fn insert_in(&mut self, table: &'static str, key: K) -> bool;
}
impl<K: Ord> LimitedSet<K> for BTreeSet<K> {
    #[track_caller]
    fn insert_in(&mut self, table: &'static str, key: K) -> bool {
        if self.len() >= limit(table) && !self.contains(&key) {
            refuse(5, table);
        }
        self.insert(key)
    }
}

pub trait LimitedVec<T> {
    fn push_in(&mut self, table: &'static str, value: T);
}
impl<T> LimitedVec<T> for Vec<T> {
    #[track_caller]
    fn push_in(&mut self, table: &'static str, value: T) {
        if self.len() >= limit(table) {
            refuse(5, table);
        }
        self.push(value);
    }
}

pub trait LimitedEffects {
    fn push_effect(&mut self, effect: Effect);
}
impl LimitedEffects for Vec<Effect> {
    #[track_caller]
    fn push_effect(&mut self, effect: Effect) {
        let held: usize = self.iter().map(|e| codec::encode(e).len()).sum();
        if held + codec::encode(&effect).len() > EFFECTS {
            refuse(7, "effects");
        }
        self.push(effect);
    }
}
