//! The engine's state with every part readable: read from the state's saved form (which the stand-in derives write from
//! the published, private types), and document 01's well-formedness.
mod dump;

use crate::limited::{Conflict, Cursor, Edit, EditId, ListFrom, Refused, RequestId, ResourceId, codec, limits};
use calendar_sync_model::ProviderEvent;
use jiff::Timestamp;
use serde::{Deserialize, Serialize};
use std::collections::{BTreeMap, BTreeSet, VecDeque};
use std::fmt::Write as _;

#[derive(Clone, Debug, PartialEq, Serialize, Deserialize)]
pub struct View {
    pub records: BTreeMap<ResourceId, ProviderEvent>,
    pub cursor: Option<Cursor>,
    pub pass: Option<PassView>,
    pub edits: BTreeMap<ResourceId, VecDeque<PendingView>>,
    pub in_flight: BTreeMap<RequestId, Purpose>,
    pub next_request: u64,
    pub learned: BTreeMap<ResourceId, u64>,
    pub learned_all: u64,
    pub now: Option<Timestamp>,
    pub aliases: BTreeMap<ResourceId, ResourceId>,
}

#[derive(Clone, Debug, PartialEq, Serialize, Deserialize)]
pub struct PassView {
    pub full: bool,
    pub from: ListFrom,
    pub staged: BTreeMap<ResourceId, Staged>,
    pub seen: BTreeSet<ResourceId>,
    pub observed: BTreeSet<ResourceId>,
    pub done: Option<Cursor>,
}

#[derive(Clone, Debug, PartialEq, Serialize, Deserialize)]
pub enum Staged {
    Present(Box<ProviderEvent>),
    Unread,
    Removed,
}

#[derive(Clone, Debug, PartialEq, Serialize, Deserialize)]
pub struct PendingView {
    pub edit: Edit,
    pub conflicts: Vec<Conflict>,
    pub refused: Vec<Refused>,
    pub collided: bool,
    pub absorbed: Vec<EditId>,
}

#[derive(Clone, Debug, PartialEq, Eq, Serialize, Deserialize)]
pub enum Purpose {
    List,
    PassRead(ResourceId),
    EditRead(ResourceId),
    EditWrite(ResourceId),
    Refresh(ResourceId),
}

impl View {
    pub fn waiting(&self) -> usize {
        self.edits.values().map(VecDeque::len).sum()
    }

    pub fn head(&self, r: &ResourceId) -> Option<&PendingView> {
        self.edits.get(r).and_then(VecDeque::front)
    }

    pub fn doubtful(&self, request: RequestId, r: &ResourceId) -> bool {
        request.get() < self.learned_all || self.learned.get(r).is_some_and(|&s| request.get() < s)
    }

    /// How often each id waits, its folded ones too.
    pub fn ids(&self) -> BTreeMap<String, i64> {
        let mut ids = BTreeMap::new();
        for p in self.edits.values().flatten() {
            for id in std::iter::once(&p.edit.id).chain(&p.absorbed) {
                *ids.entry(id.as_str().to_owned()).or_insert(0) += 1;
            }
        }
        ids
    }

    /// The entries under each of the nine limits (of absorbed, the most in one entry).
    pub fn sizes(&self) -> [usize; 9] {
        let pass = self.pass.as_ref();
        [
            self.records.len(),
            pass.map_or(0, |p| p.staged.len()),
            pass.map_or(0, |p| p.seen.len()),
            pass.map_or(0, |p| p.observed.len()),
            self.waiting(),
            self.edits.values().flatten().map(|p| p.absorbed.len()).max().unwrap_or(0),
            self.in_flight.len(),
            self.learned.len(),
            self.aliases.len(),
        ]
    }

    /// What may be read of a state: the cursor, the records, the numbers in flight, the queues and their counts.
    pub fn readable(&self) -> Vec<u8> {
        let mut bytes = serde::save(&self.cursor);
        bytes.extend(serde::save(&self.records));
        bytes.push(self.in_flight.len() as u8);
        for id in self.in_flight.keys() {
            bytes.extend(id.get().to_be_bytes());
        }
        bytes.push(self.edits.len() as u8);
        for (name, queue) in &self.edits {
            bytes.extend(serde::save(name));
            bytes.push(queue.len() as u8);
        }
        bytes
    }

    /// What of document 01's "well-formed" fails, beyond what reading the saved form checks.
    pub fn fault(&self, limits_: &[usize; 9]) -> Option<String> {
        for (n, (held, most)) in self.sizes().iter().zip(limits_).enumerate() {
            if held > most {
                return Some(format!("{} {held} over {most}", limits::TABLES[n]));
            }
        }
        if let Some((id, _)) = self.in_flight.last_key_value() {
            if id.get() >= self.next_request {
                return Some(format!("in flight {} at next {}", id.get(), self.next_request));
            }
        }
        self.edits.iter().find_map(|(r, queue)| queue_fault(r, queue)).or_else(|| self.request_fault())
    }

    /// Each queue has one request for an edit in flight, other resources none.
    fn request_fault(&self) -> Option<String> {
        let mut asked: BTreeMap<&ResourceId, usize> = BTreeMap::new();
        for p in self.in_flight.values() {
            if let Purpose::EditRead(r) | Purpose::EditWrite(r) = p {
                *asked.entry(r).or_default() += 1;
            }
        }
        for (r, n) in &asked {
            if *n != 1 || !self.edits.contains_key(*r) {
                return Some(format!("{n} edit requests for {r:?}"));
            }
        }
        self.edits.keys().find(|r| !asked.contains_key(r)).map(|r| format!("no edit request for {r:?}"))
    }
}

fn queue_fault(r: &ResourceId, queue: &VecDeque<PendingView>) -> Option<String> {
    if queue.is_empty() {
        return Some(format!("empty queue {r:?}"));
    }
    for p in queue {
        if p.edit.resource != *r {
            return Some(format!("{:?} in queue {r:?}", p.edit.resource));
        }
        let (mut conflicts, mut refused) = (Vec::new(), Vec::new());
        codec::put_conflicts(&p.conflicts, &mut conflicts);
        codec::put_refused(&p.refused, &mut refused);
        if conflicts.len() > limits::CONFLICTS || refused.len() > limits::REFUSED {
            return Some(format!("conflicts of {} bytes, refused list of {}", conflicts.len(), refused.len()));
        }
    }
    None
}

pub fn hex(bytes: &[u8]) -> String {
    let mut s = String::with_capacity(bytes.len() * 2);
    for b in bytes {
        let _ = write!(s, "{b:02x}");
    }
    s
}
