//! Random replies.
use super::{Gen, res};
use crate::limited::{Change, Failure, Next, Operation, Outcome, Page, RequestId, ResourceId};
use crate::view::Purpose;
use calendar_sync_model::{Provider, ProviderEvent, ProviderRevision};

impl Gen<'_> {
    fn failure(&mut self) -> Failure {
        match self.rng.below(8) {
            0 => Failure::CursorExpired,
            1 => Failure::PreconditionFailed,
            2 => Failure::NotFound,
            3 => Failure::AlreadyExists,
            4 => Failure::Transient,
            5 => Failure::Rejected("r".repeat(64)),
            6 => Failure::Rejected(String::new()),
            _ => Failure::Rejected("no".to_owned()),
        }
    }

    fn change(&mut self) -> Change {
        let name = self.name();
        let resource = res(name.clone());
        if self.rng.chance(22) {
            return Change::Remove { resource };
        }
        let held = self.view.records.get(&resource).and_then(|r| r.revision.clone());
        let revision = match held {
            Some(held) if self.rng.chance(40) => held,
            _ => ProviderRevision::new(self.revision()),
        };
        let event = self.maybe(50, |g| {
            let id = if g.rng.chance(90) { name } else { g.name() };
            let mut e = g.event(&id);
            if g.rng.chance(85) {
                e.revision = Some(revision.clone());
            }
            e
        });
        Change::Upsert { resource, revision, event }
    }

    pub fn page(&mut self) -> Page {
        let most = match self.rng.below(10) {
            0..=2 => 1,
            3..=7 => 4,
            _ => 9,
        };
        let changes = (0..self.rng.below(most)).map(|_| self.change()).collect();
        let next = if self.rng.chance(55) { Next::Done(self.cursor()) } else { Next::More(self.cursor()) };
        Page { changes, next }
    }

    pub(super) fn any_outcome(&mut self) -> Outcome {
        match self.rng.below(6) {
            0 => Outcome::Listed(self.page()),
            1 => {
                let name = self.name();
                Outcome::Read(self.maybe(70, |g| g.event(&name)))
            }
            2 => {
                let name = self.name();
                Outcome::Written(self.event(&name))
            }
            3 => Outcome::Deleted,
            _ => Outcome::Failed(self.failure()),
        }
    }

    /// An event read or written under `resource`.
    fn reply_event(&mut self, resource: &ResourceId, head: Option<Operation>) -> ProviderEvent {
        let own = self.rng.chance(88);
        let id = if own { resource.as_str().to_owned() } else { self.name() };
        match head {
            Some(Operation::Update { base, ours }) if self.rng.chance(90) => {
                let fields = self.theirs(&base, &ours);
                let mut e = self.event(&id);
                e.fields = fields;
                e
            }
            Some(Operation::Create(ours)) => {
                let mut e = if self.rng.chance(60) { ours } else { self.event(&id) };
                e.revision = self.maybe(90, |g| ProviderRevision::new(g.revision()));
                if e.ids.provider == Provider::Graph && self.rng.chance(75) {
                    e.ids.id = if self.rng.chance(50) { format!("g{}", self.rng.below(6)) } else { self.name() };
                }
                e
            }
            _ => self.event(&id),
        }
    }

    /// A reply to a request in flight, mostly one that fits it.
    pub(super) fn outcome(&mut self, request: RequestId) -> Outcome {
        let purpose = self.view.in_flight[&request].clone();
        if self.rng.chance(if matches!(purpose, Purpose::List) { 5 } else { 10 }) {
            return self.odd_outcome(&purpose);
        }
        match purpose {
            Purpose::List => match self.rng.weigh(&[84, 6, 7, 2, 1]) {
                0 => Outcome::Listed(self.page()),
                1 => Outcome::Failed(Failure::CursorExpired),
                2 => Outcome::Failed(Failure::Transient),
                3 => Outcome::Failed(Failure::Rejected("no list".to_owned())),
                _ => Outcome::Failed(self.failure()),
            },
            Purpose::PassRead(r) | Purpose::Refresh(r) => self.found(&r, None, &[66, 14, 8, 10, 2]),
            Purpose::EditRead(r) => {
                let head = self.view.head(&r).map(|p| p.edit.operation.clone());
                let found = if matches!(head, Some(Operation::Create(_))) { 38 } else { 75 };
                self.found(&r, head, &[found, 12, 7, 7, 3])
            }
            Purpose::EditWrite(r) => self.written(&r),
        }
    }

    /// Each kind as often as another.
    fn odd_outcome(&mut self, purpose: &Purpose) -> Outcome {
        let name = match purpose {
            Purpose::List => self.name(),
            Purpose::PassRead(r) | Purpose::EditRead(r) | Purpose::EditWrite(r) | Purpose::Refresh(r) => {
                r.as_str().to_owned()
            }
        };
        match self.rng.below(11) {
            0 => Outcome::Listed(self.page()),
            1 => Outcome::Read(Some(self.event(&name))),
            2 => Outcome::Read(None),
            3 => Outcome::Written(self.event(&name)),
            4 => Outcome::Deleted,
            5 => Outcome::Failed(Failure::CursorExpired),
            6 => Outcome::Failed(Failure::PreconditionFailed),
            7 => Outcome::Failed(Failure::NotFound),
            8 => Outcome::Failed(Failure::AlreadyExists),
            9 => Outcome::Failed(Failure::Transient),
            _ => Outcome::Failed(self.failure()),
        }
    }

    fn found(&mut self, r: &ResourceId, head: Option<Operation>, weights: &[usize; 5]) -> Outcome {
        match self.rng.weigh(weights) {
            0 => Outcome::Read(Some(self.reply_event(r, head))),
            1 => Outcome::Read(None),
            2 => Outcome::Failed(Failure::NotFound),
            3 => Outcome::Failed(Failure::Transient),
            _ => Outcome::Failed(self.failure()),
        }
    }

    fn written(&mut self, r: &ResourceId) -> Outcome {
        let head = self.view.head(r).map(|p| p.edit.operation.clone());
        let delete = matches!(head, Some(Operation::Delete));
        match self.rng.weigh(&[60, 8, 8, 10, 6, 6, 3]) {
            0 if delete => Outcome::Deleted,
            0 => Outcome::Written(self.reply_event(r, head)),
            1 => Outcome::Failed(Failure::PreconditionFailed),
            2 => Outcome::Failed(Failure::NotFound),
            3 => Outcome::Failed(Failure::AlreadyExists),
            4 => Outcome::Failed(Failure::Transient),
            5 => Outcome::Failed(Failure::Rejected("no write".to_owned())),
            _ => Outcome::Failed(self.failure()),
        }
    }
}
