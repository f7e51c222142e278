//! What scripts are made of.
use super::values::{largest_fields, text32};
use super::{Gen, res};
use crate::limited::{Change, Edit, Failure, Input, Next, Operation, Outcome, Page, Role};
use crate::view::Purpose;
use calendar_sync_model::{MapperVersion, NormalizedEvent, Provider, ProviderEvent, ProviderRevision};

impl Gen<'_> {
    /// Ends every edit, and every pass.
    pub(super) fn drain(&mut self) {
        for _ in 0..80 {
            let Some((id, purpose)) = self.view.in_flight.iter().next().map(|(i, p)| (i.get(), p.clone())) else {
                return;
            };
            let outcome = match purpose {
                Purpose::List => Outcome::Listed(Page { changes: Vec::new(), next: Next::Done(self.cursor()) }),
                Purpose::EditWrite(_) => Outcome::Failed(Failure::Rejected("drain".to_owned())),
                Purpose::EditRead(_) => Outcome::Failed(Failure::Rejected("drain".to_owned())),
                _ => Outcome::Read(None),
            };
            if self.answer(id, outcome) != 0 || self.full() {
                return;
            }
        }
    }

    pub(super) fn simple(&mut self, name: &str, operation: Operation, role: Role) -> u8 {
        let id = self.edit_id();
        self.put(Input::Edit(Edit { id, resource: res(name), operation, role, expires_at: None }))
    }

    pub(super) fn plain_event(&mut self, id: &str, provider: Provider) -> ProviderEvent {
        let f = NormalizedEvent { attendees: Vec::new(), ..self.fields() };
        let mut e = self.event_with(id, f);
        e.ids.provider = provider;
        e.mapper_version = MapperVersion::new(3);
        e
    }

    pub(super) fn update(&mut self) -> Operation {
        let base = self.fields();
        let mut ours = base.clone();
        ours.title = Some(format!("u{}", self.rng.below(1000)));
        Operation::Update { base, ours }
    }

    /// Answers the listing with a page that others follow.
    pub(super) fn more(&mut self, list: u64, changes: Vec<Change>) -> u8 {
        let next = Next::More(self.cursor());
        self.answer(list, Outcome::Listed(Page { changes, next }))
    }

    /// Answers the listing with its last page.
    pub(super) fn done(&mut self, list: u64, changes: Vec<Change>) -> u8 {
        let next = Next::Done(self.cursor());
        self.answer(list, Outcome::Listed(Page { changes, next }))
    }

    /// A full pass that lists nothing, if need be after an expired cursor.
    pub(super) fn full_listing(&mut self) {
        self.put(Input::Sync);
        if self.view.pass.as_ref().is_some_and(|p| !p.full) {
            if let Some(l) = self.listing() {
                self.answer(l, Outcome::Failed(Failure::CursorExpired));
            }
        }
        if let Some(l) = self.listing() {
            self.done(l, Vec::new());
        }
    }

    /// A pass that ends at once, with these changes on its only page.
    pub(super) fn pass(&mut self, changes: Vec<Change>) -> u8 {
        self.put(Input::Sync);
        let Some(list) = self.listing() else { return 255 };
        self.done(list, changes)
    }

    pub(super) fn upsert(&mut self, name: &str, body: bool) -> Change {
        let revision = ProviderRevision::new(self.revision());
        let event = body.then(|| {
            let mut e = self.plain_event(name, Provider::Google);
            e.revision = Some(revision.clone());
            e
        });
        Change::Upsert { resource: res(name), revision, event }
    }

    /// No records, no pass and nothing waiting: by an expired cursor and an empty full listing.
    pub(super) fn empty(&mut self) {
        self.drain();
        if self.view.records.is_empty() {
            return;
        }
        self.full_listing();
        self.drain();
    }

    /// An edit that finds nothing to delete: something is learned about the name.
    pub(super) fn read_nothing(&mut self, name: &str) {
        self.simple(name, Operation::Delete, Role::Owner);
        if let Some(r) = self.edit_read(name) {
            self.answer(r, Outcome::Read(None));
        }
    }

    pub(super) fn largest_event(&mut self, id: &str) -> ProviderEvent {
        let mut e = self.event_with(id, largest_fields());
        e.ids.ical_uid = Some(text32("u"));
        e.ids.series_id = Some(text32("s"));
        e.revision = Some(ProviderRevision::new(text32(["v", "w"][self.rng.below(2)])));
        e
    }
}
