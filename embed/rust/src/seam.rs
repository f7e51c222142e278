//! What the engine asks of a provider, and what it is answered.

use crate::forms::{cases, fields, number, text};
use crate::frame::{Entry, MAX_CHANGES};
use crate::provider::{ProviderEvent, ProviderRevision};

number! {
    /// Names one request, never reused within one state.
    #[derive(PartialOrd, Ord)]
    RequestId(u64)
}

text! {
    /// A provider's id for one resource.
    #[derive(PartialOrd, Ord)]
    ResourceId in MAX_ID
}

impl ResourceId {
    /// The id of the resource that `event` describes.
    #[must_use]
    pub fn of(event: &ProviderEvent) -> Self {
        Self::new(event.ids.id.clone())
    }
}

text! {
    /// Where a listing goes on from; only the provider's side reads it.
    Cursor in MAX_TEXT
}

/// What the application is to ask of the provider.
#[derive(Clone, Debug, PartialEq, Eq)]
pub enum Request {
    /// List one page of changes.
    List {
        /// Where the page starts.
        from: ListFrom,
    },
    /// Read one resource.
    Read {
        /// The resource.
        resource: ResourceId,
    },
    /// Find what a create made under its idempotency key.
    Lookup {
        /// The key.
        key: ResourceId,
    },
    /// Create a resource that must not exist yet.
    Create {
        /// The id, or the idempotency key where the provider assigns ids.
        resource: ResourceId,
        /// The event.
        event: ProviderEvent,
    },
    /// Replace a resource, if it is still at `if_match`.
    Update {
        /// The resource.
        resource: ResourceId,
        /// The revision; `None` writes whatever it is.
        if_match: Option<ProviderRevision>,
        /// The whole new event.
        event: ProviderEvent,
    },
    /// Delete a resource, if it is still at `if_match`.
    Delete {
        /// The resource.
        resource: ResourceId,
        /// The revision; `None` deletes whatever it is.
        if_match: Option<ProviderRevision>,
    },
}

cases!(Request {
    0 = List { from },
    1 = Read { resource },
    2 = Lookup { key },
    3 = Create { resource, event },
    4 = Update { resource, if_match, event },
    5 = Delete { resource, if_match },
});

/// Where a page starts.
#[derive(Clone, Debug, PartialEq, Eq)]
pub enum ListFrom {
    /// At the start of a full listing.
    Start,
    /// After an earlier pass, at its cursor.
    Since(Cursor),
    /// After the last page of this pass, at its cursor.
    Continue(Cursor),
}

cases!(ListFrom { 0 = Start, 1 = Since(cursor), 2 = Continue(cursor) });

/// What became of a request.
#[derive(Clone, Debug, PartialEq, Eq)]
pub enum Outcome {
    /// A page of a listing.
    Listed(Page),
    /// The resource, or `None` where there is none.
    Read(Option<ProviderEvent>),
    /// A create or an update took effect: the event as the provider now holds it.
    Written(ProviderEvent),
    /// A delete took effect.
    Deleted,
    /// The request failed.
    Failed(Failure),
}

cases!(Outcome {
    0 = Listed(page),
    1 = Read(event),
    2 = Written(event),
    3 = Deleted,
    4 = Failed(failure),
});

/// One page of a listing.
#[derive(Clone, Debug, PartialEq, Eq)]
pub struct Page {
    /// The changes, in the provider's order.
    pub changes: Vec<Change>,
    /// What follows the page.
    pub next: Next,
}

fields!(Page { changes, next });

/// One change on a page.
#[derive(Clone, Debug, PartialEq, Eq)]
#[allow(
    clippy::large_enum_variant,
    reason = "a change is written to a frame and dropped"
)]
pub enum Change {
    /// The resource is at `revision`.
    Upsert {
        /// The resource.
        resource: ResourceId,
        /// Its revision.
        revision: ProviderRevision,
        /// The event, where the listing carries it.
        event: Option<ProviderEvent>,
    },
    /// The resource was deleted.
    Remove {
        /// The resource.
        resource: ResourceId,
    },
}

cases!(Change {
    0 = Upsert { resource, revision, event },
    1 = Remove { resource },
});

impl Entry for Change {
    const LIMIT: usize = MAX_CHANGES;
}

/// What follows a page.
#[derive(Clone, Debug, PartialEq, Eq)]
pub enum Next {
    /// Another page of this pass, from this cursor.
    More(Cursor),
    /// Nothing: the next pass starts from this cursor.
    Done(Cursor),
}

cases!(Next { 0 = More(cursor), 1 = Done(cursor) });

/// Why a request failed.
#[derive(Clone, Debug, PartialEq, Eq, Hash)]
pub enum Failure {
    /// A listing's cursor is no longer valid.
    CursorExpired,
    /// The resource is no longer at the revision given.
    PreconditionFailed,
    /// There is no such resource.
    NotFound,
    /// There is such a resource already.
    AlreadyExists,
    /// The request may have taken effect or not.
    Transient,
    /// The provider refused it for good, for this reason.
    Rejected(String),
}

cases!(Failure {
    0 = CursorExpired,
    1 = PreconditionFailed,
    2 = NotFound,
    3 = AlreadyExists,
    4 = Transient,
    5 = Rejected(reason in MAX_REASON),
});
