//! What goes into a step, and what comes out of it.

use crate::event::NormalizedEvent;
use crate::forms::{cases, fields, number_type, text};
use crate::frame::{DecodeError, Defect, EncodeError, Frame, MAX_TIMESTAMP, MIN_TIMESTAMP, Reader};
use crate::merge::{Conflict, Refused, Role};
use crate::provider::ProviderEvent;
use crate::seam::{Outcome, Request, RequestId, ResourceId};

text! {
    /// Names one edit: the application makes it up, and each notice about the edit repeats it.
    #[derive(PartialOrd, Ord)]
    EditId in MAX_TEXT
}

number_type! {
    /// A time in whole milliseconds, from [`MIN_TIMESTAMP`] to [`MAX_TIMESTAMP`] in a frame.
    #[derive(PartialOrd, Ord)]
    Timestamp(i64)
}

impl Timestamp {
    fn is_within(self) -> bool {
        (MIN_TIMESTAMP..=MAX_TIMESTAMP).contains(&self.0)
    }
}

impl Frame for Timestamp {
    fn write(&self, to: &mut Vec<u8>) -> Result<(), EncodeError> {
        if self.is_within() {
            self.0.write(to)
        } else {
            Err(EncodeError::Timestamp(self.0))
        }
    }

    fn read(from: &mut Reader<'_>) -> Result<Self, DecodeError> {
        let time = Self(i64::read(from)?);
        if time.is_within() {
            Ok(time)
        } else {
            Err(from.defect(Defect::Timestamp))
        }
    }
}

/// A change to push to the provider.
#[derive(Clone, Debug, PartialEq, Eq)]
pub struct Edit {
    /// The edit's id.
    pub id: EditId,
    /// The resource that it changes or creates.
    pub resource: ResourceId,
    /// What it does.
    pub operation: Operation,
    /// Which parts of the event the writer owns.
    pub role: Role,
    /// When it is no longer worth pushing; `None` is never.
    pub expires_at: Option<Timestamp>,
}

fields!(Edit {
    id,
    resource,
    operation,
    role,
    expires_at
});

/// What an edit does.
#[derive(Clone, Debug, PartialEq, Eq)]
#[allow(
    clippy::large_enum_variant,
    reason = "an operation is written to a frame and dropped"
)]
pub enum Operation {
    /// Creates the resource.
    Create(ProviderEvent),
    /// Changes the resource.
    Update {
        /// The fields that the edit was made against.
        base: NormalizedEvent,
        /// The edited fields.
        ours: NormalizedEvent,
    },
    /// Deletes the resource.
    Delete,
}

cases!(Operation {
    0 = Create(event),
    1 = Update { base, ours },
    2 = Delete,
});

/// One input of a step.
#[derive(Clone, Debug, PartialEq, Eq)]
#[allow(
    clippy::large_enum_variant,
    reason = "an input is written to a frame and dropped"
)]
pub enum Input {
    /// Starts a pass, unless one is open.
    Sync,
    /// Queues an edit.
    Edit(Edit),
    /// What became of a request.
    Outcome {
        /// The request.
        request: RequestId,
        /// Its outcome.
        outcome: Outcome,
    },
    /// The clock reads `now`.
    Tick {
        /// The time.
        now: Timestamp,
    },
    /// Every request in flight is lost, and is made again.
    Resume,
}

cases!(Input {
    0 = Sync,
    1 = Edit(edit),
    2 = Outcome { request, outcome },
    3 = Tick { now },
    4 = Resume,
});

/// One thing that the application is to do.
#[derive(Clone, Debug, PartialEq, Eq)]
#[allow(
    clippy::large_enum_variant,
    reason = "an effect is handed to the application once"
)]
pub enum Effect {
    /// Make the request, and hand its outcome in with its id.
    Request {
        /// The request's id.
        id: RequestId,
        /// The request.
        request: Request,
    },
    /// Take notice.
    Notify(Notice),
}

cases!(Effect {
    0 = Request { id, request },
    1 = Notify(notice),
});

impl Effect {
    /// The effects that stand back to back in `bytes`, all of them.
    ///
    /// # Errors
    ///
    /// They are not the bytes of effects alone.
    pub fn decode_all(bytes: &[u8]) -> Result<Vec<Self>, DecodeError> {
        let mut from = Reader::new(bytes);
        let mut effects = Vec::new();
        while !from.is_at_end() {
            effects.push(Self::read(&mut from)?);
        }
        Ok(effects)
    }
}

/// Something that the application is told.
#[derive(Clone, Debug, PartialEq, Eq)]
pub enum Notice {
    /// A pass is complete, and applied.
    Synced,
    /// A listing failed for good, and nothing of it was applied.
    ListingFailed {
        /// Why.
        reason: String,
    },
    /// An edit is on the provider.
    Applied {
        /// The edit.
        edit: EditId,
        /// Where the provider's value was kept over the edit's.
        conflicts: Vec<Conflict>,
        /// What the writer changed without owning it.
        refused: Vec<Refused>,
    },
    /// An edit cannot be applied.
    Rejected {
        /// The edit.
        edit: EditId,
        /// Why.
        reason: Rejection,
    },
    /// An edit passed its `expires_at` before it was written.
    Expired {
        /// The edit.
        edit: EditId,
    },
    /// The provider gave what was created another id.
    Remapped {
        /// The idempotency key that the create was queued under.
        from: ResourceId,
        /// The provider's id.
        to: ResourceId,
    },
}

cases!(Notice {
    0 = Synced,
    1 = ListingFailed { reason in MAX_REASON },
    2 = Applied { edit, conflicts, refused },
    3 = Rejected { edit, reason },
    4 = Expired { edit },
    5 = Remapped { from, to },
});

/// Why an edit was rejected.
#[derive(Clone, Debug, PartialEq, Eq, Hash)]
pub enum Rejection {
    /// The resource to change no longer exists.
    Gone,
    /// The resource to create exists, and differs.
    Exists,
    /// Only the owner may delete.
    NotOwner,
    /// The provider's reason.
    Provider(String),
}

cases!(Rejection {
    0 = Gone,
    1 = Exists,
    2 = NotOwner,
    3 = Provider(reason in MAX_REASON),
});
