//! The proved loading-bay calendar engine, from Rust.
//!
//! [`Engine`] owns one state and steps it: an [`Input`] goes in, the [`Effect`]s to perform come out, in order. The types have the names
//! and fields of the published engine calendar-sync, so software written for its `step` changes its imports and little else:
//!
//! - `step(state, input)` and `SyncState::apply` are [`Engine::step`]; a step may be refused ([`Refusal`]), and then changes nothing.
//! - Times, recurrence, description, reminders and passthrough are 64-bit tags ([`EventTimes`] and its kin): the application keeps
//!   the values, equal tags for equal values and unequal ones for unequal.
//! - Texts and lists have limits ([`MAX_TEXT`] and its kin). What passes one is an [`EncodeError`]; nothing is cut short.
//!
//! ```
//! use bay::{Effect, Engine, Input, ListFrom, Request};
//!
//! let mut engine = Engine::fresh();
//! let effects = engine.step(&Input::Sync)?;
//! let Effect::Request { id, request } = &effects[0] else { panic!() };
//! assert_eq!(*request, Request::List { from: ListFrom::Start });
//! assert_eq!(engine.in_flight().collect::<Vec<_>>(), [*id]);
//! # Ok::<(), bay::Refusal>(())
//! ```
//!
//! Where several mills share one account, their requests go through a [`Sender`], which grants them the provider's calls in turn.
//!
//! Where two parties write to one event, [`two_clerks`] says what either order of their writes leads to, and which of them can force what.

mod archive;
mod clerks;
mod engine;
mod event;
mod forms;
mod frame;
mod merge;
mod provider;
mod seam;
mod sender;
mod sync;

pub use clerks::{Named, Party, Unit, Written, two_clerks};
pub use engine::{Engine, Refusal};
pub use event::{
    Attendee, AttendeeRole, Description, EventStatus, EventTimes, NormalizedEvent, Organizer,
    ParticipantKind, Participation, Recurrence, Reminders, Transparency, Visibility,
};
pub use frame::{
    DecodeError, Defect, EncodeError, Frame, MAX_ATTENDEES, MAX_CHANGES, MAX_COUNT, MAX_ID,
    MAX_REASON, MAX_TEXT, MAX_TIMESTAMP, MIN_TIMESTAMP, Reader,
};
pub use merge::{Conflict, Field, FieldValue, Refused, Role};
pub use provider::{
    MapperVersion, Passthrough, Provider, ProviderEvent, ProviderIds, ProviderRevision,
};
pub use seam::{
    Change, Cursor, Failure, ListFrom, Next, Outcome, Page, Request, RequestId, ResourceId,
};
pub use sender::{Call, Sender};
pub use sync::{Edit, EditId, Effect, Input, Notice, Operation, Rejection, Timestamp};
