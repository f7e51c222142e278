//! The published engine crate's modules, and the codec beside them.
pub mod codec;
pub mod merge;
pub mod seam;
pub mod sync;

pub use merge::{Conflict, FieldValue, MergeOutcome, Refused, Role};
pub use seam::{Change, Cursor, Failure, ListFrom, Next, Outcome, Page, ProviderSeam, Request, RequestId, ResourceId};
pub use sync::{Edit, EditId, Effect, Input, Notice, Operation, Rejection, SyncState, step};
