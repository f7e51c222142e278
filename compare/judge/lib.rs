//! What the judge is made of: the published engines, frames to try them with, and checks.
pub use calendar_sync_engine as plain;
pub use calendar_sync_engine_limited as limited;
pub use calendar_sync_model as model;

pub mod attendee;
pub mod checks;
pub mod clerks;
pub mod cover;
pub mod engine;
pub mod frames;
pub mod sender;
pub mod view;
