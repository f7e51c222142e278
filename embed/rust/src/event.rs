//! The fields of an event, whatever its provider.

use crate::forms::{cases, fields, number};
use crate::frame::{Entry, MAX_ATTENDEES};

number! {
    /// When an event starts and ends: a tag.
    EventTimes(u64)
}

number! {
    /// How an event repeats: a tag.
    Recurrence(u64)
}

number! {
    /// An event's description: a tag.
    Description(u64)
}

number! {
    /// When to remind the user: a tag.
    #[derive(Default)]
    Reminders(u64)
}

/// An event's fields, whatever its provider.
#[derive(Clone, Debug, PartialEq, Eq, Hash)]
pub struct NormalizedEvent {
    /// The title.
    pub title: Option<String>,
    /// When it starts and ends.
    pub times: EventTimes,
    /// How it repeats.
    pub recurrence: Option<Recurrence>,
    /// Who organizes it.
    pub organizer: Option<Organizer>,
    /// Who is invited, in the provider's order.
    pub attendees: Vec<Attendee>,
    /// Where it happens.
    pub location: Option<String>,
    /// The description.
    pub description: Option<Description>,
    /// Whether it happens.
    pub status: EventStatus,
    /// Whether it blocks time.
    pub transparency: Transparency,
    /// Who sees the details.
    pub visibility: Visibility,
    /// When to remind the user.
    pub reminders: Reminders,
}

impl NormalizedEvent {
    /// An event at `times`, every other field empty or its default.
    #[must_use]
    pub fn new(times: EventTimes) -> Self {
        Self {
            title: None,
            times,
            recurrence: None,
            organizer: None,
            attendees: Vec::new(),
            location: None,
            description: None,
            status: EventStatus::default(),
            transparency: Transparency::default(),
            visibility: Visibility::default(),
            reminders: Reminders::default(),
        }
    }
}

fields!(NormalizedEvent {
    title,
    times,
    recurrence,
    organizer,
    attendees,
    location,
    description,
    status,
    transparency,
    visibility,
    reminders,
});

/// Whether an event happens.
#[derive(Clone, Copy, Debug, Default, PartialEq, Eq, Hash)]
#[allow(missing_docs, reason = "the cases say it")]
pub enum EventStatus {
    #[default]
    Confirmed,
    Tentative,
    Cancelled,
}

cases!(EventStatus { 0 = Confirmed, 1 = Tentative, 2 = Cancelled });

/// Whether an event blocks time.
#[derive(Clone, Copy, Debug, Default, PartialEq, Eq, Hash)]
pub enum Transparency {
    /// Busy.
    #[default]
    Opaque,
    /// Free.
    Transparent,
}

cases!(Transparency { 0 = Opaque, 1 = Transparent });

/// Who sees an event's details.
#[derive(Clone, Copy, Debug, Default, PartialEq, Eq, Hash)]
#[allow(missing_docs, reason = "the cases say it")]
pub enum Visibility {
    #[default]
    Default,
    Public,
    Private,
    Confidential,
}

cases!(Visibility { 0 = Default, 1 = Public, 2 = Private, 3 = Confidential });

/// Who organizes an event.
#[derive(Clone, Debug, PartialEq, Eq, Hash)]
pub struct Organizer {
    /// The calendar address.
    pub address: String,
    /// The name shown.
    pub name: Option<String>,
}

fields!(Organizer { address, name });

/// Who is invited.
#[derive(Clone, Debug, PartialEq, Eq, Hash)]
pub struct Attendee {
    /// The calendar address.
    pub address: String,
    /// The name shown.
    pub name: Option<String>,
    /// Whether attendance is required.
    pub role: AttendeeRole,
    /// The reply.
    pub participation: Participation,
    /// What kind of participant it is.
    pub kind: ParticipantKind,
}

impl Attendee {
    /// A required person who has not replied.
    #[must_use]
    pub fn new(address: impl Into<String>) -> Self {
        Self {
            address: address.into(),
            name: None,
            role: AttendeeRole::default(),
            participation: Participation::default(),
            kind: ParticipantKind::default(),
        }
    }
}

fields!(Attendee {
    address,
    name,
    role,
    participation,
    kind
});

impl Entry for Attendee {
    const LIMIT: usize = MAX_ATTENDEES;
}

/// Whether attendance is required.
#[derive(Clone, Copy, Debug, Default, PartialEq, Eq, Hash)]
#[allow(missing_docs, reason = "the cases say it")]
pub enum AttendeeRole {
    #[default]
    Required,
    Optional,
    Chair,
    NonParticipant,
}

cases!(AttendeeRole { 0 = Required, 1 = Optional, 2 = Chair, 3 = NonParticipant });

/// An attendee's reply.
#[derive(Clone, Copy, Debug, Default, PartialEq, Eq, Hash)]
#[allow(missing_docs, reason = "the cases say it")]
pub enum Participation {
    #[default]
    NeedsAction,
    Accepted,
    Declined,
    Tentative,
    Delegated,
}

cases!(Participation {
    0 = NeedsAction,
    1 = Accepted,
    2 = Declined,
    3 = Tentative,
    4 = Delegated,
});

/// What kind of participant an attendee is.
#[derive(Clone, Copy, Debug, Default, PartialEq, Eq, Hash)]
#[allow(missing_docs, reason = "the cases say it")]
pub enum ParticipantKind {
    #[default]
    Individual,
    Group,
    Resource,
    Room,
    Unknown,
}

cases!(ParticipantKind {
    0 = Individual,
    1 = Group,
    2 = Resource,
    3 = Room,
    4 = Unknown,
});
