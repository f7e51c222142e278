//! What a merge reports.

use crate::event::{
    Attendee, Description, EventStatus, EventTimes, Organizer, Recurrence, Reminders, Transparency,
    Visibility,
};
use crate::forms::{cases, fields};
use crate::frame::{Entry, MAX_COUNT};

/// Which parts of an event the writer owns.
#[derive(Clone, Debug, PartialEq, Eq, Hash)]
pub enum Role {
    /// All of it.
    Owner,
    /// Its own reply and reminders.
    Attendee {
        /// The writer's calendar address.
        address: String,
    },
}

cases!(Role { 0 = Owner, 1 = Attendee { address } });

/// A field of an event.
#[derive(Clone, Copy, Debug, PartialEq, Eq, PartialOrd, Ord, Hash)]
#[allow(missing_docs, reason = "the cases say it")]
pub enum Field {
    Title,
    Times,
    Recurrence,
    Organizer,
    Attendees,
    Location,
    Description,
    Status,
    Transparency,
    Visibility,
    Reminders,
}

cases!(Field {
    0 = Title,
    1 = Times,
    2 = Recurrence,
    3 = Organizer,
    4 = Attendees,
    5 = Location,
    6 = Description,
    7 = Status,
    8 = Transparency,
    9 = Visibility,
    10 = Reminders,
});

/// A part of an event on which base, ours and theirs all differ; theirs stands.
#[derive(Clone, Debug, PartialEq, Eq)]
pub struct Conflict {
    /// The field.
    pub field: Field,
    /// Of [`Field::Attendees`], the entry's address.
    pub attendee: Option<String>,
    /// What the edit was made against.
    pub base: FieldValue,
    /// The edit's value.
    pub ours: FieldValue,
    /// The provider's value.
    pub theirs: FieldValue,
}

fields!(Conflict {
    field,
    attendee,
    base,
    ours,
    theirs
});

impl Entry for Conflict {
    const LIMIT: usize = MAX_COUNT;
}

/// A part of an event that the writer changed without owning it; theirs stands.
#[derive(Clone, Debug, PartialEq, Eq, Hash)]
pub struct Refused {
    /// The field.
    pub field: Field,
    /// Of [`Field::Attendees`], the entry's address.
    pub attendee: Option<String>,
}

fields!(Refused { field, attendee });

impl Entry for Refused {
    const LIMIT: usize = MAX_COUNT;
}

/// One side's value of a part of an event.
#[derive(Clone, Debug, PartialEq, Eq)]
#[allow(missing_docs, reason = "the cases are the event's fields")]
pub enum FieldValue {
    Title(Option<String>),
    Times(EventTimes),
    Recurrence(Option<Recurrence>),
    Organizer(Option<Organizer>),
    /// One entry; `None` where that side has none.
    Attendee(Option<Attendee>),
    Location(Option<String>),
    Description(Option<Description>),
    Status(EventStatus),
    Transparency(Transparency),
    Visibility(Visibility),
    Reminders(Reminders),
}

cases!(FieldValue {
    0 = Title(title),
    1 = Times(times),
    2 = Recurrence(recurrence),
    3 = Organizer(organizer),
    4 = Attendee(attendee),
    5 = Location(location),
    6 = Description(description),
    7 = Status(status),
    8 = Transparency(transparency),
    9 = Visibility(visibility),
    10 = Reminders(reminders),
});
