//! An event as a provider holds it.

use crate::event::NormalizedEvent;
use crate::forms::{cases, fields, number, text};

/// The service an event came from.
#[derive(Clone, Copy, Debug, PartialEq, Eq, PartialOrd, Ord, Hash)]
#[allow(missing_docs, reason = "the cases say it")]
pub enum Provider {
    Google,
    Graph,
    CalDav,
    Ics,
}

cases!(Provider { 0 = Google, 1 = Graph, 2 = CalDav, 3 = Ics });

/// A provider's ids for one resource.
#[derive(Clone, Debug, PartialEq, Eq, PartialOrd, Ord, Hash)]
pub struct ProviderIds {
    /// The provider.
    pub provider: Provider,
    /// The resource's own id.
    pub id: String,
    /// The iCalendar `UID`.
    pub ical_uid: Option<String>,
    /// The series master's id.
    pub series_id: Option<String>,
}

impl ProviderIds {
    /// The ids of a resource that has only its own.
    #[must_use]
    pub fn new(provider: Provider, id: impl Into<String>) -> Self {
        Self {
            provider,
            id: id.into(),
            ical_uid: None,
            series_id: None,
        }
    }
}

fields!(ProviderIds { provider, id in MAX_ID, ical_uid in MAX_ID, series_id in MAX_ID });

text! {
    /// A provider's revision of a resource, compared for equality only.
    ProviderRevision in MAX_TEXT
}

number! {
    /// The version of the mapper that read an event.
    #[derive(Default, PartialOrd, Ord)]
    MapperVersion(u32)
}

number! {
    /// The provider's fields that an event has no place for: a tag.
    #[derive(Default)]
    Passthrough(u64)
}

/// An event as a provider holds it.
#[derive(Clone, Debug, PartialEq, Eq, Hash)]
pub struct ProviderEvent {
    /// The provider's ids.
    pub ids: ProviderIds,
    /// The provider's revision, where it gives one.
    pub revision: Option<ProviderRevision>,
    /// The version of the mapper that read it.
    pub mapper_version: MapperVersion,
    /// The fields.
    pub fields: NormalizedEvent,
    /// The provider's other fields.
    pub passthrough: Passthrough,
}

fields!(ProviderEvent {
    ids,
    revision,
    mapper_version,
    fields,
    passthrough
});
