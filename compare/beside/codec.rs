//! Document 01's frames, written by hand from the document: the strict reader of an input and the writer of an effect. (The
//! stand-in derives give the same forms from the source's own order; the judge runs both and compares.)
use crate::{
    Change, Conflict, Cursor, Edit, EditId, Effect, Failure, FieldValue, Input, ListFrom, Next, Notice, Operation,
    Outcome, Page, Refused, Rejection, Request, RequestId, ResourceId, Role,
};
use calendar_sync_model::{
    Attendee, AttendeeRole, EventStatus, Field, MapperVersion, NormalizedEvent, Organizer, ParticipantKind,
    Participation, Provider, ProviderEvent, ProviderIds, ProviderRevision, Transparency, Visibility, tags,
};
use jiff::Timestamp;

pub const TEXT: usize = 32;
pub const REASON: usize = 64;
pub const CHANGES: u8 = 8;
pub const ATTENDEES: u8 = 8;
pub const TIME: i64 = 200_000_000_000_000;

struct Place<'a>(&'a [u8]);

type Got<T> = Result<T, ()>;

impl<'a> Place<'a> {
    fn bytes(&mut self, n: usize) -> Got<&'a [u8]> {
        if n > self.0.len() {
            return Err(());
        }
        let (read, rest) = self.0.split_at(n);
        self.0 = rest;
        Ok(read)
    }
    fn byte(&mut self) -> Got<u8> {
        Ok(self.bytes(1)?[0])
    }
    fn u32(&mut self) -> Got<u32> {
        Ok(self.bytes(4)?.iter().fold(0, |n, &b| n << 8 | u32::from(b)))
    }
    fn u64(&mut self) -> Got<u64> {
        Ok(self.bytes(8)?.iter().fold(0, |n, &b| n << 8 | u64::from(b)))
    }
    fn time(&mut self) -> Got<Timestamp> {
        let ms = self.u64()? as i64;
        if ms < -TIME || ms > TIME { Err(()) } else { Ok(Timestamp(ms)) }
    }
    fn text(&mut self, most: usize) -> Got<String> {
        let n = usize::from(self.byte()?);
        if n > most {
            return Err(());
        }
        core::str::from_utf8(self.bytes(n)?).map(str::to_owned).map_err(|_| ())
    }
    fn option<T>(&mut self, read: impl FnOnce(&mut Self) -> Got<T>) -> Got<Option<T>> {
        match self.byte()? {
            0 => Ok(None),
            1 => Ok(Some(read(self)?)),
            _ => Err(()),
        }
    }
    fn list<T>(&mut self, most: u8, read: impl Fn(&mut Self) -> Got<T>) -> Got<Vec<T>> {
        let n = self.byte()?;
        if n > most {
            return Err(());
        }
        let mut list = Vec::new();
        for _ in 0..n {
            list.push(read(self)?);
        }
        Ok(list)
    }
    fn resource(&mut self) -> Got<ResourceId> {
        Ok(ResourceId::new(self.text(TEXT)?))
    }
    fn cursor(&mut self) -> Got<Cursor> {
        Ok(Cursor::new(self.text(TEXT)?))
    }
    fn revision(&mut self) -> Got<ProviderRevision> {
        Ok(ProviderRevision::new(self.text(TEXT)?))
    }
    fn attendee(&mut self) -> Got<Attendee> {
        Ok(Attendee {
            address: self.text(TEXT)?,
            name: self.option(|p| p.text(TEXT))?,
            role: match self.byte()? {
                0 => AttendeeRole::Required,
                1 => AttendeeRole::Optional,
                2 => AttendeeRole::Chair,
                3 => AttendeeRole::NonParticipant,
                _ => return Err(()),
            },
            participation: match self.byte()? {
                0 => Participation::NeedsAction,
                1 => Participation::Accepted,
                2 => Participation::Declined,
                3 => Participation::Tentative,
                4 => Participation::Delegated,
                _ => return Err(()),
            },
            kind: match self.byte()? {
                0 => ParticipantKind::Individual,
                1 => ParticipantKind::Group,
                2 => ParticipantKind::Resource,
                3 => ParticipantKind::Room,
                4 => ParticipantKind::Unknown,
                _ => return Err(()),
            },
        })
    }
    fn organizer(&mut self) -> Got<Organizer> {
        Ok(Organizer { address: self.text(TEXT)?, name: self.option(|p| p.text(TEXT))? })
    }
    fn fields(&mut self) -> Got<NormalizedEvent> {
        Ok(NormalizedEvent {
            title: self.option(|p| p.text(TEXT))?,
            times: tags::times(self.u64()?),
            recurrence: self.option(|p| Ok(tags::recurrence(p.u64()?)))?,
            organizer: self.option(Self::organizer)?,
            attendees: self.list(ATTENDEES, Self::attendee)?,
            location: self.option(|p| p.text(TEXT))?,
            description: self.option(|p| Ok(tags::description(p.u64()?)))?,
            status: match self.byte()? {
                0 => EventStatus::Confirmed,
                1 => EventStatus::Tentative,
                2 => EventStatus::Cancelled,
                _ => return Err(()),
            },
            transparency: match self.byte()? {
                0 => Transparency::Opaque,
                1 => Transparency::Transparent,
                _ => return Err(()),
            },
            visibility: match self.byte()? {
                0 => Visibility::Default,
                1 => Visibility::Public,
                2 => Visibility::Private,
                3 => Visibility::Confidential,
                _ => return Err(()),
            },
            reminders: tags::reminders(self.u64()?),
        })
    }
    fn event(&mut self) -> Got<ProviderEvent> {
        Ok(ProviderEvent {
            ids: ProviderIds {
                provider: match self.byte()? {
                    0 => Provider::Google,
                    1 => Provider::Graph,
                    2 => Provider::CalDav,
                    3 => Provider::Ics,
                    _ => return Err(()),
                },
                id: self.text(TEXT)?,
                ical_uid: self.option(|p| p.text(TEXT))?,
                series_id: self.option(|p| p.text(TEXT))?,
            },
            revision: self.option(Self::revision)?,
            mapper_version: MapperVersion::new(self.u32()?),
            fields: self.fields()?,
            passthrough: tags::passthrough(self.u64()?),
        })
    }
    fn change(&mut self) -> Got<Change> {
        match self.byte()? {
            0 => Ok(Change::Upsert {
                resource: self.resource()?,
                revision: self.revision()?,
                event: self.option(Self::event)?,
            }),
            1 => Ok(Change::Remove { resource: self.resource()? }),
            _ => Err(()),
        }
    }
    fn outcome(&mut self) -> Got<Outcome> {
        match self.byte()? {
            0 => Ok(Outcome::Listed(Page {
                changes: self.list(CHANGES, Self::change)?,
                next: match self.byte()? {
                    0 => Next::More(self.cursor()?),
                    1 => Next::Done(self.cursor()?),
                    _ => return Err(()),
                },
            })),
            1 => Ok(Outcome::Read(self.option(Self::event)?)),
            2 => Ok(Outcome::Written(self.event()?)),
            3 => Ok(Outcome::Deleted),
            4 => Ok(Outcome::Failed(match self.byte()? {
                0 => Failure::CursorExpired,
                1 => Failure::PreconditionFailed,
                2 => Failure::NotFound,
                3 => Failure::AlreadyExists,
                4 => Failure::Transient,
                5 => Failure::Rejected(self.text(REASON)?),
                _ => return Err(()),
            })),
            _ => Err(()),
        }
    }
    fn edit(&mut self) -> Got<Edit> {
        Ok(Edit {
            id: EditId::new(self.text(TEXT)?),
            resource: self.resource()?,
            operation: match self.byte()? {
                0 => Operation::Create(self.event()?),
                1 => Operation::Update { base: self.fields()?, ours: self.fields()? },
                2 => Operation::Delete,
                _ => return Err(()),
            },
            role: match self.byte()? {
                0 => Role::Owner,
                1 => Role::Attendee { address: self.text(TEXT)? },
                _ => return Err(()),
            },
            expires_at: self.option(Self::time)?,
        })
    }
    fn input(&mut self) -> Got<Input> {
        match self.byte()? {
            0 => Ok(Input::Sync),
            1 => Ok(Input::Edit(self.edit()?)),
            2 => Ok(Input::Outcome { request: RequestId::new(self.u64()?), outcome: self.outcome()? }),
            3 => Ok(Input::Tick { now: self.time()? }),
            4 => Ok(Input::Resume),
            _ => Err(()),
        }
    }
}

/// The input that takes exactly these bytes.
pub fn decode(frame: &[u8]) -> Option<Input> {
    let mut place = Place(frame);
    let input = place.input().ok()?;
    place.0.is_empty().then_some(input)
}

type Out = Vec<u8>;

fn text(v: &str, o: &mut Out) {
    o.push(u8::try_from(v.len()).expect("a text's length"));
    o.extend_from_slice(v.as_bytes());
}
fn u64be(v: u64, o: &mut Out) {
    o.extend_from_slice(&v.to_be_bytes());
}
fn option<T>(v: Option<T>, o: &mut Out, write: impl FnOnce(T, &mut Out)) {
    match v {
        None => o.push(0),
        Some(v) => {
            o.push(1);
            write(v, o);
        }
    }
}
fn count(n: usize, o: &mut Out) {
    o.push(u8::try_from(n).expect("a list's count"));
}
fn organizer(v: &Organizer, o: &mut Out) {
    text(&v.address, o);
    option(v.name.as_deref(), o, text);
}
fn attendee(v: &Attendee, o: &mut Out) {
    text(&v.address, o);
    option(v.name.as_deref(), o, text);
    o.push(match v.role {
        AttendeeRole::Required => 0,
        AttendeeRole::Optional => 1,
        AttendeeRole::Chair => 2,
        AttendeeRole::NonParticipant => 3,
    });
    o.push(match v.participation {
        Participation::NeedsAction => 0,
        Participation::Accepted => 1,
        Participation::Declined => 2,
        Participation::Tentative => 3,
        Participation::Delegated => 4,
    });
    o.push(match v.kind {
        ParticipantKind::Individual => 0,
        ParticipantKind::Group => 1,
        ParticipantKind::Resource => 2,
        ParticipantKind::Room => 3,
        ParticipantKind::Unknown => 4,
    });
}
fn status(v: EventStatus) -> u8 {
    match v {
        EventStatus::Confirmed => 0,
        EventStatus::Tentative => 1,
        EventStatus::Cancelled => 2,
    }
}
fn transparency(v: Transparency) -> u8 {
    match v {
        Transparency::Opaque => 0,
        Transparency::Transparent => 1,
    }
}
fn visibility(v: Visibility) -> u8 {
    match v {
        Visibility::Default => 0,
        Visibility::Public => 1,
        Visibility::Private => 2,
        Visibility::Confidential => 3,
    }
}
pub fn put_fields(v: &NormalizedEvent, o: &mut Out) {
    option(v.title.as_deref(), o, text);
    u64be(tags::times_tag(&v.times), o);
    option(v.recurrence.as_ref(), o, |r, o| u64be(tags::recurrence_tag(r), o));
    option(v.organizer.as_ref(), o, organizer);
    count(v.attendees.len(), o);
    for a in &v.attendees {
        attendee(a, o);
    }
    option(v.location.as_deref(), o, text);
    option(v.description.as_deref(), o, |d, o| u64be(tags::description_tag(d), o));
    o.push(status(v.status));
    o.push(transparency(v.transparency));
    o.push(visibility(v.visibility));
    u64be(tags::reminders_tag(&v.reminders), o);
}
pub fn put_event(v: &ProviderEvent, o: &mut Out) {
    o.push(match v.ids.provider {
        Provider::Google => 0,
        Provider::Graph => 1,
        Provider::CalDav => 2,
        Provider::Ics => 3,
        _ => unreachable!("no such provider"),
    });
    text(&v.ids.id, o);
    option(v.ids.ical_uid.as_deref(), o, text);
    option(v.ids.series_id.as_deref(), o, text);
    option(v.revision.as_ref(), o, |r, o| text(r.as_str(), o));
    o.extend_from_slice(&v.mapper_version.get().to_be_bytes());
    put_fields(&v.fields, o);
    u64be(tags::passthrough_tag(&v.passthrough), o);
}
fn field(v: &Field) -> u8 {
    match v {
        Field::Title => 0,
        Field::Times => 1,
        Field::Recurrence => 2,
        Field::Organizer => 3,
        Field::Attendees => 4,
        Field::Location => 5,
        Field::Description => 6,
        Field::Status => 7,
        Field::Transparency => 8,
        Field::Visibility => 9,
        Field::Reminders => 10,
        _ => unreachable!("Overrides and Other never occur"),
    }
}
fn value(v: &FieldValue, o: &mut Out) {
    match v {
        FieldValue::Title(t) => {
            o.push(0);
            option(t.as_deref(), o, text);
        }
        FieldValue::Times(t) => {
            o.push(1);
            u64be(tags::times_tag(t), o);
        }
        FieldValue::Recurrence(r) => {
            o.push(2);
            option(r.as_ref(), o, |r, o| u64be(tags::recurrence_tag(r), o));
        }
        FieldValue::Organizer(g) => {
            o.push(3);
            option(g.as_ref(), o, organizer);
        }
        FieldValue::Attendee(a) => {
            o.push(4);
            option(a.as_ref(), o, attendee);
        }
        FieldValue::Location(t) => {
            o.push(5);
            option(t.as_deref(), o, text);
        }
        FieldValue::Description(d) => {
            o.push(6);
            option(d.as_deref(), o, |d, o| u64be(tags::description_tag(d), o));
        }
        FieldValue::Status(s) => o.extend([7, status(*s)]),
        FieldValue::Transparency(t) => o.extend([8, transparency(*t)]),
        FieldValue::Visibility(t) => o.extend([9, visibility(*t)]),
        FieldValue::Reminders(r) => {
            o.push(10);
            u64be(tags::reminders_tag(r), o);
        }
    }
}
pub fn put_conflicts(v: &[Conflict], o: &mut Out) {
    count(v.len(), o);
    for c in v {
        o.push(field(&c.field));
        option(c.attendee.as_deref(), o, text);
        value(&c.base, o);
        value(&c.ours, o);
        value(&c.theirs, o);
    }
}
pub fn put_refused(v: &[Refused], o: &mut Out) {
    count(v.len(), o);
    for r in v {
        o.push(field(&r.field));
        option(r.attendee.as_deref(), o, text);
    }
}
fn list_from(v: &ListFrom, o: &mut Out) {
    match v {
        ListFrom::Start => o.push(0),
        ListFrom::Since(c) => {
            o.push(1);
            text(c.as_str(), o);
        }
        ListFrom::Continue(c) => {
            o.push(2);
            text(c.as_str(), o);
        }
    }
}
fn request(v: &Request, o: &mut Out) {
    match v {
        Request::List { from } => {
            o.push(0);
            list_from(from, o);
        }
        Request::Read { resource } => {
            o.push(1);
            text(resource.as_str(), o);
        }
        Request::Lookup { key } => {
            o.push(2);
            text(key.as_str(), o);
        }
        Request::Create { resource, event } => {
            o.push(3);
            text(resource.as_str(), o);
            put_event(event, o);
        }
        Request::Update { resource, if_match, event } => {
            o.push(4);
            text(resource.as_str(), o);
            option(if_match.as_ref(), o, |r, o| text(r.as_str(), o));
            put_event(event, o);
        }
        Request::Delete { resource, if_match } => {
            o.push(5);
            text(resource.as_str(), o);
            option(if_match.as_ref(), o, |r, o| text(r.as_str(), o));
        }
    }
}
fn rejection(v: &Rejection, o: &mut Out) {
    match v {
        Rejection::Gone => o.push(0),
        Rejection::Exists => o.push(1),
        Rejection::NotOwner => o.push(2),
        Rejection::Provider(reason) => {
            o.push(3);
            text(reason, o);
        }
    }
}
fn notice(v: &Notice, o: &mut Out) {
    match v {
        Notice::Synced => o.push(0),
        Notice::ListingFailed { reason } => {
            o.push(1);
            text(reason, o);
        }
        Notice::Applied { edit, conflicts, refused } => {
            o.push(2);
            text(edit.as_str(), o);
            put_conflicts(conflicts, o);
            put_refused(refused, o);
        }
        Notice::Rejected { edit, reason } => {
            o.push(3);
            text(edit.as_str(), o);
            rejection(reason, o);
        }
        Notice::Expired { edit } => {
            o.push(4);
            text(edit.as_str(), o);
        }
        Notice::Remapped { from, to } => {
            o.push(5);
            text(from.as_str(), o);
            text(to.as_str(), o);
        }
    }
}
/// One effect's bytes.
pub fn encode(v: &Effect) -> Vec<u8> {
    let mut out = Vec::new();
    match v {
        Effect::Request { id, request: r } => {
            out.push(0);
            u64be(id.get(), &mut out);
            request(r, &mut out);
        }
        Effect::Notify(n) => {
            out.push(1);
            notice(n, &mut out);
        }
    }
    out
}
