//! Random values of every type of a frame, the same in every run.

use bay::*;

pub struct Random(u64);

impl Random {
    pub fn new(seed: u64) -> Self {
        Self(seed.wrapping_mul(0x9e37_79b9_7f4a_7c15) | 1)
    }

    pub fn number(&mut self) -> u64 {
        self.0 ^= self.0 << 13;
        self.0 ^= self.0 >> 7;
        self.0 ^= self.0 << 17;
        self.0.wrapping_mul(0x2545_f491_4f6c_dd1d)
    }

    pub fn below(&mut self, count: usize) -> usize {
        let count = u64::try_from(count).expect("small");
        usize::try_from(self.number() % count).expect("small")
    }

    fn one<T: Copy>(&mut self, of: &[T]) -> T {
        of[self.below(of.len())]
    }

    fn maybe<T>(&mut self, make: impl FnOnce(&mut Self) -> T) -> Option<T> {
        (self.below(2) == 1).then(|| make(self))
    }

    fn list<T>(&mut self, most: usize, mut make: impl FnMut(&mut Self) -> T) -> Vec<T> {
        let count = match self.below(4) {
            0 => most,
            1 => 0,
            _ => self.below(3),
        };
        (0..count.min(most)).map(|_| make(self)).collect()
    }

    /// A text of at most so many bytes, often of exactly so many, with letters of every width.
    fn text(&mut self, most: usize) -> String {
        let length = if self.below(4) == 0 {
            most
        } else {
            self.below(6)
        };
        let mut text = String::new();
        while text.len() < length {
            let letter = self.one(&['a', 'Z', '@', 'é', '€', '𝄞', '\u{0}', '\u{7f}']);
            if text.len() + letter.len_utf8() <= length {
                text.push(letter);
            }
        }
        text
    }

    /// A name out of a few, so that inputs meet, or any text.
    fn name(&mut self, most: usize) -> String {
        match self.below(8) {
            0 => self.text(most),
            n => self.one(&["a", "b", "c", "d"])[..n.min(1)].to_owned(),
        }
    }

    pub fn resource(&mut self) -> ResourceId {
        ResourceId::new(self.name(MAX_ID))
    }

    fn edit_id(&mut self) -> EditId {
        EditId::new(self.name(MAX_TEXT))
    }

    fn cursor(&mut self) -> Cursor {
        Cursor::new(self.text(MAX_TEXT))
    }

    fn revision(&mut self) -> ProviderRevision {
        ProviderRevision::new(self.name(MAX_TEXT))
    }

    fn tag(&mut self) -> u64 {
        let any = self.number();
        self.one(&[0, 1, 2, any])
    }

    fn time(&mut self) -> Timestamp {
        Timestamp::new(self.one(&[MIN_TIMESTAMP, -1, 0, 1, 5, MAX_TIMESTAMP]))
    }

    fn organizer(&mut self) -> Organizer {
        Organizer {
            address: self.name(MAX_TEXT),
            name: self.maybe(|r| r.text(MAX_TEXT)),
        }
    }

    pub fn attendee(&mut self) -> Attendee {
        use AttendeeRole::{Chair, NonParticipant, Optional, Required};
        use ParticipantKind::{Group, Individual, Resource, Room, Unknown};
        Attendee {
            address: self.name(MAX_TEXT),
            name: self.maybe(|r| r.text(MAX_TEXT)),
            role: self.one(&[Required, Optional, Chair, NonParticipant]),
            participation: self.participation(),
            kind: self.one(&[Individual, Group, Resource, Room, Unknown]),
        }
    }

    fn participation(&mut self) -> Participation {
        use Participation::{Accepted, Declined, Delegated, NeedsAction, Tentative};
        self.one(&[NeedsAction, Accepted, Declined, Tentative, Delegated])
    }

    fn status(&mut self) -> EventStatus {
        use EventStatus::{Cancelled, Confirmed, Tentative};
        self.one(&[Confirmed, Tentative, Cancelled])
    }

    fn transparency(&mut self) -> Transparency {
        self.one(&[Transparency::Opaque, Transparency::Transparent])
    }

    fn visibility(&mut self) -> Visibility {
        use Visibility::{Confidential, Default, Private, Public};
        self.one(&[Default, Public, Private, Confidential])
    }

    pub fn fields(&mut self) -> NormalizedEvent {
        NormalizedEvent {
            title: self.maybe(|r| r.text(MAX_TEXT)),
            times: EventTimes::new(self.tag()),
            recurrence: self.maybe(|r| Recurrence::new(r.tag())),
            organizer: self.maybe(Self::organizer),
            attendees: self.list(MAX_ATTENDEES, Self::attendee),
            location: self.maybe(|r| r.text(MAX_TEXT)),
            description: self.maybe(|r| Description::new(r.tag())),
            status: self.status(),
            transparency: self.transparency(),
            visibility: self.visibility(),
            reminders: Reminders::new(self.tag()),
        }
    }

    pub fn event(&mut self) -> ProviderEvent {
        use Provider::{CalDav, Google, Graph, Ics};
        ProviderEvent {
            ids: ProviderIds {
                provider: self.one(&[Google, Graph, CalDav, Ics]),
                id: self.name(MAX_ID),
                ical_uid: self.maybe(|r| r.text(MAX_ID)),
                series_id: self.maybe(|r| r.text(MAX_ID)),
            },
            revision: self.maybe(Self::revision),
            mapper_version: MapperVersion::new(self.one(&[0, 1, u32::MAX])),
            fields: self.fields(),
            passthrough: Passthrough::new(self.tag()),
        }
    }

    fn list_from(&mut self) -> ListFrom {
        match self.below(3) {
            0 => ListFrom::Start,
            1 => ListFrom::Since(self.cursor()),
            _ => ListFrom::Continue(self.cursor()),
        }
    }

    pub fn request(&mut self) -> Request {
        let (resource, if_match) = (self.resource(), self.maybe(Self::revision));
        match self.below(6) {
            0 => Request::List {
                from: self.list_from(),
            },
            1 => Request::Read { resource },
            2 => Request::Lookup { key: resource },
            3 => Request::Create {
                resource,
                event: self.event(),
            },
            4 => Request::Update {
                resource,
                if_match,
                event: self.event(),
            },
            _ => Request::Delete { resource, if_match },
        }
    }

    fn change(&mut self) -> Change {
        let resource = self.resource();
        match self.below(3) {
            0 => Change::Remove { resource },
            _ => Change::Upsert {
                resource,
                revision: self.revision(),
                event: self.maybe(Self::event),
            },
        }
    }

    fn page(&mut self) -> Page {
        Page {
            changes: self.list(MAX_CHANGES, Self::change),
            next: match self.below(2) {
                0 => Next::More(self.cursor()),
                _ => Next::Done(self.cursor()),
            },
        }
    }

    fn failure(&mut self) -> Failure {
        match self.below(6) {
            0 => Failure::CursorExpired,
            1 => Failure::PreconditionFailed,
            2 => Failure::NotFound,
            3 => Failure::AlreadyExists,
            4 => Failure::Transient,
            _ => Failure::Rejected(self.text(MAX_REASON)),
        }
    }

    pub fn outcome(&mut self) -> Outcome {
        match self.below(5) {
            0 => Outcome::Listed(self.page()),
            1 => Outcome::Read(self.maybe(Self::event)),
            2 => Outcome::Written(self.event()),
            3 => Outcome::Deleted,
            _ => Outcome::Failed(self.failure()),
        }
    }

    fn operation(&mut self) -> Operation {
        match self.below(3) {
            0 => Operation::Create(self.event()),
            1 => Operation::Update {
                base: self.fields(),
                ours: self.fields(),
            },
            _ => Operation::Delete,
        }
    }

    fn role(&mut self) -> Role {
        match self.below(3) {
            0 => Role::Attendee {
                address: self.name(MAX_TEXT),
            },
            _ => Role::Owner,
        }
    }

    pub fn edit(&mut self) -> Edit {
        Edit {
            id: self.edit_id(),
            resource: self.resource(),
            operation: self.operation(),
            role: self.role(),
            expires_at: self.maybe(Self::time),
        }
    }

    pub fn input(&mut self) -> Input {
        match self.below(8) {
            0 => Input::Sync,
            1..=3 => Input::Edit(self.edit()),
            4 | 5 => Input::Outcome {
                request: RequestId::new(self.number() % 8),
                outcome: self.outcome(),
            },
            6 => Input::Tick { now: self.time() },
            _ => Input::Resume,
        }
    }

    fn field(&mut self) -> Field {
        let case = u8::try_from(self.below(11)).expect("a byte");
        Field::decode(&[case]).expect("one of eleven")
    }

    fn field_value(&mut self) -> FieldValue {
        match self.field() {
            Field::Title => FieldValue::Title(self.maybe(|r| r.text(MAX_TEXT))),
            Field::Times => FieldValue::Times(EventTimes::new(self.tag())),
            Field::Recurrence => FieldValue::Recurrence(self.maybe(|r| Recurrence::new(r.tag()))),
            Field::Organizer => FieldValue::Organizer(self.maybe(Self::organizer)),
            Field::Attendees => FieldValue::Attendee(self.maybe(Self::attendee)),
            Field::Location => FieldValue::Location(self.maybe(|r| r.text(MAX_TEXT))),
            Field::Description => {
                FieldValue::Description(self.maybe(|r| Description::new(r.tag())))
            }
            Field::Status => FieldValue::Status(self.status()),
            Field::Transparency => FieldValue::Transparency(self.transparency()),
            Field::Visibility => FieldValue::Visibility(self.visibility()),
            Field::Reminders => FieldValue::Reminders(Reminders::new(self.tag())),
        }
    }

    fn conflict(&mut self) -> Conflict {
        Conflict {
            field: self.field(),
            attendee: self.maybe(|r| r.text(MAX_TEXT)),
            base: self.field_value(),
            ours: self.field_value(),
            theirs: self.field_value(),
        }
    }

    fn refused(&mut self) -> Refused {
        Refused {
            field: self.field(),
            attendee: self.maybe(|r| r.text(MAX_TEXT)),
        }
    }

    fn rejection(&mut self) -> Rejection {
        match self.below(4) {
            0 => Rejection::Gone,
            1 => Rejection::Exists,
            2 => Rejection::NotOwner,
            _ => Rejection::Provider(self.text(MAX_REASON)),
        }
    }

    pub fn notice(&mut self) -> Notice {
        match self.below(6) {
            0 => Notice::Synced,
            1 => Notice::ListingFailed {
                reason: self.text(MAX_REASON),
            },
            2 => Notice::Applied {
                edit: self.edit_id(),
                conflicts: self.list(MAX_COUNT, Self::conflict),
                refused: self.list(MAX_COUNT, Self::refused),
            },
            3 => Notice::Rejected {
                edit: self.edit_id(),
                reason: self.rejection(),
            },
            4 => Notice::Expired {
                edit: self.edit_id(),
            },
            _ => Notice::Remapped {
                from: self.resource(),
                to: self.resource(),
            },
        }
    }

    pub fn effect(&mut self) -> Effect {
        match self.below(2) {
            0 => Effect::Request {
                id: RequestId::new(self.number()),
                request: self.request(),
            },
            _ => Effect::Notify(self.notice()),
        }
    }

    /// The frame with a few of its bytes changed, left out or put in.
    pub fn damaged(&mut self, frame: &[u8]) -> Vec<u8> {
        let mut bytes = frame.to_vec();
        for _ in 0..=self.below(3) {
            let at = self.below(bytes.len() + 1);
            let any = u8::try_from(self.below(256)).expect("a byte");
            let byte = self.one(&[
                0, 1, 2, 8, 9, 31, 32, 33, 64, 65, 0x80, 0xc0, 0xed, 0xf4, any,
            ]);
            match self.below(5) {
                0 => bytes.truncate(at),
                1 => bytes.insert(at, byte),
                2 if at < bytes.len() => drop(bytes.remove(at)),
                _ if at < bytes.len() => bytes[at] = byte,
                _ => bytes.push(byte),
            }
        }
        bytes
    }
}
