//! Random values: names, texts, events and edits, often ones that the state already has.
use super::{Gen, res};
use crate::limited::{Cursor, Edit, EditId, Operation, ResourceId, Role};
use crate::view::PendingView;
use calendar_sync_model::{
    Attendee, AttendeeRole, EventStatus, MapperVersion, NormalizedEvent, Organizer, ParticipantKind, Participation,
    Provider, ProviderEvent, ProviderIds, ProviderRevision, Transparency, Visibility, tags,
};
use jiff::Timestamp;

/// The end of document 01's range of times.
pub const LAST_TIME: i64 = jiff::MOST;

pub fn text32(c: &str) -> String {
    c.repeat(32 / c.len())
}

/// An attendee of the largest size.
pub fn person(c: &str) -> Attendee {
    let mut a = Attendee::new(text32(c));
    a.name = Some(text32("n"));
    a
}

/// Fields of the largest size.
pub fn largest_fields() -> NormalizedEvent {
    let mut f = NormalizedEvent::new(tags::times(0));
    f.title = Some(text32("t"));
    f.recurrence = Some(tags::recurrence(1));
    f.organizer = Some(Organizer { address: text32("o"), name: Some(text32("n")) });
    f.attendees = ["a", "b", "c", "d", "e", "f", "g", "h"].iter().map(|c| person(c)).collect();
    f.location = Some(text32("l"));
    f.description = Some(tags::description(1));
    f.reminders = tags::reminders(0);
    f
}

/// Side 0, 1 or 2 of a merge in which every unit differs, with these attendees.
pub fn side(s: u64, who: &[usize]) -> NormalizedEvent {
    let c = ["x", "y", "z"][s as usize];
    NormalizedEvent {
        title: Some(text32(c)),
        times: tags::times(s),
        recurrence: Some(tags::recurrence(s)),
        organizer: Some(Organizer { address: text32(c), name: Some(text32(c)) }),
        attendees: who
            .iter()
            .map(|w| {
                let mut a = person(&format!("{w:x}"));
                a.name = Some(text32(c));
                a
            })
            .collect(),
        location: Some(text32(c)),
        description: Some(tags::description(s)),
        status: [EventStatus::Confirmed, EventStatus::Tentative, EventStatus::Cancelled][s as usize],
        transparency: Transparency::Opaque,
        visibility: [Visibility::Default, Visibility::Public, Visibility::Private][s as usize],
        reminders: tags::reminders(s),
    }
}

impl Gen<'_> {
    pub(super) fn name(&mut self) -> String {
        const ODD: [&str; 8] = ["a", "ab", "abc", "A", "é", "", "aé", "b"];
        let known: Vec<String> = {
            let v = &self.view;
            let mut k: Vec<String> = Vec::new();
            k.extend(v.records.keys().map(|r| r.as_str().to_owned()));
            k.extend(v.edits.keys().map(|r| r.as_str().to_owned()));
            k.extend(v.aliases.iter().flat_map(|(a, b)| [a.as_str().to_owned(), b.as_str().to_owned()]));
            k.extend(v.learned.keys().map(|r| r.as_str().to_owned()));
            if let Some(p) = &v.pass {
                k.extend(p.staged.keys().map(|r| r.as_str().to_owned()));
                k.extend(p.observed.iter().map(|r| r.as_str().to_owned()));
            }
            k
        };
        let keep = if self.profile.name == "limits" { 35 } else { 65 };
        if !known.is_empty() && self.rng.chance(keep) {
            return self.rng.pick(&known).clone();
        }
        match self.rng.below(20) {
            0 => text32("x"),
            1 => text32("é"),
            2..=6 => (*self.rng.pick(&ODD)).to_owned(),
            _ => format!("n{:02}", self.rng.below(self.profile.names)),
        }
    }

    fn short_text(&mut self) -> String {
        match self.rng.below(24) {
            0 => String::new(),
            1 => text32("z"),
            2 => "\u{10ffff}\u{d7ff}\u{e000}".to_owned(),
            3 => "\0\u{7f}\u{80}\u{7ff}\u{800}\u{ffff}\u{10000}".to_owned(),
            n => format!("t{}", n % 4),
        }
    }

    fn tag(&mut self) -> u64 {
        match self.rng.below(40) {
            0 => u64::MAX,
            1 => 1 << 63,
            2 => (1 << 63) - 1,
            3 => self.rng.next(),
            n => (n % 3) as u64,
        }
    }

    pub(super) fn maybe<T>(&mut self, percent: usize, make: impl FnOnce(&mut Self) -> T) -> Option<T> {
        if self.rng.chance(percent) { Some(make(self)) } else { None }
    }

    pub(super) fn address(&mut self) -> String {
        const LIST: [&str; 18] = [
            "a@m", "A@m", "a@M", "b@m", "B@m", "c@m", "C@M", "d@m", "e@m", "f@m", "É@m", "é@m", "Z@m", "z@m", "[@m",
            "{@m", "@@m", "`@m",
        ];
        match self.rng.below(40) {
            0 => text32("Q"),
            1 => text32("q"),
            2 => String::new(),
            3 => "[@`{\u{c0}".to_owned(),
            _ => (*self.rng.pick(&LIST)).to_owned(),
        }
    }

    fn participation(&mut self) -> Participation {
        *self.rng.pick(&[
            Participation::NeedsAction,
            Participation::Accepted,
            Participation::Declined,
            Participation::Tentative,
            Participation::Delegated,
        ])
    }

    fn attendee(&mut self) -> Attendee {
        let mut a = Attendee::new(self.address());
        self.change_attendee(&mut a);
        a
    }

    pub(super) fn change_attendee(&mut self, a: &mut Attendee) {
        match self.rng.below(6) {
            0 => a.name = self.maybe(70, Self::short_text),
            1 => {
                a.role = *self.rng.pick(&[
                    AttendeeRole::Required,
                    AttendeeRole::Optional,
                    AttendeeRole::Chair,
                    AttendeeRole::NonParticipant,
                ])
            }
            2 => {
                a.kind = *self.rng.pick(&[
                    ParticipantKind::Individual,
                    ParticipantKind::Group,
                    ParticipantKind::Resource,
                    ParticipantKind::Room,
                    ParticipantKind::Unknown,
                ])
            }
            _ => a.participation = self.participation(),
        }
    }

    fn attendees(&mut self) -> Vec<Attendee> {
        let n = match self.rng.below(10) {
            0..=2 => 0,
            3..=8 => 1 + self.rng.below(4),
            _ => 5 + self.rng.below(4),
        };
        (0..n).map(|_| self.attendee()).collect()
    }

    pub(super) fn fields(&mut self) -> NormalizedEvent {
        let mut f = NormalizedEvent::new(tags::times(self.tag()));
        f.reminders = tags::reminders(self.tag());
        f.attendees = self.attendees();
        for unit in [0, 2, 3, 5, 6, 7, 8, 9] {
            if self.rng.chance(40) {
                self.change_unit(&mut f, unit);
            }
        }
        f
    }

    fn change_unit(&mut self, f: &mut NormalizedEvent, unit: usize) {
        match unit {
            0 => f.title = self.maybe(75, Self::short_text),
            1 => f.times = tags::times(self.tag()),
            2 => f.recurrence = self.maybe(75, |g| tags::recurrence(g.tag())),
            3 => {
                f.organizer =
                    self.maybe(75, |g| Organizer { address: g.address(), name: g.maybe(50, Self::short_text) });
            }
            4 => self.change_attendees(f),
            5 => f.location = self.maybe(75, Self::short_text),
            6 => f.description = self.maybe(75, |g| tags::description(g.tag())),
            7 => f.status = *self.rng.pick(&[EventStatus::Confirmed, EventStatus::Tentative, EventStatus::Cancelled]),
            8 => f.transparency = *self.rng.pick(&[Transparency::Opaque, Transparency::Transparent]),
            9 => {
                f.visibility = *self.rng.pick(&[
                    Visibility::Default,
                    Visibility::Public,
                    Visibility::Private,
                    Visibility::Confidential,
                ])
            }
            _ => f.reminders = tags::reminders(self.tag()),
        }
    }

    fn change_attendees(&mut self, f: &mut NormalizedEvent) {
        for _ in 0..=self.rng.below(3) {
            let n = f.attendees.len();
            match self.rng.below(7) {
                0 if n > 0 => {
                    let at = self.rng.below(n);
                    f.attendees.remove(at);
                }
                1 if n < 8 => {
                    let at = self.rng.below(n + 1);
                    let a = self.attendee();
                    f.attendees.insert(at, a);
                }
                2 if n > 1 => {
                    let at = self.rng.below(n - 1);
                    f.attendees.swap(at, at + 1);
                }
                3 if n > 0 => {
                    let at = self.rng.below(n);
                    let a = &mut f.attendees[at].address;
                    *a = if self.rng.chance(50) { a.to_ascii_uppercase() } else { a.to_ascii_lowercase() };
                }
                _ if n > 0 => {
                    let at = self.rng.below(n);
                    let mut a = f.attendees[at].clone();
                    self.change_attendee(&mut a);
                    f.attendees[at] = a;
                }
                _ => {}
            }
        }
    }

    fn changed(&mut self, f: &NormalizedEvent) -> NormalizedEvent {
        let mut f = f.clone();
        for _ in 0..=self.rng.below(4) {
            let unit = if self.rng.chance(35) { 4 } else { self.rng.below(11) };
            self.change_unit(&mut f, unit);
        }
        f
    }

    /// Theirs to a base and an ours: each unit is base's, ours' or another.
    pub(super) fn theirs(&mut self, base: &NormalizedEvent, ours: &NormalizedEvent) -> NormalizedEvent {
        let mut t = base.clone();
        for unit in 0..11 {
            let side = self.rng.below(10);
            if side < 5 {
                continue;
            }
            if side < 7 {
                match unit {
                    0 => t.title = ours.title.clone(),
                    1 => t.times = ours.times.clone(),
                    2 => t.recurrence = ours.recurrence.clone(),
                    3 => t.organizer = ours.organizer.clone(),
                    4 => t.attendees = ours.attendees.clone(),
                    5 => t.location = ours.location.clone(),
                    6 => t.description = ours.description.clone(),
                    7 => t.status = ours.status,
                    8 => t.transparency = ours.transparency,
                    9 => t.visibility = ours.visibility,
                    _ => t.reminders = ours.reminders.clone(),
                }
            } else {
                self.change_unit(&mut t, unit);
            }
        }
        t
    }

    pub(super) fn revision(&mut self) -> String {
        match self.rng.below(20) {
            0 => String::new(),
            1 => text32("v"),
            2..=7 => {
                self.revisions += 1;
                format!("w{}", self.revisions)
            }
            n => format!("v{}", n % 5),
        }
    }

    pub(super) fn event_with(&mut self, id: &str, fields: NormalizedEvent) -> ProviderEvent {
        let provider =
            *self.rng.pick(&[Provider::Google, Provider::Graph, Provider::Graph, Provider::CalDav, Provider::Ics]);
        let mut ids = ProviderIds::new(provider, id);
        ids.ical_uid = self.maybe(20, Self::short_text);
        ids.series_id = self.maybe(20, Self::short_text);
        ProviderEvent {
            ids,
            revision: self.maybe(88, |g| ProviderRevision::new(g.revision())),
            mapper_version: MapperVersion::new(match self.rng.below(24) {
                0 => 0,
                1 => u32::MAX,
                2..=5 => 2,
                6..=9 => 4,
                _ => 3,
            }),
            fields,
            passthrough: tags::passthrough(self.tag()),
        }
    }

    pub(super) fn event(&mut self, id: &str) -> ProviderEvent {
        let held = self.view.records.get(&res(id)).cloned();
        match held {
            Some(held) if self.rng.chance(60) => {
                let mut e = held.clone();
                if self.rng.chance(60) {
                    e.fields = self.changed(&held.fields);
                }
                if self.rng.chance(60) {
                    e.revision = self.maybe(90, |g| ProviderRevision::new(g.revision()));
                }
                if self.rng.chance(30) {
                    e.mapper_version = MapperVersion::new(2 + self.rng.below(4) as u32);
                }
                e
            }
            _ => {
                let f = self.fields();
                self.event_with(id, f)
            }
        }
    }

    pub(super) fn time(&mut self) -> Timestamp {
        let now = self.view.now.map_or(0, |t| t.0);
        let due: Vec<i64> = self.view.edits.values().flatten().filter_map(|p| p.edit.expires_at).map(|t| t.0).collect();
        let around = match self.rng.below(14) {
            0..=3 if !due.is_empty() => *self.rng.pick(&due) + self.rng.below(3) as i64 - 1,
            0..=7 => now + self.rng.below(4) as i64 - 1,
            8 | 9 => self.rng.below(5) as i64 - 2,
            10 => -LAST_TIME,
            11 => LAST_TIME,
            12 => now - 5,
            _ => now + 3,
        };
        // Keep the clock near zero most of the time, so that expiries and ticks meet.
        let around = if around.abs() > 1000 && self.rng.chance(80) { self.rng.below(5) as i64 - 2 } else { around };
        Timestamp(around.clamp(-LAST_TIME, LAST_TIME))
    }

    pub(super) fn edit_id(&mut self) -> EditId {
        if self.rng.chance(4) {
            return EditId::new("same");
        }
        if self.rng.chance(3) {
            return EditId::new(text32("i"));
        }
        self.edits += 1;
        EditId::new(format!("e{}", self.edits))
    }

    pub(super) fn role(&mut self) -> Role {
        if self.rng.chance(65) { Role::Owner } else { Role::Attendee { address: self.address() } }
    }

    pub(super) fn edit(&mut self) -> Edit {
        let queued: Vec<ResourceId> = self.view.edits.keys().cloned().collect();
        let name = if !queued.is_empty() && self.rng.chance(65) {
            self.rng.pick(&queued).as_str().to_owned()
        } else {
            self.name()
        };
        let resource = res(name.clone());
        let to = self.view.aliases.get(&resource).cloned().unwrap_or_else(|| resource.clone());
        let last = self.view.edits.get(&to).and_then(|q| q.back()).cloned();
        let record = self.view.records.get(&to).cloned();
        let follow = self.rng.chance(70);
        let mut role = match &last {
            Some(last) if follow => last.edit.role.clone(),
            _ => self.role(),
        };
        let pick = match self.profile.name {
            "merges" => [80, 5, 15],
            "queues" => [45, 25, 30],
            _ => [55, 20, 25],
        };
        let operation = match self.rng.weigh(&pick) {
            0 => {
                let base = match (&last, record) {
                    (Some(last), _) if follow => self.fields_after(last),
                    (_, Some(record)) if self.rng.chance(80) => record.fields,
                    _ => self.fields(),
                };
                self.update_by(&mut role, follow, base)
            }
            1 => Operation::Delete,
            _ => {
                let id = if self.rng.chance(70) { name } else { self.name() };
                let f = self.fields();
                Operation::Create(self.event_with(&id, f))
            }
        };
        let expires_at = self.maybe(40, Self::time);
        Edit { id: self.edit_id(), resource, operation, role, expires_at }
    }

    /// What the fields are once this entry is written.
    fn fields_after(&mut self, entry: &PendingView) -> NormalizedEvent {
        match &entry.edit.operation {
            Operation::Create(e) => e.fields.clone(),
            Operation::Update { ours, .. } => ours.clone(),
            Operation::Delete => self.fields(),
        }
    }

    /// A change of these fields; an attendee mostly changes one of its own entries.
    pub(super) fn update_by(&mut self, role: &mut Role, follow: bool, base: NormalizedEvent) -> Operation {
        if let Role::Attendee { address } = role {
            if !follow && !base.attendees.is_empty() && self.rng.chance(75) {
                *address = self.rng.pick(&base.attendees).address.clone();
                if self.rng.chance(30) {
                    *address = address.to_ascii_uppercase();
                }
            }
        }
        let mut ours = self.changed(&base);
        if let Role::Attendee { address } = role {
            if self.rng.chance(70) {
                let p = self.participation();
                for a in ours.attendees.iter_mut().filter(|a| a.address.eq_ignore_ascii_case(address)) {
                    a.participation = p;
                }
            }
        }
        Operation::Update { base, ours }
    }

    pub(super) fn cursor(&mut self) -> Cursor {
        Cursor::new(match self.rng.below(8) {
            0 => String::new(),
            1 => text32("C"),
            n => format!("c{n}"),
        })
    }
}
