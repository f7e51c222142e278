//! Scripts: runs of steps that lead to what chance alone seldom reaches.
use super::values::{largest_fields, side, text32};
use super::{Gen, res};
use crate::limited::{
    Change, Cursor, Edit, EditId, Failure, Input, Next, Operation, Outcome, Page, RequestId, ResourceId, Role,
};
use crate::view::Purpose;
use calendar_sync_model::{Attendee, NormalizedEvent, Provider, ProviderRevision, tags};

impl Gen<'_> {
    pub(super) fn script(&mut self) {
        match self.profile.name {
            "limits" => self.limit_script(),
            "passes" => match self.rng.below(4) {
                0 => self.overtaken_graph(),
                _ => self.refreshes(),
            },
            "merges" => match self.rng.below(5) {
                0 => self.worst_merge(),
                1 | 2 => self.own_entry(),
                _ => self.crowd(),
            },
            "queues" => match self.rng.below(3) {
                0 => self.attendee_deletes(),
                1 => self.remap_queue(),
                _ => self.fill_absorbed(),
            },
            _ => match self.rng.below(7) {
                0 => self.attendee_deletes(),
                1 => self.remap_queue(),
                2 => self.crowd(),
                3 => self.fill_waiting(),
                4 => self.huge_page(),
                5 => self.refreshes(),
                _ => self.own_entry(),
            },
        }
    }

    fn limit_script(&mut self) {
        match self.rng.below(13) {
            0 => self.fill_records(),
            1 => self.fill_staged(),
            2 => self.fill_seen(),
            3 => self.fill_observed(),
            4 => self.fill_waiting(),
            5 => self.fill_absorbed(),
            6 => self.fill_in_flight(),
            7 => self.fill_learned(),
            8 => self.fill_aliases(),
            9 => self.crowd(),
            10 => self.doubtful_stage(),
            11 => self.huge_page(),
            _ => self.worst_merge(),
        }
    }

    /// A page of the largest size, its bodies kept or read.
    fn huge_page(&mut self) {
        self.drain();
        self.put(Input::Sync);
        let Some(list) = self.listing() else { return };
        let body = self.rng.chance(70);
        let changes = (0..8)
            .map(|i| {
                let name = format!("H{i}").repeat(16);
                let event = body.then(|| self.largest_event(&name));
                Change::Upsert { resource: res(name), revision: ProviderRevision::new(text32("v")), event }
            })
            .collect();
        let next = if self.rng.chance(50) {
            Next::Done(Cursor::new(text32("C")))
        } else {
            Next::More(Cursor::new(text32("C")))
        };
        self.answer(list, Outcome::Listed(Page { changes, next }));
        for i in 0..3 {
            let name = format!("H{i}").repeat(16);
            if let Some(r) = self.find(|p| *p == Purpose::PassRead(res(name.clone()))) {
                let e = self.largest_event(&name);
                self.answer(r, Outcome::Read(Some(e)));
            }
        }
        for i in 0..6 {
            let name = format!("H{i}").repeat(16);
            let e = self.largest_event(&name);
            let role = Role::Attendee { address: text32("a") };
            let operation = if self.rng.chance(50) {
                Operation::Create(e)
            } else {
                Operation::Update { base: largest_fields(), ours: largest_fields() }
            };
            self.simple(&name, operation, role);
        }
        self.put(Input::Resume);
    }

    /// The most conflicts and the most effect bytes that steps can bring about.
    fn worst_merge(&mut self) {
        self.drain();
        let name = text32("W");
        let op = self.update();
        self.simple(&name, op, Role::Owner);
        self.folded_update(&name);
        for _ in 0..self.rng.below(4) {
            self.simple(&name, Operation::Delete, Role::Attendee { address: text32("a") });
        }
        let e = self.largest_event(&name);
        self.simple(&name, Operation::Create(e.clone()), Role::Owner);
        if let Some(r) = self.edit_read(&name) {
            self.answer(r, Outcome::Read(None));
        }
        if let Some(r) = self.edit_read(&name) {
            let mut t = e;
            t.fields = side(2, &[4, 5, 6, 7, 8, 9, 10, 11]);
            if self.rng.chance(30) {
                t.fields.times = tags::times(0);
            }
            let written = t.clone();
            self.answer(r, Outcome::Read(Some(t)));
            if let Some(w) = self.edit_write(&name) {
                self.answer(w, Outcome::Written(written));
            }
        }
    }

    /// An update into which up to eight others are folded, to fields whose every part differs from its base.
    fn folded_update(&mut self, name: &str) {
        let mut at = side(0, &[0]);
        let base = side(0, &[0, 1, 2, 3, 4, 5, 6, 7]);
        let ours = side(1, &[0, 1, 2, 3, 8, 9, 10, 11]);
        let folds = self.rng.below(9);
        let first = if folds == 0 { ours.clone() } else { at.clone() };
        self.simple(name, Operation::Update { base, ours: first }, Role::Owner);
        for i in 0..folds {
            let mut to = at.clone();
            to.times = tags::times(100 + i as u64);
            if i + 1 == folds {
                to = ours.clone();
            }
            self.put(Input::Edit(Edit {
                id: EditId::new(format!("{i}").repeat(32)),
                resource: res(name),
                operation: Operation::Update { base: at, ours: to.clone() },
                role: Role::Owner,
                expires_at: None,
            }));
            at = to;
        }
    }

    /// A name without a queue, or nothing.
    fn idle(&mut self, letter: char) -> Option<String> {
        if self.view.waiting() > 4 {
            self.drain();
        }
        let name = format!("{letter}{}", self.rng.below(3));
        (!self.view.edits.contains_key(&res(name.clone()))).then_some(name)
    }

    /// An update that is merged with theirs.
    fn merged(&mut self, name: &str, [base, ours, theirs]: [NormalizedEvent; 3], role: Role) {
        self.simple(name, Operation::Update { base, ours }, role);
        if let Some(r) = self.edit_read(name) {
            let e = self.event_with(name, theirs);
            self.answer(r, Outcome::Read(Some(e)));
        }
    }

    /// An update that brings in more attendees than there is room for.
    fn crowd(&mut self) {
        let Some(name) = self.idle('c') else { return };
        let mut base = self.fields();
        base.attendees = (0..self.rng.below(4)).map(|i| Attendee::new(format!("x{i}@m"))).collect();
        let room = 8 - base.attendees.len();
        let mut ours = base.clone();
        let adds = 1 + self.rng.below(room);
        ours.attendees.extend((0..adds).map(|i| Attendee::new(format!("y{i}@m"))));
        let mut theirs = base.clone();
        let adds = self.rng.below(room + 1);
        theirs.attendees.extend((0..adds).map(|i| Attendee::new(format!("z{i}@m"))));
        self.merged(&name, [base, ours, theirs], Role::Owner);
    }

    /// An attendee who adds its own entry, which theirs has too or not, or takes it out.
    fn own_entry(&mut self) {
        let Some(name) = self.idle('o') else { return };
        let mut base = self.fields();
        base.attendees.retain(|a| !a.address.eq_ignore_ascii_case("me@m"));
        base.attendees.truncate(6);
        let mut sides = [base.clone(), base.clone(), base];
        for f in &mut sides {
            for _ in 0..self.rng.below(3) {
                let mut a = Attendee::new(*self.rng.pick(&["me@m", "Me@m", "ME@M"]));
                self.change_attendee(&mut a);
                if self.rng.chance(40) {
                    self.change_attendee(&mut a);
                }
                let at = self.rng.below(f.attendees.len() + 1);
                f.attendees.insert(at, a);
            }
        }
        self.merged(&name, sides, Role::Attendee { address: "me@M".to_owned() });
    }

    /// Writes that a full listing overtakes, so that Refreshes are made; then what may befall them.
    fn refreshes(&mut self) {
        if self.view.waiting() > 3 || self.view.pass.is_some() {
            self.drain();
        }
        let first = self.rng.below(30);
        for i in 0..2 + self.rng.below(3) {
            let name = format!("f{:02}", first + i);
            let e = self.plain_event(&name, Provider::CalDav);
            self.simple(&name, Operation::Create(e), Role::Owner);
        }
        self.full_listing();
        let writes: Vec<(u64, ResourceId)> = self
            .view
            .in_flight
            .iter()
            .filter_map(|(id, p)| match p {
                Purpose::EditWrite(r) => Some((id.get(), r.clone())),
                _ => None,
            })
            .collect();
        for (id, r) in writes {
            let e = self.plain_event(r.as_str(), Provider::CalDav);
            self.answer(id, Outcome::Written(e));
        }
        if self.rng.chance(50) {
            self.pass_beside_refreshes();
        }
        if self.rng.chance(35) {
            self.put(Input::Resume);
        }
        for _ in 0..3 {
            if let Some(r) = self.find(|p| matches!(p, Purpose::Refresh(_))) {
                let outcome = if self.rng.chance(60) { self.any_outcome() } else { self.outcome(RequestId::new(r)) };
                self.answer(r, outcome);
            }
        }
    }

    /// A pass, perhaps with an expired cursor, whose page may list what is being refreshed.
    fn pass_beside_refreshes(&mut self) {
        self.put(Input::Sync);
        if self.rng.chance(50) {
            if let Some(l) = self.listing() {
                self.answer(l, Outcome::Failed(Failure::CursorExpired));
            }
        }
        if !self.rng.chance(60) {
            return;
        }
        let Some(l) = self.listing() else { return };
        let mut changes = vec![self.upsert("f99", false)];
        let refreshed = self.view.in_flight.values().find_map(|p| match p {
            Purpose::Refresh(r) => Some(r.as_str().to_owned()),
            _ => None,
        });
        if let (Some(r), true) = (refreshed, self.rng.chance(50)) {
            changes.push(self.upsert(&r, true));
        }
        self.done(l, changes);
    }

    /// A Graph create that a full listing overtakes: its name is doubtful, and only a pass may hold its alias.
    fn overtaken_graph(&mut self) {
        self.drain();
        let key = format!("key{}", self.rng.below(4));
        let to = format!("to{}", self.rng.below(4));
        let e = self.plain_event(&key, Provider::Graph);
        self.simple(&key, Operation::Create(e), Role::Owner);
        if let Some(r) = self.edit_read(&key) {
            self.answer(r, Outcome::Read(None));
        }
        self.full_listing();
        if let Some(w) = self.edit_write(&key) {
            let e = self.plain_event(&to, Provider::Graph);
            self.answer(w, Outcome::Written(e));
        }
        self.put(Input::Sync);
        if let Some(l) = self.listing() {
            let change =
                if self.rng.chance(70) { self.upsert(&to, true) } else { Change::Remove { resource: res(to.clone()) } };
            self.more(l, vec![change]);
        }
        if let Some(r) = self.find(|p| *p == Purpose::Refresh(res(to.clone()))) {
            let outcome = if self.rng.chance(60) {
                Outcome::Failed(Failure::Rejected("no".to_owned()))
            } else {
                self.any_outcome()
            };
            self.answer(r, outcome);
        }
    }

    /// Attendees' deletes behind a head, ended in one call.
    fn attendee_deletes(&mut self) {
        self.drain();
        let name = self.name();
        let op = self.update();
        self.simple(&name, op, Role::Owner);
        let n = 1 + self.rng.below(5);
        for _ in 0..n {
            let role = Role::Attendee { address: self.address() };
            self.simple(&name, Operation::Delete, role);
        }
        let to = self.view.aliases.get(&res(name.clone())).cloned().unwrap_or_else(|| res(name.clone()));
        if let Some(r) = self.find(|p| *p == Purpose::EditRead(to.clone())) {
            let outcome = if self.rng.chance(50) {
                Outcome::Read(None)
            } else {
                Outcome::Failed(Failure::Rejected("gone".to_owned()))
            };
            self.answer(r, outcome);
        }
    }

    /// A Graph create with a mixed queue behind it, named by the provider.
    fn remap_queue(&mut self) {
        if self.view.waiting() > 2 {
            self.drain();
        }
        let key = format!("key{}", self.rng.below(4));
        let e = self.plain_event(&key, Provider::Graph);
        self.simple(&key, Operation::Create(e.clone()), Role::Owner);
        for _ in 0..1 + self.rng.below(4) {
            let operation = match self.rng.below(4) {
                0 => Operation::Create(self.plain_event(&key, Provider::Graph)),
                1 => Operation::Create(self.plain_event(&key, Provider::Google)),
                2 => Operation::Delete,
                _ => self.update(),
            };
            let role = self.role();
            self.simple(&key, operation, role);
        }
        let to = format!("g{}", self.rng.below(4));
        if self.rng.chance(40) {
            let op = self.update();
            self.simple(&to, op, Role::Owner);
        }
        let Some(r) = self.edit_read(&key) else { return };
        let mut named = e;
        named.ids.id = to;
        if self.rng.chance(50) {
            self.answer(r, Outcome::Read(Some(named)));
        } else {
            self.answer(r, Outcome::Failed(Failure::NotFound));
            if let Some(w) = self.edit_write(&key) {
                self.answer(w, Outcome::Written(named));
            }
        }
        if self.rng.chance(50) {
            let op = if self.rng.chance(50) { self.update() } else { Operation::Delete };
            self.simple(&key, op, Role::Owner);
        }
    }
}
