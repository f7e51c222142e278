//! Scripts that fill each of the nine tables to its limit and past it.
use super::{Gen, res};
use crate::limited::{Change, Failure, Input, Operation, Outcome, Role};
use crate::view::Purpose;
use calendar_sync_model::Provider;

impl Gen<'_> {
    pub(super) fn fill_records(&mut self) {
        self.drain();
        let first = self.rng.below(30);
        for round in 0..3 {
            let changes = (0..5).map(|i| self.upsert(&format!("r{:02}", first + round * 5 + i), true)).collect();
            if self.pass(changes) == 5 {
                break;
            }
        }
        if self.rng.chance(50) {
            // By a write: the tenth is stored, the next is not.
            for i in 0..11 {
                let name = format!("s{i:02}");
                let e = self.plain_event(&name, Provider::CalDav);
                self.simple(&name, Operation::Create(e.clone()), Role::Owner);
                if let Some(w) = self.edit_write(&name) {
                    if self.answer(w, Outcome::Written(e)) == 5 {
                        break;
                    }
                }
            }
        }
        self.drain();
        if self.rng.chance(60) {
            self.empty();
        }
    }

    /// The n changes of a page, some of them removals.
    fn staged_changes(&mut self, page: usize, n: usize, body: bool) -> Vec<Change> {
        let change = |i| {
            let name = format!("p{:02}", page * 8 + i);
            if self.rng.chance(20) { Change::Remove { resource: res(name) } } else { self.upsert(&name, body) }
        };
        (0..n).map(change).collect()
    }

    pub(super) fn fill_staged(&mut self) {
        self.drain();
        self.put(Input::Sync);
        let exact = self.rng.chance(60);
        for page in 0..3 {
            let Some(list) = self.listing() else { return };
            let n = match page {
                _ if !exact => 3 + self.rng.below(4),
                2 => 1,
                _ => 5,
            };
            let body = self.rng.chance(50);
            let changes = self.staged_changes(page, n, body);
            if self.more(list, changes) == 5 {
                break;
            }
        }
        if self.rng.chance(50) {
            // Observed resources become unread beside them.
            for i in 0..4 {
                self.read_nothing(&format!("o{i:02}"));
            }
            if let Some(list) = self.listing() {
                self.done(list, Vec::new());
            }
        }
    }

    pub(super) fn fill_seen(&mut self) {
        self.empty();
        self.put(Input::Sync);
        for page in 0..4 {
            let Some(list) = self.listing() else { return };
            let changes = (0..8).map(|i| self.upsert(&format!("q{:02}", page * 8 + i), false)).collect();
            if self.more(list, changes) != 0 || !self.read_as_one() {
                return;
            }
        }
        let Some(list) = self.listing() else { return };
        match self.rng.below(3) {
            0 => self.list_unread(list, "q99"),
            1 => {
                // The next one is doubtful.
                self.read_nothing("q99");
                self.list_unread(list, "q99");
            }
            _ => self.seen_by_reads(list),
        }
    }

    /// Answers every pass read with one and the same event, so that what is staged goes and seen stays.
    fn read_as_one(&mut self) -> bool {
        while let Some(id) = self.find(|p| matches!(p, Purpose::PassRead(_))) {
            let e = self.plain_event("one", Provider::Google);
            if self.answer(id, Outcome::Read(Some(e))) != 0 {
                return false;
            }
        }
        true
    }

    fn list_unread(&mut self, list: u64, name: &str) {
        let change = self.upsert(name, false);
        self.more(list, vec![change]);
    }

    /// Seen by reads after the listing ended.
    fn seen_by_reads(&mut self, list: u64) {
        let change = self.upsert("q00", false);
        self.done(list, vec![change]);
        for i in 0..3 {
            if let Some(r) = self.find(|p| matches!(p, Purpose::PassRead(_))) {
                let e = self.plain_event(&format!("late{i}"), Provider::Google);
                self.answer(r, Outcome::Read(Some(e)));
            }
        }
    }

    /// A doubtful change to a full stage.
    pub(super) fn doubtful_stage(&mut self) {
        self.drain();
        self.put(Input::Sync);
        for page in 0..2 {
            let Some(list) = self.listing() else { return };
            let changes = self.staged_changes(page, 5, true);
            if self.more(list, changes) != 0 {
                return;
            }
        }
        self.read_nothing("p99");
        let Some(list) = self.listing() else { return };
        let change =
            if self.rng.chance(50) { self.upsert("p99", true) } else { Change::Remove { resource: res("p99") } };
        self.more(list, vec![change]);
    }

    pub(super) fn fill_observed(&mut self) {
        self.drain();
        self.put(Input::Sync);
        for i in 0..17 {
            let name = format!("o{i:02}");
            self.simple(&name, Operation::Delete, Role::Owner);
            if let Some(r) = self.edit_read(&name) {
                let found = self.rng.chance(20).then(|| self.plain_event(&name, Provider::Google));
                let some = found.is_some();
                if self.answer(r, Outcome::Read(found)) == 5 {
                    break;
                }
                if some {
                    if let Some(w) = self.edit_write(&name) {
                        self.answer(w, Outcome::Deleted);
                    }
                }
            }
        }
    }

    pub(super) fn fill_waiting(&mut self) {
        for i in 0..7 {
            let name = format!("w{}", if self.rng.chance(50) { i } else { 0 });
            let operation = match self.rng.below(3) {
                0 => Operation::Create(self.plain_event(&name, Provider::CalDav)),
                1 => Operation::Delete,
                _ => self.update(),
            };
            let role = if self.rng.chance(80) { Role::Owner } else { self.role() };
            if self.simple(&name, operation, role) == 5 && self.rng.chance(50) {
                break;
            }
        }
    }

    pub(super) fn fill_absorbed(&mut self) {
        if self.view.waiting() > 4 {
            self.drain();
        }
        let name = format!("h{}", self.rng.below(3));
        let role = self.role();
        let first = self.update();
        self.simple(&name, first.clone(), role.clone());
        let create = self.rng.chance(40);
        let second = if create { Operation::Create(self.plain_event(&name, Provider::CalDav)) } else { self.update() };
        self.simple(&name, second.clone(), role.clone());
        let mut at = match second {
            Operation::Create(e) => e.fields,
            Operation::Update { ours, .. } => ours,
            Operation::Delete => return,
        };
        for i in 0..9 {
            let mut to = at.clone();
            to.title = Some(format!("f{i}"));
            let op = Operation::Update { base: at, ours: to.clone() };
            if self.simple(&name, op, role.clone()) == 5 {
                break;
            }
            at = to;
        }
        if self.rng.chance(40) {
            self.simple(&name, Operation::Delete, role);
        }
    }

    pub(super) fn fill_in_flight(&mut self) {
        self.drain();
        for round in 0..6 {
            for i in 0..6 {
                let name = format!("m{round}{i}");
                let e = self.plain_event(&name, Provider::CalDav);
                self.simple(&name, Operation::Create(e), Role::Owner);
            }
            self.full_listing();
            // Written before the listing ended, so each is read again.
            while let Some((id, r)) = self.view.in_flight.iter().find_map(|(id, p)| match p {
                Purpose::EditWrite(r) => Some((id.get(), r.clone())),
                _ => None,
            }) {
                let e = self.plain_event(r.as_str(), Provider::CalDav);
                if self.answer(id, Outcome::Written(e)) != 0 {
                    return self.many_refreshes();
                }
            }
            if round == 2 && self.rng.chance(30) {
                return self.many_refreshes();
            }
        }
    }

    /// A pass beside many Refreshes, then a Resume: all are doubted at once.
    pub(super) fn many_refreshes(&mut self) {
        let spare = 18 + self.rng.below(4);
        for _ in spare..self.view.in_flight.len().max(spare) {
            if let Some(r) = self.find(|p| matches!(p, Purpose::Refresh(_) | Purpose::EditWrite(_))) {
                self.answer(r, Outcome::Failed(Failure::Rejected("no".to_owned())));
            }
        }
        self.put(Input::Sync);
        if self.rng.chance(50) {
            if let Some(l) = self.listing() {
                let changes = vec![self.upsert("f99", false)];
                self.done(l, changes);
            }
        }
        self.put(Input::Resume);
    }

    pub(super) fn fill_learned(&mut self) {
        self.drain();
        // One read is never answered, so nothing learned settles.
        let op = self.update();
        self.simple("slow", op, Role::Owner);
        for i in 0..33 {
            let name = format!("l{i:02}");
            self.simple(&name, Operation::Delete, Role::Owner);
            if let Some(r) = self.edit_read(&name) {
                if self.answer(r, Outcome::Failed(Failure::NotFound)) == 5 {
                    return;
                }
            }
        }
    }

    pub(super) fn fill_aliases(&mut self) {
        self.empty();
        let same = self.rng.chance(50);
        for i in 0..9 {
            let name = format!("k{i}");
            let e = self.plain_event(&name, Provider::Graph);
            self.simple(&name, Operation::Create(e), Role::Owner);
            if let Some(r) = self.edit_read(&name) {
                let to = if same { "given".to_owned() } else { format!("g{i}") };
                let e = self.plain_event(&to, Provider::Graph);
                if same || self.rng.chance(30) {
                    if self.answer(r, Outcome::Read(Some(e))) == 5 {
                        return;
                    }
                } else {
                    self.answer(r, Outcome::Read(None));
                    if let Some(w) = self.edit_write(&name) {
                        if self.answer(w, Outcome::Written(e)) == 5 {
                            return;
                        }
                    }
                }
            }
        }
    }
}
