//! Situations of a reply to a request in flight.
use super::Cover;
use super::names::{is_graph_create, op_name, outcome_name, pass_name, purpose_name, resource_of};
use crate::engine::Answer;
use crate::limited::{
    Change, Effect, Failure, Next, Notice, Operation, Outcome, Rejection, Request, RequestId, ResourceId,
};
use crate::view::{Purpose, Staged, View};
use calendar_sync_model::ProviderEvent;
use std::collections::BTreeSet;

fn refreshes(v: &View) -> usize {
    v.in_flight.values().filter(|p| matches!(p, Purpose::Refresh(_))).count()
}

fn tells(answer: &Answer, want: impl Fn(&Effect) -> bool) -> bool {
    answer.effects.iter().any(want)
}

impl Cover {
    pub(super) fn reply(
        &mut self,
        before: &View,
        id: RequestId,
        purpose: &Purpose,
        outcome: &Outcome,
        answer: &Answer,
        after: &View,
    ) {
        self.hit(format!("{} x {}", purpose_name(purpose), outcome_name(outcome)));
        if let Some(r) = resource_of(purpose) {
            self.doubts(before, id, r, purpose, outcome);
        }
        match purpose {
            Purpose::List => self.list(before, id, outcome),
            Purpose::PassRead(r) => self.pass_read(before, id, r, outcome, after),
            Purpose::Refresh(_) => {}
            Purpose::EditRead(r) => self.edit_read(before, id, r, outcome, answer),
            Purpose::EditWrite(r) => self.edit_write(before, id, r, outcome, answer),
        }
        let gone = usize::from(matches!(purpose, Purpose::Refresh(_)));
        self.hit_if(refreshes(after) > refreshes(before) - gone, "doubt makes a Refresh");
        self.commit(before, answer, after);
        self.records(before, purpose, outcome, after);
    }

    fn doubts(&mut self, before: &View, id: RequestId, r: &ResourceId, purpose: &Purpose, outcome: &Outcome) {
        let (name, kind, pass) = (purpose_name(purpose), outcome_name(outcome), pass_name(before));
        let learned = before.learned.get(r);
        let why = match (id.get() < before.learned_all, learned.is_some_and(|s| id.get() < *s)) {
            (true, true) => "by both",
            (true, false) => "by learned_all",
            (false, true) => "by learned",
            (false, false) => "not",
        };
        self.hit_if(learned == Some(&id.get()), "number equals the learned one");
        self.hit(format!("{name} doubtful {why}"));
        if !before.doubtful(id, r) {
            self.hit(format!("{name} x {kind} trusted, {pass}"));
        } else if matches!(outcome, Outcome::Read(_) | Outcome::Written(_) | Outcome::Deleted) {
            self.hit(format!("{name} x {kind} doubtful, {pass}"));
        }
    }

    fn list(&mut self, before: &View, id: RequestId, outcome: &Outcome) {
        let Some(pass) = &before.pass else {
            self.hit("a listing answered without a pass");
            return;
        };
        if let Outcome::Failed(Failure::CursorExpired) = outcome {
            let reads = before.in_flight.values().any(|p| matches!(p, Purpose::PassRead(_)));
            self.hit(format!("CursorExpired, full {}, reads in flight {reads}", pass.full));
            return;
        }
        let Outcome::Listed(page) = outcome else { return };
        let mut earlier: BTreeSet<&ResourceId> = BTreeSet::new();
        for c in &page.changes {
            let (Change::Upsert { resource, .. } | Change::Remove { resource }) = c;
            let again = !earlier.insert(resource);
            let doubtful = again || before.doubtful(id, resource);
            let what = match c {
                Change::Remove { .. } => "remove".to_owned(),
                Change::Upsert { revision, event, .. } => {
                    let held = before.records.get(resource).is_some_and(|r| r.revision.as_ref() == Some(revision));
                    format!("upsert held {held} body {}", event.is_some())
                }
            };
            self.hit(format!("change {what}, doubtful {doubtful}"));
            self.hit_if(again, "change twice on a page");
            self.hit_if(pass.staged.contains_key(resource), "change over what is staged");
        }
        let next = if matches!(page.next, Next::More(_)) { "more" } else { "done" };
        self.hit(format!("page {next}, full {}", pass.full));
    }

    fn pass_read(&mut self, before: &View, id: RequestId, r: &ResourceId, outcome: &Outcome, after: &View) {
        let (Some(p), Outcome::Read(_)) = (&before.pass, outcome) else { return };
        if before.doubtful(id, r) {
            return;
        }
        let listed = p.staged.get(r) == Some(&Staged::Unread);
        let observed = after.pass.as_ref().is_some_and(|p| p.observed.contains(r));
        self.hit(format!(
            "PassRead answered, listed {listed}, {}, observed before {} after {observed}",
            pass_name(before),
            p.observed.contains(r)
        ));
    }

    fn edit_read(&mut self, before: &View, id: RequestId, r: &ResourceId, outcome: &Outcome, answer: &Answer) {
        let Some(head) = before.head(r) else { return };
        let theirs = match outcome {
            Outcome::Read(t) => t.as_ref(),
            Outcome::Failed(Failure::NotFound) => None,
            _ => return,
        };
        if before.doubtful(id, r) {
            return;
        }
        let op = op_name(&head.edit.operation);
        let other = theirs.is_some_and(|t| ResourceId::of(t) != *r);
        self.hit(format!("plan {op}, found {}, other id {other}, collided {}", theirs.is_some(), head.collided));
        let Some(theirs) = theirs else { return };
        if let Operation::Update { base, ours } = &head.edit.operation {
            self.merge(base, ours, &theirs.fields, &head.edit.role);
            let written = tells(answer, |e| matches!(e, Effect::Request { request: Request::Update { .. }, .. }));
            self.hit(format!("merged, written {written}"));
        }
        if is_graph_create(&head.edit.operation) {
            self.remap(before, r, theirs, answer);
        }
    }

    fn edit_write(&mut self, before: &View, id: RequestId, r: &ResourceId, outcome: &Outcome, answer: &Answer) {
        let Some(head) = before.head(r) else { return };
        self.hit(format!("EditWrite of {} x {}", op_name(&head.edit.operation), outcome_name(outcome)));
        if let (Operation::Create(_), Outcome::Written(t)) = (&head.edit.operation, outcome) {
            let named = ResourceId::of(t);
            let doubtful = before.doubtful(id, &named);
            self.hit(format!("written create, own name {}, named doubtful {doubtful}", named == *r));
            self.remap(before, r, t, answer);
        }
    }

    fn remap(&mut self, before: &View, from: &ResourceId, theirs: &ProviderEvent, answer: &Answer) {
        let to = ResourceId::of(theirs);
        if *from == to {
            self.hit("remap to its own name");
            return;
        }
        self.hit(format!("remap, alias there {}", before.aliases.contains_key(from)));
        let queue = &before.edits[from];
        let creates = queue.iter().skip(1).filter(|p| matches!(p.edit.operation, Operation::Create(_))).count();
        let behind = queue.len() - 1 - creates;
        let idle = !before.edits.contains_key(&to);
        self.hit(format!("remap, creates stay {}, moved {}, target idle {idle}", creates > 0, behind.min(2)));
        let ended =
            tells(answer, |e| matches!(e, Effect::Notify(Notice::Rejected { reason: Rejection::NotOwner, .. })));
        self.hit_if(behind > 0 && ended, "remap with an attendee's delete ended");
    }

    fn commit(&mut self, before: &View, answer: &Answer, after: &View) {
        let Some(b) = &before.pass else { return };
        if !tells(answer, |e| matches!(e, Effect::Notify(Notice::Synced))) {
            let Some(a) = after.pass.as_ref().filter(|a| a.done.is_some()) else { return };
            let unread = b.observed.iter().any(|r| a.staged.get(r) == Some(&Staged::Unread));
            let turned = a.observed.is_empty() && unread;
            self.hit(if turned { "commit waits: observed become unread" } else { "commit waits: unread" });
            return;
        }
        self.hit(format!("commit, full {}", b.full));
        let gone = before.records.keys().any(|r| !after.records.contains_key(r));
        self.hit_if(b.full && gone, "commit of a full pass drops records");
        for (r, s) in &b.staged {
            if let (Staged::Present(e), Some(held)) = (s, before.records.get(r)) {
                self.hit(format!(
                    "commit puts over a record: revision same {}, mapper {:?}, id other {}",
                    e.revision == held.revision,
                    e.mapper_version.cmp(&held.mapper_version),
                    ResourceId::of(e) != *r
                ));
            }
        }
    }

    fn records(&mut self, before: &View, purpose: &Purpose, outcome: &Outcome, after: &View) {
        let (Outcome::Read(Some(t)) | Outcome::Written(t)) = outcome else { return };
        let name = ResourceId::of(t);
        let (Some(held), Some(now)) = (before.records.get(&name), after.records.get(&name)) else { return };
        if !matches!(purpose, Purpose::List) {
            self.hit(format!(
                "record replaced {}: revision same {}, mapper {:?}",
                now != held,
                t.revision == held.revision,
                t.mapper_version.cmp(&held.mapper_version)
            ));
        }
    }
}
