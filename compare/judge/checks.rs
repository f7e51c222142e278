//! Document 01's lines as runs of the published Rust.
mod dispatch;
mod frame;
mod limits;
mod merges;
mod queues;

use crate::engine::{Answer, Engine, frame};
use crate::frames::res;
use crate::limited::{
    Change, Conflict, Cursor, Edit, EditId, Effect, Failure, FieldValue, Input, ListFrom, Next, Notice, Operation,
    Outcome, Page, Refused, Rejection, Request, RequestId, Role, codec,
};
use crate::view::{PassView, PendingView, Purpose, Staged, View, hex};
use calendar_sync_model::{
    Attendee, Field, MapperVersion, NormalizedEvent, Participation, Provider, ProviderEvent, ProviderIds,
    ProviderRevision, tags,
};
use jiff::Timestamp;
use std::cell::RefCell;
use std::collections::VecDeque;
use std::io::{self, Write};

thread_local! {
    /// The frames of the runs so far, each run after a line that says where it starts.
    static LOG: RefCell<Vec<String>> = const { RefCell::new(Vec::new()) };
}

fn log(line: String) {
    LOG.with_borrow_mut(|l| l.push(line));
}

/// One run.
struct Run {
    engine: Engine,
}

fn ticks(ms: i64) -> Input {
    Input::Tick { now: Timestamp(ms) }
}
fn fields(tag: u64) -> NormalizedEvent {
    let mut f = NormalizedEvent::new(tags::times(tag));
    f.reminders = tags::reminders(0);
    f
}
fn event(id: &str, revision: &str, mapper: u32, tag: u64) -> ProviderEvent {
    ProviderEvent {
        ids: ProviderIds::new(Provider::Google, id),
        revision: Some(ProviderRevision::new(revision)),
        mapper_version: MapperVersion::new(mapper),
        fields: fields(tag),
        passthrough: tags::passthrough(0),
    }
}
fn graph(id: &str) -> ProviderEvent {
    let mut e = event(id, "g", 3, 7);
    e.ids.provider = Provider::Graph;
    e
}
fn edit(id: &str, resource: &str, operation: Operation, role: Role, expires: Option<i64>) -> Edit {
    Edit { id: EditId::new(id), resource: res(resource), operation, role, expires_at: expires.map(Timestamp) }
}
fn update(base: u64, ours: u64) -> Operation {
    Operation::Update { base: fields(base), ours: fields(ours) }
}
fn attendee(address: &str) -> Role {
    Role::Attendee { address: address.to_owned() }
}
fn upsert(name: &str, revision: &str, event: Option<ProviderEvent>) -> Change {
    Change::Upsert { resource: res(name), revision: ProviderRevision::new(revision), event }
}
fn more(changes: Vec<Change>) -> Outcome {
    Outcome::Listed(Page { changes, next: Next::More(Cursor::new("m")) })
}
fn done(changes: Vec<Change>) -> Outcome {
    Outcome::Listed(Page { changes, next: Next::Done(Cursor::new("d")) })
}
fn failed(f: Failure) -> Outcome {
    Outcome::Failed(f)
}
fn pending(e: Edit) -> PendingView {
    PendingView { edit: e, conflicts: vec![], refused: vec![], collided: false, absorbed: vec![] }
}
fn blank() -> View {
    Engine::new(false).view()
}
fn open(full: bool) -> PassView {
    PassView {
        full,
        from: ListFrom::Start,
        staged: Default::default(),
        seen: Default::default(),
        observed: Default::default(),
        done: None,
    }
}

impl Run {
    fn fresh() -> Self {
        log("# fresh".to_owned());
        Self { engine: Engine::new(true) }
    }
    fn load(view: &View) -> Self {
        log(format!("# state {}", hex(&serde::save(view))));
        Self { engine: Engine::load(&serde::save(view), true).expect("a well-formed state") }
    }
    fn view(&self) -> View {
        self.engine.view()
    }
    fn put(&mut self, input: Input) -> Answer {
        self.bytes(&serde::save(&input))
    }
    fn bytes(&mut self, frame: &[u8]) -> Answer {
        log(hex(frame));
        self.engine.step(frame)
    }
    fn edit(&mut self, id: &str, resource: &str, operation: Operation, role: Role) -> Answer {
        self.put(Input::Edit(edit(id, resource, operation, role, None)))
    }
    fn answer(&mut self, n: u64, outcome: Outcome) -> Answer {
        self.put(Input::Outcome { request: RequestId::new(n), outcome })
    }
    fn len(&self, r: &str) -> usize {
        self.view().edits.get(&res(r)).map_or(0, VecDeque::len)
    }
}

fn requests(a: &Answer) -> Vec<&Request> {
    a.effects
        .iter()
        .filter_map(|e| match e {
            Effect::Request { request, .. } => Some(request),
            Effect::Notify(_) => None,
        })
        .collect()
}
fn notices(a: &Answer) -> Vec<&Notice> {
    a.effects
        .iter()
        .filter_map(|e| match e {
            Effect::Notify(n) => Some(n),
            Effect::Request { .. } => None,
        })
        .collect()
}
fn applied(id: &str) -> Notice {
    Notice::Applied { edit: EditId::new(id), conflicts: vec![], refused: vec![] }
}
fn rejected(id: &str, reason: Rejection) -> Notice {
    Notice::Rejected { edit: EditId::new(id), reason }
}
fn expired(id: &str) -> Notice {
    Notice::Expired { edit: EditId::new(id) }
}
fn read(name: &str) -> Request {
    Request::Read { resource: res(name) }
}

type Check = (&'static str, fn() -> bool);

/// One update of "r" planned against theirs: what is written, and the end's notice.
fn planned(
    base: NormalizedEvent,
    ours: NormalizedEvent,
    theirs: NormalizedEvent,
    role: Role,
) -> (Option<NormalizedEvent>, Vec<Conflict>, Vec<Refused>) {
    let mut run = Run::fresh();
    run.edit("e", "r", Operation::Update { base, ours }, role);
    let mut t = event("r", "v", 3, 0);
    t.fields = theirs;
    let a = run.answer(0, Outcome::Read(Some(t.clone())));
    let (written, end) = match requests(&a).first() {
        Some(Request::Update { event, .. }) => {
            let event = event.clone();
            (Some(event.fields.clone()), run.answer(1, Outcome::Written(event)))
        }
        _ => (None, a),
    };
    match notices(&end).first() {
        Some(Notice::Applied { conflicts, refused, .. }) => (written, conflicts.clone(), refused.clone()),
        other => panic!("{other:?}"),
    }
}

/// Runs the checks; with `frames`, prints each one's frames after its name (lines without '#').
pub fn run(out: &mut impl Write, frames: bool) -> io::Result<bool> {
    let mark = if frames { "## " } else { "" };
    let mut failures = 0;
    let checks = [frame::CHECKS, limits::CHECKS, dispatch::CHECKS, queues::CHECKS, merges::CHECKS].concat();
    for (name, check) in &checks {
        LOG.take();
        let ok = std::panic::catch_unwind(check).unwrap_or(false);
        failures += usize::from(!ok);
        writeln!(out, "{mark}{} {name}", if ok { "ok    " } else { "FAILED" })?;
        for line in LOG.take().iter().filter(|_| frames) {
            writeln!(out, "{line}")?;
        }
    }
    writeln!(out, "{mark}{} checks, {failures} failed", checks.len())?;
    Ok(failures == 0)
}
