//! Which situations a run of frames reaches, and which of the listed ones (cover/situations.txt) it misses.
mod edits;
mod merges;
mod names;
mod replies;

use crate::engine::{Answer, frame};
use crate::limited::{Input, ResourceId};
use crate::view::{Purpose, Staged, View};
use names::{effect_name, op_name, pass_name, resource_of};
use std::collections::BTreeMap;
use std::io::{self, Write};

/// The situations that ought to be reached.
pub fn wanted() -> Vec<&'static str> {
    include_str!("cover/situations.txt").lines().collect()
}

#[derive(Default)]
pub struct Cover {
    seen: BTreeMap<String, Seen>,
    steps: u64,
}

#[derive(Default)]
struct Seen {
    times: u64,
    /// The frame that first reached it, counted from 1.
    first: u64,
}

impl Cover {
    /// The frame that first reached this situation.
    pub fn first(&self, situation: &str) -> Option<u64> {
        self.seen.get(situation).map(|s| s.first)
    }

    /// Prints what was reached, then what was missed; whether nothing was.
    pub fn print(&self, out: &mut impl Write) -> io::Result<bool> {
        for (situation, seen) in &self.seen {
            writeln!(out, "{:8} {situation}", seen.times)?;
        }
        let wanted = wanted();
        let missed: Vec<&&str> = wanted.iter().filter(|w| self.first(w).is_none()).collect();
        for w in &missed {
            writeln!(out, "  MISSED {w}")?;
        }
        let (all, listed) = (self.seen.len(), wanted.len());
        let reached = listed - missed.len();
        writeln!(out, "{} steps; {all} situations reached; {reached} of the {listed} listed reached", self.steps)?;
        Ok(missed.is_empty())
    }

    fn hit(&mut self, what: impl Into<String>) {
        let seen = self.seen.entry(what.into()).or_insert(Seen { times: 0, first: self.steps });
        seen.times += 1;
    }

    fn hit_if(&mut self, condition: bool, what: &str) {
        if condition {
            self.hit(what);
        }
    }

    pub fn step(&mut self, before: &View, line: &[u8], input: Option<&Input>, answer: &Answer, after: &View) {
        self.steps += 1;
        if let Some(r) = answer.refusal {
            self.hit(format!("refusal {} {} at line {}", r.number, r.table, r.line));
            if r.number == 5 {
                self.hit(format!("refusal 5 {}, though the end would fit: {}", r.table, answer.passing));
            }
            return;
        }
        let Some(input) = input else {
            self.no_frame(line);
            return;
        };
        for e in &answer.effects {
            self.hit(format!("effect {}", effect_name(e)));
        }
        match input {
            Input::Sync => self.hit(match &before.pass {
                Some(_) => "sync while a pass is open".to_owned(),
                None => format!("sync, cursor {}", before.cursor.is_some()),
            }),
            Input::Edit(edit) => self.edit(before, edit, after),
            Input::Outcome { request, outcome } => match before.in_flight.get(request) {
                None => {
                    let place = if request.get() < before.next_request { "below next" } else { "from next on" };
                    self.hit(format!("unknown number {place}, {}", pass_name(before)));
                }
                Some(purpose) => self.reply(before, *request, purpose, outcome, answer, after),
            },
            Input::Tick { now } => self.tick(before, now.0, after),
            Input::Resume => self.resume(before, after),
        }
        self.forget(before, after);
    }

    fn no_frame(&mut self, line: &[u8]) {
        let why = match line.len() {
            0 => "empty line",
            n if n > 16_384 => "long line",
            n if n % 2 == 1 => "odd line",
            _ if frame(line).is_none() => "other byte",
            _ => "frame",
        };
        self.hit(format!("refusal 3, {why}"));
    }

    fn tick(&mut self, before: &View, now: i64, after: &View) {
        let then = match before.now {
            None => "first".to_owned(),
            Some(t) => format!("{:?} before", now.cmp(&t.0)),
        };
        self.hit(format!("tick {:?} zero, {then}", now.cmp(&0)));
        for (r, queue) in &before.edits {
            let writing = before.in_flight.values().any(|p| *p == Purpose::EditWrite(r.clone()));
            for (n, p) in queue.iter().enumerate() {
                let Some(at) = p.edit.expires_at else { continue };
                let place = match (n, writing) {
                    (0, true) => "head written",
                    (0, false) => "head read",
                    _ => "behind",
                };
                self.hit(format!("tick {:?} expiry, {place}", now.cmp(&at.0)));
                self.hit_if(at.0 <= now && !p.absorbed.is_empty(), "tick drops folded edits");
            }
            let head_falls = !writing && queue[0].edit.expires_at.is_some_and(|t| t.0 <= now);
            self.hit_if(head_falls && !after.edits.contains_key(r), "tick empties a queue");
            self.hit_if(head_falls && after.edits.contains_key(r), "tick starts the next");
        }
    }

    fn resume(&mut self, before: &View, after: &View) {
        let refreshes = before.in_flight.values().any(|p| matches!(p, Purpose::Refresh(_)));
        let unread = before.pass.as_ref().is_some_and(|p| p.staged.values().any(|s| *s == Staged::Unread));
        self.hit(format!("resume, {}, unread {unread}", pass_name(before)));
        self.hit(format!("resume, {}, refreshes {refreshes}", pass_name(before)));
        for queue in before.edits.values() {
            let head = &queue[0];
            self.hit(format!("resume head {}", op_name(&head.edit.operation)));
            self.hit_if(!head.conflicts.is_empty() || !head.refused.is_empty(), "resume clears a plan");
            self.hit_if(head.collided, "resume keeps collided");
        }
        self.hit_if(after.in_flight.is_empty(), "resume with nothing to do");
    }

    fn forget(&mut self, before: &View, after: &View) {
        self.hit_if(before.learned_all > 0 && after.learned_all == 0, "learned_all forgotten");
        self.hit_if(after.learned_all > 0, "learned_all kept");
        self.hit_if(before.learned.keys().any(|r| !after.learned.contains_key(r)), "learned forgotten");
        self.hit_if(!after.learned.is_empty(), "learned kept");
        for to in after.aliases.values() {
            if let [why] = kept_by(after, to)[..] {
                self.hit(format!("alias kept only by {why}"));
            }
        }
        self.hit_if(before.aliases.keys().any(|a| !after.aliases.contains_key(a)), "alias forgotten");
    }
}

/// What of a state keeps an alias to this name.
fn kept_by(v: &View, to: &ResourceId) -> Vec<&'static str> {
    let pass = v.pass.as_ref();
    let why = [
        (v.records.contains_key(to), "record"),
        (v.edits.contains_key(to), "queue"),
        (v.in_flight.values().any(|p| resource_of(p) == Some(to)), "request"),
        (pass.is_some_and(|p| p.staged.contains_key(to)), "staged"),
        (pass.is_some_and(|p| p.observed.contains(to)), "observed"),
    ];
    why.iter().filter(|w| w.0).map(|w| w.1).collect()
}
