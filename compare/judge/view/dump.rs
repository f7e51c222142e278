//! A short picture of a state, for people.
use super::{PassView, PendingView, Staged, View, hex};
use crate::limited::{Operation, ResourceId};
use calendar_sync_model::ProviderEvent;
use std::collections::BTreeSet;
use std::fmt::{self, Write};

fn event(e: &ProviderEvent) -> String {
    let revision = e.revision.as_ref().map(|r| r.as_str());
    let fields = hex(&serde::save(&e.fields));
    format!("{:?} {:?} rev {revision:?} mapper {} fields {fields}", e.ids.provider, e.ids.id, e.mapper_version.get())
}

fn names(l: &BTreeSet<ResourceId>) -> Vec<&str> {
    l.iter().map(|r| r.as_str()).collect()
}

fn pass(s: &mut String, p: &PassView) -> fmt::Result {
    writeln!(s, "  pass full {} from {:?} done {:?}", p.full, p.from, p.done)?;
    for (r, e) in &p.staged {
        let what = match e {
            Staged::Present(e) => event(e),
            other => format!("{other:?}"),
        };
        writeln!(s, "    staged {:?}: {what}", r.as_str())?;
    }
    writeln!(s, "    seen {:?} observed {:?}", names(&p.seen), names(&p.observed))
}

fn entry(s: &mut String, r: &ResourceId, p: &PendingView) -> fmt::Result {
    let op = match &p.edit.operation {
        Operation::Create(e) => format!("create {}", event(e)),
        Operation::Update { base, ours } => {
            format!("update {} to {}", hex(&serde::save(base)), hex(&serde::save(ours)))
        }
        Operation::Delete => "delete".to_owned(),
    };
    let until = p.edit.expires_at.map(|t| t.0);
    let absorbed: Vec<&str> = p.absorbed.iter().map(|e| e.as_str()).collect();
    write!(s, "  queue {:?}: {:?} by {:?} until {until:?}", r.as_str(), p.edit.id.as_str(), p.edit.role)?;
    write!(s, " collided {} conflicts {} refused {}", p.collided, p.conflicts.len(), p.refused.len())?;
    writeln!(s, " absorbed {absorbed:?}: {op}")
}

impl View {
    pub fn dump(&self) -> String {
        let mut s = String::new();
        self.write_to(&mut s).expect("a string takes all");
        s
    }

    fn write_to(&self, s: &mut String) -> fmt::Result {
        let (now, cursor) = (self.now.map(|t| t.0), self.cursor.as_ref().map(|c| c.as_str()));
        writeln!(s, "  next {} now {now:?} cursor {cursor:?} learned_all {}", self.next_request, self.learned_all)?;
        for (r, e) in &self.records {
            writeln!(s, "  record {:?}: {}", r.as_str(), event(e))?;
        }
        if let Some(p) = &self.pass {
            pass(s, p)?;
        }
        for (r, queue) in &self.edits {
            for p in queue {
                entry(s, r, p)?;
            }
        }
        for (id, p) in &self.in_flight {
            writeln!(s, "  in flight {}: {p:?}", id.get())?;
        }
        for (r, n) in &self.learned {
            writeln!(s, "  learned {:?}: {n}", r.as_str())?;
        }
        for (a, b) in &self.aliases {
            writeln!(s, "  alias {:?} to {:?}", a.as_str(), b.as_str())?;
        }
        writeln!(s, "  saved {}", hex(&serde::save(self)))
    }
}
