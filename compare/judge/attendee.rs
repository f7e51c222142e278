//! Whether an attendee's merge changes only the writer's own answer: merged by the published Rust, an event is theirs but for the
//! reminders and the participation of entries with the writer's folded address. So it has theirs' attendees in theirs' order, and
//! refusal 6 never comes. Tried on all small lists and on random events.
use crate::frames::{AttendeeMerge, attendee_merges};
use crate::plain::{MergeOutcome, Role, merge::merge};
use calendar_sync_model::{
    Attendee, MapperVersion, NormalizedEvent, ParticipantKind, Participation, Provider, ProviderEvent, ProviderIds,
    tags,
};
use std::io::{self, Write};

/// How many faults are told whole.
const TOLD: u64 = 5;

#[derive(Default)]
struct Tally {
    merges: u64,
    changed: u64,
    faults: u64,
}

impl Tally {
    fn add(&mut self, sides: &AttendeeMerge, out: &mut impl Write) -> io::Result<()> {
        let role = Role::Attendee { address: sides.address.clone() };
        let MergeOutcome { event, changed, .. } = merge(&sides.base, &sides.ours, &sides.theirs, &role);
        self.merges += 1;
        self.changed += u64::from(changed);
        if event == with_answer(&sides.theirs, &event, &sides.address) {
            return Ok(());
        }
        self.faults += 1;
        if self.faults <= TOLD {
            writeln!(out, "FAULT {sides:?} merged to {event:?}")?;
        }
        Ok(())
    }

    /// Prints the counts; whether there was something to see and no fault.
    fn print(&self, what: &str, out: &mut impl Write) -> io::Result<bool> {
        writeln!(out, "{what}: {} merges, {} change something, {} faults", self.merges, self.changed, self.faults)?;
        Ok(self.changed > 0 && self.faults == 0)
    }
}

/// Theirs, with the reminders of the merged event and, entry by entry, its replies of the writer.
fn with_answer(theirs: &ProviderEvent, merged: &ProviderEvent, address: &str) -> ProviderEvent {
    let mut event = theirs.clone();
    event.fields.reminders = merged.fields.reminders.clone();
    for (entry, answer) in event.fields.attendees.iter_mut().zip(&merged.fields.attendees) {
        if entry.address.eq_ignore_ascii_case(address) {
            entry.participation = answer.participation;
        }
    }
    event
}

/// The entries of the small lists: two people, one of them in two spellings, with two replies and two kinds.
fn entries() -> Vec<Attendee> {
    let mut all = Vec::new();
    for address in ["a", "A", "b"] {
        for participation in [Participation::NeedsAction, Participation::Accepted] {
            for kind in [ParticipantKind::Individual, ParticipantKind::Room] {
                all.push(Attendee { participation, kind, ..Attendee::new(address) });
            }
        }
    }
    all
}

/// No entry, one, or two.
fn lists() -> Vec<Vec<Attendee>> {
    let entries = entries();
    let one = entries.iter().map(|a| vec![a.clone()]);
    let two = entries.iter().flat_map(|a| entries.iter().map(|b| vec![a.clone(), b.clone()]));
    std::iter::once(Vec::new()).chain(one).chain(two).collect()
}

fn event(attendees: &[Attendee]) -> ProviderEvent {
    let mut fields = NormalizedEvent::new(tags::times(0));
    fields.reminders = tags::reminders(0);
    fields.attendees = attendees.to_vec();
    ProviderEvent {
        ids: ProviderIds::new(Provider::Google, "r"),
        revision: None,
        mapper_version: MapperVersion::new(3),
        fields,
        passthrough: tags::passthrough(0),
    }
}

/// Every base, ours and theirs of these lists, merged by a person who may stand in them and by one who does not.
fn small(out: &mut impl Write) -> io::Result<bool> {
    let (lists, mut tally) = (lists(), Tally::default());
    let events: Vec<ProviderEvent> = lists.iter().map(|l| event(l)).collect();
    for theirs in &events {
        for address in ["a", "c"] {
            let fields = theirs.fields.clone();
            let mut sides = AttendeeMerge {
                base: fields.clone(),
                ours: fields,
                theirs: theirs.clone(),
                address: address.to_owned(),
            };
            small_by(&mut sides, &lists, &mut tally, out)?;
        }
    }
    tally.print("lists of at most two", out)
}

/// Every base and ours, to one theirs and one writer.
fn small_by(
    sides: &mut AttendeeMerge,
    lists: &[Vec<Attendee>],
    tally: &mut Tally,
    out: &mut impl Write,
) -> io::Result<()> {
    for base in lists {
        sides.base.attendees.clone_from(base);
        for ours in lists {
            sides.ours.attendees.clone_from(ours);
            tally.add(sides, out)?;
        }
    }
    Ok(())
}

fn random(out: &mut impl Write, seed: u64, count: usize) -> io::Result<bool> {
    let mut tally = Tally::default();
    for sides in attendee_merges(seed, count) {
        tally.add(&sides, out)?;
    }
    tally.print("random", out)
}

pub fn run(out: &mut impl Write, seed: u64, count: usize) -> io::Result<bool> {
    Ok(small(out)? & random(out, seed, count)?)
}
